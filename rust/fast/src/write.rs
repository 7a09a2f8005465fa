//! Writing a tone from its table.

use ohakelm_answers::Written;

use crate::codes::{
    entry_width, entry_width_within, BASIC, LARGEST_TONE, OUTSIDE_ENTRY, TEMPORARY,
};
use crate::title::is_sound_alone;

/// Writes a tone to a lent buffer.
pub fn write(song: u32, unicode: bool, title: &[u8], table: &[u32], out: &mut [u8]) -> Written {
    let (refusal, octets) = match write_into(song, unicode, title, table, out) {
        Ok(octets) => (0, octets),
        Err(number) => (number, 0),
    };
    Written {
        refusal,
        place: 0,
        octets,
    }
}

fn write_into(
    song: u32,
    unicode: bool,
    title: &[u8],
    table: &[u32],
    out: &mut [u8],
) -> Result<usize, u32> {
    if song != BASIC && song != TEMPORARY {
        return Err(4);
    }
    judge_title(song, unicode, title)?;
    let judged = judge_table(table)?;
    let front = 26 + if unicode { 8 } else { 0 };
    let named = if song == BASIC {
        4 + 8 * title.len()
    } else {
        0
    };
    let octets = (front + named + 8 + judged.bits).div_ceil(8) + 1;
    if octets > LARGEST_TONE {
        return Err(1);
    }
    let Some(out) = out.get_mut(..octets) else {
        return Err(11);
    };
    let mut sink = Sink {
        out,
        at: 0,
        held: 0,
        have: 0,
    };
    put_front(&mut sink, song, unicode, title);
    sink.put(8, judged.patterns as u32);
    sink.flush();
    put_table(&mut sink, table);
    sink.finish();
    Ok(octets)
}

#[inline(always)]
fn judge_title(song: u32, unicode: bool, title: &[u8]) -> Result<(), u32> {
    let most = match (song, unicode) {
        (TEMPORARY, _) => 0,
        (_, true) => 30,
        (_, false) => 15,
    };
    if title.len() > most || unicode && title.len() % 2 == 1 {
        return Err(17);
    }
    if !is_sound_alone(title, unicode) {
        return Err(21);
    }
    Ok(())
}

/// What a table comes to.
struct Judged {
    patterns: usize,
    bits: usize,
}

/// A header's entry is below this: two bits of part, four of loop, eight more.
const HEADERS: u32 = 1 << 14;

#[inline(always)]
fn judge_table(table: &[u32]) -> Result<Judged, u32> {
    let mut rest = table;
    let mut known = [false; 4];
    let mut patterns = 0;
    let mut bits = 0;
    while let Some((&header, after)) = rest.split_first() {
        if header >= HEADERS {
            return Err(not_a_header(header));
        }
        let part = (header >> 12) as usize;
        let count = (header & 255) as usize;
        if count == 0 && !known[part] {
            return Err(7);
        }
        known[part] = true;
        let there = count.min(after.len());
        let (body, behind) = after.split_at(there);
        bits += 17 + judge_body(body)?;
        if there < count {
            return Err(18);
        }
        patterns += 1;
        rest = behind;
    }
    match patterns {
        0 => Err(5),
        1..=255 => Ok(Judged { patterns, bits }),
        _ => Err(18),
    }
}

/// Judges the entries of a body. Answers the bits that they take.
#[inline(always)]
fn judge_body(body: &[u32]) -> Result<usize, u32> {
    let mut outside = 0;
    let mut bad = false;
    let mut bits = 0;
    for &entry in body {
        let width = entry_width_within(entry);
        outside |= entry & OUTSIDE_ENTRY;
        bad |= width == 0;
        bits += width;
    }
    if bad || outside != 0 {
        return Err(faulty_body(body));
    }
    Ok(bits)
}

#[cold]
fn not_a_header(entry: u32) -> u32 {
    if entry_width(entry) > 0 {
        18
    } else {
        6
    }
}

/// The refusal of the first entry that is no instruction.
#[cold]
fn faulty_body(body: &[u32]) -> u32 {
    match body.iter().find(|&&entry| entry_width(entry) == 0) {
        Some(&entry) if entry < HEADERS => 18,
        _ => 6,
    }
}

/// Appends bits to a buffer, whose every octet will be written.
struct Sink<'a> {
    out: &'a mut [u8],
    at: usize,
    /// Bits that are not yet in the buffer, at the left end.
    held: u64,
    have: usize,
}

impl Sink<'_> {
    /// Appends a field. At most 57 bits go in between two flushes.
    #[inline(always)]
    fn put(&mut self, width: usize, value: u32) {
        self.have += width;
        self.held |= (value as u64) << (64 - self.have);
    }

    /// Moves whole octets to the buffer. What is stored past them is stored
    /// anew by a later flush.
    #[inline(always)]
    fn flush(&mut self) {
        match self.out.get_mut(self.at..self.at + 8) {
            Some(eight) => eight.copy_from_slice(&self.held.to_be_bytes()),
            None => self.store_near_end(),
        }
        self.at += self.have / 8;
        self.held <<= self.have & !7;
        self.have %= 8;
    }

    #[inline(never)]
    fn store_near_end(&mut self) {
        let octets = self.held.to_be_bytes();
        for (to, octet) in self.out[self.at..].iter_mut().zip(octets) {
            *to = octet;
        }
    }

    /// Adds filler and the end octet.
    #[inline(always)]
    fn finish(mut self) {
        self.flush();
        let mut at = self.at;
        if self.have > 0 {
            self.out[at] = (self.held >> 56) as u8;
            at += 1;
        }
        self.out[at..].fill(0);
    }
}

#[inline(always)]
fn put_front(sink: &mut Sink, song: u32, unicode: bool, title: &[u8]) {
    if unicode {
        sink.put(24, 0x03_4A_44);
    } else {
        sink.put(16, 0x02_4A);
    }
    sink.put(10, 0b0011101 << 3 | song);
    if song == BASIC {
        let characters = if unicode {
            title.len() / 2
        } else {
            title.len()
        };
        sink.put(4, characters as u32);
        sink.flush();
        for four in title.chunks(4) {
            for &octet in four {
                sink.put(8, octet as u32);
            }
            sink.flush();
        }
    }
}

/// Bits of an element with its id, by kind.
const WIDTHS: [u8; 8] = [17, 12, 5, 5, 8, 7, 0, 0];

#[inline(always)]
fn put_table(sink: &mut Sink, table: &[u32]) {
    let mut rest = table;
    while let Some((&header, after)) = rest.split_first() {
        sink.put(17, header);
        sink.flush();
        let (body, behind) = after.split_at((header & 255) as usize);
        // Four instructions take at most 48 bits.
        for four in body.chunks(4) {
            for &entry in four {
                let width = WIDTHS[(entry >> 16) as usize & 7] as usize;
                sink.put(width, (entry >> 16) << (width - 3) | entry & 0x1FF);
            }
            sink.flush();
        }
        rest = behind;
    }
}
