//! Reading a tone, and the label of its title.

use ohakelm_answers::{Label, Tone};

use crate::codes::{width, NOTE};
use crate::judge::{
    header, judge_end, judge_front, judge_patterns, refusal, Front, Passed, Refusal, Watch,
};
use crate::window::window;

/// Reads a tone into a lent table and title.
pub fn read(message: &[u8], table: &mut [u32], title: &mut [u8]) -> Tone {
    match read_into(message, table, title) {
        Ok(answer) => answer,
        Err(refusal) => Tone {
            refusal: refusal.number,
            place: refusal.place,
            ..Tone::default()
        },
    }
}

/// Counts table entries.
struct Entries(usize);

impl Watch for Entries {
    #[inline(always)]
    fn pattern(&mut self, passed: &Passed) {
        self.0 += 1 + if passed.own { passed.body.count } else { 0 };
    }
}

fn read_into(message: &[u8], table: &mut [u32], title: &mut [u8]) -> Result<Tone, Refusal> {
    let front = judge_front(message)?;
    let mut entries = Entries(0);
    let end = judge_patterns(message, &front, &mut entries)?;
    judge_end(message, end)?;
    let octets = front.characters * if front.unicode { 2 } else { 1 };
    let (Some(table), Some(title)) = (table.get_mut(..entries.0), title.get_mut(..octets)) else {
        return Err(refusal(11, 0));
    };
    fill_title(message, &front, title);
    fill_table(message, &front, table);
    Ok(Tone {
        refusal: 0,
        place: 0,
        song: front.song,
        unicode: front.unicode,
        characters: front.characters,
        patterns: front.patterns,
        entries: table.len(),
    })
}

/// A title begins at the seventh bit of an octet.
#[inline(always)]
fn fill_title(message: &[u8], front: &Front, title: &mut [u8]) {
    let pairs = message[front.title / 8..].windows(2);
    for (octet, pair) in title.iter_mut().zip(pairs) {
        *octet = pair[0] << 6 | pair[1] >> 2;
    }
}

#[inline(always)]
fn fill_table(message: &[u8], front: &Front, table: &mut [u32]) {
    let mut place = front.first;
    let mut rest = table;
    while let Some((cell, after)) = rest.split_first_mut() {
        let start = window(message, place);
        *cell = (start >> 47) as u32;
        place += 17;
        let (body, behind) = after.split_at_mut(header(start).count);
        place = fill_body(message, place, body);
        rest = behind;
    }
}

/// Fills the entries of a body. Answers the place behind it.
#[inline(always)]
fn fill_body(message: &[u8], mut place: usize, body: &mut [u32]) -> usize {
    let mut fours = body.chunks_exact_mut(4);
    for four in &mut fours {
        let mut bits = window(message, place);
        let mut used = 0;
        for cell in four {
            if bits >> 61 == NOTE {
                *cell = 1 << 16 | (bits >> 52 & 0x1FF) as u32;
                used += 12;
                bits <<= 12;
            } else {
                let width = width(bits);
                *cell = entry(bits, width);
                used += width;
                bits <<= width;
            }
        }
        place += used;
    }
    for cell in fours.into_remainder() {
        let bits = window(message, place);
        let width = width(bits);
        *cell = entry(bits, width);
        place += width;
    }
    place
}

/// The table entry of the instruction at the front of a window.
#[inline(always)]
fn entry(window: u64, width: usize) -> u32 {
    let kind = (window >> 61) as u32;
    // What follows the id, moved to the right end.
    let payload = (window << 3 >> (67 - width)) as u32;
    kind << 16 | payload
}

/// Which buffer supplies the label, and which stretch of it.
pub fn label(title: &[u8], unicode: bool, stand_in: &[u8]) -> Label {
    let length = if unicode {
        wide_length(title)
    } else {
        title
            .iter()
            .rposition(|&c| c != 32)
            .map_or(0, |last| last + 1)
    };
    if length > 0 {
        Label {
            stand_in: false,
            start: 0,
            length,
        }
    } else {
        Label {
            stand_in: true,
            start: 0,
            length: stand_in.len(),
        }
    }
}

/// The octets of a UNICODE title without its trailing spaces, or 0 if odd.
fn wide_length(title: &[u8]) -> usize {
    let mut characters = title.chunks_exact(2);
    if !characters.remainder().is_empty() {
        return 0;
    }
    let last = characters.rposition(|c| c != [0, 32]);
    last.map_or(0, |last| 2 * (last + 1))
}
