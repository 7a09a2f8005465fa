//! Random well-formed tones, as tables and as messages.
//!
//! The writing here is a third one, made from the tables as they grow, so a
//! message is well formed by its making and not by a codec's word.

use super::rng::Rng;

pub const LARGEST_TONE: usize = 4096;

/// A well-formed tone in both its forms.
#[derive(Clone, Debug)]
pub struct Made {
    pub song: u32,
    pub unicode: bool,
    pub title: Vec<u8>,
    pub table: Vec<u32>,
    pub message: Vec<u8>,
}

impl Made {
    /// The counts of instructions of the patterns. A recall has none.
    pub fn counts(&self) -> Vec<usize> {
        counts(&self.table)
    }
}

/// The counts of instructions of the patterns of a sound table.
pub fn counts(table: &[u32]) -> Vec<usize> {
    let headers = table.iter().filter(|&&entry| entry < 65536);
    headers.map(|header| (header % 256) as usize).collect()
}

/// What a random tone may come to.
#[derive(Clone, Copy)]
pub struct Bounds {
    /// Octets of the message, at most.
    pub octets: usize,
    pub patterns: usize,
    /// Instructions of a body, at most.
    pub body: usize,
    /// The largest loop value but 15.
    pub repeats: usize,
    /// One header in so many loops for ever.
    pub endless: usize,
}

impl Bounds {
    /// Mostly small, now and then as large as the format allows.
    pub fn random(rng: &mut Rng) -> Bounds {
        match rng.below(100) {
            0 => Bounds::large(rng),
            1..=19 => Bounds::medium(rng),
            _ => Bounds::small(rng),
        }
    }

    pub fn small(rng: &mut Rng) -> Bounds {
        Bounds {
            octets: 120,
            patterns: rng.pick(&[1, 1, 2, 3, 4, 6, 9]),
            body: rng.pick(&[1, 2, 3, 5, 8, 12]),
            repeats: rng.pick(&[0, 1, 2, 14]),
            endless: rng.pick(&[4, 12]),
        }
    }

    pub fn medium(rng: &mut Rng) -> Bounds {
        Bounds {
            octets: rng.within(100, 700),
            patterns: rng.within(1, 60),
            body: rng.pick(&[5, 30, 255]),
            repeats: rng.pick(&[0, 1, 2, 14]),
            endless: 40,
        }
    }

    pub fn large(rng: &mut Rng) -> Bounds {
        Bounds {
            octets: rng.pick(&[LARGEST_TONE, LARGEST_TONE, LARGEST_TONE - 1, 3000]),
            patterns: 255,
            body: rng.pick(&[30, 255, 255]),
            repeats: rng.pick(&[0, 0, 1, 2]),
            endless: 200,
        }
    }
}

/// Makes a tone within bounds.
pub fn tone(rng: &mut Rng, bounds: Bounds) -> Made {
    let unicode = rng.one_in(3);
    let song = if rng.one_in(3) { 2 } else { 1 };
    let title = if song == 1 {
        title(rng, unicode)
    } else {
        Vec::new()
    };
    let front = front_bits(song, unicode, &title);
    // The pattern count and the end octet take two octets more.
    let room = bounds.octets * 8 - 16 - front.bits;
    let table = table(rng, bounds, room);
    let message = written(song, unicode, &title, &table);
    Made {
        song,
        unicode,
        title,
        table,
        message,
    }
}

/// 0 to 15 characters that a title may have.
pub fn title(rng: &mut Rng, unicode: bool) -> Vec<u8> {
    let characters = rng.pick(&[0, 0, 1, 2, 5, 14, 15]);
    characters_of_title(rng, unicode, characters)
}

/// So many characters that a title may have, spaces often among them.
pub fn characters_of_title(rng: &mut Rng, unicode: bool, characters: usize) -> Vec<u8> {
    let mut title = Vec::new();
    for _ in 0..characters {
        let character = match rng.below(2) {
            0 => 32,
            _ => allowed_character(rng, unicode),
        };
        title.extend(octets_of(character, unicode));
    }
    title
}

/// 32 to 126 or from 160 on. Under UNICODE many have an octet that would be
/// refused if it were a character.
fn allowed_character(rng: &mut Rng, unicode: bool) -> usize {
    let last = if unicode { 65_535 } else { 255 };
    match rng.below(5) {
        0 => rng.pick(&[32, 126, 160, last]),
        1 => rng.within(32, 126),
        2 if unicode => rng.within(1, 255) * 256 + refused_character(rng),
        3 if unicode => refused_character(rng).max(1) * 256 + rng.below(256),
        _ => rng.within(160, last),
    }
}

/// 0 to 31 or 127 to 159, the bounds of both more often.
pub fn refused_character(rng: &mut Rng) -> usize {
    match rng.below(4) {
        0 => rng.pick(&[0, 31, 127, 159]),
        1 => rng.within(127, 159),
        _ => rng.within(0, 31),
    }
}

/// A character as a title has it.
pub fn octets_of(character: usize, unicode: bool) -> Vec<u8> {
    let low = (character % 256) as u8;
    match unicode {
        false => vec![low],
        true => vec![(character / 256) as u8, low],
    }
}

/// A random instruction of the instruction table, as an entry.
pub fn instruction(rng: &mut Rng) -> u32 {
    let kind = rng.pick(&[1, 1, 1, 1, 2, 3, 4, 5]);
    let payload = match kind {
        1 => rng.below(13) * 32 + rng.below(6) * 4 + rng.below(4),
        2 => rng.below(4),
        3 => rng.below(3),
        4 => rng.below(32),
        _ => rng.below(16),
    };
    kind * 65536 + payload as u32
}

/// Bits of an entry in the message, its id among them. Two ids have no rest.
pub fn bits_of(entry: u32) -> usize {
    [17, 12, 5, 5, 8, 7, 3, 3][(entry / 65536 % 8) as usize]
}

/// Patterns until the bounds or the room in bits are used up.
fn table(rng: &mut Rng, bounds: Bounds, mut room: usize) -> Vec<u32> {
    let mut table = Vec::new();
    let mut defined = [false; 4];
    for _ in 0..bounds.patterns {
        // The smallest body is one instruction of at most 12 bits.
        if room < 17 + 12 {
            break;
        }
        room -= 17;
        let part = rng.below(4);
        let recall = defined[part] && rng.one_in(2);
        let mut body = Vec::new();
        if !recall {
            defined[part] = true;
            for _ in 0..rng.within(1, bounds.body) {
                let entry = instruction(rng);
                if bits_of(entry) > room {
                    break;
                }
                room -= bits_of(entry);
                body.push(entry);
            }
        }
        let repeats = if rng.one_in(bounds.endless) {
            15
        } else {
            rng.within(0, bounds.repeats)
        };
        table.push((part * 4096 + repeats * 256 + body.len()) as u32);
        table.append(&mut body);
    }
    table
}

/// The message of a sound table.
pub fn written(song: u32, unicode: bool, title: &[u8], table: &[u32]) -> Vec<u8> {
    written_with_count(song, unicode, title, counts(table).len(), table)
}

/// The same with any pattern count, for messages that are not sound. Of each
/// entry only the bits that have a place in the message are written.
pub fn written_with_count(
    song: u32,
    unicode: bool,
    title: &[u8],
    patterns: usize,
    table: &[u32],
) -> Vec<u8> {
    let mut pen = front_bits(song, unicode, title);
    pen.put(8, patterns);
    for &entry in table {
        let width = bits_of(entry);
        pen.put(3, (entry / 65536) as usize);
        pen.put(width - 3, (entry % 65536) as usize);
    }
    let filler = (8 - pen.bits % 8) % 8;
    pen.put(filler, 0);
    pen.put(8, 0);
    pen.octets
}

fn front_bits(song: u32, unicode: bool, title: &[u8]) -> Pen {
    let mut pen = Pen::default();
    pen.put(8, 2 + unicode as usize);
    pen.put(8, 0b01001010);
    if unicode {
        pen.put(8, 0b01000100);
    }
    pen.put(7, 0b0011101);
    pen.put(3, song as usize);
    if song == 1 {
        pen.put(4, title.len() / if unicode { 2 } else { 1 });
        for &octet in title {
            pen.put(8, octet as usize);
        }
    }
    pen
}

/// Writes bits into octets that start as zeros.
#[derive(Default)]
struct Pen {
    octets: Vec<u8>,
    bits: usize,
}

impl Pen {
    fn put(&mut self, width: usize, value: usize) {
        for position in (0..width).rev() {
            if self.bits % 8 == 0 {
                self.octets.push(0);
            }
            if value >> position & 1 == 1 {
                self.octets[self.bits / 8] |= 128 >> (self.bits % 8);
            }
            self.bits += 1;
        }
    }
}
