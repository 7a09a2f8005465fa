//! Packs: sound ones, and some that are not quite right.
//!
//! The writing here is a third one, so that a pack is sound by its making and not by a
//! codec's word. Its rows may be any, for packs that are not sound.

use super::inputs;
use super::largest;
use super::rng::Rng;
use super::tones::{self, Bounds};

/// A pack has at most so many octets.
pub const LARGEST_PACK: usize = 65_535;

/// A pack taken apart: all that it says, whether it adds up or not.
#[derive(Clone, Debug, Default)]
pub struct Made {
    /// What is ahead of the rows.
    pub octets: Vec<u8>,
    /// Each has a start and a length.
    pub rows: Vec<[usize; 2]>,
    pub count: usize,
    pub first_row: usize,
}

impl Made {
    /// The sound pack of these messages, if they are sound and not too many.
    pub fn of(messages: &[Vec<u8>]) -> Made {
        let lengths: Vec<usize> = messages.iter().map(Vec::len).collect();
        let octets = messages.concat();
        Made {
            rows: rows_of(&lengths),
            count: messages.len(),
            first_row: octets.len(),
            octets,
        }
    }

    pub fn pack(&self) -> Vec<u8> {
        let mut pack = self.octets.clone();
        let numbers = self.rows.concat().into_iter();
        for number in numbers.chain([self.count, self.first_row]) {
            pack.extend((number as u16).to_be_bytes());
        }
        pack
    }
}

/// Rows that continue one another from 0 on.
pub fn rows_of(lengths: &[usize]) -> Vec<[usize; 2]> {
    let mut start = 0;
    let row = |&length: &usize| {
        start += length;
        [start - length, length]
    };
    lengths.iter().map(row).collect()
}

/// What a pack is written from.
#[derive(Clone, Debug, Default)]
pub struct Parts {
    pub messages: Vec<u8>,
    pub lengths: Vec<u32>,
}

impl Parts {
    /// How many octets a pack of them would have.
    pub fn octets(&self) -> usize {
        self.messages.len() + 4 * self.lengths.len() + 4
    }
}

// ---- Messages.

/// The messages of a sound pack: none, a few small ones, and now and then as many or
/// as large ones as a pack may have.
pub fn sound_messages(rng: &mut Rng) -> Vec<Vec<u8>> {
    match rng.below(600) {
        0 => full(rng),
        1 => vec![tones::written(2, false, &[], &[1, 131_072]); rng.within(5400, 5460)],
        _ => {
            let count = rng.pick(&[0, 1, 1, 2, 2, 3, 4, 6]);
            (0..count).map(|_| sound_message(rng)).collect()
        }
    }
}

fn sound_message(rng: &mut Rng) -> Vec<u8> {
    let bounds = match rng.below(12) {
        0 => Bounds::medium(rng),
        _ => Bounds::small(rng),
    };
    tones::tone(rng, bounds).message
}

/// Messages of a pack that has as many octets as it may, or one or two fewer.
fn full(rng: &mut Rng) -> Vec<Vec<u8>> {
    let octets = LARGEST_PACK - rng.below(3);
    let mut messages = of_octets(octets);
    messages.rotate_right(rng.below(16));
    messages
}

/// The messages of a pack of just so many octets: 15 of 4,096, and one of what is left
/// without 16 rows and four octets.
pub fn of_octets(octets: usize) -> Vec<Vec<u8>> {
    let last = octets - 15 * 4096 - 16 * 4 - 4;
    let mut messages = vec![largest::of_octets(4096); 15];
    messages.push(largest::of_octets(last));
    messages
}

/// Messages of which one or two are not sound.
fn messages_at_fault(rng: &mut Rng) -> Vec<Vec<u8>> {
    let mut messages = sound_messages(rng);
    for _ in 0..rng.pick(&[1, 1, 1, 2]) {
        let at = rng.within(0, messages.len());
        let message = message_at_fault(rng);
        messages.insert(at, message);
    }
    messages
}

/// One of no octets, one that is too long, or any that is damaged.
fn message_at_fault(rng: &mut Rng) -> Vec<u8> {
    match rng.below(12) {
        0 | 1 => vec![],
        2 => {
            // A sound message and one octet more.
            let mut long = largest::of_octets(4096);
            long.push(rng.pick(&[0, 0, 2]));
            long
        }
        3 => {
            let octets = rng.within(1, 20);
            rng.octets(octets)
        }
        _ => inputs::message(rng),
    }
}

// ---- Packs.

/// A pack that may be sound, damaged or of random octets.
pub fn pack(rng: &mut Rng) -> Vec<u8> {
    match rng.below(20) {
        0 => random_pack(rng),
        1 | 2 => Made::of(&sound_messages(rng)).pack(),
        3..=9 => Made::of(&messages_at_fault(rng)).pack(),
        10..=15 => {
            let mut made = Made::of(&some_messages(rng));
            for _ in 0..rng.pick(&[1, 1, 1, 2, 3]) {
                misrow(rng, &mut made);
            }
            made.pack()
        }
        _ => {
            let mut pack = Made::of(&some_messages(rng)).pack();
            for _ in 0..rng.pick(&[1, 1, 1, 2, 3]) {
                damage(rng, &mut pack);
            }
            pack
        }
    }
}

/// Mostly sound, so that what is done to the pack is its only fault.
fn some_messages(rng: &mut Rng) -> Vec<Vec<u8>> {
    match rng.below(4) {
        0 => messages_at_fault(rng),
        _ => sound_messages(rng),
    }
}

/// A pack whose only fault is its size.
fn outgrown_pack(rng: &mut Rng) -> Vec<u8> {
    let octets = LARGEST_PACK + rng.pick(&[1, 1, 2]);
    Made::of(&of_octets(octets)).pack()
}

/// A few octets of any kind, many zeros among them, or about as many as a pack may have.
fn random_pack(rng: &mut Rng) -> Vec<u8> {
    let count = match rng.below(40) {
        0 => return outgrown_pack(rng),
        1 => rng.pick(&[LARGEST_PACK, LARGEST_PACK + 1, 70_000]),
        _ => rng.within(0, 14),
    };
    match rng.below(3) {
        0 => rng.octets(count),
        1 => vec![0; count],
        _ => (0..count)
            .map(|_| rng.pick(&[0, 0, 0, 1, 4, 255]))
            .collect(),
    }
}

/// Makes the rows, or what is said of them, not quite right.
fn misrow(rng: &mut Rng, made: &mut Made) {
    let rows = made.rows.len();
    let (at, which) = (rng.below(rows.max(1)), rng.below(2));
    match rng.below(15) {
        0 => off_by_one(rng, &mut made.count),
        1 => off_by_one(rng, &mut made.first_row),
        // They add up to the pack all the same.
        2 => one_row_more(made),
        3 if made.count > 0 => {
            made.count -= 1;
            made.first_row += 4;
        }
        4 | 5 if rows > 0 => off_by_one(rng, &mut made.rows[at][which]),
        6 if rows > 1 => made.rows.swap(at, (at + 1) % rows),
        7 => gap(rng, made),
        8 => move_boundary(rng, made),
        9 => low_octet_first(rng, made),
        10 => one_row_of_nothing(made, at),
        11 if rows > 0 => made.rows[at][which] = rng.below(65_536),
        // The same sums in 16 bits: four times the count, or two lengths.
        12 => made.count += 16_384,
        13 => continue_in_16_bits(made, at),
        _ => octets_without_rows(rng, made),
    }
}

fn off_by_one(rng: &mut Rng, number: &mut usize) {
    *number = match rng.below(2) {
        0 => *number + 1,
        _ => number.saturating_sub(1),
    };
}

/// What is ahead of the rows is taken for one.
fn one_row_more(made: &mut Made) {
    if made.first_row >= 4 {
        made.count += 1;
        made.first_row -= 4;
    }
}

/// Octets that no row has: ahead of a message, between two, or behind the last one.
fn gap(rng: &mut Rng, made: &mut Made) {
    let more = rng.within(1, 3);
    let at = rng.within(0, made.rows.len());
    let start = match made.rows.get(at) {
        Some(row) => row[0],
        None => made.octets.len(),
    };
    let start = start.min(made.octets.len());
    made.octets
        .splice(start..start, vec![rng.pick(&[0, 2, 255]); more]);
    for row in made.rows.iter_mut().skip(at) {
        row[0] += more;
    }
    made.first_row += more;
}

/// Rows that continue, but with an octet of one message in another one's row.
fn move_boundary(rng: &mut Rng, made: &mut Made) {
    if made.rows.len() < 2 {
        return;
    }
    let at = rng.below(made.rows.len() - 1);
    let mut lengths: Vec<usize> = made.rows.iter().map(|row| row[1]).collect();
    let (to, from) = match rng.below(2) {
        0 => (at, at + 1),
        _ => (at + 1, at),
    };
    if lengths[from] > 0 {
        lengths[to] += 1;
        lengths[from] -= 1;
        made.rows = rows_of(&lengths);
    }
}

fn low_octet_first(rng: &mut Rng, made: &mut Made) {
    let turn = |number: &mut usize| *number = (*number as u16).swap_bytes() as usize;
    match rng.below(3) {
        0 => turn(&mut made.count),
        1 => turn(&mut made.first_row),
        _ => made.rows.iter_mut().flatten().for_each(turn),
    }
}

fn one_row_of_nothing(made: &mut Made, at: usize) {
    let mut lengths: Vec<usize> = made.rows.iter().map(|row| row[1]).collect();
    lengths.insert(at, 0);
    made.rows = rows_of(&lengths);
    made.count += 1;
}

/// Rows that continue only where a sum wraps at 65,536.
fn continue_in_16_bits(made: &mut Made, at: usize) {
    let mut lengths: Vec<usize> = made.rows.iter().map(|row| row[1]).collect();
    if lengths.len() > 1 {
        lengths[at] += 32_768;
        lengths[(at + 1) % made.rows.len()] += 32_768;
        made.rows = rows_of(&lengths);
    }
}

/// No row at all, and yet octets ahead of them.
fn octets_without_rows(rng: &mut Rng, made: &mut Made) {
    let octets = rng.within(0, 9);
    *made = Made {
        octets: rng.octets(octets),
        first_row: octets,
        ..Made::default()
    };
}

fn damage(rng: &mut Rng, pack: &mut Vec<u8>) {
    let length = pack.len();
    if length == 0 {
        return;
    }
    let at = rng.below(length);
    // The octets of the last row and behind it come up more often.
    let near_end = length - 1 - rng.below(length.min(12));
    match rng.below(12) {
        0 | 1 => pack[at] ^= 1 << rng.below(8),
        2 => pack[at] = rng.octet(),
        3 | 4 => pack[near_end] ^= 1 << rng.below(8),
        5 => pack[near_end] = rng.pick(&[0, 1, 255]),
        6 => pack.truncate(at),
        7 => pack.truncate(length - 1),
        8 => pack.push(rng.pick(&[0, 0, 255])),
        9 => pack.insert(at, rng.octet()),
        10 => {
            pack.remove(at);
        }
        _ => pack.swap(near_end, near_end.saturating_sub(1)),
    }
}

// ---- What packs are written from.

/// Messages and lengths that are mostly right.
pub fn parts(rng: &mut Rng) -> Parts {
    let messages = match rng.below(2) {
        0 => messages_at_fault(rng),
        _ => sound_messages(rng),
    };
    let lengths = messages.iter().map(|message| message.len() as u32);
    let mut parts = Parts {
        lengths: lengths.collect(),
        messages: messages.concat(),
    };
    if rng.one_in(3) {
        mislength(rng, &mut parts);
    }
    parts
}

fn mislength(rng: &mut Rng, parts: &mut Parts) {
    let Parts { messages, lengths } = parts;
    let count = lengths.len();
    let at = rng.below(count.max(1));
    match rng.below(13) {
        0 if count > 0 => lengths[at] = lengths[at].wrapping_add(1),
        1 if count > 0 => lengths[at] = lengths[at].wrapping_sub(1),
        2 if count > 0 => lengths[at] = rng.pick(&[0, u32::MAX, 65_535, 65_536, 1 << 31]),
        // The same sum in 32 bits.
        3 | 4 if count > 1 => {
            lengths[at] ^= 1 << 31;
            lengths[(at + 1) % count] ^= 1 << 31;
        }
        // The same sum in 16 bits.
        5 if count > 0 => lengths[at] += 65_536,
        6 if count > 1 && lengths[at] > 0 => {
            lengths[at] -= 1;
            lengths[(at + 1) % count] += 1;
        }
        7 => lengths.insert(at, 0),
        8 if count > 0 => {
            lengths.remove(at);
        }
        9 => messages.push(rng.octet()),
        10 => {
            messages.pop();
        }
        11 if rng.one_in(8) => outgrown(rng, parts),
        _ => {}
    }
}

/// About as many octets or lengths as a pack may have, or a few more.
fn outgrown(rng: &mut Rng, parts: &mut Parts) {
    let more = rng.below(3);
    *parts = match rng.below(3) {
        // With four octets for their row and four more.
        0 => Parts {
            messages: vec![0; LARGEST_PACK - 8 + more],
            lengths: vec![(LARGEST_PACK - 8 + more) as u32],
        },
        // 16,382 take 65,528 octets.
        1 => Parts {
            messages: vec![],
            lengths: vec![0; 16_382 + more],
        },
        _ => {
            let messages = of_octets(LARGEST_PACK + more);
            Parts {
                lengths: messages
                    .iter()
                    .map(|message| message.len() as u32)
                    .collect(),
                messages: messages.concat(),
            }
        }
    };
}
