//! Inputs that are not quite right, or not right at all.

use super::rng::Rng;
use super::tones::{self, Bounds, Made};

/// A message of any kind: sound, damaged or of random octets.
pub fn message(rng: &mut Rng) -> Vec<u8> {
    let bounds = Bounds::random(rng);
    let made = tones::tone(rng, bounds);
    match rng.below(13) {
        0 => random_message(rng),
        1..=3 => damaged(rng, &made.message),
        4 | 5 => misbuilt(rng, made),
        6 | 7 => mistitled(rng, made),
        _ => made.message,
    }
}

/// A basic song whose title has a refused character. Now and then the message
/// has another fault as well, or ends in the title or soon behind it.
fn mistitled(rng: &mut Rng, made: Made) -> Vec<u8> {
    let Made { unicode, .. } = made;
    let title = refused_title(rng, unicode);
    let patterns = match rng.below(6) {
        0 => 0,
        _ => made.counts().len(),
    };
    let mut message = tones::written_with_count(1, unicode, &title, patterns, &made.table);
    match rng.below(4) {
        0 => message.truncate(rng.within(3, 6 + title.len())),
        1 => damage(rng, &mut message),
        _ => {}
    }
    message
}

/// A title of 1 to 15 characters, one or two of them refused.
pub fn refused_title(rng: &mut Rng, unicode: bool) -> Vec<u8> {
    let characters = rng.within(1, 15);
    let mut title = tones::characters_of_title(rng, unicode, characters);
    for _ in 0..rng.pick(&[1, 1, 2]) {
        refuse_one(rng, unicode, &mut title);
    }
    title
}

/// Puts a refused character in the place of one of a title.
fn refuse_one(rng: &mut Rng, unicode: bool, title: &mut [u8]) {
    let octets = tones::octets_of(tones::refused_character(rng), unicode);
    let each = octets.len();
    let at = rng.below(title.len() / each) * each;
    title[at..at + each].copy_from_slice(&octets);
}

/// A message whose elements stand where they are due, but with a wrong entry,
/// song type or pattern count.
fn misbuilt(rng: &mut Rng, mut made: Made) -> Vec<u8> {
    let mut patterns = made.counts().len();
    match rng.below(8) {
        0 => patterns = rng.pick(&[0, patterns - 1, patterns + 1, 255]),
        1 => made.song = rng.below(8) as u32,
        2 => {
            // A recall ahead of all else.
            made.table.insert(0, rng.below(64) as u32 * 256);
            patterns += 1;
        }
        _ => {
            let at = rng.below(made.table.len());
            let kind = made.table[at] / 65536;
            made.table[at] = match rng.below(3) {
                0 => kind * 65536 + rng.below(512) as u32,
                1 => rng.below(8) as u32 * 65536 + rng.below(512) as u32,
                _ => made.table[at] ^ 1 << rng.below(14),
            };
        }
    }
    let Made { song, unicode, .. } = made;
    tones::written_with_count(song, unicode, &made.title, patterns, &made.table)
}

/// A message with one to three kinds of damage.
pub fn damaged(rng: &mut Rng, message: &[u8]) -> Vec<u8> {
    let mut message = message.to_vec();
    for _ in 0..rng.pick(&[1, 1, 1, 2, 3]) {
        damage(rng, &mut message);
    }
    message
}

fn damage(rng: &mut Rng, message: &mut Vec<u8>) {
    let length = message.len();
    if length == 0 {
        message.push(rng.octet());
        return;
    }
    let at = rng.below(length);
    match rng.below(12) {
        // Near the front, where the single fields are.
        0 | 1 => message[at.min(rng.below(8))] ^= 1 << rng.below(8),
        2 | 3 => message[at] ^= 1 << rng.below(8),
        4 => message[at] = rng.octet(),
        5 => message.truncate(at),
        6 => message.truncate(length - 1),
        7 => message.push(rng.pick(&[0, 0, 255, 1])),
        8 => message.insert(at, message[at]),
        9 => {
            message.remove(at);
        }
        // The last octet is the end, and filler is in the one before.
        10 => message[length - 1] ^= 1 << rng.below(8),
        _ => message[length.saturating_sub(2)] ^= 1 << rng.below(3),
    }
}

/// Random octets, some behind a sound beginning, some of them too many.
pub fn random_message(rng: &mut Rng) -> Vec<u8> {
    let mut message = match rng.below(6) {
        0 => vec![],
        1 => vec![2, 0x4A],
        2 => vec![3, 0x4A, 0x44],
        3 => vec![2, 0x4A, 0x3A, 0x80, rng.pick(&[0x40, 0x80, 0xC0])],
        4 => vec![2, 0x4A, 0x3A, rng.octet() & 0x3F | 0x40],
        _ => vec![3, 0x4A, 0x44, 0x3A, rng.octet() & 0x3F | 0x40],
    };
    let more = if rng.one_in(5) {
        rng.within(4080, 4110)
    } else {
        rng.below(40)
    };
    message.extend(rng.octets(more));
    message
}

/// A table that may be sound, damaged or wild.
pub fn table(rng: &mut Rng) -> Vec<u32> {
    match rng.below(20) {
        0 => wild_table(rng),
        1 => many_headers(rng),
        2 => outgrown_table(rng),
        3..=11 => {
            let bounds = Bounds::random(rng);
            let mut table = tones::tone(rng, bounds).table;
            damage_table(rng, &mut table);
            table
        }
        _ => {
            let bounds = Bounds::random(rng);
            tones::tone(rng, bounds).table
        }
    }
}

fn damage_table(rng: &mut Rng, table: &mut Vec<u32>) {
    let at = rng.below(table.len());
    match rng.below(9) {
        0 => table[at] = rng.word(),
        1 => table[at] = odd_entry(rng),
        2 => table[at] ^= 1 << rng.below(32),
        3 => table.truncate(at),
        4 => table.insert(at, table[at]),
        5 => {
            table.remove(at);
        }
        6 => table.insert(at, odd_entry(rng)),
        // A header that recalls, or that announces one instruction more.
        7 => table.insert(at, rng.below(4) as u32 * 4096),
        _ => table[at] = table[at].wrapping_add(1),
    }
}

fn wild_table(rng: &mut Rng) -> Vec<u32> {
    let length = rng.pick(&[0, 0, 1, 2, 10]);
    (0..length).map(|_| odd_entry(rng)).collect()
}

/// About as many headers as a tone may have, all but the first recalls.
fn many_headers(rng: &mut Rng) -> Vec<u32> {
    let part = rng.below(4) as u32 * 4096;
    let mut table = vec![part + 1, tones::instruction(rng)];
    for _ in 1..rng.pick(&[254, 255, 256, 257, 600]) {
        table.push(part + rng.below(16) as u32 * 256);
    }
    if rng.one_in(4) {
        damage_table(rng, &mut table);
    }
    table
}

/// A table whose message is about as long as a message may be, or longer.
fn outgrown_table(rng: &mut Rng) -> Vec<u32> {
    let mut table = Vec::new();
    for _ in 0..rng.within(10, 12) {
        table.push(255);
        // 255 notes take a little more than 382 octets.
        table.extend((0..255).map(|_| 65536 + rng.below(13) as u32 * 32));
    }
    if rng.one_in(2) {
        table.push(tones::instruction(rng));
    }
    table
}

/// An entry that is an instruction, a header, just out of range, or anything.
pub fn odd_entry(rng: &mut Rng) -> u32 {
    let kind = rng.below(8) as u32 * 65536;
    match rng.below(6) {
        0 => tones::instruction(rng),
        1 => kind + rng.below(600) as u32,
        2 => kind + rng.pick(&[2, 3, 4, 15, 16, 31, 32, 415, 416, 511, 512, 65535]),
        3 => 65536 + rng.below(512) as u32,
        4 => rng.pick(&[16383, 16384, 65535, 393_216, u32::MAX]),
        _ => rng.word(),
    }
}

/// Title octets for writing, a little more than a title may have among them,
/// odd ones and refused characters.
pub fn title_octets(rng: &mut Rng, unicode: bool) -> Vec<u8> {
    let count = rng.pick(&[0, 0, 0, 1, 2, 7, 14, 15, 16, 17, 28, 29, 30, 31, 32, 40]);
    if rng.one_in(4) {
        return rng.octets(count);
    }
    let each = tones::octets_of(0, unicode).len();
    let mut title = tones::characters_of_title(rng, unicode, count.div_ceil(each));
    if !title.is_empty() && rng.one_in(2) {
        refuse_one(rng, unicode, &mut title);
    }
    title.truncate(count);
    title
}

/// A title for a label, with many spaces and their look-alikes.
pub fn label_octets(rng: &mut Rng) -> Vec<u8> {
    let count = rng.pick(&[0, 1, 2, 3, 4, 6, 9, 16, 30, 31, 80]);
    (0..count)
        .map(|_| rng.pick(&[0, 0, 32, 32, 32, 32, 65, 160]))
        .collect()
}

/// A bitmap message that is sound or nearly so.
pub fn bitmap(rng: &mut Rng) -> Vec<u8> {
    let (width, height) = bitmap_sizes(rng);
    let mut message = vec![0, width as u8, height as u8, 1];
    message.extend(image(rng, width, height));
    match rng.below(8) {
        0 => {
            let at = rng.below(4);
            message[at] ^= 1 << rng.below(8);
        }
        1 => message.truncate(rng.below(6)),
        2 => message.truncate(message.len() - 1),
        3 => message.push(rng.octet()),
        _ => {}
    }
    message
}

/// Sizes that are mostly allowed.
pub fn bitmap_sizes(rng: &mut Rng) -> (u32, u32) {
    if rng.one_in(20) {
        return (248, rng.pick(&[1, 254, 255]));
    }
    let width = match rng.below(8) {
        0 => rng.pick(&[0, 7, 9, 12, 249, 255]),
        _ => 8 * rng.within(1, 12) as u32,
    };
    let height = match rng.below(12) {
        0 => 0,
        _ => rng.within(1, 20) as u32,
    };
    (width, height)
}

/// Sizes and an image, not quite right about every other time.
pub fn bitmap_parts(rng: &mut Rng) -> (u32, u32, Vec<u8>) {
    let (mut width, mut height) = bitmap_sizes(rng);
    let mut image = image(rng, width, height);
    match rng.below(10) {
        0 => width = rng.word(),
        1 => height = rng.word(),
        // Sizes that are right but for their upper bits.
        2 => width += 256,
        3 => height += 256,
        4 => image.push(0),
        5 => {
            image.pop();
        }
        _ => {}
    }
    (width, height, image)
}

/// As many octets as the sizes ask for.
pub fn image(rng: &mut Rng, width: u32, height: u32) -> Vec<u8> {
    let octets = (width / 8 * height) as usize;
    match rng.below(6) {
        0 => vec![0; octets],
        1 => vec![255; octets],
        _ => rng.octets(octets),
    }
}
