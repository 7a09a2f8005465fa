//! The largest tones, lists and bitmaps that there are.

use ohakelm::entry;

use super::tones::written;

pub const NOTE_C: u32 = entry::note(1, 2, 0);

/// A part of so many scales and styles, in turn.
fn part(position: u32, instructions: u32) -> Vec<u32> {
    let mut part = vec![entry::header(position % 4, 0, instructions)];
    let both = [entry::scale(3), entry::style(2)];
    part.extend(both.iter().cycle().take(instructions as usize));
    part
}

/// 26 parts of a temporary song with so many instructions in the last one. The
/// others are full. Ahead of the patterns are 34 bits, a header has 17, a scale
/// or a style has 5.
pub fn parts(last: u32) -> Vec<u32> {
    let full = (0..25).flat_map(|position| part(position, 255));
    full.chain(part(25, last)).collect()
}

/// 34 + 26 * 17 + 6,456 * 5 = 32,756 bits. Four of filler make 4,095 octets,
/// and the end octet is the last one.
pub fn fullest() -> Vec<u32> {
    parts(81)
}

pub fn temporary(table: &[u32]) -> Vec<u8> {
    written(2, false, &[], table)
}

/// A part of 255 notes and 254 recalls of it, each sounding 15 times: 255 * 255
/// * 15 entries.
pub fn longest() -> Vec<u8> {
    let mut table = vec![entry::header(0, 14, 255)];
    table.extend([NOTE_C; 255]);
    table.extend([entry::header(0, 14, 0); 254]);
    temporary(&table)
}

/// The origin of an entry of that list, by its position. A header sounds 15 passes,
/// and a pass has 255 entries.
pub fn origin_in_longest(position: usize) -> u32 {
    let (header, in_body) = (position / (15 * 255), position % 255);
    (header * 256 + in_body) as u32
}

/// 255 rows of 31 octets.
pub const IMAGE: [u8; 31 * 255] = [0x81; 31 * 255];

/// What is ahead of a bitmap, and the largest one.
pub fn behind(ahead: &[u8]) -> Vec<u8> {
    [ahead, &[0, 248, 255, 1], &IMAGE].concat()
}

/// A temporary song of just so many octets, 8 to 4,096: as few parts as it takes, of
/// scales and styles.
pub fn of_octets(octets: usize) -> Vec<u8> {
    // Without the end octet. 34 are ahead of the patterns.
    let bits = 8 * (octets - 1) - 34;
    let full = 17 + 255 * 5;
    let parts = bits.div_ceil(full).max(1);
    // As many as there is room for. What is left is filler.
    let mut left = (bits - 17 * parts) / 5;
    let mut table = Vec::new();
    for position in 0..parts {
        // Each of the parts behind this one has an instruction too.
        let behind = parts - position - 1;
        let here = (left - behind).min(255);
        table.extend(part(position as u32, here as u32));
        left -= here;
    }
    let message = temporary(&table);
    assert_eq!(message.len(), octets);
    message
}
