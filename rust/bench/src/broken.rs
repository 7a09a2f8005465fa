//! The broken packs that are measured. There are some of each kind, so that no branch is
//! foreseen because it was met before.

use crate::tones::{self, Numbers};
use crate::worst;

/// So many of each kind.
const INPUTS: u64 = 8;

/// As many octets as count.
const LARGEST: usize = worst::OCTETS;

/// Packs of so many messages in which one message in a hundred, but at least one, has a
/// spoilt octet. Of the rows the last third is cut.
pub fn packs(messages: usize, octets: usize) -> Vec<Vec<u8>> {
    (0..INPUTS)
        .map(|number| broken_pack(number, messages, octets))
        .collect()
}

fn broken_pack(number: u64, messages: usize, octets: usize) -> Vec<u8> {
    // No two packs have a tone in common.
    let (mut pack, lengths) = tones::of_pack(number * messages as u64, messages, octets);
    let mut numbers = Numbers::from(number);
    for _ in 0..(messages / 100).max(1) {
        let at = numbers.below(pack.len() as u32) as usize;
        // Hardly any instructions have such an octet.
        pack[at] = 0xFF;
    }
    let mut start = 0;
    for length in &lengths[..messages * 2 / 3] {
        pack.extend((start << 16 | length).to_be_bytes());
        start += length;
    }
    pack
}

/// Octets by chance.
pub fn noise() -> Vec<Vec<u8>> {
    let of_number = |number| {
        let mut numbers = Numbers::from(number);
        (0..LARGEST).map(|_| numbers.below(256) as u8).collect()
    };
    (0..INPUTS).map(of_number).collect()
}

/// Those in which the most readings begin and go on for long.
pub fn worst() -> Vec<Vec<u8>> {
    (0..INPUTS as usize).map(worst::of_number).collect()
}
