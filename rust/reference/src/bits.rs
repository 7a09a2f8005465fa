//! A message as bits, most significant first.

use crate::{refuse_at, Refusal};

/// Takes a message apart from left to right.
pub struct BitReader<'a> {
    octets: &'a [u8],
    place: usize,
}

impl<'a> BitReader<'a> {
    pub fn new(octets: &'a [u8]) -> BitReader<'a> {
        BitReader { octets, place: 0 }
    }

    /// How many bits the message has.
    fn bits(&self) -> usize {
        8 * self.octets.len()
    }

    fn bit(&self, place: usize) -> bool {
        let weight = [128, 64, 32, 16, 8, 4, 2, 1][place % 8];
        self.octets[place / 8] & weight != 0
    }

    /// The place of the next bit.
    pub fn place(&self) -> usize {
        self.place
    }

    pub fn is_at_end(&self) -> bool {
        self.place == self.bits()
    }

    /// The next element as a number. One that is not complete is refused.
    pub fn take(&mut self, width: usize) -> Result<u32, Refusal> {
        let end = self.place + width;
        if end > self.bits() {
            return refuse_at(2, self.place);
        }
        let mut number = 0;
        for place in self.place..end {
            number = number * 2 + self.bit(place) as u32;
        }
        self.place = end;
        Ok(number)
    }

    /// How many bits are left up to an octet boundary.
    pub fn bits_to_boundary(&self) -> usize {
        (8 - self.place % 8) % 8
    }
}

/// Puts a message together from left to right.
pub struct BitWriter {
    bits: Vec<bool>,
}

impl BitWriter {
    pub fn new() -> BitWriter {
        BitWriter { bits: Vec::new() }
    }

    pub fn put(&mut self, width: u32, number: u32) {
        for position in (0..width).rev() {
            self.bits.push((number >> position) & 1 == 1);
        }
    }

    /// Zeros up to an octet boundary.
    pub fn fill(&mut self) {
        while self.bits.len() % 8 != 0 {
            self.bits.push(false);
        }
    }

    pub fn octets(&self) -> Vec<u8> {
        self.bits
            .chunks(8)
            .map(|octet| octet.iter().fold(0, |sum, &bit| sum * 2 + bit as u8))
            .collect()
    }
}
