//! Lent buffers with guard cells on both sides.
//!
//! Guards and buffer are filled with random cells, so that a stray write shows.
//! The front guard's length varies, and with it the buffer's alignment.

use std::fmt::Debug;

use ohakelm::Entry;

use super::rng::Rng;

const BACK_GUARD: usize = 8;

#[derive(Clone, PartialEq, Eq)]
pub struct Lent<T> {
    cells: Vec<T>,
    start: usize,
    length: usize,
}

impl<T: Clone + PartialEq + Debug> Lent<T> {
    fn new(rng: &mut Rng, length: usize, mut cell: impl FnMut(&mut Rng) -> T) -> Lent<T> {
        let start = rng.within(8, 15);
        let whole = start + length + BACK_GUARD;
        Lent {
            cells: (0..whole).map(|_| cell(rng)).collect(),
            start,
            length,
        }
    }

    /// What a call is given.
    pub fn lend(&mut self) -> &mut [T] {
        &mut self.cells[self.start..self.start + self.length]
    }

    pub fn cells(&self) -> &[T] {
        &self.cells[self.start..self.start + self.length]
    }

    /// The first cell that is not the same in both, as a line of a report.
    /// Cells are counted from the start of what was lent.
    pub fn difference(&self, other: &Lent<T>) -> String {
        let mut pairs = self.cells.iter().zip(&other.cells).enumerate();
        let Some((position, (one, two))) = pairs.find(|(_, (one, two))| one != two) else {
            return String::new();
        };
        let lent = self.start..self.start + self.length;
        let kind = if lent.contains(&position) {
            "cell"
        } else {
            "guard cell"
        };
        let cell = position as isize - self.start as isize;
        format!("\n{kind} {cell} of {}: {one:?} and {two:?}", self.length)
    }
}

pub fn lent_octets(rng: &mut Rng, length: usize) -> Lent<u8> {
    Lent::new(rng, length, |rng| rng.octet())
}

pub fn lent_words(rng: &mut Rng, length: usize) -> Lent<u32> {
    Lent::new(rng, length, |rng| rng.word())
}

pub fn lent_rows(rng: &mut Rng, length: usize) -> Lent<Entry> {
    Lent::new(rng, length, |rng| Entry {
        note: rng.word(),
        scale: rng.word(),
        style: rng.word(),
        volume: rng.word(),
        microseconds: rng.word(),
        header: rng.word(),
        position: rng.word(),
    })
}

/// A buffer of random octets that begins with a message.
pub fn lent_message(rng: &mut Rng, message: &[u8], length: usize) -> Lent<u8> {
    let mut lent = lent_octets(rng, length);
    let begun = message.len().min(length);
    lent.lend()[..begun].copy_from_slice(&message[..begun]);
    lent
}
