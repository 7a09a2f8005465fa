//! Packs of tone messages.

use ohakelm_answers::{Pack, Stretch, Written};

use crate::reading::tone_of;
use crate::{put_first, refuse, refuse_at, written_answer, Refusal};

/// A pack has at most this many octets.
pub const LARGEST_PACK: usize = 65_535;

/// Octets of a row, and of what is behind the rows: the count and the first row's start.
const ROW: usize = 4;
const LAST: usize = 4;

/// Where a message starts in a pack, and how many octets it has.
pub struct Row {
    pub start: usize,
    pub length: usize,
}

/// Reads a pack. Answers how many messages it has.
pub fn pack_read(pack: &[u8]) -> Pack {
    match rows_of(pack) {
        Ok(rows) => Pack {
            refusal: 0,
            place: 0,
            messages: rows.len(),
        },
        Err(refusal) => Pack {
            refusal: refusal.number,
            place: refusal.place,
            messages: 0,
        },
    }
}

/// Which stretch of a pack its message `n` is, counted from 0.
pub fn pack_message(pack: &[u8], n: u32) -> Stretch {
    match row_of(pack, n) {
        Ok(row) => Stretch {
            refusal: 0,
            place: 0,
            start: row.start,
            length: row.length,
        },
        Err(refusal) => Stretch {
            refusal: refusal.number,
            place: refusal.place,
            ..Stretch::default()
        },
    }
}

/// Writes a pack to a lent buffer.
pub fn pack_write(messages: &[u8], lengths: &[u32], out: &mut [u8]) -> Written {
    written_answer(write_into(messages, lengths, out))
}

fn row_of(pack: &[u8], n: u32) -> Result<Row, Refusal> {
    let mut rows = rows_of(pack)?;
    if n as usize >= rows.len() {
        return refuse(12);
    }
    Ok(rows.remove(n as usize))
}

/// The rows of a pack, once it is judged with all its messages.
fn rows_of(pack: &[u8]) -> Result<Vec<Row>, Refusal> {
    if pack.len() > LARGEST_PACK {
        return refuse(1);
    }
    if pack.len() < LAST {
        return refuse(2);
    }
    let count = number(pack, pack.len() - 4);
    let first_row = number(pack, pack.len() - 2);
    if first_row + ROW * count + LAST != pack.len() {
        return refuse(26);
    }
    let rows: Vec<Row> = (0..count)
        .map(|position| row_at(pack, first_row + ROW * position))
        .collect();
    judge_rows(&rows, first_row)?;
    judge_messages(pack, &rows)?;
    Ok(rows)
}

/// Two octets as a number, the high one first.
fn number(pack: &[u8], at: usize) -> usize {
    pack[at] as usize * 256 + pack[at + 1] as usize
}

fn row_at(pack: &[u8], at: usize) -> Row {
    Row {
        start: number(pack, at),
        length: number(pack, at + 2),
    }
}

/// Each row starts where the one before ends, the first one at 0, and the last one
/// ends where the rows begin.
fn judge_rows(rows: &[Row], first_row: usize) -> Result<(), Refusal> {
    let mut end = 0;
    for row in rows {
        if row.start != end {
            return refuse(27);
        }
        end = row.start + row.length;
    }
    if end != first_row {
        return refuse(27);
    }
    Ok(())
}

/// The messages in turn. A place in a message becomes one in the pack.
fn judge_messages(octets: &[u8], rows: &[Row]) -> Result<(), Refusal> {
    for row in rows {
        let message = &octets[row.start..row.start + row.length];
        if let Err(refusal) = tone_of(message) {
            return refuse_at(refusal.number, 8 * row.start + refusal.place);
        }
    }
    Ok(())
}

fn write_into(messages: &[u8], lengths: &[u32], out: &mut [u8]) -> Result<usize, Refusal> {
    // Both lie in memory, so the sum of their octets does not wrap.
    if messages.len() + ROW * lengths.len() + LAST > LARGEST_PACK {
        return refuse(1);
    }
    // In 64 bits so few lengths add up to no more than there is room for.
    let sum: u64 = lengths.iter().map(|&length| length as u64).sum();
    if sum != messages.len() as u64 {
        return refuse(27);
    }
    let rows = rows_of_lengths(lengths);
    judge_messages(messages, &rows)?;
    let pack = packed(messages, &rows);
    if pack.len() > out.len() {
        return refuse(11);
    }
    put_first(&pack, out);
    Ok(pack.len())
}

/// The rows of messages back to back.
pub fn rows_of_lengths(lengths: &[u32]) -> Vec<Row> {
    let mut rows = Vec::new();
    let mut start = 0;
    for &length in lengths {
        let length = length as usize;
        rows.push(Row { start, length });
        start += length;
    }
    rows
}

/// The messages, the rows, how many there are, and where the first one starts.
pub fn packed(messages: &[u8], rows: &[Row]) -> Vec<u8> {
    let mut pack = messages.to_vec();
    for row in rows {
        put_number(&mut pack, row.start);
        put_number(&mut pack, row.length);
    }
    put_number(&mut pack, rows.len());
    put_number(&mut pack, messages.len());
    pack
}

fn put_number(pack: &mut Vec<u8>, number: usize) {
    pack.push((number / 256) as u8);
    pack.push((number % 256) as u8);
}
