//! Packs of tone messages.
//!
//! The rows are judged first, and then each message where it lies. Nothing is kept of
//! a message, so nothing is counted in it.

use ohakelm_answers::{Pack, Stretch, Written};

use crate::judge::{judge_alone, refusal, Refusal};
use crate::within::is_sound;

pub const LARGEST_PACK: usize = 65_535;

/// Octets of a row, and of what is behind the rows.
pub const ROW: usize = 4;
pub const LAST: usize = 4;

/// Reads a pack. Answers how many messages it has.
pub fn pack_read(pack: &[u8]) -> Pack {
    read_answer(judge(pack, judge_within))
}

/// The same with a branch for the kind of each instruction, as tones are judged. What
/// it takes depends on how many of the branches the processor foresees. So the
/// benchmark shows it beside the other.
pub fn pack_read_by_branches(pack: &[u8]) -> Pack {
    read_answer(judge(pack, judge_alone_within))
}

#[inline(always)]
fn read_answer(judged: Result<&[u8], Refusal>) -> Pack {
    match judged {
        Ok(rows) => Pack {
            refusal: 0,
            place: 0,
            messages: rows.len() / ROW,
        },
        Err(refusal) => Pack {
            refusal: refusal.number,
            place: refusal.place,
            messages: 0,
        },
    }
}

/// Which stretch of a pack its message `n` is, counted from 0.
pub fn pack_message(pack: &[u8], n: u32) -> Stretch {
    match row_of(pack, n) {
        Ok(row) => Stretch {
            refusal: 0,
            place: 0,
            start: start_of(row),
            length: length_of(row),
        },
        Err(refusal) => Stretch {
            refusal: refusal.number,
            place: refusal.place,
            start: 0,
            length: 0,
        },
    }
}

/// Writes a pack to a lent buffer.
pub fn pack_write(messages: &[u8], lengths: &[u32], out: &mut [u8]) -> Written {
    match write_into(messages, lengths, out) {
        Ok(octets) => Written {
            refusal: 0,
            place: 0,
            octets,
        },
        Err(refusal) => Written {
            refusal: refusal.number,
            place: refusal.place,
            octets: 0,
        },
    }
}

fn row_of(pack: &[u8], n: u32) -> Result<&[u8], Refusal> {
    let mut rows = judge(pack, judge_within)?.chunks_exact(ROW);
    rows.nth(n as usize).ok_or(refusal(12, 0))
}

/// A row has two octets of start.
#[inline(always)]
fn start_of(row: &[u8]) -> usize {
    u16::from_be_bytes([row[0], row[1]]) as usize
}

/// And two of length behind them.
#[inline(always)]
fn length_of(row: &[u8]) -> usize {
    u16::from_be_bytes([row[2], row[3]]) as usize
}

/// Judges a pack with all its messages. Answers its rows.
#[inline(always)]
fn judge(pack: &[u8], judge_one: impl Judge) -> Result<&[u8], Refusal> {
    if pack.len() > LARGEST_PACK {
        return Err(refusal(1, 0));
    }
    let Some((front, last)) = pack.split_last_chunk::<LAST>() else {
        return Err(refusal(2, 0));
    };
    let count = u16::from_be_bytes([last[0], last[1]]) as usize;
    let first_row = u16::from_be_bytes([last[2], last[3]]) as usize;
    if first_row + ROW * count != front.len() {
        return Err(refusal(26, 0));
    }
    let rows = &front[first_row..];
    if !are_in_turn(rows, first_row) {
        return Err(refusal(27, 0));
    }
    // With what is behind them, so that a window is there at the end of each.
    judge_messages(pack, rows.chunks_exact(ROW).map(length_of), judge_one)?;
    Ok(rows)
}

/// Whether each row starts where the one before ends, and the last one ends where it
/// should.
#[inline(always)]
fn are_in_turn(rows: &[u8], last_end: usize) -> bool {
    let (mut end, mut in_turn) = (0, true);
    for row in rows.chunks_exact(ROW) {
        in_turn &= start_of(row) == end;
        end = start_of(row) + length_of(row);
    }
    in_turn && end == last_end
}

/// Judges the message from one octet on and ahead of another.
trait Judge: Fn(&[u8], usize, usize) -> Result<(), Refusal> {}

impl<F: Fn(&[u8], usize, usize) -> Result<(), Refusal>> Judge for F {}

/// Judges messages that lie back to back from the first octet on.
#[inline(always)]
fn judge_messages(
    octets: &[u8],
    lengths: impl Iterator<Item = usize>,
    judge_one: impl Judge,
) -> Result<(), Refusal> {
    let mut start = 0;
    for length in lengths {
        judge_one(octets, start, start + length)?;
        start += length;
    }
    Ok(())
}

#[inline(always)]
fn judge_within(octets: &[u8], start: usize, end: usize) -> Result<(), Refusal> {
    if is_sound(octets, start, end) {
        return Ok(());
    }
    fault_within(octets, start, end)
}

/// Finds out what is wrong with a message.
#[cold]
fn fault_within(octets: &[u8], start: usize, end: usize) -> Result<(), Refusal> {
    judge_alone_within(octets, start, end)
}

#[inline(always)]
fn judge_alone_within(octets: &[u8], start: usize, end: usize) -> Result<(), Refusal> {
    let moved = |it: Refusal| refusal(it.number, 8 * start + it.place);
    judge_alone(&octets[start..end]).map_err(moved)
}

fn write_into(messages: &[u8], lengths: &[u32], out: &mut [u8]) -> Result<usize, Refusal> {
    let first_row = messages.len();
    // Neither can be so long that the sum would not fit.
    let octets = first_row + ROW * lengths.len() + LAST;
    if octets > LARGEST_PACK {
        return Err(refusal(1, 0));
    }
    let sum: u64 = lengths.iter().map(|&length| length as u64).sum();
    if sum != first_row as u64 {
        return Err(refusal(27, 0));
    }
    let in_octets = lengths.iter().map(|&length| length as usize);
    judge_messages(messages, in_octets, judge_within)?;
    let Some(pack) = out.get_mut(..octets) else {
        return Err(refusal(11, 0));
    };
    let (front, behind) = pack.split_at_mut(first_row);
    front.copy_from_slice(messages);
    fill_rows(behind, lengths.iter().copied(), first_row);
    Ok(octets)
}

/// Fills what is behind the messages: a row for each, how many there are, and where
/// the first row starts.
#[inline(always)]
pub fn fill_rows(behind: &mut [u8], lengths: impl ExactSizeIterator<Item = u32>, first_row: usize) {
    let count = lengths.len();
    let (rows, last) = behind.split_at_mut(ROW * count);
    let mut start = 0;
    for (row, length) in rows.chunks_exact_mut(ROW).zip(lengths) {
        row.copy_from_slice(&(start << 16 | length).to_be_bytes());
        start += length;
    }
    let numbers = (count as u32) << 16 | first_row as u32;
    last.copy_from_slice(&numbers.to_be_bytes());
}
