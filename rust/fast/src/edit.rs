//! Edits in place: the bits behind the instruction are moved, and the list is
//! made from the new message.

use ohakelm_answers::{Edited, ENTRY_CELLS};

use crate::codes::{entry_width, width, LARGEST_TONE, NOTE};
use crate::judge::{
    judge_end, judge_front, judge_patterns, refusal, Body, Passed, Refusal, Watch, UNDEFINED,
};
use crate::list::{fill, Count};
use crate::window::{move_bits, put, window};

/// Replaces an instruction by the one that the entry holds.
pub fn replace(
    buffer: &mut [u8],
    used: usize,
    pattern: usize,
    instruction: usize,
    entry: u32,
    list: &mut [u32],
) -> Edited {
    let change = Change::Replace(entry);
    answer(edit(buffer, used, pattern, instruction, change, list))
}

/// Inserts the instruction that the entry holds before another, or at the end.
pub fn insert(
    buffer: &mut [u8],
    used: usize,
    pattern: usize,
    instruction: usize,
    entry: u32,
    list: &mut [u32],
) -> Edited {
    let change = Change::Insert(entry);
    answer(edit(buffer, used, pattern, instruction, change, list))
}

/// Deletes an instruction.
pub fn delete(
    buffer: &mut [u8],
    used: usize,
    pattern: usize,
    instruction: usize,
    list: &mut [u32],
) -> Edited {
    let change = Change::Delete;
    answer(edit(buffer, used, pattern, instruction, change, list))
}

#[derive(Clone, Copy)]
enum Change {
    Replace(u32),
    Insert(u32),
    Delete,
}

#[inline(always)]
fn answer(done: Result<Edited, Refusal>) -> Edited {
    match done {
        Ok(answer) => answer,
        Err(refusal) => Edited {
            refusal: refusal.number,
            place: refusal.place,
            ..Edited::default()
        },
    }
}

/// Finds the instruction named while the message is judged, and counts the
/// entries of the new list.
struct Finding<'a> {
    message: &'a [u8],
    /// How many patterns come before the one named.
    before: usize,
    instruction: usize,
    change: Change,
    found: Found,
    count: Count,
}

/// The pattern named. A body of no instructions is a recall, or none at all.
struct Found {
    header: usize,
    body: Body,
    /// The place of the instruction named, or of the body's end.
    place: usize,
    /// How many notes the new body has.
    notes: usize,
}

impl Watch for Finding<'_> {
    #[inline(always)]
    fn pattern(&mut self, passed: &Passed) {
        if self.before == 0 && passed.own {
            self.find(passed);
        }
        self.before = self.before.wrapping_sub(1);
        // Later recalls of the body named sound the new one.
        let edited = passed.body.place == self.found.body.place;
        let notes = if edited {
            self.found.notes
        } else {
            passed.body.notes
        };
        self.count.add(passed.repeats, notes);
    }
}

impl Finding<'_> {
    fn find(&mut self, passed: &Passed) {
        let body = passed.body;
        let steps = self.instruction.min(body.count);
        let place = skip(self.message, body.place, steps);
        let is_note = window(self.message, place) >> 61 == NOTE;
        let goes = match self.change {
            Change::Insert(_) => false,
            Change::Replace(_) | Change::Delete => steps < body.count && is_note,
        };
        let comes = match self.change {
            Change::Replace(entry) | Change::Insert(entry) => entry >> 16 == NOTE as u32,
            Change::Delete => false,
        };
        self.found = Found {
            header: passed.header,
            body,
            place,
            notes: body.notes + comes as usize - goes as usize,
        };
    }
}

/// The place behind so many instructions.
fn skip(message: &[u8], mut place: usize, steps: usize) -> usize {
    let mut left = steps;
    while left > 0 {
        let here = left.min(4);
        let mut bits = window(message, place);
        for _ in 0..here {
            let width = width(bits);
            place += width;
            bits <<= width;
        }
        left -= here;
    }
    place
}

fn edit(
    buffer: &mut [u8],
    used: usize,
    pattern: usize,
    instruction: usize,
    change: Change,
    list: &mut [u32],
) -> Result<Edited, Refusal> {
    let Some(message) = buffer.get(..used) else {
        return Err(refusal(1, 0));
    };
    let front = judge_front(message)?;
    let mut finding = Finding {
        message,
        before: pattern,
        instruction,
        change,
        found: Found {
            header: 0,
            body: UNDEFINED,
            place: 0,
            notes: 0,
        },
        count: Count::START,
    };
    let end = judge_patterns(message, &front, &mut finding)?;
    judge_end(message, end)?;
    let Finding { found, count, .. } = finding;
    let step = judge_change(message, &found, instruction, change)?;
    let new_end = end + step.comes - step.goes;
    let length = new_end.div_ceil(8) + 1;
    if length > LARGEST_TONE {
        return Err(refusal(1, 0));
    }
    if length > buffer.len() {
        return Err(refusal(11, 0));
    }
    let Some(list) = list.get_mut(..ENTRY_CELLS * count.entries) else {
        return Err(refusal(11, 0));
    };
    apply(buffer, &found, &step, end);
    clear_end(buffer, new_end, length.max(used));
    fill(&buffer[..length], &front, list);
    Ok(Edited {
        refusal: 0,
        place: 0,
        length,
        entries: count.entries,
        mark: count.mark,
        change: length as i32 - used as i32,
    })
}

/// The bits that go and come at the place found, and the body's new count.
struct Step {
    goes: usize,
    comes: usize,
    bits: u32,
    count: usize,
}

/// Judges the change itself: a bad entry, then a bad position, then the count.
#[inline(always)]
fn judge_change(
    message: &[u8],
    found: &Found,
    instruction: usize,
    change: Change,
) -> Result<Step, Refusal> {
    let (comes, bits) = match change {
        Change::Replace(entry) | Change::Insert(entry) => {
            let comes = entry_width(entry);
            if comes == 0 {
                return Err(refusal(6, 0));
            }
            // The id, and after it the payload.
            (comes, (entry >> 16) << (comes - 3) | entry & 0xFFFF)
        }
        Change::Delete => (0, 0),
    };
    let count = found.body.count;
    let appends = matches!(change, Change::Insert(_)) && instruction == count;
    if count == 0 || instruction >= count && !appends {
        return Err(refusal(12, 0));
    }
    let old = width(window(message, found.place));
    let (goes, count) = match change {
        Change::Delete if count == 1 => return Err(refusal(13, 0)),
        Change::Insert(_) if count == 255 => return Err(refusal(14, 0)),
        Change::Replace(_) => (old, count),
        Change::Insert(_) => (0, count + 1),
        Change::Delete => (old, count - 1),
    };
    Ok(Step {
        goes,
        comes,
        bits,
        count,
    })
}

/// Moves what is behind the instruction, puts the new one, and sets the count.
#[inline(always)]
fn apply(buffer: &mut [u8], found: &Found, step: &Step, end: usize) {
    let from = found.place + step.goes;
    move_bits(buffer, from, found.place + step.comes, end - from);
    if step.comes > 0 {
        put(buffer, found.place, step.comes, step.bits);
    }
    put(buffer, found.header + 9, 8, step.count as u32);
}

/// Clears filler, end octet and what the old message left behind them.
#[inline(always)]
fn clear_end(buffer: &mut [u8], new_end: usize, upto: usize) {
    let mut first = new_end / 8;
    if new_end % 8 > 0 {
        buffer[first] &= 0xFF00u16.wrapping_shr((new_end % 8) as u32) as u8;
        first += 1;
    }
    buffer[first..upto].fill(0);
}
