//! The playing list in both forms.

use std::mem::take;

use ohakelm_answers::{Entry, Listed, ENTRY_CELLS, NO_MARK};

use crate::codes::{width, BELOW, NOTE, STEPS};
use crate::judge::{
    header, judge_end, judge_front, judge_patterns, refusal, Body, Front, Passed, Refusal, Watch,
    UNDEFINED,
};
use crate::window::window;

/// The loop value of a part that sounds for ever.
const ENDLESS: usize = 15;

/// How many passes are listed. Of an endless part it is two: the second starts
/// with what the first one set, and all later ones are like it.
#[inline(always)]
fn passes(repeats: usize) -> usize {
    if repeats == ENDLESS {
        2
    } else {
        repeats + 1
    }
}

/// Makes the list, three numbers an entry.
pub fn list(message: &[u8], list: &mut [u32]) -> Listed {
    answer(list_into(message, list, fill))
}

/// The same, where a pass that repeats another is copied from it. It pays only
/// where parts loop, so the benchmark shows it beside the other.
pub fn list_by_copying(message: &[u8], list: &mut [u32]) -> Listed {
    answer(list_into(message, list, fill_by_copying))
}

/// Makes the list in both forms.
pub fn rows(message: &[u8], list: &mut [u32], rows: &mut [Entry]) -> Listed {
    answer(rows_into(message, list, rows))
}

#[inline(always)]
fn answer(made: Result<Count, Refusal>) -> Listed {
    match made {
        Ok(count) => Listed {
            refusal: 0,
            place: 0,
            entries: count.entries,
            mark: count.mark,
        },
        Err(refusal) => Listed {
            refusal: refusal.number,
            place: refusal.place,
            entries: 0,
            mark: 0,
        },
    }
}

/// How long a list is and where it returns to.
pub struct Count {
    pub entries: usize,
    pub mark: u32,
    stopped: bool,
}

impl Count {
    pub const START: Count = Count {
        entries: 0,
        mark: NO_MARK,
        stopped: false,
    };

    /// Counts a pattern with so many notes in its body.
    #[inline(always)]
    pub fn add(&mut self, repeats: usize, notes: usize) {
        if self.stopped {
            return;
        }
        if repeats == ENDLESS {
            self.stopped = true;
            if notes > 0 {
                // Behind the first pass.
                self.mark = (self.entries + notes) as u32;
            }
        }
        self.entries += passes(repeats) * notes;
    }
}

impl Watch for Count {
    #[inline(always)]
    fn pattern(&mut self, passed: &Passed) {
        self.add(passed.repeats, passed.body.notes);
    }
}

#[inline(always)]
fn list_into(
    message: &[u8],
    list: &mut [u32],
    fill: impl Fn(&[u8], &Front, &mut [u32]),
) -> Result<Count, Refusal> {
    let (front, count) = judge(message)?;
    let Some(list) = list.get_mut(..ENTRY_CELLS * count.entries) else {
        return Err(refusal(11, 0));
    };
    fill(message, &front, list);
    Ok(count)
}

fn rows_into(message: &[u8], list: &mut [u32], rows: &mut [Entry]) -> Result<Count, Refusal> {
    let (front, count) = judge(message)?;
    let (Some(list), Some(rows)) = (
        list.get_mut(..ENTRY_CELLS * count.entries),
        rows.get_mut(..count.entries),
    ) else {
        return Err(refusal(11, 0));
    };
    fill(message, &front, list);
    for (row, cells) in rows.iter_mut().zip(list.chunks_exact(ENTRY_CELLS)) {
        *row = Entry {
            note: cells[0] >> 10,
            scale: cells[0] >> 8 & 3,
            style: cells[0] >> 4 & 15,
            volume: cells[0] & 15,
            microseconds: cells[1],
            header: cells[2] >> 8,
            position: cells[2] & 255,
        };
    }
    Ok(count)
}

#[inline(always)]
fn judge(message: &[u8]) -> Result<(Front, Count), Refusal> {
    let front = judge_front(message)?;
    let mut count = Count::START;
    let end = judge_patterns(message, &front, &mut count)?;
    judge_end(message, end)?;
    Ok((front, count))
}

/// The settings, as an entry and a duration need them, and the fraction.
#[derive(Clone, Copy)]
struct State {
    /// Scale, style and volume where an entry has them.
    packed: u32,
    /// How long notes last at the tempo set.
    steps: &'static [u64; 32],
    /// What the durations since the last restart left over, in 2^39ths of a
    /// microsecond.
    fraction: u64,
}

impl State {
    fn start() -> State {
        State {
            packed: 1 << 8 | 7,
            steps: &STEPS[8],
            fraction: 0,
        }
    }

    /// The state after the instruction at the front of a window, which is no note.
    #[inline(always)]
    fn after(self, window: u64) -> State {
        let two_bits = (window >> 59) as u32 & 3;
        let packed = match window >> 61 {
            2 => self.packed & !0x300 | two_bits << 8,
            3 => self.packed & !0x030 | two_bits << 4,
            4 => {
                return State {
                    steps: &STEPS[(window >> 56) as usize & 31],
                    fraction: 0,
                    ..self
                }
            }
            _ => self.packed & !0x00F | (window >> 57) as u32 & 15,
        };
        State { packed, ..self }
    }

    /// The microseconds of a note. The fraction goes in, and what is left over is
    /// the new one. From one note to the next there is a sum and a mask to wait for,
    /// and nothing is divided or multiplied. On Arm, in the list of 38,250 entries,
    /// dividing by the beats took 2.7 times as long as this, the quotient by a product
    /// with the pace of the tempo and a carry 1.5 times, by a product with one over
    /// the beats 1.3 times, from a table and with a carry 1.2 times, and these sums
    /// with a product for the table 1.06 times.
    /// None of them was faster in any list of the benchmark.
    #[inline(always)]
    fn lasting(&mut self, code: usize) -> u32 {
        let whole = self.fraction + self.steps[code];
        self.fraction = whole & ((1 << BELOW) - 1);
        (whole >> BELOW) as u32
    }

    /// The state at the start of a pass, which in an endless part has no fraction.
    #[inline(always)]
    fn at_pass(self, repeats: usize) -> State {
        State {
            fraction: if repeats == ENDLESS { 0 } else { self.fraction },
            ..self
        }
    }

    /// Whether both go on alike. The fractions must be the same in all their bits,
    /// also in those that come from steps being rounded up.
    fn is(&self, other: &State) -> bool {
        self.packed == other.packed
            && std::ptr::eq(self.steps, other.steps)
            && self.fraction == other.fraction
    }
}

/// The list's cells that are not filled yet.
type Cells<'a> = &'a mut [u32];

/// The origin of the first instruction that a header sounds. Each later one of the
/// pass is one more.
#[inline(always)]
fn first_origin(header: usize) -> u32 {
    (header << 8) as u32
}

/// Lists one pass of a body, from its first origin on. Answers the state after it
/// and the place behind it.
#[inline(always)]
fn sound(
    message: &[u8],
    body: Body,
    mut origin: u32,
    mut state: State,
    cells: &mut Cells,
) -> (State, usize) {
    let mut place = body.place;
    for _ in 0..body.count / 4 {
        place += sound_some(window(message, place), 4, origin, &mut state, cells);
        origin += 4;
    }
    let left = body.count % 4;
    place += sound_some(window(message, place), left, origin, &mut state, cells);
    (state, place)
}

/// Lists up to four instructions of a window. Answers their width.
#[inline(always)]
fn sound_some(
    mut bits: u64,
    count: usize,
    origin: u32,
    state: &mut State,
    cells: &mut Cells,
) -> usize {
    let mut used = 0;
    for more in 0..count {
        let width = step(bits, origin + more as u32, state, cells);
        used += width;
        bits <<= width;
    }
    used
}

/// Lists the note at the front of a window, or sets what another instruction
/// sets. Answers the instruction's width.
#[inline(always)]
fn step(bits: u64, origin: u32, state: &mut State, cells: &mut Cells) -> usize {
    if bits >> 61 != NOTE {
        *state = state.after(bits);
        return width(bits);
    }
    if let Some((entry, rest)) = take(cells).split_first_chunk_mut::<ENTRY_CELLS>() {
        let first = (bits >> 57 & 15) as u32 * 1024 + state.packed;
        let microseconds = state.lasting((bits >> 52 & 31) as usize);
        // As one array: on x86-64 this is some 2% faster than cell by cell.
        *entry = [first, microseconds, origin];
        *cells = rest;
    }
    12
}

/// Lists all passes of a body. Answers the place behind it.
#[inline(always)]
fn sound_all(
    message: &[u8],
    body: Body,
    origin: u32,
    repeats: usize,
    state: &mut State,
    cells: &mut Cells,
) -> usize {
    let mut end = 0;
    for _ in 0..passes(repeats) {
        (*state, end) = sound(message, body, origin, state.at_pass(repeats), cells);
    }
    end
}

/// Fills a list of just the right length from a message that was judged.
pub fn fill(message: &[u8], front: &Front, list: &mut [u32]) {
    let mut cells = list;
    let mut state = State::start();
    let mut parts = [UNDEFINED; 4];
    let mut place = front.first;
    for header in 0..front.patterns {
        let (body, repeats) = next_body(message, &mut place, &mut parts);
        let origin = first_origin(header);
        let end = sound_all(message, body, origin, repeats, &mut state, &mut cells);
        if repeats == ENDLESS {
            return;
        }
        place = place.max(end);
    }
}

/// Takes a header. Answers the body that it sounds and its loop value.
#[inline(always)]
fn next_body(message: &[u8], place: &mut usize, parts: &mut [Body; 4]) -> (Body, usize) {
    let next = header(window(message, *place));
    *place += 17;
    if next.count > 0 {
        parts[next.part] = Body {
            place: *place,
            count: next.count,
            notes: 0,
        };
    }
    (parts[next.part], next.repeats)
}

/// A pass that is in the list already, with the states around it.
#[derive(Clone, Copy)]
struct Sounded {
    body: usize,
    /// The first origin of the header that sounded it.
    origin: u32,
    before: State,
    after: State,
    start: usize,
    length: usize,
}

/// Fills a list like `fill`, but decodes a pass only where it is not a copy of
/// the last one decoded.
fn fill_by_copying(message: &[u8], front: &Front, list: &mut [u32]) {
    let mut copying = Copying {
        message,
        list,
        at: 0,
        state: State::start(),
        last: None,
    };
    let mut parts = [UNDEFINED; 4];
    let mut place = front.first;
    for header in 0..front.patterns {
        let (body, repeats) = next_body(message, &mut place, &mut parts);
        let end = copying.sound_all(body, first_origin(header), repeats);
        place = place.max(end);
        if repeats == ENDLESS {
            return;
        }
    }
}

/// A list that is filled by copying, up to a certain cell.
struct Copying<'a> {
    message: &'a [u8],
    list: &'a mut [u32],
    at: usize,
    state: State,
    last: Option<Sounded>,
}

impl Copying<'_> {
    /// Lists all passes of a body. Answers the place behind it, or 0 where no pass
    /// was decoded.
    fn sound_all(&mut self, body: Body, origin: u32, repeats: usize) -> usize {
        let mut left = passes(repeats);
        let mut end = 0;
        while left > 0 {
            self.state = self.state.at_pass(repeats);
            match self.last {
                Some(old) if old.body == body.place && old.before.is(&self.state) => {
                    left -= self.copy(old, origin, left, repeats);
                }
                _ => {
                    end = self.decode(body, origin);
                    left -= 1;
                }
            }
        }
        end
    }

    /// Copies a pass that began with the same settings and the same fraction, so
    /// it sounds the same. Answers how many passes are copied.
    fn copy(&mut self, old: Sounded, origin: u32, left: usize, repeats: usize) -> usize {
        if old.origin != origin {
            self.copy_for(old, origin);
            return 1;
        }
        // A pass that leaves what it began with is followed by its like.
        let again = old.after.at_pass(repeats).is(&old.before);
        let times = if again { left } else { 1 };
        copy_times(self.list, old.start, old.length, self.at, times);
        self.at += times * old.length;
        self.state = old.after;
        times
    }

    /// Copies a pass for another header. It sounds the same, and its origins are
    /// that header's.
    fn copy_for(&mut self, old: Sounded, origin: u32) {
        let (ahead, behind) = self.list.split_at_mut(self.at);
        let from = ahead[old.start..][..old.length].chunks_exact(ENTRY_CELLS);
        for (to, from) in behind.chunks_exact_mut(ENTRY_CELLS).zip(from) {
            to.copy_from_slice(from);
            to[2] = to[2] - old.origin + origin;
        }
        self.last = Some(Sounded {
            origin,
            start: self.at,
            ..old
        });
        self.at += old.length;
        self.state = old.after;
    }

    /// Decodes a pass. Answers the place behind its body.
    fn decode(&mut self, body: Body, origin: u32) -> usize {
        let (start, before) = (self.at, self.state);
        let mut cells = &mut self.list[start..];
        let (after, end) = sound(self.message, body, origin, before, &mut cells);
        let unused = cells.len();
        self.at = self.list.len() - unused;
        self.state = after;
        self.last = Some(Sounded {
            body: body.place,
            origin,
            before,
            after,
            start,
            length: self.at - start,
        });
        end
    }
}

/// Copies a stretch several times over, in steps that double.
fn copy_times(list: &mut [u32], start: usize, length: usize, at: usize, times: usize) {
    let whole = length * times;
    let mut done = length.min(whole);
    list.copy_within(start..start + done, at);
    while done < whole {
        let step = done.min(whole - done);
        list.copy_within(at..at + step, at + done);
        done += step;
    }
}
