//! Whether a message is sound that lies among other octets, without a branch for the
//! kind of an instruction.
//!
//! In many short messages the processor cannot foresee where the settings stand among
//! the notes. So the width of each instruction is looked up. What is read behind the
//! end of the message does no harm: places only grow, and the last one must be right.

use crate::codes::{class, width_of_turned, BASIC, LARGEST_TONE, NO_INSTRUCTION, TEMPORARY, TURN};
use crate::judge::{header, Header, PLAIN_FRONT, UNICODE_FRONT};
use crate::title;
use crate::window::{full_window, window};

/// A part of one instruction of five bits. Ahead of the patterns are 34.
pub const SMALLEST_TONE: usize = 8;

/// Whether the octets from one on, and ahead of another, are a message.
#[inline(always)]
pub fn is_sound(octets: &[u8], start: usize, end: usize) -> bool {
    if !(SMALLEST_TONE..=LARGEST_TONE).contains(&(end - start)) {
        return false;
    }
    match patterns_passed(octets, start, end) {
        Some(place) => is_end(octets, place) && end_behind(place) == end,
        None => false,
    }
}

/// The end of the message that starts at an octet, if one does and ends no later than
/// it may.
#[inline(always)]
pub fn end_of_sound(octets: &[u8], start: usize, last_end: usize) -> Option<usize> {
    let place = patterns_passed(octets, start, last_end)?;
    let end = end_behind(place);
    (is_end(octets, place) && end <= last_end).then_some(end)
}

/// The place behind the patterns, if all up to there is as it should be. It may be behind
/// the last end, but no pattern begins there.
#[inline(always)]
fn patterns_passed(octets: &[u8], start: usize, last_end: usize) -> Option<usize> {
    let mut place = title_passed(octets, start)?;
    let patterns = window(octets, place) >> 56;
    place += 8;
    let mut defined = 0;
    for _ in 0..patterns {
        let next = window(octets, place);
        let Header { part, count, .. } = header(next);
        defined |= ((count > 0) as u32) << part;
        if next >> 61 != 0 || defined >> part & 1 == 0 || place > 8 * last_end {
            return None;
        }
        let (body, classes) = body_passed(octets, place + 17, count);
        if classes & NO_INSTRUCTION != 0 {
            return None;
        }
        place = body;
    }
    (patterns > 0).then_some(place)
}

/// The place behind the title, if all up to there is as it should be.
#[inline(always)]
fn title_passed(octets: &[u8], start: usize) -> Option<usize> {
    let front = window(octets, 8 * start);
    let (unicode, ahead) = if front >> 41 == PLAIN_FRONT {
        (false, 23)
    } else if front >> 33 == UNICODE_FRONT {
        (true, 31)
    } else {
        return None;
    };
    match (front << ahead >> 61) as u32 {
        TEMPORARY => return Some(8 * start + ahead + 3),
        BASIC => {}
        _ => return None,
    }
    let characters = (front << (ahead + 3) >> 60) as usize;
    let title = characters << unicode as u32;
    if title > 0 && !title::is_sound(&octets[start..], unicode, title) {
        return None;
    }
    Some(8 * start + ahead + 7 + 8 * title)
}

/// The place behind a body, and the classes of its instructions in one number.
///
/// A window is turned on by each instruction, so the bits of four come round to its
/// end. There they become the bits that follow the window, and 64 are in order again.
/// To read a new window would take longer, for it begins where the four end.
#[inline(always)]
fn body_passed(octets: &[u8], mut place: usize, count: usize) -> (usize, u8) {
    let mut classes = 0;
    let mut turned = full_window(octets, place).rotate_left(TURN);
    let (mut used, mut change) = (0u64, 0);
    for _ in 0..count / 4 {
        // The next id does not change, so its width is looked up meanwhile. With what
        // is no instruction among the four the shift may be wrong. Then it does not
        // matter what it gives.
        turned ^= change >> (used.wrapping_neg() & 63) << TURN;
        // Changes the bits of this window into those that follow. Four instructions
        // have 48 bits at most.
        change = turned.rotate_right(TURN) ^ window(octets, place + 64);
        used = passed(&mut turned, 4, &mut classes);
        place += (used & 0xFF) as usize;
    }
    let mut rest = window(octets, place).rotate_left(TURN);
    used = passed(&mut rest, count % 4, &mut classes);
    (place + (used & 0xFF) as usize, classes)
}

/// Turns a window on by up to four instructions. Answers their width, which is the
/// lowest octet. No bit is looked at that came round: of four the last one begins at
/// bit 36 at most, and its class takes ten bits.
#[inline(always)]
fn passed(turned: &mut u64, count: usize, classes: &mut u8) -> u64 {
    let mut used = 0u64;
    for _ in 0..count {
        *classes |= class(turned.rotate_right(TURN));
        let width = width_of_turned(*turned);
        used = used.wrapping_add(width);
        *turned = turned.rotate_left(width as u32 & 63);
    }
    used
}

/// Whether filler and an end octet are here. What is read behind the last octet looks
/// like them.
#[inline(always)]
fn is_end(octets: &[u8], place: usize) -> bool {
    let filler = place.wrapping_neg() % 8;
    window(octets, place) >> (56 - filler) == 0
}

/// The end of a message whose patterns end at a place.
#[inline(always)]
fn end_behind(place: usize) -> usize {
    place.div_ceil(8) + 1
}
