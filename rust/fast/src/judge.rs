//! The judging pass over a tone message.
//!
//! The common path tests as little as it can. Where a test fails, a separate
//! function finds out which refusal it is and where.

use crate::codes::{class, width, BASIC, LARGEST_TONE, NOTE, NO_INSTRUCTION, TEMPORARY};
use crate::title::{is_allowed, is_sound};
use crate::window::window;

#[derive(Clone, Copy, Debug, PartialEq, Eq)]
pub struct Refusal {
    pub number: u32,
    pub place: usize,
}

#[inline(always)]
pub fn refusal(number: u32, place: usize) -> Refusal {
    Refusal { number, place }
}

/// What stands ahead of the patterns.
pub struct Front {
    pub unicode: bool,
    pub song: u32,
    pub characters: usize,
    /// The place of the title's first bit.
    pub title: usize,
    pub patterns: usize,
    /// The place of the first header.
    pub first: usize,
}

/// The body of a part. One of no instructions is not yet defined.
#[derive(Clone, Copy)]
pub struct Body {
    pub place: usize,
    pub count: usize,
    pub notes: usize,
}

pub const UNDEFINED: Body = Body {
    place: 0,
    count: 0,
    notes: 0,
};

/// A pattern that the judge has passed.
pub struct Passed {
    pub header: usize,
    pub repeats: usize,
    /// Whether the body is the pattern's own. A recall has another's.
    pub own: bool,
    pub body: Body,
}

/// Takes note of each pattern while the message is judged.
pub trait Watch {
    fn pattern(&mut self, passed: &Passed);
}

/// A header's fields.
pub struct Header {
    pub part: usize,
    pub repeats: usize,
    pub count: usize,
}

#[inline(always)]
pub fn header(window: u64) -> Header {
    Header {
        part: (window >> 59) as usize & 3,
        repeats: (window >> 55) as usize & 15,
        count: (window >> 47) as usize & 255,
    }
}

/// 00000010 0100101 0 0011101, the front of a message without UNICODE.
pub const PLAIN_FRONT: u64 = 0x02_4A_3A >> 1;
/// The same with length 3 and 0100010 0 ahead of the sound.
pub const UNICODE_FRONT: u64 = 0x03_4A_44_3A >> 1;

/// Judges everything ahead of the patterns.
#[inline(always)]
pub fn judge_front(message: &[u8]) -> Result<Front, Refusal> {
    if message.len() > LARGEST_TONE {
        return Err(refusal(1, 0));
    }
    let bits = message.len() * 8;
    let start = window(message, 0);
    // Both fronts end in a 1, so a message that is cut short matches neither.
    let (unicode, mut place) = if start >> 41 == PLAIN_FRONT {
        (false, 23)
    } else if start >> 33 == UNICODE_FRONT {
        (true, 31)
    } else {
        return Err(faulty_front(message));
    };
    if place + 3 > bits {
        return Err(refusal(2, place));
    }
    let song = (start << place >> 61) as u32;
    if song != BASIC && song != TEMPORARY {
        return Err(refusal(4, place));
    }
    place += 3;
    let mut characters = 0;
    if song == BASIC {
        if place + 4 > bits {
            return Err(refusal(2, place));
        }
        characters = (start << place >> 60) as usize;
        place += 4;
    }
    let title = place;
    place = judge_title(message, unicode, title, characters)?;
    if place + 8 > bits {
        return Err(refusal(2, place));
    }
    let patterns = (window(message, place) >> 56) as usize;
    if patterns == 0 {
        return Err(refusal(5, place));
    }
    Ok(Front {
        unicode,
        song,
        characters,
        title,
        patterns,
        first: place + 8,
    })
}

/// Judges the characters of a title. Answers the place behind it.
#[inline(always)]
fn judge_title(
    message: &[u8],
    unicode: bool,
    title: usize,
    characters: usize,
) -> Result<usize, Refusal> {
    // Spares the shortest messages, which mostly have no title, the slower way.
    if characters == 0 {
        return Ok(title);
    }
    let each = if unicode { 16 } else { 8 };
    let end = title + characters * each;
    if end > message.len() * 8 || !is_sound(message, unicode, characters * each / 8) {
        return Err(faulty_title(message, title, each));
    }
    Ok(end)
}

/// Finds the first character of a title that is cut short or refused.
#[cold]
fn faulty_title(message: &[u8], title: usize, each: usize) -> Refusal {
    let mut place = title;
    while place + each <= message.len() * 8 {
        if !is_allowed(window(message, place) >> (64 - each)) {
            return refusal(21, place);
        }
        place += each;
    }
    refusal(2, place)
}

/// Finds the fault in the command length and the command parts.
#[cold]
fn faulty_front(message: &[u8]) -> Refusal {
    let unicode = match message.first() {
        None => return refusal(2, 0),
        Some(2) => false,
        Some(3) => true,
        Some(_) => return refusal(3, 0),
    };
    let due: &[u8] = if unicode { &[0x4A, 0x44] } else { &[0x4A] };
    for (position, &part) in due.iter().enumerate() {
        let place = 8 + 8 * position;
        match message.get(1 + position) {
            None => return refusal(2, place),
            Some(octet) if octet >> 1 != part >> 1 => return refusal(3, place),
            // Each of these parts is followed by one filler bit.
            Some(octet) if octet & 1 == 1 => return refusal(8, place + 7),
            Some(_) => {}
        }
    }
    let place = 8 + 8 * due.len();
    if message.len() * 8 < place + 7 {
        refusal(2, place)
    } else {
        refusal(3, place)
    }
}

/// Judges the patterns. Answers the place behind the last one.
#[inline(always)]
pub fn judge_patterns(
    message: &[u8],
    front: &Front,
    watch: &mut impl Watch,
) -> Result<usize, Refusal> {
    let bits = message.len() * 8;
    let mut parts = [UNDEFINED; 4];
    let mut place = front.first;
    for _ in 0..front.patterns {
        let start = window(message, place);
        if start >> 61 != 0 || place + 17 > bits {
            return Err(faulty_header(bits, place, start));
        }
        let Header {
            part,
            repeats,
            count,
        } = header(start);
        let at = place;
        place += 17;
        if count > 0 {
            let (end, notes) = judge_body(message, place, count)?;
            parts[part] = Body {
                place,
                count,
                notes,
            };
            place = end;
        } else if parts[part].count == 0 {
            return Err(refusal(7, at + 3));
        }
        watch.pattern(&Passed {
            header: at,
            repeats,
            own: count > 0,
            body: parts[part],
        });
    }
    Ok(place)
}

/// Judges a message and takes note of nothing. A pack is judged so.
pub fn judge_alone(message: &[u8]) -> Result<(), Refusal> {
    let front = judge_front(message)?;
    let end = judge_patterns(message, &front, &mut Nothing)?;
    judge_end(message, end)
}

struct Nothing;

impl Watch for Nothing {
    #[inline(always)]
    fn pattern(&mut self, _: &Passed) {}
}

/// Judges a body. Answers the place behind it and how many notes it has.
#[inline(always)]
fn judge_body(message: &[u8], mut place: usize, count: usize) -> Result<(usize, usize), Refusal> {
    let bits = message.len() * 8;
    let mut notes = 0;
    let mut left = count;
    // Four instructions take at most 48 bits: a window holds them, and where
    // that many bits are left none of the four can be cut short.
    while left >= 4 && place + 48 <= bits {
        let mut rest = window(message, place);
        let mut classes = 0;
        let mut used = 0;
        for _ in 0..4 {
            classes += class(rest) as usize;
            // Most instructions are notes. The branch spares them the wait for
            // a width that is looked up.
            if rest >> 61 == NOTE {
                used += 12;
                rest <<= 12;
            } else {
                let width = width(rest);
                used += width;
                rest <<= width;
            }
        }
        if classes >= NO_INSTRUCTION as usize {
            // The loop below meets it and says what is wrong.
            break;
        }
        notes += classes;
        place += used;
        left -= 4;
    }
    for _ in 0..left {
        let rest = window(message, place);
        let (class, width) = (class(rest), width(rest));
        if class == NO_INSTRUCTION || place + width > bits {
            return Err(faulty_instruction(bits, place, rest));
        }
        notes += class as usize;
        place += width;
    }
    Ok((place, notes))
}

/// Judges filler, end octet and that nothing follows.
#[inline(always)]
pub fn judge_end(message: &[u8], place: usize) -> Result<(), Refusal> {
    let bits = message.len() * 8;
    let filler = place.wrapping_neg() % 8;
    // Filler shares its octet with a pattern, so it is always complete.
    let rest = window(message, place);
    if filler > 0 && rest >> (64 - filler) != 0 {
        return Err(refusal(8, place));
    }
    let end = place + filler;
    if end + 8 > bits {
        return Err(refusal(2, end));
    }
    if message[end / 8] != 0 {
        return Err(refusal(9, end));
    }
    if end + 8 < bits {
        return Err(refusal(10, end + 8));
    }
    Ok(())
}

#[cold]
fn faulty_header(bits: usize, place: usize, window: u64) -> Refusal {
    if place + 3 > bits {
        refusal(2, place)
    } else if window >> 61 != 0 {
        refusal(6, place)
    } else {
        refusal(2, place + 3)
    }
}

#[cold]
fn faulty_instruction(bits: usize, place: usize, window: u64) -> Refusal {
    if place + 3 > bits {
        refusal(2, place)
    } else if matches!(window >> 61, 0 | 6 | 7) {
        refusal(6, place)
    } else if place + width(window) > bits {
        refusal(2, place + 3)
    } else {
        refusal(6, place + 3)
    }
}
