//! Which characters a title may have: all but 0 to 31 and 127 to 159, in either
//! width.
//!
//! A word of eight octets is judged at once, as eight characters or, under
//! UNICODE, as four. What is in a word behind the title is overwritten with
//! ones: the last character of either width is allowed.

use crate::window::window;

/// Whether a title may have this character.
pub fn is_allowed(character: u64) -> bool {
    !matches!(character, 0..=31 | 127..=159)
}

/// Whether a message's title may have each of its characters. So many octets of
/// title are there.
#[inline(always)]
pub fn is_sound(message: &[u8], unicode: bool, octets: usize) -> bool {
    match is_sound_at_once(message, unicode, octets) {
        Some(sound) => sound,
        None => is_sound_near_end(message, unicode, octets),
    }
}

/// The same for a title that is to be written, of at most 30 octets.
#[inline(always)]
pub fn is_sound_alone(title: &[u8], unicode: bool) -> bool {
    // Two stretches that meet or overlap have all the octets.
    if let (Some(front), Some(back)) = (title.first_chunk(), title.last_chunk()) {
        let (one, two) = halves(u128::from_be_bytes(*front));
        let (three, four) = halves(u128::from_be_bytes(*back));
        return are_allowed(unicode, [one, two, three, four]);
    }
    if let (Some(front), Some(back)) = (title.first_chunk(), title.last_chunk()) {
        let (one, two) = (u64::from_be_bytes(*front), u64::from_be_bytes(*back));
        return are_allowed(unicode, [one, two]);
    }
    let word = (title.iter()).fold(u64::MAX, |word, &octet| word << 8 | octet as u64);
    are_allowed(unicode, [word])
}

/// Where the message is long enough to take the longest title from it. A title
/// begins at the seventh bit of octet 3, or of octet 4 under UNICODE.
#[inline(always)]
fn is_sound_at_once(message: &[u8], unicode: bool, octets: usize) -> Option<bool> {
    let behind = &BEHIND[octets & 31];
    if unicode {
        let (back, front) = (sixteen(message, 20)?, sixteen(message, 4)?);
        let (one, two) = halves(front << 6 | back >> 122);
        let (three, four) = halves(back << 6);
        let words = [
            one | behind[0],
            two | behind[1],
            three | behind[2],
            four | behind[3],
        ];
        Some(are_allowed(true, words))
    } else {
        let (one, two) = halves(sixteen(message, 3)? << 6);
        Some(are_allowed(false, [one | behind[0], two | behind[1]]))
    }
}

/// The same in a shorter message. A window has seven octets of the title, and
/// so three characters under UNICODE.
#[cold]
fn is_sound_near_end(message: &[u8], unicode: bool, octets: usize) -> bool {
    let (mut place, step) = if unicode { (38, 6) } else { (30, 7) };
    let mut left = octets;
    while left > 0 {
        let here = left.min(step);
        let word = window(message, place) | BEHIND[here][0];
        if !are_allowed(unicode, [word]) {
            return false;
        }
        place += 8 * here;
        left -= here;
    }
    true
}

/// Ones behind so many octets of four words.
static BEHIND: [[u64; 4]; 32] = behind();

const fn behind() -> [[u64; 4]; 32] {
    let mut table = [[u64::MAX; 4]; 32];
    let mut octets = 0;
    while octets < 32 {
        let mut octet = 0;
        while octet < octets {
            table[octets][octet / 8] &= !(0xFF << (56 - octet % 8 * 8));
            octet += 1;
        }
        octets += 1;
    }
    table
}

/// The highest bit of each character in a word.
const HIGH: u64 = 0x8080_8080_8080_8080;
const HIGH_WIDE: u64 = 0x8000_8000_8000_8000;

#[inline(always)]
fn are_allowed<const WORDS: usize>(unicode: bool, words: [u64; WORDS]) -> bool {
    let words = words.into_iter();
    if unicode {
        words.fold(HIGH_WIDE, |all, word| all & allowed_wide(word)) == HIGH_WIDE
    } else {
        words.fold(HIGH, |all, word| all & allowed(word)) == HIGH
    }
}

/// Has the highest bit of each octet that is allowed. Other bits mean nothing.
#[inline(always)]
fn allowed(word: u64) -> u64 {
    let low = word & !HIGH;
    // A sum reaches the highest bit from 32 on. 128 to 159 are 0 to 31 here.
    let printed = low + 0x6060_6060_6060_6060;
    // And from 127 on. 255 is 127 here, but has the highest bit itself.
    let last = low + 0x0101_0101_0101_0101;
    printed & (!last | word)
}

/// The same for characters of two octets.
#[inline(always)]
fn allowed_wide(word: u64) -> u64 {
    // A sum reaches the highest bit where what it is of is not 0.
    let printed = (word & 0x7F60_7F60_7F60_7F60) + !HIGH_WIDE;
    let other = ((word ^ 0x007F_007F_007F_007F) & !HIGH_WIDE) + !HIGH_WIDE;
    // From 32,768 on all are allowed.
    printed & other | word
}

/// The 16 octets from one on as a number.
#[inline(always)]
fn sixteen(octets: &[u8], first: usize) -> Option<u128> {
    let octets = octets.get(first..first + 16)?;
    Some(u128::from_be_bytes(*octets.first_chunk()?))
}

#[inline(always)]
fn halves(number: u128) -> (u64, u64) {
    ((number >> 64) as u64, number as u64)
}
