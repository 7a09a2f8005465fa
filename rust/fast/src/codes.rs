//! The codes of the format, laid out for lookups.

pub const LARGEST_TONE: usize = 4096;

pub const BASIC: u32 = 1;
pub const TEMPORARY: u32 = 2;

pub const NOTE: u64 = 1;

/// Bits of an element with its id, an octet for each id from 000 up. The two
/// ids that nothing has count as their own three bits.
const WIDTHS: u64 = u64::from_le_bytes([17, 12, 5, 5, 8, 7, 3, 3]);

/// Bits of the element at the front of a window, its id among them.
#[inline(always)]
pub fn width(window: u64) -> usize {
    // Eight times the id is where its width stands in the constant.
    (WIDTHS >> ((window >> 58) & 0x38)) as usize & 63
}

/// How far left a window is turned for `width_of_turned`. Its first id is then at the
/// head of the six lowest bits, where it is worth eight times its number.
pub const TURN: u32 = 6;

/// Bits of the element at the front of a window that was turned. There is a step less
/// to wait for than in `width`.
///
/// They are the lowest octet alone. What is above it may stay in a sum of widths until
/// all are added: up to eight of them are less than 256 together.
#[inline(always)]
pub fn width_of_turned(turned: u64) -> u64 {
    WIDTHS >> (turned & 0x38)
}

/// Marks in `CLASSES` what is no instruction. Four marks together stay larger
/// than four notes.
pub const NO_INSTRUCTION: u8 = 128;

/// By the first ten bits of a window: 1 for a note, 0 for another instruction.
/// Ten bits hold an id and all the bits that can be out of range.
static CLASSES: [u8; 1024] = classes();

#[inline(always)]
pub fn class(window: u64) -> u8 {
    CLASSES[(window >> 54) as usize]
}

const fn classes() -> [u8; 1024] {
    let mut table = [NO_INSTRUCTION; 1024];
    let mut bits = 0;
    while bits < 1024 {
        let (note, duration, style) = (bits >> 3 & 15, bits & 7, bits >> 5 & 3);
        table[bits] = match bits >> 7 {
            1 if note <= 12 && duration <= 5 => 1,
            3 if style <= 2 => 0,
            2 | 4 | 5 => 0,
            _ => NO_INSTRUCTION,
        };
        bits += 1;
    }
    table
}

/// Bits of an instruction by three bits of kind and nine of payload, its id
/// among them. 0 where there is no such instruction.
static ENTRY_WIDTHS: [u8; 4096] = entry_widths();

const fn entry_widths() -> [u8; 4096] {
    let mut table = [0; 4096];
    let mut index = 0;
    while index < 4096 {
        let payload = index & 511;
        table[index] = match index >> 9 {
            1 if payload < 13 * 32 && payload >> 2 & 7 <= 5 => 12,
            2 if payload <= 3 => 5,
            3 if payload <= 2 => 5,
            4 if payload <= 31 => 8,
            5 if payload <= 15 => 7,
            _ => 0,
        };
        index += 1;
    }
    table
}

/// Bits that no instruction's entry has set.
pub const OUTSIDE_ENTRY: u32 = !0x0007_01FF;

/// The width of an instruction's entry that has no bit of `OUTSIDE_ENTRY`, or 0
/// where it is none.
#[inline(always)]
pub fn entry_width_within(entry: u32) -> usize {
    ENTRY_WIDTHS[(entry >> 7 & 0xE00 | entry & 0x1FF) as usize] as usize
}

/// The width of an instruction's entry, or 0 where it is none.
#[inline(always)]
pub fn entry_width(entry: u32) -> usize {
    if entry & OUTSIDE_ENTRY != 0 {
        return 0;
    }
    entry_width_within(entry)
}

/// Bits of a step below the microsecond.
pub const BELOW: u32 = 39;

/// How long a note lasts at each tempo, by duration code and specifier, in 2^39ths
/// of a microsecond. A unit is 625,000 / beats microseconds, and here it is rounded
/// up. Rounded down to microseconds the sums are still those of exact units: `unit`
/// shows why.
pub static STEPS: [[u64; 32]; 32] = steps();

const BEATS: [u64; 32] = [
    25, 28, 31, 35, 40, 45, 50, 56, 63, 70, 80, 90, 100, 112, 125, 140, 160, 180, 200, 225, 250,
    285, 320, 355, 400, 450, 500, 565, 635, 715, 800, 900,
];

/// Units of the longest list, if it were all of the longest note.
const MOST_UNITS: u64 = 975_375 * 672;

/// A unit in 2^39ths of a microsecond, rounded up.
const fn unit(beats: u64) -> u64 {
    let exact: u64 = 625_000 << BELOW;
    let unit = exact.div_ceil(beats);
    // Each unit is too long by the excess, in beats-ths of 2^39ths. An exact sum is
    // a whole number of beats-ths of a microsecond. As long as all its units are too
    // long by less than one of these, it is rounded down to the same microsecond.
    let excess = unit * beats - exact;
    assert!(excess * MOST_UNITS < 1 << BELOW);
    unit
}

const fn steps() -> [[u64; 32]; 32] {
    let mut table = [[0; 32]; 32];
    // 24 codes stand for durations. The last eight never occur.
    let mut cell = 0;
    while cell < 32 * 24 {
        let (tempo, code) = (cell / 24, cell % 24);
        let full = 384 >> (code >> 2);
        let units = match code & 3 {
            0 => full,
            1 => full * 3 / 2,
            2 => full * 7 / 4,
            _ => full * 2 / 3,
        };
        table[tempo][code] = units * unit(BEATS[tempo]);
        cell += 1;
    }
    table
}
