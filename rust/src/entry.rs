//! Table entries put together and taken apart, and the entries of a list taken
//! apart.
//!
//! A table entry is kind * 65536 + payload. A header's payload is id * 4096 +
//! loop * 256 + specifier. An instruction's is its bits after the id.
//!
//! Nothing here judges a code. The calls that take an entry do, and refuse
//! [`Kind::Code`](crate::Kind::Code).
//!
//! Part A, sounding once, with two instructions: tempo code 14, and the note A
//! as a quarter.
//!
//! ```
//! use ohakelm::entry;
//! const TABLE: [u32; 3] = [entry::header(0, 0, 2), entry::tempo(14), entry::note(10, 2, 0)];
//! assert_eq!(TABLE, [2, 262_158, 65_864]);
//! assert_eq!(entry::header_specifier(TABLE[0]), 2);
//! assert_eq!((entry::kind(TABLE[1]), entry::payload(TABLE[1])), (entry::TEMPO, 14));
//! assert_eq!((entry::kind(TABLE[2]), entry::note_value(TABLE[2])), (entry::NOTE, 10));
//! ```

// ---- Kinds.

/// The kind of a header.
pub const HEADER: u32 = 0;
/// The kind of a note or a pause.
pub const NOTE: u32 = 1;
/// The kind of a scale.
pub const SCALE: u32 = 2;
/// The kind of a style.
pub const STYLE: u32 = 3;
/// The kind of a tempo.
pub const TEMPO: u32 = 4;
/// The kind of a volume.
pub const VOLUME: u32 = 5;

// ---- An entry put together.

/// The header of a pattern. The id is 0 for A to 3 for D. A loop value of 0 to
/// 14 is one less than the soundings, and 15 is for ever. The specifier is the
/// number of instructions that follow, or 0 for a recall.
pub const fn header(id: u32, loop_value: u32, specifier: u32) -> u32 {
    of(HEADER, id * 4096 + loop_value * 256 + specifier)
}

/// A note, 1 for C to 12 for H, or a pause, 0. The duration is 0 for a full note
/// to 5 for a thirty-second. The specifier is 0 for no dot, 1 for one, 2 for two
/// and 3 for two thirds of the length.
pub const fn note(note: u32, duration: u32, specifier: u32) -> u32 {
    of(NOTE, note * 32 + duration * 4 + specifier)
}

/// A scale, 0 to 3.
pub const fn scale(code: u32) -> u32 {
    of(SCALE, code)
}

/// A style: 0 natural, 1 continuous, 2 staccato.
pub const fn style(code: u32) -> u32 {
    of(STYLE, code)
}

/// A tempo, 0 for 25 beats a minute to 31 for 900.
pub const fn tempo(code: u32) -> u32 {
    of(TEMPO, code)
}

/// A volume, 0 to 15.
pub const fn volume(code: u32) -> u32 {
    of(VOLUME, code)
}

const fn of(kind: u32, payload: u32) -> u32 {
    kind * 65536 + payload
}

// ---- An entry taken apart.

/// What an entry is: [`HEADER`], [`NOTE`] and so on.
pub const fn kind(entry: u32) -> u32 {
    entry / 65536
}

/// The payload of an entry. That of a scale, a style, a tempo or a volume is its
/// code.
pub const fn payload(entry: u32) -> u32 {
    entry % 65536
}

/// The id of a header.
pub const fn header_id(header: u32) -> u32 {
    header / 4096 % 4
}

/// The loop value of a header.
pub const fn header_loop(header: u32) -> u32 {
    header / 256 % 16
}

/// The specifier of a header.
pub const fn header_specifier(header: u32) -> u32 {
    header % 256
}

/// The note of a note instruction, 0 for a pause.
pub const fn note_value(note: u32) -> u32 {
    note / 32 % 16
}

/// The duration code of a note.
pub const fn note_duration(note: u32) -> u32 {
    note / 4 % 8
}

/// The specifier of a note.
pub const fn note_specifier(note: u32) -> u32 {
    note % 4
}

// ---- The first number of a list's entry taken apart.

/// The note of a list's entry, 0 for a pause.
pub const fn listed_note(first: u32) -> u32 {
    first / 1024
}

/// The scale of a list's entry.
pub const fn listed_scale(first: u32) -> u32 {
    first / 256 % 4
}

/// The style of a list's entry.
pub const fn listed_style(first: u32) -> u32 {
    first / 16 % 16
}

/// The volume of a list's entry.
pub const fn listed_volume(first: u32) -> u32 {
    first % 16
}

// ---- The third number of a list's entry, its origin, taken apart.

/// The position in the message of the header that sounds, counted from 0. For a
/// recall it is the recall's own.
pub const fn listed_header(origin: u32) -> u32 {
    origin / 256
}

/// The instruction's position in the body played, counted from 0.
pub const fn listed_position(origin: u32) -> u32 {
    origin % 256
}
