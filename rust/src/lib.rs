//! Ringing tones and packs of them, OTA bitmaps, CLI icons and operator logos of
//! Nokia Smart Messaging 1.0.0.
//!
//! These are safe functions over a static library whose every call is proved.
//! Each takes slices and answers a `Result`. Nothing is allocated. On a refusal
//! nothing lent has changed, and on acceptance nothing beyond the part filled.
//!
//! ```
//! let message = [0x02, 0x4A, 0x3A, 0x80, 0x40, 0x00, 0x51, 0xC6, 0x90, 0x00];
//! let mut list = [0; ohakelm::ENTRY_CELLS];
//! let playing = ohakelm::list(&message, &mut list)?;
//! assert_eq!((playing.entries, playing.mark), (1, None));
//! assert_eq!(list, [10 * 1024 + 1 * 256 + 0 * 16 + 7, 480_000, 0 * 256 + 1]);
//! # Ok::<(), ohakelm::Refusal>(())
//! ```
//!
//! To play a list, go through all of it, and then for ever from the entry at its
//! mark to the end. Without a mark the tone ends with the list. The last number of
//! an entry says which instruction sounds, to light it on a screen or to edit it.
//!
//! A [`Refusal`] has a number, which [`Refusal::kind`] names, and a place. The
//! constants `LARGEST_..` say what to lend at most. The module [`entry`] puts
//! table entries together and takes them apart.

#![no_std]

use ohakelm_answers::NO_MARK;
pub use ohakelm_answers::{Entry, Label, ENTRY_CELLS};

pub mod entry;
pub mod numbers;
pub mod raw;
mod refusal;
mod room;
mod version;

pub use refusal::{Kind, Refusal};
pub use room::{
    LARGEST_BITMAP, LARGEST_ICON, LARGEST_LIST, LARGEST_LOGO, LARGEST_PACK, LARGEST_REPORT,
    LARGEST_ROWS, LARGEST_TABLE, LARGEST_TITLE, LARGEST_TONE,
};
pub use version::{version, VERSION};

/// What reading a tone tells of it.
#[derive(Clone, Copy, Debug, PartialEq, Eq)]
pub struct Tone {
    /// 1 basic, 2 temporary.
    pub song: u32,
    /// Whether a title character has two octets.
    pub unicode: bool,
    /// Title characters, each of one octet, or of two under UNICODE.
    pub characters: usize,
    /// Patterns, recalls among them.
    pub patterns: usize,
    /// Table cells that were filled.
    pub entries: usize,
}

/// What making a playing list tells of it.
#[derive(Clone, Copy, Debug, PartialEq, Eq)]
pub struct Playing {
    /// Entries that were made.
    pub entries: usize,
    /// The position of the entry to which the list returns from its end: the first
    /// one of an endless part's second pass. None where the tone ends with the list.
    pub mark: Option<u32>,
}

/// What an edit tells of the new message and its list.
#[derive(Clone, Copy, Debug, PartialEq, Eq)]
pub struct Edited {
    /// The new length in octets.
    pub length: usize,
    /// Entries of the new list.
    pub entries: usize,
    /// The position of the entry to which the new list returns, as in [`Playing`].
    pub mark: Option<u32>,
    /// The new length minus the old one.
    pub change: i32,
}

/// What getting the messages out of a broken pack tells of them.
#[derive(Clone, Copy, Debug, PartialEq, Eq)]
pub struct Salvage {
    /// Messages that were kept.
    pub messages: usize,
    /// The new pack's octets.
    pub octets: usize,
    /// Octets of the input's first 65,535 that are in no message kept.
    pub skipped: usize,
}

/// A bitmap, alone or in an icon or a logo. The image is the part of the message
/// after the bitmap's header.
#[derive(Clone, Copy, Debug, PartialEq, Eq)]
pub struct Bitmap<'a> {
    pub width: u32,
    pub height: u32,
    /// The number of black pixels.
    pub black: u32,
    /// Rows from the top, eight pixels an octet, leftmost first, 1 black.
    pub image: &'a [u8],
}

/// An operator logo. The codes and the date are parts of the message.
#[derive(Clone, Copy, Debug, PartialEq, Eq)]
pub struct Logo<'a> {
    /// The three digits of the mobile country code.
    pub mcc: &'a [u8],
    /// The two digits of the mobile network code.
    pub mnc: &'a [u8],
    /// The date until which the logo is valid: eight digits, or these, T and
    /// six digits, or all that and Z.
    pub date: &'a [u8],
    pub bitmap: Bitmap<'a>,
}

/// One change to one instruction. The new instruction is one table entry.
#[derive(Clone, Copy, Debug, PartialEq, Eq)]
pub enum Edit {
    /// Puts this one in the place of the instruction named.
    Replace(u32),
    /// Inserts before the instruction named. At the count it appends.
    Insert(u32),
    /// Takes the instruction named away.
    Delete,
}

/// Reads a tone message. Fills the front of `table` with its entries and the
/// front of `title` with its title's octets.
///
/// # Errors
///
/// Refuses 1, then 2 to 10 or 21 at the first element at fault, then 11 where
/// the table or the title has no room.
///
/// ```
/// use ohakelm::{Kind, LARGEST_TABLE, LARGEST_TITLE};
/// let message = [0x02, 0x4A, 0x3A, 0x80, 0x40, 0x00, 0x51, 0xC6, 0x90, 0x00];
/// let (mut table, mut title) = ([0; LARGEST_TABLE], [0; LARGEST_TITLE]);
/// let tone = ohakelm::read(&message, &mut table, &mut title)?;
/// assert_eq!((tone.song, tone.characters, tone.patterns), (2, 0, 1));
/// assert_eq!(table[..tone.entries], [2, 262_158, 65_864]);
///
/// // Without its last octet.
/// let cut = ohakelm::read(&message[..9], &mut table, &mut title);
/// let cut = cut.map_err(|refusal| (refusal.kind(), refusal.place));
/// assert_eq!(cut, Err((Kind::CutShort, 72)));
///
/// // A basic song whose title is a tab.
/// let message = [
///     0x02, 0x4A, 0x3A, 0x44, 0x24, 0x04, 0x00, 0x02, 0x45, 0x00, 0x00,
/// ];
/// let tab = ohakelm::read(&message, &mut table, &mut title);
/// let tab = tab.map_err(|refusal| (refusal.kind(), refusal.place));
/// assert_eq!(tab, Err((Kind::Character, 30)));
/// # Ok::<(), ohakelm::Refusal>(())
/// ```
pub fn read(message: &[u8], table: &mut [u32], title: &mut [u8]) -> Result<Tone, Refusal> {
    let answer = numbers::read(message, table, title);
    accepted(answer.refusal, answer.place)?;
    Ok(Tone {
        song: answer.song,
        unicode: answer.unicode,
        characters: answer.characters,
        patterns: answer.patterns,
        entries: answer.entries,
    })
}

/// Writes a tone message from a song type (1 basic, 2 temporary), a title and a
/// table. Fills the front of `out` with it. Answers the octets written.
///
/// # Errors
///
/// Refuses 4; 17, then 21, for the title; 6, 18, 7 and 5 for the table; then 1
/// and 11.
///
/// ```
/// use ohakelm::{entry, Kind};
/// let table = [entry::header(0, 0, 2), entry::tempo(14), entry::note(10, 2, 0)];
/// let mut out = [0; ohakelm::LARGEST_TONE];
/// let octets = ohakelm::write(2, false, &[], &table, &mut out)?;
/// assert_eq!(
///     out[..octets],
///     [0x02, 0x4A, 0x3A, 0x80, 0x40, 0x00, 0x51, 0xC6, 0x90, 0x00],
/// );
///
/// // A temporary song has no title.
/// let refused = ohakelm::write(2, false, b"Tune", &table, &mut out);
/// assert_eq!(refused.map_err(|refusal| refusal.kind()), Err(Kind::Title));
///
/// // A tab would wreck a menu line.
/// let refused = ohakelm::write(1, false, b"A\tune", &table, &mut out);
/// assert_eq!(refused.map_err(|refusal| refusal.kind()), Err(Kind::Character));
/// # Ok::<(), ohakelm::Refusal>(())
/// ```
pub fn write(
    song: u32,
    unicode: bool,
    title: &[u8],
    table: &[u32],
    out: &mut [u8],
) -> Result<usize, Refusal> {
    written(numbers::write(song, unicode, title, table, out))
}

/// The title without its trailing spaces, or the stand-in name where nothing is
/// left or the octets are odd under UNICODE. It never refuses, and takes any
/// octets, also characters that the title of a tone may not have.
///
/// ```
/// assert_eq!(ohakelm::label(b"Tune  ", false, b"No name"), b"Tune");
/// assert_eq!(ohakelm::label(b"  ", false, b"No name"), b"No name");
/// // Under UNICODE a space has two octets.
/// assert_eq!(ohakelm::label(b"\0A\0 ", true, b"No name"), b"\0A");
/// ```
pub fn label<'a>(title: &'a [u8], unicode: bool, stand_in: &'a [u8]) -> &'a [u8] {
    let answer = label_stretch(title, unicode, stand_in);
    let from = if answer.stand_in { stand_in } else { title };
    // The promise says that the stretch lies within the buffer that it names.
    &from[answer.start..answer.start + answer.length]
}

/// Which of the two buffers supplies the label, and which stretch of it. It
/// never refuses.
///
/// ```
/// let label = ohakelm::label_stretch(b"Tune  ", false, b"No name");
/// assert_eq!((label.stand_in, label.start, label.length), (false, 0, 4));
/// ```
pub fn label_stretch(title: &[u8], unicode: bool, stand_in: &[u8]) -> Label {
    numbers::label(title, unicode, stand_in)
}

/// Makes the playing list of a tone message. Fills the front of `list`,
/// [`ENTRY_CELLS`] numbers an entry: note * 1024 + scale * 256 + style * 16 +
/// volume, the duration in microseconds, and the origin.
///
/// The origin says which instruction sounds: header * 256 + position. The header is
/// the position in the message of the pattern that sounds, and the position is the
/// instruction's in the body played, both counted from 0. Settings count like notes,
/// and each pass begins at 0 again. [`edit`] takes both as they are, where the
/// pattern has a body of its own. A recall plays that of the nearest earlier pattern
/// of its id that has one, and an edit at the recall is refused 12.
///
/// Durations do not drift. A quarter is a beat, 60,000,000 / beats microseconds,
/// which may be no whole number. Counted from the last restart, the boundaries of
/// entries are the exact sums rounded down, and a duration is the difference of
/// two. So notes that are alike may differ by one microsecond. The sums restart at
/// the start of the tone, at each tempo instruction, also at one that sets the tempo
/// in force, and at the start of each pass of an endless part. Nothing else restarts
/// them. Pauses count like notes.
///
/// A part with loop 15, or recalled with it, is endless. Two passes of it are
/// listed and nothing behind them. Settings carry on from the first pass into the
/// second, and each later pass is like the second. So a player goes through the
/// list, and then for ever from the mark, which is the second pass's first entry.
/// A pass without an entry has no mark.
///
/// # Errors
///
/// Refuses 1 to 10 and 21 as [`read`] does, then 11 where the list has no room.
/// An endless part needs it for both passes.
///
/// ```
/// use ohakelm::{entry, Kind, ENTRY_CELLS};
/// let message = [0x02, 0x4A, 0x3A, 0x80, 0x40, 0x00, 0x51, 0xC6, 0x90, 0x00];
/// let mut list = [0; ENTRY_CELLS];
/// let playing = ohakelm::list(&message, &mut list)?;
/// assert_eq!((playing.entries, playing.mark), (1, None));
/// let [first, microseconds, origin] = list;
/// assert_eq!((entry::listed_note(first), microseconds), (10, 480_000));
///
/// // The note is behind a tempo, in the only pattern.
/// assert_eq!((entry::listed_header(origin), entry::listed_position(origin)), (0, 1));
///
/// // Two numbers have no room for an entry.
/// let refused = ohakelm::list(&message, &mut list[..2]);
/// assert_eq!(refused.map_err(|refusal| refusal.kind()), Err(Kind::NoRoom));
///
/// // A note and then volume 2, for ever: only the first round is loud.
/// let message = [0x02, 0x4A, 0x3A, 0x80, 0x41, 0xE0, 0x44, 0x51, 0x48, 0x00];
/// let mut list = [0; 2 * ENTRY_CELLS];
/// let playing = ohakelm::list(&message, &mut list)?;
/// assert_eq!((playing.entries, playing.mark), (2, Some(1)));
/// assert_eq!((entry::listed_volume(list[0]), entry::listed_volume(list[3])), (7, 2));
///
/// // Two quarters at 63 beats, each of 952,380 20/21 microseconds.
/// let message = [0x02, 0x4A, 0x3A, 0x80, 0x40, 0x00, 0x44, 0x50, 0x45, 0x00, 0x00];
/// ohakelm::list(&message, &mut list)?;
/// assert_eq!((list[1], list[4]), (952_380, 952_381));
/// # Ok::<(), ohakelm::Refusal>(())
/// ```
pub fn list(message: &[u8], list: &mut [u32]) -> Result<Playing, Refusal> {
    playing(numbers::list(message, list))
}

/// Makes the playing list in both forms. Fills the front of `list`,
/// [`ENTRY_CELLS`] numbers an entry, and the front of `rows`, one record an entry.
///
/// # Errors
///
/// Refuses 1 to 10 and 21 as [`read`] does, then 11 where either has no room.
///
/// ```
/// use ohakelm::{Entry, Kind, ENTRY_CELLS};
/// let message = [0x02, 0x4A, 0x3A, 0x80, 0x40, 0x00, 0x51, 0xC6, 0x90, 0x00];
/// let (mut list, mut rows) = ([0; ENTRY_CELLS], [Entry::default(); 1]);
/// let playing = ohakelm::rows(&message, &mut list, &mut rows)?;
/// assert_eq!(playing.entries, 1);
/// assert_eq!((rows[0].note, rows[0].scale, rows[0].volume), (10, 1, 7));
/// assert_eq!(rows[0].microseconds, 480_000);
/// assert_eq!((rows[0].header, rows[0].position), (0, 1));
///
/// let refused = ohakelm::rows(&message, &mut list, &mut []);
/// assert_eq!(refused.map_err(|refusal| refusal.kind()), Err(Kind::NoRoom));
/// # Ok::<(), ohakelm::Refusal>(())
/// ```
pub fn rows(message: &[u8], list: &mut [u32], rows: &mut [Entry]) -> Result<Playing, Refusal> {
    playing(numbers::rows(message, list, rows))
}

/// Changes one instruction of the message in the first `used` octets of the
/// buffer, and makes the new message's list. `pattern` and `instruction` are
/// positions from 0, such as the origin of a list's entry has them. Octets from the
/// new length up to the old one become 0. The rest of the buffer is room to grow.
///
/// # Errors
///
/// Refuses 1 to 10 and 21 as [`read`] does, then 6 for the new instruction, 12,
/// 13 or 14, 1 where the new message is too long, and 11 where the buffer or the
/// list has no room.
///
/// ```
/// use ohakelm::{entry, Edit, Kind, ENTRY_CELLS};
/// let mut buffer = [
///     0x02, 0x4A, 0x3A, 0x80, 0x40, 0x00, 0x51, 0xC6, 0x90, 0x00, 0x00,
/// ];
/// let mut list = [0; ENTRY_CELLS];
/// let scale = Edit::Insert(entry::scale(0));
/// let edited = ohakelm::edit(&mut buffer, 10, 0, 1, scale, &mut list)?;
/// assert_eq!((edited.length, edited.change), (11, 1));
/// assert_eq!(buffer[6..], [0x71, 0xC8, 0x34, 0x80, 0x00]);
/// assert_eq!(entry::listed_scale(list[0]), 0);
///
/// // The note that is listed becomes a pause.
/// let (pattern, instruction) = (entry::listed_header(list[2]), entry::listed_position(list[2]));
/// assert_eq!((pattern, instruction), (0, 2));
/// let (pattern, instruction) = (pattern as usize, instruction as usize);
/// let pause = Edit::Replace(entry::note(0, 2, 0));
/// ohakelm::edit(&mut buffer, 11, pattern, instruction, pause, &mut list)?;
/// assert_eq!(entry::listed_note(list[0]), 0);
///
/// // There is one pattern, so the position 1 has none.
/// let refused = ohakelm::edit(&mut buffer, 11, 1, 0, Edit::Delete, &mut list);
/// assert_eq!(refused.map_err(|refusal| refusal.kind()), Err(Kind::NotThere));
/// # Ok::<(), ohakelm::Refusal>(())
/// ```
pub fn edit(
    buffer: &mut [u8],
    used: usize,
    pattern: usize,
    instruction: usize,
    edit: Edit,
    list: &mut [u32],
) -> Result<Edited, Refusal> {
    let answer = match edit {
        Edit::Replace(entry) => numbers::replace(buffer, used, pattern, instruction, entry, list),
        Edit::Insert(entry) => numbers::insert(buffer, used, pattern, instruction, entry, list),
        Edit::Delete => numbers::delete(buffer, used, pattern, instruction, list),
    };
    accepted(answer.refusal, answer.place)?;
    Ok(Edited {
        length: answer.length,
        entries: answer.entries,
        mark: mark(answer.mark),
        change: answer.change,
    })
}

/// Reads a pack, its messages too. Answers how many messages there are.
///
/// A pack has tone messages back to back from octet 0. Behind them is a row for each
/// message, in the same order: two octets of start and two of length. Then two octets
/// say how many messages there are, and the last two where the first row starts. All
/// numbers have the high octet first. The pack without a message is four octets of 0.
///
/// # Errors
///
/// Refuses 1 above 65,535 octets, 2 below four, 26 where the first row's start, four
/// octets a row and the last four do not add up to the pack, and 27 where a row does
/// not continue the one before. The first row starts at 0, and the last one ends where
/// the rows begin; without rows that is 0. Then it refuses 1 to 10 and 21 as [`read`]
/// does, for the first message at fault. Its place is counted from the pack's first
/// bit.
///
/// ```
/// use ohakelm::Kind;
/// let pack = [
///     0x02, 0x4A, 0x3A, 0x80, 0x40, 0x00, 0x51, 0xC6, 0x90, 0x00, // a tone of 10 octets,
///     0x02, 0x4A, 0x3A, 0x80, 0x40, 0x00, 0x26, 0x90, 0x00, // and one of 9
///     0, 0, 0, 10, 0, 10, 0, 9, // their rows
///     0, 2, 0, 19, // two of them, the rows from octet 19 on
/// ];
/// assert_eq!(ohakelm::read_pack(&pack), Ok(2));
/// assert_eq!(ohakelm::read_pack(&[0; 4]), Ok(0));
///
/// // The end octet of the second tone, at octet 18, is not 00.
/// let mut other = pack;
/// other[18] = 1;
/// let refused = ohakelm::read_pack(&other).map_err(|refusal| (refusal.kind(), refusal.place));
/// assert_eq!(refused, Err((Kind::EndOctet, 8 * 18)));
///
/// // The second row starts one octet late.
/// other[24] = 11;
/// let refused = ohakelm::read_pack(&other).map_err(|refusal| (refusal.kind(), refusal.place));
/// assert_eq!(refused, Err((Kind::PackRows, 0)));
/// ```
pub fn read_pack(pack: &[u8]) -> Result<usize, Refusal> {
    let answer = numbers::pack_read(pack);
    accepted(answer.refusal, answer.place)?;
    Ok(answer.messages)
}

/// The message `n` of a pack, counted from 0, as a part of the pack.
///
/// Each call judges the whole pack. To go through all messages, read the pack once with
/// [`read_pack`] and go along its rows: it is proved that in a pack that was accepted
/// the row `n`, which is four octets at the first row's start + 4 * n, has the start
/// and the length of what this call hands back.
///
/// # Errors
///
/// Refuses as [`read_pack`] does, and then 12 where there is no such message.
///
/// ```
/// use ohakelm::Kind;
/// let pack = [
///     0x02, 0x4A, 0x3A, 0x80, 0x40, 0x00, 0x51, 0xC6, 0x90, 0x00, // a tone of 10 octets,
///     0x02, 0x4A, 0x3A, 0x80, 0x40, 0x00, 0x26, 0x90, 0x00, // and one of 9
///     0, 0, 0, 10, 0, 10, 0, 9, // their rows
///     0, 2, 0, 19, // two of them, the rows from octet 19 on
/// ];
/// assert_eq!(ohakelm::pack_message(&pack, 1)?, &pack[10..19]);
/// let refused = ohakelm::pack_message(&pack, 2);
/// assert_eq!(refused.map_err(|refusal| refusal.kind()), Err(Kind::NotThere));
///
/// // All of them, by the rows.
/// assert_eq!(ohakelm::read_pack(&pack)?, 2);
/// let number = |at: usize| usize::from(u16::from_be_bytes([pack[at], pack[at + 1]]));
/// let first_row = number(pack.len() - 2);
/// for n in 0..2 {
///     let (start, length) = (number(first_row + 4 * n), number(first_row + 4 * n + 2));
///     let message = &pack[start..start + length];
///     assert_eq!(ohakelm::pack_message(&pack, n as u32)?, message);
/// }
/// # Ok::<(), ohakelm::Refusal>(())
/// ```
pub fn pack_message(pack: &[u8], n: u32) -> Result<&[u8], Refusal> {
    let answer = numbers::pack_message(pack, n);
    accepted(answer.refusal, answer.place)?;
    // The promise says that the stretch lies within the pack.
    Ok(&pack[answer.start..answer.start + answer.length])
}

/// Writes a pack from its messages, back to back, and their lengths in octets. Fills
/// the front of `out` with it. Answers the octets written.
///
/// # Errors
///
/// Refuses 1 where the octets, four for each length and four more are above 65,535; 27
/// where the lengths do not add up to the octets; 1 to 10 and 21 as [`read`] does, for
/// the first message at fault, at the place that it would have in the pack; then 11.
///
/// ```
/// use ohakelm::Kind;
/// let messages = [
///     0x02, 0x4A, 0x3A, 0x80, 0x40, 0x00, 0x51, 0xC6, 0x90, 0x00, // a tone of 10 octets,
///     0x02, 0x4A, 0x3A, 0x80, 0x40, 0x00, 0x26, 0x90, 0x00, // and one of 9
/// ];
/// let mut out = [0; 31];
/// assert_eq!(ohakelm::write_pack(&messages, &[10, 9], &mut out), Ok(31));
/// assert_eq!(out[..19], messages);
/// assert_eq!(out[19..], [0, 0, 0, 10, 0, 10, 0, 9, 0, 2, 0, 19]);
///
/// let refused = ohakelm::write_pack(&messages, &[10, 10], &mut out);
/// assert_eq!(refused.map_err(|refusal| refusal.kind()), Err(Kind::PackRows));
/// let refused = ohakelm::write_pack(&messages, &[10, 9], &mut out[1..]);
/// assert_eq!(refused.map_err(|refusal| refusal.kind()), Err(Kind::NoRoom));
/// ```
pub fn write_pack(messages: &[u8], lengths: &[u32], out: &mut [u8]) -> Result<usize, Refusal> {
    written(numbers::pack_write(messages, lengths, out))
}

/// Gets the messages out of a broken pack. Fills the front of `out` with a new pack of
/// them, and the front of `report` with where they were.
///
/// From octet 0: where a whole message starts, with its end octet, and is well formed, it
/// is kept, and it goes on behind it. Else one octet is skipped. Only the first 65,535
/// octets count, and a message that runs past them is not whole.
///
/// The report has three numbers for each message: its start in `pack`, its start in the
/// new pack, and its length. The number behind the last message's is the octets skipped.
/// [`LARGEST_PACK`] octets and [`LARGEST_REPORT`] numbers are always enough.
///
/// Nothing but the messages is looked at, so any octets will do. Those of a pack's own
/// rows count as skipped, but for some that happen to be a message: there may be more
/// messages in the new pack than in the one that was broken. The messages of a sound pack
/// are the first ones kept.
///
/// # Errors
///
/// Refuses 1 where the new pack has more than 65,535 octets, and then 11 where `out` or
/// `report` is too small.
///
/// ```
/// use ohakelm::{Kind, Salvage};
/// let broken = [
///     0x02, 0x4A, 0x3A, 0x80, 0x40, 0x00, 0x51, 0xC6, 0x90, 0x01, // its end octet is not 00
///     0x02, 0x4A, 0x3A, 0x80, 0x40, 0x00, 0x26, 0x90, 0x00, // a tone of 9 octets
///     0, 0, 0, 10, 0, // the rows were cut
/// ];
/// let (mut out, mut report) = ([0; 17], [0; 4]);
/// let salvage = ohakelm::salvage_pack(&broken, &mut out, &mut report)?;
/// assert_eq!(salvage, Salvage { messages: 1, octets: 17, skipped: 15 });
/// assert_eq!(out[..9], broken[10..19]);
/// assert_eq!(out[9..], [0, 0, 0, 9, 0, 1, 0, 9]);
/// assert_eq!(report, [10, 0, 9, 15]);
/// assert_eq!(ohakelm::read_pack(&out), Ok(1));
///
/// let refused = ohakelm::salvage_pack(&broken, &mut out, &mut report[1..]);
/// assert_eq!(refused.map_err(|refusal| refusal.kind()), Err(Kind::NoRoom));
/// # Ok::<(), ohakelm::Refusal>(())
/// ```
pub fn salvage_pack(pack: &[u8], out: &mut [u8], report: &mut [u32]) -> Result<Salvage, Refusal> {
    let answer = numbers::pack_salvage(pack, out, report);
    accepted(answer.refusal, answer.place)?;
    Ok(Salvage {
        messages: answer.messages,
        octets: answer.octets,
        skipped: answer.skipped,
    })
}

/// Reads a bitmap. The image is handed back as a part of the message.
///
/// # Errors
///
/// Refuses 2, 15 and 16.
///
/// ```
/// use ohakelm::Kind;
/// let message = [0x00, 8, 2, 0x01, 0xFF, 0x01];
/// let bitmap = ohakelm::read_bitmap(&message)?;
/// assert_eq!((bitmap.width, bitmap.height, bitmap.black), (8, 2, 9));
/// assert_eq!(bitmap.image, [0xFF, 0x01]);
///
/// let refused = ohakelm::read_bitmap(&message[..5]);
/// assert_eq!(refused.map_err(|refusal| refusal.kind()), Err(Kind::ImageLength));
/// # Ok::<(), ohakelm::Refusal>(())
/// ```
pub fn read_bitmap(message: &[u8]) -> Result<Bitmap<'_>, Refusal> {
    bitmap(message, numbers::bitmap_read(message))
}

/// Writes a bitmap from its sizes and image. Fills the front of `out` with it.
/// Answers the octets written.
///
/// # Errors
///
/// Refuses 15, 16 and 11.
///
/// ```
/// use ohakelm::Kind;
/// let mut out = [0; 6];
/// assert_eq!(ohakelm::write_bitmap(8, 2, &[0xFF, 0x01], &mut out), Ok(6));
/// assert_eq!(out, [0x00, 8, 2, 0x01, 0xFF, 0x01]);
///
/// // A width is a multiple of 8.
/// let refused = ohakelm::write_bitmap(9, 2, &[0xFF, 0x01], &mut out);
/// assert_eq!(refused.map_err(|refusal| refusal.kind()), Err(Kind::BitmapHeader));
/// ```
pub fn write_bitmap(
    width: u32,
    height: u32,
    image: &[u8],
    out: &mut [u8],
) -> Result<usize, Refusal> {
    written(numbers::bitmap_write(width, height, image, out))
}

/// Reads an icon. The image is handed back as a part of the message.
///
/// # Errors
///
/// Refuses 2, 20, 15 and 16.
///
/// ```
/// use ohakelm::Kind;
/// let message = [b'0', 0x00, 8, 2, 0x01, 0xFF, 0x01];
/// let bitmap = ohakelm::read_icon(&message)?;
/// assert_eq!((bitmap.width, bitmap.height, bitmap.black), (8, 2, 9));
/// assert_eq!(bitmap.image, [0xFF, 0x01]);
///
/// // Without its version it is a bitmap.
/// let refused = ohakelm::read_icon(&message[1..]);
/// assert_eq!(refused.map_err(|refusal| refusal.kind()), Err(Kind::Ahead));
/// # Ok::<(), ohakelm::Refusal>(())
/// ```
pub fn read_icon(message: &[u8]) -> Result<Bitmap<'_>, Refusal> {
    bitmap(message, numbers::icon_read(message))
}

/// Writes an icon from its sizes and image. Fills the front of `out` with it.
/// Answers the octets written.
///
/// # Errors
///
/// Refuses 15, 16 and 11.
///
/// ```
/// use ohakelm::Kind;
/// let mut out = [0; 7];
/// assert_eq!(ohakelm::write_icon(8, 2, &[0xFF, 0x01], &mut out), Ok(7));
/// assert_eq!(out, [b'0', 0x00, 8, 2, 0x01, 0xFF, 0x01]);
///
/// let refused = ohakelm::write_icon(8, 2, &[0xFF, 0x01], &mut out[1..]);
/// assert_eq!(refused.map_err(|refusal| refusal.kind()), Err(Kind::NoRoom));
/// ```
pub fn write_icon(width: u32, height: u32, image: &[u8], out: &mut [u8]) -> Result<usize, Refusal> {
    written(numbers::icon_write(width, height, image, out))
}

/// Reads a logo. Codes, date and image are handed back as parts of the message.
///
/// # Errors
///
/// Refuses 2, 20, 15 and 16.
///
/// ```
/// use ohakelm::Kind;
/// let message = b"02440519991231\n\x00\x08\x02\x01\xFF\x01";
/// let logo = ohakelm::read_logo(message)?;
/// assert_eq!((logo.mcc, logo.mnc), (&b"244"[..], &b"05"[..]));
/// assert_eq!(logo.date, b"19991231");
/// assert_eq!((logo.bitmap.width, logo.bitmap.image), (8, &[0xFF, 0x01][..]));
///
/// // The end of the line is not a line feed.
/// let refused = ohakelm::read_logo(b"02440519991231\r\x00\x08\x02\x01\xFF\x01");
/// assert_eq!(refused.map_err(|refusal| refusal.kind()), Err(Kind::Ahead));
/// # Ok::<(), ohakelm::Refusal>(())
/// ```
pub fn read_logo(message: &[u8]) -> Result<Logo<'_>, Refusal> {
    let answer = numbers::logo_read(message);
    accepted(answer.refusal, answer.place)?;
    // The promise says that the stretches lie within the message.
    let stretch = |start: usize, length: usize| &message[start..start + length];
    Ok(Logo {
        mcc: stretch(answer.mcc_start, answer.mcc_length),
        mnc: stretch(answer.mnc_start, answer.mnc_length),
        date: stretch(answer.date_start, answer.date_length),
        bitmap: Bitmap {
            width: answer.width,
            height: answer.height,
            black: answer.black,
            image: stretch(answer.start, answer.length),
        },
    })
}

/// Writes a logo from its codes, date, sizes and image. Fills the front of `out`
/// with it. Answers the octets written.
///
/// # Errors
///
/// Refuses 20, 15, 16 and 11.
///
/// ```
/// use ohakelm::Kind;
/// let (image, mut out) = ([0xFF, 0x01], [0; 21]);
/// let octets = ohakelm::write_logo(b"244", b"05", b"19991231", 8, 2, &image, &mut out)?;
/// assert_eq!(out[..octets], *b"02440519991231\n\x00\x08\x02\x01\xFF\x01");
///
/// // A network code of three digits.
/// let refused = ohakelm::write_logo(b"244", b"051", b"19991231", 8, 2, &image, &mut out);
/// assert_eq!(refused.map_err(|refusal| refusal.kind()), Err(Kind::Ahead));
/// # Ok::<(), ohakelm::Refusal>(())
/// ```
pub fn write_logo(
    mcc: &[u8],
    mnc: &[u8],
    date: &[u8],
    width: u32,
    height: u32,
    image: &[u8],
    out: &mut [u8],
) -> Result<usize, Refusal> {
    let answer = numbers::logo_write(mcc, mnc, date, width, height, image, out);
    written(answer)
}

fn accepted(number: u32, place: usize) -> Result<(), Refusal> {
    if number == 0 {
        Ok(())
    } else {
        Err(Refusal { number, place })
    }
}

fn written(answer: raw::Written) -> Result<usize, Refusal> {
    accepted(answer.refusal, answer.place)?;
    Ok(answer.octets)
}

fn bitmap(message: &[u8], answer: raw::Bitmap) -> Result<Bitmap<'_>, Refusal> {
    accepted(answer.refusal, answer.place)?;
    Ok(Bitmap {
        width: answer.width,
        height: answer.height,
        black: answer.black,
        // The promise says that the stretch lies within the message.
        image: &message[answer.start..answer.start + answer.length],
    })
}

fn playing(answer: raw::Listed) -> Result<Playing, Refusal> {
    accepted(answer.refusal, answer.place)?;
    Ok(Playing {
        entries: answer.entries,
        mark: mark(answer.mark),
    })
}

fn mark(number: u32) -> Option<u32> {
    if number == NO_MARK {
        None
    } else {
        Some(number)
    }
}
