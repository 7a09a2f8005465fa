//! What to lend at most. It is proved that with so much lent no call refuses 11.

use crate::ENTRY_CELLS;

/// Octets of a title: 15 characters of two.
pub const LARGEST_TITLE: usize = 30;

/// Entries of a tone's table.
pub const LARGEST_TABLE: usize = 6482;

/// Octets of a tone message.
pub const LARGEST_TONE: usize = 4096;

/// Entries of a playing list, as records: those of a part of 255 notes with 254
/// recalls, all with loop 14.
pub const LARGEST_ROWS: usize = 975_375;

/// Numbers of a playing list, [`ENTRY_CELLS`] an entry. They take 11.7 million
/// octets. Where that is too much to lend, lend what a tone is to have:
/// [`Kind::NoRoom`](crate::Kind::NoRoom) then says that one has more.
pub const LARGEST_LIST: usize = ENTRY_CELLS * LARGEST_ROWS;

/// Octets of a bitmap: four of header, and 255 rows of 31.
pub const LARGEST_BITMAP: usize = 7909;

/// Octets of an icon: the version and a bitmap.
pub const LARGEST_ICON: usize = 7910;

/// Octets of a logo: 23 ahead of its bitmap where the date has a time and a Z.
pub const LARGEST_LOGO: usize = 7932;

/// Octets of a pack.
pub const LARGEST_PACK: usize = 65_535;

/// Numbers of the report on a broken pack: three for each of 5,460 messages, and one. A
/// message has eight octets at least, so with their rows no more of them fit in a pack.
pub const LARGEST_REPORT: usize = 16_381;
