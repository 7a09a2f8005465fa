//! The rules in plain Rust, written for speed. The benchmark measures the
//! proved library against it, and the tests compare its every answer.
//!
//! A message is judged in one pass and its outputs are filled in another, so
//! that a refusal changes nothing. Bits are read through windows of eight
//! octets, four instructions to a window. All of it is safe Rust. Nothing is
//! allocated but the rows of a broken pack, of which it is not known ahead how
//! many there are.

#![forbid(unsafe_code)]

mod bitmap;
mod codes;
mod edit;
mod judge;
mod kinds;
mod list;
mod packs;
mod read;
mod salvage;
mod title;
mod window;
mod within;
mod write;

pub use bitmap::{bitmap_read, bitmap_write};
pub use edit::{delete, insert, replace};
pub use kinds::{icon_read, icon_write, logo_read, logo_write};
pub use list::{list, list_by_copying, rows};
pub use packs::{pack_message, pack_read, pack_read_by_branches, pack_write};
pub use read::{label, read};
pub use salvage::pack_salvage;
pub use write::write;
