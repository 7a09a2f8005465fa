//! The rules once more, slow and obvious, to hold the proved library against.
//!
//! It was written from the rules and not from the proved code, in another
//! shape on purpose. A message is taken apart bit by bit, the bits become a tone,
//! and each answer is worked out from the tone. An edit changes the tone and
//! writes it afresh. It allocates freely and is in no hurry.

mod bitmap;
mod bits;
mod editing;
mod kinds;
mod packs;
mod playing;
mod reading;
mod salvage;
mod table;
mod tone;

pub use bitmap::{bitmap_read, bitmap_write};
pub use editing::{delete, insert, replace};
pub use kinds::{icon_read, icon_write, logo_read, logo_write};
pub use packs::{pack_message, pack_read, pack_write};
pub use playing::{list, rows};
pub use reading::{label, read};
pub use salvage::pack_salvage;
pub use table::write;

use ohakelm_answers::Written;

/// A tone message has at most this many octets.
const LARGEST_TONE: usize = 4096;

/// A refusal's number and the bit place that goes with it.
#[derive(Clone, Copy, Debug, PartialEq, Eq)]
struct Refusal {
    number: u32,
    place: usize,
}

/// A refusal that has no place in a tone message.
fn refuse<T>(number: u32) -> Result<T, Refusal> {
    refuse_at(number, 0)
}

fn refuse_at<T>(number: u32, place: usize) -> Result<T, Refusal> {
    Err(Refusal { number, place })
}

/// The answer of a call that writes.
fn written_answer(written: Result<usize, Refusal>) -> Written {
    match written {
        Ok(octets) => Written {
            refusal: 0,
            place: 0,
            octets,
        },
        Err(refusal) => Written {
            refusal: refusal.number,
            place: refusal.place,
            octets: 0,
        },
    }
}

/// Copies to the front of a lent buffer. The rest keeps what it had.
fn put_first<T: Copy>(from: &[T], lent: &mut [T]) {
    lent[..from.len()].copy_from_slice(from);
}
