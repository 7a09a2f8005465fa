//! The answers of the calls, laid out as C lays them out.
//!
//! They stand in a package of their own, so that the proved library and the
//! implementations that it is compared with answer in the same form.
//! `refusal` is 0 where the call accepted. On a refusal every number after
//! `place` is 0.

#![no_std]

/// The mark of a list that has no place to return to.
pub const NO_MARK: u32 = u32::MAX;

/// How many cells of a playing list an entry takes: note and settings in one
/// number, the microseconds and the origin, which is header * 256 + position.
pub const ENTRY_CELLS: usize = 3;

/// What reading a tone answers.
#[repr(C)]
#[derive(Clone, Copy, Debug, Default, PartialEq, Eq)]
pub struct Tone {
    pub refusal: u32,
    /// The bit where the faulty element begins.
    pub place: usize,
    /// 1 basic, 2 temporary.
    pub song: u32,
    pub unicode: bool,
    /// Title characters, each of one octet, or of two under UNICODE.
    pub characters: usize,
    pub patterns: usize,
    /// Table cells that were filled.
    pub entries: usize,
}

/// What writing a tone, a pack, a bitmap, an icon or a logo answers.
#[repr(C)]
#[derive(Clone, Copy, Debug, Default, PartialEq, Eq)]
pub struct Written {
    pub refusal: u32,
    pub place: usize,
    pub octets: usize,
}

/// Which buffer supplies a label, and which stretch of it. It never refuses.
#[repr(C)]
#[derive(Clone, Copy, Debug, Default, PartialEq, Eq)]
pub struct Label {
    pub stand_in: bool,
    pub start: usize,
    pub length: usize,
}

/// What making a playing list answers.
#[repr(C)]
#[derive(Clone, Copy, Debug, Default, PartialEq, Eq)]
pub struct Listed {
    pub refusal: u32,
    pub place: usize,
    pub entries: usize,
    /// The entry to return to, or [`NO_MARK`].
    pub mark: u32,
}

/// What an edit answers.
#[repr(C)]
#[derive(Clone, Copy, Debug, Default, PartialEq, Eq)]
pub struct Edited {
    pub refusal: u32,
    pub place: usize,
    /// The new length of the message in octets.
    pub length: usize,
    pub entries: usize,
    pub mark: u32,
    /// The new length minus the old one.
    pub change: i32,
}

/// What reading a pack answers.
#[repr(C)]
#[derive(Clone, Copy, Debug, Default, PartialEq, Eq)]
pub struct Pack {
    pub refusal: u32,
    pub place: usize,
    /// How many messages there are.
    pub messages: usize,
}

/// Which stretch of a pack a message is.
#[repr(C)]
#[derive(Clone, Copy, Debug, Default, PartialEq, Eq)]
pub struct Stretch {
    pub refusal: u32,
    pub place: usize,
    pub start: usize,
    pub length: usize,
}

/// What getting the messages out of a broken pack answers.
#[repr(C)]
#[derive(Clone, Copy, Debug, Default, PartialEq, Eq)]
pub struct Salvage {
    pub refusal: u32,
    pub place: usize,
    /// How many messages were kept.
    pub messages: usize,
    /// The new pack's octets.
    pub octets: usize,
    /// Octets of the input that are in no message kept.
    pub skipped: usize,
}

/// What reading a bitmap or an icon answers. The image is a stretch of the
/// message.
#[repr(C)]
#[derive(Clone, Copy, Debug, Default, PartialEq, Eq)]
pub struct Bitmap {
    pub refusal: u32,
    pub place: usize,
    pub width: u32,
    pub height: u32,
    /// The number of black pixels.
    pub black: u32,
    pub start: usize,
    pub length: usize,
}

/// What reading an operator logo answers. The image, the two codes and the date
/// are stretches of the message.
#[repr(C)]
#[derive(Clone, Copy, Debug, Default, PartialEq, Eq)]
pub struct Logo {
    pub refusal: u32,
    pub place: usize,
    pub width: u32,
    pub height: u32,
    /// The number of black pixels.
    pub black: u32,
    pub start: usize,
    pub length: usize,
    /// The mobile country code.
    pub mcc_start: usize,
    pub mcc_length: usize,
    /// The mobile network code.
    pub mnc_start: usize,
    pub mnc_length: usize,
    /// The date until which the logo is valid.
    pub date_start: usize,
    pub date_length: usize,
}

/// One entry of a playing list, as a record.
#[repr(C)]
#[derive(Clone, Copy, Debug, Default, PartialEq, Eq)]
pub struct Entry {
    pub note: u32,
    pub scale: u32,
    pub style: u32,
    pub volume: u32,
    /// The difference of two boundaries, each the exact sum since the last restart
    /// rounded down.
    pub microseconds: u32,
    /// The position in the message of the header that sounds, counted from 0. For a
    /// recall it is the recall's own.
    pub header: u32,
    /// The instruction's position in the body played, counted from 0.
    pub position: u32,
}

#[cfg(test)]
mod tests {
    use super::*;
    use core::mem::{offset_of, size_of};

    /// The layout that C gives the same fields on x86-64 and on 64-bit Arm.
    #[test]
    fn the_layout_is_that_of_c() {
        assert_eq!(size_of::<Tone>(), 48);
        assert_eq!(offset_of!(Tone, unicode), 20);
        assert_eq!(offset_of!(Tone, entries), 40);
        assert_eq!(size_of::<Written>(), 24);
        assert_eq!(size_of::<Label>(), 24);
        assert_eq!(size_of::<Listed>(), 32);
        assert_eq!(offset_of!(Listed, mark), 24);
        assert_eq!(size_of::<Edited>(), 40);
        assert_eq!(offset_of!(Edited, change), 36);
        assert_eq!(size_of::<Pack>(), 24);
        assert_eq!(offset_of!(Pack, messages), 16);
        assert_eq!(size_of::<Stretch>(), 32);
        assert_eq!(offset_of!(Stretch, length), 24);
        assert_eq!(size_of::<Salvage>(), 40);
        assert_eq!(offset_of!(Salvage, messages), 16);
        assert_eq!(offset_of!(Salvage, skipped), 32);
        assert_eq!(size_of::<Bitmap>(), 48);
        assert_eq!(offset_of!(Bitmap, black), 24);
        assert_eq!(size_of::<Logo>(), 96);
        assert_eq!(offset_of!(Logo, black), 24);
        assert_eq!(offset_of!(Logo, start), 32);
        assert_eq!(offset_of!(Logo, mcc_start), 48);
        assert_eq!(offset_of!(Logo, mnc_start), 64);
        assert_eq!(offset_of!(Logo, date_length), 88);
        assert_eq!(size_of::<Entry>(), 28);
        assert_eq!(offset_of!(Entry, microseconds), 16);
        assert_eq!(offset_of!(Entry, header), 20);
        assert_eq!(offset_of!(Entry, position), 24);
    }
}
