//! The exports over slices. Each answers the rules' numbers as they are, 0 for
//! no refusal.

// SAFETY, for all of them: each pointer and length is a live slice's, and the
// borrows keep the lent ones apart from all others. `Entry` has C's layout.

use ohakelm_answers::{Bitmap, Edited, Entry, Label, Listed, Logo};
use ohakelm_answers::{Pack, Salvage, Stretch, Tone, Written};

use crate::raw;

#[inline(always)]
pub fn version() -> u32 {
    unsafe { raw::ohakelm_version() }
}

#[inline(always)]
pub fn read(message: &[u8], table: &mut [u32], title: &mut [u8]) -> Tone {
    unsafe {
        raw::ohakelm_read(
            message.as_ptr(),
            message.len(),
            table.as_mut_ptr(),
            table.len(),
            title.as_mut_ptr(),
            title.len(),
        )
    }
}

#[inline(always)]
pub fn write(song: u32, unicode: bool, title: &[u8], table: &[u32], out: &mut [u8]) -> Written {
    unsafe {
        raw::ohakelm_write(
            song,
            unicode,
            title.as_ptr(),
            title.len(),
            table.as_ptr(),
            table.len(),
            out.as_mut_ptr(),
            out.len(),
        )
    }
}

#[inline(always)]
pub fn label(title: &[u8], unicode: bool, stand_in: &[u8]) -> Label {
    unsafe {
        raw::ohakelm_label(
            title.as_ptr(),
            title.len(),
            unicode,
            stand_in.as_ptr(),
            stand_in.len(),
        )
    }
}

#[inline(always)]
pub fn list(message: &[u8], list: &mut [u32]) -> Listed {
    unsafe {
        raw::ohakelm_list(
            message.as_ptr(),
            message.len(),
            list.as_mut_ptr(),
            list.len(),
        )
    }
}

#[inline(always)]
pub fn rows(message: &[u8], list: &mut [u32], rows: &mut [Entry]) -> Listed {
    unsafe {
        raw::ohakelm_rows(
            message.as_ptr(),
            message.len(),
            list.as_mut_ptr(),
            list.len(),
            rows.as_mut_ptr(),
            rows.len(),
        )
    }
}

#[inline(always)]
pub fn replace(
    buffer: &mut [u8],
    used: usize,
    pattern: usize,
    instruction: usize,
    entry: u32,
    list: &mut [u32],
) -> Edited {
    unsafe {
        raw::ohakelm_replace(
            buffer.as_mut_ptr(),
            buffer.len(),
            used,
            pattern,
            instruction,
            entry,
            list.as_mut_ptr(),
            list.len(),
        )
    }
}

#[inline(always)]
pub fn insert(
    buffer: &mut [u8],
    used: usize,
    pattern: usize,
    instruction: usize,
    entry: u32,
    list: &mut [u32],
) -> Edited {
    unsafe {
        raw::ohakelm_insert(
            buffer.as_mut_ptr(),
            buffer.len(),
            used,
            pattern,
            instruction,
            entry,
            list.as_mut_ptr(),
            list.len(),
        )
    }
}

#[inline(always)]
pub fn delete(
    buffer: &mut [u8],
    used: usize,
    pattern: usize,
    instruction: usize,
    list: &mut [u32],
) -> Edited {
    unsafe {
        raw::ohakelm_delete(
            buffer.as_mut_ptr(),
            buffer.len(),
            used,
            pattern,
            instruction,
            list.as_mut_ptr(),
            list.len(),
        )
    }
}

#[inline(always)]
pub fn pack_read(pack: &[u8]) -> Pack {
    unsafe { raw::ohakelm_pack_read(pack.as_ptr(), pack.len()) }
}

#[inline(always)]
pub fn pack_message(pack: &[u8], n: u32) -> Stretch {
    unsafe { raw::ohakelm_pack_message(pack.as_ptr(), pack.len(), n) }
}

#[inline(always)]
pub fn pack_write(messages: &[u8], lengths: &[u32], out: &mut [u8]) -> Written {
    unsafe {
        raw::ohakelm_pack_write(
            messages.as_ptr(),
            messages.len(),
            lengths.as_ptr(),
            lengths.len(),
            out.as_mut_ptr(),
            out.len(),
        )
    }
}

#[inline(always)]
pub fn pack_salvage(pack: &[u8], out: &mut [u8], report: &mut [u32]) -> Salvage {
    unsafe {
        raw::ohakelm_pack_salvage(
            pack.as_ptr(),
            pack.len(),
            out.as_mut_ptr(),
            out.len(),
            report.as_mut_ptr(),
            report.len(),
        )
    }
}

#[inline(always)]
pub fn bitmap_read(message: &[u8]) -> Bitmap {
    unsafe { raw::ohakelm_bitmap_read(message.as_ptr(), message.len()) }
}

#[inline(always)]
pub fn bitmap_write(width: u32, height: u32, image: &[u8], out: &mut [u8]) -> Written {
    unsafe {
        raw::ohakelm_bitmap_write(
            width,
            height,
            image.as_ptr(),
            image.len(),
            out.as_mut_ptr(),
            out.len(),
        )
    }
}

#[inline(always)]
pub fn icon_read(message: &[u8]) -> Bitmap {
    unsafe { raw::ohakelm_icon_read(message.as_ptr(), message.len()) }
}

#[inline(always)]
pub fn icon_write(width: u32, height: u32, image: &[u8], out: &mut [u8]) -> Written {
    unsafe {
        raw::ohakelm_icon_write(
            width,
            height,
            image.as_ptr(),
            image.len(),
            out.as_mut_ptr(),
            out.len(),
        )
    }
}

#[inline(always)]
pub fn logo_read(message: &[u8]) -> Logo {
    unsafe { raw::ohakelm_logo_read(message.as_ptr(), message.len()) }
}

#[inline(always)]
pub fn logo_write(
    mcc: &[u8],
    mnc: &[u8],
    date: &[u8],
    width: u32,
    height: u32,
    image: &[u8],
    out: &mut [u8],
) -> Written {
    unsafe {
        raw::ohakelm_logo_write(
            mcc.as_ptr(),
            mcc.len(),
            mnc.as_ptr(),
            mnc.len(),
            date.as_ptr(),
            date.len(),
            width,
            height,
            image.as_ptr(),
            image.len(),
            out.as_mut_ptr(),
            out.len(),
        )
    }
}
