//! The obvious implementation behind C names, `guide_` for `ohakelm_`.
//!
//! The fuzz target compares the proved library with it. It is built with
//! coverage counters, so it also leads the fuzzer through the rules: it takes
//! another branch for each of them.

use std::slice::{from_raw_parts, from_raw_parts_mut};

use ohakelm_answers::{Bitmap, Edited, Entry, Label, Listed, Logo};
use ohakelm_answers::{Pack, Salvage, Stretch, Tone, Written};
use ohakelm_reference as reference;

/// # Safety
/// Each pointer is not null and has so many elements behind it. Lent ones
/// overlap nothing else. This holds of all functions here.
#[no_mangle]
pub unsafe extern "C" fn guide_read(
    msg: *const u8,
    msg_len: usize,
    table: *mut u32,
    table_len: usize,
    title: *mut u8,
    title_len: usize,
) -> Tone {
    reference::read(
        from_raw_parts(msg, msg_len),
        from_raw_parts_mut(table, table_len),
        from_raw_parts_mut(title, title_len),
    )
}

/// # Safety
/// As `guide_read`.
#[no_mangle]
pub unsafe extern "C" fn guide_write(
    song: u32,
    unicode: bool,
    title: *const u8,
    title_len: usize,
    table: *const u32,
    table_len: usize,
    out: *mut u8,
    out_len: usize,
) -> Written {
    reference::write(
        song,
        unicode,
        from_raw_parts(title, title_len),
        from_raw_parts(table, table_len),
        from_raw_parts_mut(out, out_len),
    )
}

/// # Safety
/// As `guide_read`.
#[no_mangle]
pub unsafe extern "C" fn guide_label(
    title: *const u8,
    title_len: usize,
    unicode: bool,
    stand_in: *const u8,
    stand_in_len: usize,
) -> Label {
    reference::label(
        from_raw_parts(title, title_len),
        unicode,
        from_raw_parts(stand_in, stand_in_len),
    )
}

/// # Safety
/// As `guide_read`.
#[no_mangle]
pub unsafe extern "C" fn guide_list(
    msg: *const u8,
    msg_len: usize,
    list: *mut u32,
    list_len: usize,
) -> Listed {
    reference::list(
        from_raw_parts(msg, msg_len),
        from_raw_parts_mut(list, list_len),
    )
}

/// # Safety
/// As `guide_read`.
#[no_mangle]
pub unsafe extern "C" fn guide_rows(
    msg: *const u8,
    msg_len: usize,
    list: *mut u32,
    list_len: usize,
    rows: *mut Entry,
    rows_len: usize,
) -> Listed {
    reference::rows(
        from_raw_parts(msg, msg_len),
        from_raw_parts_mut(list, list_len),
        from_raw_parts_mut(rows, rows_len),
    )
}

/// # Safety
/// As `guide_read`.
#[no_mangle]
pub unsafe extern "C" fn guide_replace(
    buf: *mut u8,
    buf_len: usize,
    used: usize,
    pattern: usize,
    instruction: usize,
    entry: u32,
    list: *mut u32,
    list_len: usize,
) -> Edited {
    reference::replace(
        from_raw_parts_mut(buf, buf_len),
        used,
        pattern,
        instruction,
        entry,
        from_raw_parts_mut(list, list_len),
    )
}

/// # Safety
/// As `guide_read`.
#[no_mangle]
pub unsafe extern "C" fn guide_insert(
    buf: *mut u8,
    buf_len: usize,
    used: usize,
    pattern: usize,
    instruction: usize,
    entry: u32,
    list: *mut u32,
    list_len: usize,
) -> Edited {
    reference::insert(
        from_raw_parts_mut(buf, buf_len),
        used,
        pattern,
        instruction,
        entry,
        from_raw_parts_mut(list, list_len),
    )
}

/// # Safety
/// As `guide_read`.
#[no_mangle]
pub unsafe extern "C" fn guide_delete(
    buf: *mut u8,
    buf_len: usize,
    used: usize,
    pattern: usize,
    instruction: usize,
    list: *mut u32,
    list_len: usize,
) -> Edited {
    reference::delete(
        from_raw_parts_mut(buf, buf_len),
        used,
        pattern,
        instruction,
        from_raw_parts_mut(list, list_len),
    )
}

/// # Safety
/// As `guide_read`.
#[no_mangle]
pub unsafe extern "C" fn guide_pack_read(pack: *const u8, pack_len: usize) -> Pack {
    reference::pack_read(from_raw_parts(pack, pack_len))
}

/// # Safety
/// As `guide_read`.
#[no_mangle]
pub unsafe extern "C" fn guide_pack_message(pack: *const u8, pack_len: usize, n: u32) -> Stretch {
    reference::pack_message(from_raw_parts(pack, pack_len), n)
}

/// # Safety
/// As `guide_read`.
#[no_mangle]
pub unsafe extern "C" fn guide_pack_write(
    msgs: *const u8,
    msgs_len: usize,
    lengths: *const u32,
    lengths_len: usize,
    out: *mut u8,
    out_len: usize,
) -> Written {
    reference::pack_write(
        from_raw_parts(msgs, msgs_len),
        from_raw_parts(lengths, lengths_len),
        from_raw_parts_mut(out, out_len),
    )
}

/// # Safety
/// As `guide_read`.
#[no_mangle]
pub unsafe extern "C" fn guide_pack_salvage(
    pack: *const u8,
    pack_len: usize,
    out: *mut u8,
    out_len: usize,
    report: *mut u32,
    report_len: usize,
) -> Salvage {
    reference::pack_salvage(
        from_raw_parts(pack, pack_len),
        from_raw_parts_mut(out, out_len),
        from_raw_parts_mut(report, report_len),
    )
}

/// # Safety
/// As `guide_read`.
#[no_mangle]
pub unsafe extern "C" fn guide_bitmap_read(msg: *const u8, msg_len: usize) -> Bitmap {
    reference::bitmap_read(from_raw_parts(msg, msg_len))
}

/// # Safety
/// As `guide_read`.
#[no_mangle]
pub unsafe extern "C" fn guide_bitmap_write(
    width: u32,
    height: u32,
    image: *const u8,
    image_len: usize,
    out: *mut u8,
    out_len: usize,
) -> Written {
    reference::bitmap_write(
        width,
        height,
        from_raw_parts(image, image_len),
        from_raw_parts_mut(out, out_len),
    )
}

/// # Safety
/// As `guide_read`.
#[no_mangle]
pub unsafe extern "C" fn guide_icon_read(msg: *const u8, msg_len: usize) -> Bitmap {
    reference::icon_read(from_raw_parts(msg, msg_len))
}

/// # Safety
/// As `guide_read`.
#[no_mangle]
pub unsafe extern "C" fn guide_icon_write(
    width: u32,
    height: u32,
    image: *const u8,
    image_len: usize,
    out: *mut u8,
    out_len: usize,
) -> Written {
    reference::icon_write(
        width,
        height,
        from_raw_parts(image, image_len),
        from_raw_parts_mut(out, out_len),
    )
}

/// # Safety
/// As `guide_read`.
#[no_mangle]
pub unsafe extern "C" fn guide_logo_read(msg: *const u8, msg_len: usize) -> Logo {
    reference::logo_read(from_raw_parts(msg, msg_len))
}

/// # Safety
/// As `guide_read`.
#[no_mangle]
pub unsafe extern "C" fn guide_logo_write(
    mcc: *const u8,
    mcc_len: usize,
    mnc: *const u8,
    mnc_len: usize,
    date: *const u8,
    date_len: usize,
    width: u32,
    height: u32,
    image: *const u8,
    image_len: usize,
    out: *mut u8,
    out_len: usize,
) -> Written {
    reference::logo_write(
        from_raw_parts(mcc, mcc_len),
        from_raw_parts(mnc, mnc_len),
        from_raw_parts(date, date_len),
        width,
        height,
        from_raw_parts(image, image_len),
        from_raw_parts_mut(out, out_len),
    )
}
