//! The exports of the library, as C sees them.
//!
//! A slice passes as a pointer and a length in elements. A lent buffer (`*mut`)
//! must overlap no other argument. `include/ohakelm.h` says what each call does.

pub use ohakelm_answers::{
    Bitmap, Edited, Entry, Label, Listed, Logo, Pack, Salvage, Stretch, Tone, Written, NO_MARK,
};

extern "C" {
    pub fn ohakelm_version() -> u32;

    pub fn ohakelm_read(
        msg: *const u8,
        msg_len: usize,
        table: *mut u32,
        table_len: usize,
        title: *mut u8,
        title_len: usize,
    ) -> Tone;

    pub fn ohakelm_write(
        song: u32,
        unicode: bool,
        title: *const u8,
        title_len: usize,
        table: *const u32,
        table_len: usize,
        out: *mut u8,
        out_len: usize,
    ) -> Written;

    pub fn ohakelm_label(
        title: *const u8,
        title_len: usize,
        unicode: bool,
        stand_in: *const u8,
        stand_in_len: usize,
    ) -> Label;

    pub fn ohakelm_list(msg: *const u8, msg_len: usize, list: *mut u32, list_len: usize) -> Listed;

    pub fn ohakelm_rows(
        msg: *const u8,
        msg_len: usize,
        list: *mut u32,
        list_len: usize,
        rows: *mut Entry,
        rows_len: usize,
    ) -> Listed;

    pub fn ohakelm_replace(
        buf: *mut u8,
        buf_len: usize,
        used: usize,
        pattern: usize,
        instruction: usize,
        entry: u32,
        list: *mut u32,
        list_len: usize,
    ) -> Edited;

    pub fn ohakelm_insert(
        buf: *mut u8,
        buf_len: usize,
        used: usize,
        pattern: usize,
        instruction: usize,
        entry: u32,
        list: *mut u32,
        list_len: usize,
    ) -> Edited;

    pub fn ohakelm_delete(
        buf: *mut u8,
        buf_len: usize,
        used: usize,
        pattern: usize,
        instruction: usize,
        list: *mut u32,
        list_len: usize,
    ) -> Edited;

    pub fn ohakelm_pack_read(pack: *const u8, pack_len: usize) -> Pack;

    pub fn ohakelm_pack_message(pack: *const u8, pack_len: usize, n: u32) -> Stretch;

    pub fn ohakelm_pack_write(
        msgs: *const u8,
        msgs_len: usize,
        lengths: *const u32,
        lengths_len: usize,
        out: *mut u8,
        out_len: usize,
    ) -> Written;

    pub fn ohakelm_pack_salvage(
        pack: *const u8,
        pack_len: usize,
        out: *mut u8,
        out_len: usize,
        report: *mut u32,
        report_len: usize,
    ) -> Salvage;

    pub fn ohakelm_bitmap_read(msg: *const u8, msg_len: usize) -> Bitmap;

    pub fn ohakelm_bitmap_write(
        width: u32,
        height: u32,
        image: *const u8,
        image_len: usize,
        out: *mut u8,
        out_len: usize,
    ) -> Written;

    pub fn ohakelm_icon_read(msg: *const u8, msg_len: usize) -> Bitmap;

    pub fn ohakelm_icon_write(
        width: u32,
        height: u32,
        image: *const u8,
        image_len: usize,
        out: *mut u8,
        out_len: usize,
    ) -> Written;

    pub fn ohakelm_logo_read(msg: *const u8, msg_len: usize) -> Logo;

    pub fn ohakelm_logo_write(
        mcc: *const u8,
        mcc_len: usize,
        mnc: *const u8,
        mnc_len: usize,
        date: *const u8,
        date_len: usize,
        width: u32,
        height: u32,
        image: *const u8,
        image_len: usize,
        out: *mut u8,
        out_len: usize,
    ) -> Written;
}
