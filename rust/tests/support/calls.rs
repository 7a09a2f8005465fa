//! Every export that has buffers, by its pointers and numbers.
//!
//! A case is a call with all that it takes. Its inputs are only read, so that
//! several may run on one case at once. What it lends is copied for each run.

use ohakelm::raw;
use ohakelm_answers::{Bitmap, Edited, Entry, Label, Listed, Logo};
use ohakelm_answers::{Pack, Salvage, Stretch, Tone, Written};

use super::codecs::{Edit, Spot};
use super::lent::Lent;

#[derive(Clone, Copy, Debug, PartialEq, Eq)]
pub enum Call {
    Read,
    Write { song: u32, unicode: bool },
    Label { unicode: bool },
    List,
    Rows,
    Edit(Spot, Edit),
    PackRead,
    PackMessage { n: u32 },
    PackWrite,
    PackSalvage,
    BitmapRead,
    BitmapWrite { width: u32, height: u32 },
    IconRead,
    IconWrite { width: u32, height: u32 },
    LogoRead,
    LogoWrite { width: u32, height: u32 },
}

/// The exports and how many buffers each has.
pub const BUFFERS: [(&str, usize); 18] = [
    ("bitmap_read", 1),
    ("bitmap_write", 2),
    ("delete", 2),
    ("icon_read", 1),
    ("icon_write", 2),
    ("insert", 2),
    ("label", 2),
    ("list", 2),
    ("logo_read", 1),
    ("logo_write", 5),
    ("pack_message", 1),
    ("pack_read", 1),
    ("pack_salvage", 3),
    ("pack_write", 3),
    ("read", 3),
    ("replace", 2),
    ("rows", 3),
    ("write", 3),
];

impl Call {
    pub fn name(self) -> &'static str {
        match self {
            Call::Read => "read",
            Call::Write { .. } => "write",
            Call::Label { .. } => "label",
            Call::List => "list",
            Call::Rows => "rows",
            Call::Edit(_, edit) => super::compare::edit_name(edit),
            Call::PackRead => "pack_read",
            Call::PackMessage { .. } => "pack_message",
            Call::PackWrite => "pack_write",
            Call::PackSalvage => "pack_salvage",
            Call::BitmapRead => "bitmap_read",
            Call::BitmapWrite { .. } => "bitmap_write",
            Call::IconRead => "icon_read",
            Call::IconWrite { .. } => "icon_write",
            Call::LogoRead => "logo_read",
            Call::LogoWrite { .. } => "logo_write",
        }
    }
}

/// A call with its inputs and what it lends. The buffers of each kind are in the
/// order of the call's arguments. Lengths of messages are a table too.
#[derive(Clone, PartialEq, Eq)]
pub struct Case {
    pub call: Call,
    pub inputs: Vec<Lent<u8>>,
    pub table: Vec<Lent<u32>>,
    pub room: Room,
}

#[derive(Clone, PartialEq, Eq, Default)]
pub struct Room {
    pub octets: Vec<Lent<u8>>,
    pub words: Vec<Lent<u32>>,
    pub rows: Vec<Lent<Entry>>,
}

#[derive(Clone, Copy, Debug, PartialEq, Eq)]
pub enum Answer {
    Tone(Tone),
    Written(Written),
    Label(Label),
    Listed(Listed),
    Edited(Edited),
    Pack(Pack),
    Stretch(Stretch),
    Salvage(Salvage),
    Bitmap(Bitmap),
    Logo(Logo),
}

impl Answer {
    /// A label never refuses.
    pub fn accepted(&self) -> bool {
        let refusal = match self {
            Answer::Tone(answer) => answer.refusal,
            Answer::Written(answer) => answer.refusal,
            Answer::Label(_) => 0,
            Answer::Listed(answer) => answer.refusal,
            Answer::Edited(answer) => answer.refusal,
            Answer::Pack(answer) => answer.refusal,
            Answer::Stretch(answer) => answer.refusal,
            Answer::Salvage(answer) => answer.refusal,
            Answer::Bitmap(answer) => answer.refusal,
            Answer::Logo(answer) => answer.refusal,
        };
        refusal == 0
    }
}

/// Which of the empty buffers are passed as null: one bit for each in turn.
#[derive(Default)]
pub struct Nulls {
    chosen: u32,
    /// Empty buffers met so far.
    pub empty: u32,
    /// Buffers met so far, and which of them were passed as null.
    met: usize,
    pub passed: Vec<usize>,
}

impl Nulls {
    pub fn chosen(chosen: u32) -> Nulls {
        Nulls {
            chosen,
            ..Nulls::default()
        }
    }

    fn takes(&mut self, length: usize) -> bool {
        self.met += 1;
        if length > 0 {
            return false;
        }
        let null = self.chosen >> self.empty & 1 == 1;
        self.empty += 1;
        if null {
            self.passed.push(self.met - 1);
        }
        null
    }

    fn input<T>(&mut self, cells: &[T]) -> (*const T, usize) {
        let null = self.takes(cells.len());
        let at = if null {
            std::ptr::null()
        } else {
            cells.as_ptr()
        };
        (at, cells.len())
    }

    fn lent<T>(&mut self, cells: &mut [T]) -> (*mut T, usize) {
        let null = self.takes(cells.len());
        let at = if null {
            std::ptr::null_mut()
        } else {
            cells.as_mut_ptr()
        };
        (at, cells.len())
    }
}

/// A pointer and a number for each buffer.
struct Passed {
    inputs: Vec<(*const u8, usize)>,
    table: Vec<(*const u32, usize)>,
    octets: Vec<(*mut u8, usize)>,
    words: Vec<(*mut u32, usize)>,
    rows: Vec<(*mut Entry, usize)>,
}

impl Case {
    /// Puts the call to the library, with null for some of what is empty.
    pub fn put(&self, room: &mut Room, nulls: &mut Nulls) -> Answer {
        let Room {
            octets,
            words,
            rows,
        } = room;
        let inputs = self.inputs.iter().map(|it| nulls.input(it.cells()));
        let inputs = inputs.collect();
        let table = self.table.iter().map(|it| nulls.input(it.cells()));
        let table = table.collect();
        let octets = octets.iter_mut().map(|it| nulls.lent(it.lend()));
        let octets = octets.collect();
        let words = words.iter_mut().map(|it| nulls.lent(it.lend()));
        let words = words.collect();
        let rows = rows.iter_mut().map(|it| nulls.lent(it.lend()));
        let passed = Passed {
            inputs,
            table,
            octets,
            words,
            rows: rows.collect(),
        };
        // SAFETY: each pointer and number is a live buffer's, or the number is 0.
        // The buffers are apart, and what is lent is lent to this call alone.
        unsafe { passed.put(self.call) }
    }
}

impl Passed {
    unsafe fn put(&self, call: Call) -> Answer {
        match call {
            Call::Edit(spot, edit) => Answer::Edited(self.edit(spot, edit)),
            Call::Read | Call::Write { .. } | Call::Label { .. } => self.put_tone(call),
            Call::List | Call::Rows => Answer::Listed(self.list(call)),
            Call::PackRead | Call::PackMessage { .. } | Call::PackWrite => self.put_pack(call),
            Call::PackSalvage => Answer::Salvage(self.salvage()),
            _ => self.put_bitmap(call),
        }
    }

    unsafe fn put_tone(&self, call: Call) -> Answer {
        let (first, first_len) = self.inputs[0];
        match call {
            Call::Read => {
                let ((table, table_len), (title, title_len)) = (self.words[0], self.octets[0]);
                Answer::Tone(raw::ohakelm_read(
                    first, first_len, table, table_len, title, title_len,
                ))
            }
            Call::Write { song, unicode } => {
                let ((table, table_len), (out, out_len)) = (self.table[0], self.octets[0]);
                Answer::Written(raw::ohakelm_write(
                    song, unicode, first, first_len, table, table_len, out, out_len,
                ))
            }
            Call::Label { unicode } => {
                let (stand_in, stand_in_len) = self.inputs[1];
                Answer::Label(raw::ohakelm_label(
                    first,
                    first_len,
                    unicode,
                    stand_in,
                    stand_in_len,
                ))
            }
            _ => unreachable!("{call:?} is no call of a tone"),
        }
    }

    unsafe fn list(&self, call: Call) -> Listed {
        let ((msg, msg_len), (list, list_len)) = (self.inputs[0], self.words[0]);
        if call == Call::List {
            return raw::ohakelm_list(msg, msg_len, list, list_len);
        }
        let (rows, rows_len) = self.rows[0];
        raw::ohakelm_rows(msg, msg_len, list, list_len, rows, rows_len)
    }

    unsafe fn edit(&self, spot: Spot, edit: Edit) -> Edited {
        let ((buf, buf_len), (list, list_len)) = (self.octets[0], self.words[0]);
        let Spot {
            used,
            pattern,
            instruction,
        } = spot;
        match edit {
            Edit::Replace(entry) => raw::ohakelm_replace(
                buf,
                buf_len,
                used,
                pattern,
                instruction,
                entry,
                list,
                list_len,
            ),
            Edit::Insert(entry) => raw::ohakelm_insert(
                buf,
                buf_len,
                used,
                pattern,
                instruction,
                entry,
                list,
                list_len,
            ),
            Edit::Delete => {
                raw::ohakelm_delete(buf, buf_len, used, pattern, instruction, list, list_len)
            }
        }
    }

    unsafe fn put_pack(&self, call: Call) -> Answer {
        let (first, first_len) = self.inputs[0];
        match call {
            Call::PackRead => Answer::Pack(raw::ohakelm_pack_read(first, first_len)),
            Call::PackMessage { n } => {
                Answer::Stretch(raw::ohakelm_pack_message(first, first_len, n))
            }
            Call::PackWrite => {
                let ((lengths, lengths_len), (out, out_len)) = (self.table[0], self.octets[0]);
                Answer::Written(raw::ohakelm_pack_write(
                    first,
                    first_len,
                    lengths,
                    lengths_len,
                    out,
                    out_len,
                ))
            }
            _ => unreachable!("{call:?} is no call of a pack"),
        }
    }

    unsafe fn salvage(&self) -> Salvage {
        let (pack, pack_len) = self.inputs[0];
        let ((out, out_len), (report, report_len)) = (self.octets[0], self.words[0]);
        raw::ohakelm_pack_salvage(pack, pack_len, out, out_len, report, report_len)
    }

    unsafe fn put_bitmap(&self, call: Call) -> Answer {
        let (msg, msg_len) = self.inputs[0];
        match call {
            Call::BitmapRead => Answer::Bitmap(raw::ohakelm_bitmap_read(msg, msg_len)),
            Call::IconRead => Answer::Bitmap(raw::ohakelm_icon_read(msg, msg_len)),
            Call::LogoRead => Answer::Logo(raw::ohakelm_logo_read(msg, msg_len)),
            Call::LogoWrite { width, height } => Answer::Written(self.write_logo(width, height)),
            Call::BitmapWrite { width, height } => {
                let (out, out_len) = self.octets[0];
                Answer::Written(raw::ohakelm_bitmap_write(
                    width, height, msg, msg_len, out, out_len,
                ))
            }
            Call::IconWrite { width, height } => {
                let (out, out_len) = self.octets[0];
                Answer::Written(raw::ohakelm_icon_write(
                    width, height, msg, msg_len, out, out_len,
                ))
            }
            _ => unreachable!("{call:?} is no call of a bitmap"),
        }
    }

    unsafe fn write_logo(&self, width: u32, height: u32) -> Written {
        let [(mcc, mcc_len), (mnc, mnc_len), (date, date_len), (image, image_len)] =
            self.inputs[..]
        else {
            unreachable!("a logo has four inputs");
        };
        let (out, out_len) = self.octets[0];
        raw::ohakelm_logo_write(
            mcc, mcc_len, mnc, mnc_len, date, date_len, width, height, image, image_len, out,
            out_len,
        )
    }
}
