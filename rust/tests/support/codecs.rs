//! The implementations under one roof. Each answers in the same form.

use ohakelm::numbers;
use ohakelm_answers::{Bitmap, Edited, Entry, Label, Listed, Logo};
use ohakelm_answers::{Pack, Salvage, Stretch, Tone, Written};

#[derive(Clone, Copy, Debug, PartialEq, Eq)]
pub enum Edit {
    Replace(u32),
    Insert(u32),
    Delete,
}

/// Where an edit applies: the used length, the pattern and the instruction.
#[derive(Clone, Copy, Debug, PartialEq, Eq)]
pub struct Spot {
    pub used: usize,
    pub pattern: usize,
    pub instruction: usize,
}

/// What a logo is written from.
#[derive(Clone, Copy, Debug, PartialEq, Eq)]
pub struct LogoParts<'a> {
    pub mcc: &'a [u8],
    pub mnc: &'a [u8],
    pub date: &'a [u8],
    pub width: u32,
    pub height: u32,
    pub image: &'a [u8],
}

pub trait Codec {
    fn name(&self) -> &'static str;
    fn read(&self, message: &[u8], table: &mut [u32], title: &mut [u8]) -> Tone;
    fn write(
        &self,
        song: u32,
        unicode: bool,
        title: &[u8],
        table: &[u32],
        out: &mut [u8],
    ) -> Written;
    fn label(&self, title: &[u8], unicode: bool, stand_in: &[u8]) -> Label;
    fn list(&self, message: &[u8], list: &mut [u32]) -> Listed;
    fn rows(&self, message: &[u8], list: &mut [u32], rows: &mut [Entry]) -> Listed;
    fn edit(&self, buffer: &mut [u8], spot: Spot, edit: Edit, list: &mut [u32]) -> Edited;
    fn pack_read(&self, pack: &[u8]) -> Pack;
    fn pack_message(&self, pack: &[u8], n: u32) -> Stretch;
    fn pack_write(&self, messages: &[u8], lengths: &[u32], out: &mut [u8]) -> Written;
    fn pack_salvage(&self, pack: &[u8], out: &mut [u8], report: &mut [u32]) -> Salvage;
    fn bitmap_read(&self, message: &[u8]) -> Bitmap;
    fn bitmap_write(&self, width: u32, height: u32, image: &[u8], out: &mut [u8]) -> Written;
    fn icon_read(&self, message: &[u8]) -> Bitmap;
    fn icon_write(&self, width: u32, height: u32, image: &[u8], out: &mut [u8]) -> Written;
    fn logo_read(&self, message: &[u8]) -> Logo;
    fn logo_write(&self, parts: LogoParts, out: &mut [u8]) -> Written;
}

/// Those that are compared. The obvious one comes first.
pub const ALL: [&dyn Codec; 3] = [&Obvious, &Optimised, &Proved];

/// Puts a test to each of them.
pub fn each(test: impl Fn(&dyn Codec)) {
    for codec in ALL {
        println!("{}", codec.name());
        test(codec);
    }
}

/// They have the same functions.
macro_rules! codec {
    ($type:ident, $name:literal, $implementation:ident) => {
        pub struct $type;

        impl Codec for $type {
            fn name(&self) -> &'static str {
                $name
            }

            fn read(&self, message: &[u8], table: &mut [u32], title: &mut [u8]) -> Tone {
                $implementation::read(message, table, title)
            }

            fn write(
                &self,
                song: u32,
                unicode: bool,
                title: &[u8],
                table: &[u32],
                out: &mut [u8],
            ) -> Written {
                $implementation::write(song, unicode, title, table, out)
            }

            fn label(&self, title: &[u8], unicode: bool, stand_in: &[u8]) -> Label {
                $implementation::label(title, unicode, stand_in)
            }

            fn list(&self, message: &[u8], list: &mut [u32]) -> Listed {
                $implementation::list(message, list)
            }

            fn rows(&self, message: &[u8], list: &mut [u32], rows: &mut [Entry]) -> Listed {
                $implementation::rows(message, list, rows)
            }

            fn edit(&self, buffer: &mut [u8], spot: Spot, edit: Edit, list: &mut [u32]) -> Edited {
                let Spot {
                    used,
                    pattern,
                    instruction,
                } = spot;
                match edit {
                    Edit::Replace(entry) => {
                        $implementation::replace(buffer, used, pattern, instruction, entry, list)
                    }
                    Edit::Insert(entry) => {
                        $implementation::insert(buffer, used, pattern, instruction, entry, list)
                    }
                    Edit::Delete => {
                        $implementation::delete(buffer, used, pattern, instruction, list)
                    }
                }
            }

            fn pack_read(&self, pack: &[u8]) -> Pack {
                $implementation::pack_read(pack)
            }

            fn pack_message(&self, pack: &[u8], n: u32) -> Stretch {
                $implementation::pack_message(pack, n)
            }

            fn pack_write(&self, messages: &[u8], lengths: &[u32], out: &mut [u8]) -> Written {
                $implementation::pack_write(messages, lengths, out)
            }

            fn pack_salvage(&self, pack: &[u8], out: &mut [u8], report: &mut [u32]) -> Salvage {
                $implementation::pack_salvage(pack, out, report)
            }

            fn bitmap_read(&self, message: &[u8]) -> Bitmap {
                $implementation::bitmap_read(message)
            }

            fn bitmap_write(
                &self,
                width: u32,
                height: u32,
                image: &[u8],
                out: &mut [u8],
            ) -> Written {
                $implementation::bitmap_write(width, height, image, out)
            }

            fn icon_read(&self, message: &[u8]) -> Bitmap {
                $implementation::icon_read(message)
            }

            fn icon_write(&self, width: u32, height: u32, image: &[u8], out: &mut [u8]) -> Written {
                $implementation::icon_write(width, height, image, out)
            }

            fn logo_read(&self, message: &[u8]) -> Logo {
                $implementation::logo_read(message)
            }

            fn logo_write(&self, parts: LogoParts, out: &mut [u8]) -> Written {
                let LogoParts {
                    mcc,
                    mnc,
                    date,
                    width,
                    height,
                    image,
                } = parts;
                $implementation::logo_write(mcc, mnc, date, width, height, image, out)
            }
        }
    };
}

codec!(Obvious, "obvious", ohakelm_reference);
codec!(Optimised, "optimised", ohakelm_fast);
codec!(Proved, "proved", numbers);
