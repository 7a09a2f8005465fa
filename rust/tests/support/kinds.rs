//! The calls of icons and logos, put to every codec.

use ohakelm_answers::{Bitmap, Logo, Written};

use super::codecs::LogoParts;
use super::compare::Comparison;
use super::hex;
use super::inputs;
use super::lent::lent_octets;
use super::logos;

impl Comparison {
    // ---- Each call, compared.

    pub fn icon_read(&mut self, message: &[u8]) -> Bitmap {
        let outcomes = self.each(|codec| (codec.icon_read(message),));
        let inputs = || format!("message {}", hex(message));
        let (answer,) = self.alike("icon_read", outcomes, inputs);
        self.count("icon_read", answer.refusal);
        answer
    }

    pub fn icon_write(
        &mut self,
        width: u32,
        height: u32,
        image: &[u8],
        room: usize,
    ) -> (Written, Vec<u8>) {
        let out = lent_octets(&mut self.rng, room);
        let outcomes = self.each(|codec| {
            let mut out = out.clone();
            let answer = codec.icon_write(width, height, image, out.lend());
            (answer, out)
        });
        let inputs = || format!("{width} by {height}, image {}, room {room}", hex(image));
        let (answer, filled) = self.alike("icon_write", outcomes, inputs);
        if answer.refusal != 0 {
            let untouched = filled == out;
            self.expect(untouched, "icon_write", "a refusal changes nothing", inputs);
        }
        self.count("icon_write", answer.refusal);
        (answer, filled.cells().to_vec())
    }

    pub fn logo_read(&mut self, message: &[u8]) -> Logo {
        let outcomes = self.each(|codec| (codec.logo_read(message),));
        let inputs = || format!("message {}", hex(message));
        let (answer,) = self.alike("logo_read", outcomes, inputs);
        self.count("logo_read", answer.refusal);
        answer
    }

    pub fn logo_write(&mut self, parts: LogoParts, room: usize) -> (Written, Vec<u8>) {
        let out = lent_octets(&mut self.rng, room);
        let outcomes = self.each(|codec| {
            let mut out = out.clone();
            let answer = codec.logo_write(parts, out.lend());
            (answer, out)
        });
        let inputs = || format!("{parts:?}, room {room}");
        let (answer, filled) = self.alike("logo_write", outcomes, inputs);
        if answer.refusal != 0 {
            let untouched = filled == out;
            self.expect(untouched, "logo_write", "a refusal changes nothing", inputs);
        }
        self.count("logo_write", answer.refusal);
        (answer, filled.cells().to_vec())
    }

    // ---- Random cases.

    /// What was read is a plain bitmap behind one octet, and is written again.
    pub(super) fn icon_read_any(&mut self) {
        let message = logos::icon(&mut self.rng);
        let answer = self.icon_read(&message);
        if answer.refusal != 0 {
            return;
        }
        let plain = self.bitmap_read(&message[1..]);
        let inputs = || format!("message {}", hex(&message));
        let behind = Bitmap {
            start: plain.start + 1,
            ..plain
        };
        self.expect(
            answer == behind,
            "icon_read",
            "a bitmap is behind the version",
            inputs,
        );
        let image = &message[answer.start..answer.start + answer.length];
        let (written, out) = self.icon_write(answer.width, answer.height, image, message.len());
        let again = written.refusal == 0 && out == message;
        self.expect(
            again,
            "icon_write",
            "what was read is written again",
            inputs,
        );
    }

    /// What was written is read again.
    pub(super) fn icon_write_any(&mut self) {
        let (width, height, image) = inputs::bitmap_parts(&mut self.rng);
        let room = self.room(5 + image.len());
        let (written, out) = self.icon_write(width, height, &image, room);
        if written.refusal != 0 {
            return;
        }
        let message = &out[..written.octets];
        let answer = self.icon_read(message);
        let again = answer.refusal == 0
            && (answer.width, answer.height) == (width, height)
            && message[answer.start..] == image;
        let inputs = || format!("message {}", hex(message));
        self.expect(again, "icon_read", "what was written is read again", inputs);
    }

    /// A logo that is sound by its making gives its parts back.
    pub(super) fn logo_read_sound(&mut self) {
        let made = logos::sound(&mut self.rng);
        let message = made.message();
        let answer = self.logo_read(&message);
        let sound = answer.refusal == 0 && parts_read(&message, &answer) == made.parts();
        let inputs = || format!("{made:?}");
        self.expect(sound, "logo_read", "a sound logo is read", inputs);
    }

    /// What was read is written again.
    pub(super) fn logo_read_any(&mut self) {
        let message = logos::logo(&mut self.rng);
        let answer = self.logo_read(&message);
        if answer.refusal != 0 {
            return;
        }
        let (written, out) = self.logo_write(parts_read(&message, &answer), message.len());
        let again = written.refusal == 0 && out == message;
        let inputs = || format!("message {}", hex(&message));
        self.expect(
            again,
            "logo_write",
            "what was read is written again",
            inputs,
        );
    }

    /// What was written is read again.
    pub(super) fn logo_write_any(&mut self) {
        let made = logos::parts(&mut self.rng);
        let room = self.room(7 + made.date.len() + 4 + made.image.len());
        let (written, out) = self.logo_write(made.parts(), room);
        if written.refusal != 0 {
            return;
        }
        let message = &out[..written.octets];
        let answer = self.logo_read(message);
        let again = answer.refusal == 0 && parts_read(message, &answer) == made.parts();
        let inputs = || format!("message {}", hex(message));
        self.expect(again, "logo_read", "what was written is read again", inputs);
    }
}

/// The parts of a logo that was read. Its stretches are those of the message.
fn parts_read<'a>(message: &'a [u8], answer: &Logo) -> LogoParts<'a> {
    LogoParts {
        mcc: &message[answer.mcc_start..answer.mcc_start + answer.mcc_length],
        mnc: &message[answer.mnc_start..answer.mnc_start + answer.mnc_length],
        date: &message[answer.date_start..answer.date_start + answer.date_length],
        width: answer.width,
        height: answer.height,
        image: &message[answer.start..answer.start + answer.length],
    }
}
