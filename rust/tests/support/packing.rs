//! The calls of packs, put to every codec.

use ohakelm_answers::{Pack, Stretch, Written};

use super::compare::Comparison;
use super::hex;
use super::lent::lent_octets;
use super::packs::{self, Made};

impl Comparison {
    // ---- Each call, compared.

    pub fn pack_read(&mut self, pack: &[u8]) -> Pack {
        let outcomes = self.each(|codec| (codec.pack_read(pack),));
        let inputs = || format!("pack {}", hex(pack));
        let (answer,) = self.alike("pack_read", outcomes, inputs);
        // The optimised one has a second form, which the benchmark shows too.
        let alike = ohakelm_fast::pack_read_by_branches(pack) == answer;
        self.expect(
            alike,
            "pack_read_by_branches",
            "both forms are alike",
            inputs,
        );
        self.count("pack_read", answer.refusal);
        answer
    }

    pub fn pack_message(&mut self, pack: &[u8], n: u32) -> Stretch {
        let outcomes = self.each(|codec| (codec.pack_message(pack, n),));
        let inputs = || format!("message {n} of pack {}", hex(pack));
        let (answer,) = self.alike("pack_message", outcomes, inputs);
        self.count("pack_message", answer.refusal);
        answer
    }

    pub fn pack_write(
        &mut self,
        messages: &[u8],
        lengths: &[u32],
        room: usize,
    ) -> (Written, Vec<u8>) {
        let out = lent_octets(&mut self.rng, room);
        let outcomes = self.each(|codec| {
            let mut out = out.clone();
            let answer = codec.pack_write(messages, lengths, out.lend());
            (answer, out)
        });
        let inputs = || {
            format!(
                "lengths {lengths:?}, room {room}, messages {}",
                hex(messages)
            )
        };
        let (answer, filled) = self.alike("pack_write", outcomes, inputs);
        if answer.refusal != 0 {
            let untouched = filled == out;
            self.expect(untouched, "pack_write", "a refusal changes nothing", inputs);
        }
        self.count("pack_write", answer.refusal);
        (answer, filled.cells().to_vec())
    }

    // ---- Random cases.

    /// A pack that is sound by its making gives its messages back, and is written again.
    pub(super) fn pack_sound(&mut self) {
        let made = Made::of(&packs::sound_messages(&mut self.rng));
        let pack = made.pack();
        let answer = self.pack_read(&pack);
        let sound = (answer.refusal, answer.messages) == (0, made.rows.len());
        let inputs = || format!("pack {}", hex(&pack));
        self.expect(sound, "pack_read", "a sound pack is read", inputs);
        let n = self.position(made.rows.len());
        let stretch = self.pack_message(&pack, n);
        let right = match made.rows.get(n as usize) {
            Some(&[start, length]) => {
                (stretch.refusal, stretch.start, stretch.length) == (0, start, length)
            }
            None => stretch.refusal == 12,
        };
        self.expect(right, "pack_message", "a message is the row's", inputs);
        let lengths: Vec<u32> = made.rows.iter().map(|row| row[1] as u32).collect();
        let (written, out) = self.pack_write(&made.octets, &lengths, pack.len());
        let again = written.refusal == 0 && out == pack;
        self.expect(
            again,
            "pack_write",
            "what was read is written again",
            inputs,
        );
    }

    /// Any pack. Where it is refused, no message of it is handed back, and where it is
    /// accepted each one there is.
    pub(super) fn pack_read_any(&mut self) {
        let pack = packs::pack(&mut self.rng);
        let answer = self.pack_read(&pack);
        let n = self.position(answer.messages);
        let stretch = self.pack_message(&pack, n);
        let expected = match answer.refusal {
            0 if (n as usize) < answer.messages => (0, 0),
            0 => (12, 0),
            refusal => (refusal, answer.place),
        };
        let inputs = || format!("message {n} of pack {}", hex(&pack));
        let alike = (stretch.refusal, stretch.place) == expected;
        self.expect(
            alike,
            "pack_message",
            "it refuses what reading does",
            inputs,
        );
    }

    /// What was written is read again.
    pub(super) fn pack_write_any(&mut self) {
        let parts = packs::parts(&mut self.rng);
        let room = self.room(parts.octets());
        let (written, out) = self.pack_write(&parts.messages, &parts.lengths, room);
        if written.refusal != 0 {
            return;
        }
        let pack = &out[..written.octets];
        let answer = self.pack_read(pack);
        let inputs = || format!("pack {}", hex(pack));
        let again = (answer.refusal, answer.messages) == (0, parts.lengths.len());
        self.expect(again, "pack_read", "what was written is read again", inputs);
    }

    /// The position of a message that is mostly there. 65,536 more is another one.
    fn position(&mut self, messages: usize) -> u32 {
        let messages = messages as u32;
        let near = match messages {
            0 => 0,
            _ => self.rng.below(messages as usize) as u32,
        };
        match self.rng.below(12) {
            0 => messages,
            1 => messages + 1,
            2 => near + 65_536,
            3 => self.rng.pick(&[u32::MAX, 1 << 31, 65_535, 65_536]),
            4 => messages.saturating_sub(1),
            _ => near,
        }
    }
}
