//! Getting messages out of broken packs, put to every codec.

use ohakelm_answers::Salvage;

use super::compare::Comparison;
use super::hex;
use super::lent::{lent_octets, lent_words};
use super::packs::{self, Made, LARGEST_PACK};
use super::salvages;

/// Where a message was, where it is now, and its length.
type Moved = [usize; 3];

/// What was gotten out of a pack.
pub struct Salvaged {
    pub answer: Salvage,
    pub pack: Vec<u8>,
    pub report: Vec<u32>,
}

impl Salvaged {
    fn messages(&self) -> Vec<Moved> {
        let numbers = &self.report[..3 * self.answer.messages];
        let rows = numbers.chunks(3);
        rows.map(|row| [row[0], row[1], row[2]].map(|it| it as usize))
            .collect()
    }
}

impl Comparison {
    pub fn pack_salvage(&mut self, pack: &[u8], room: usize, numbers: usize) -> Salvaged {
        let out = lent_octets(&mut self.rng, room);
        let report = lent_words(&mut self.rng, numbers);
        let outcomes = self.each(|codec| {
            let (mut out, mut report) = (out.clone(), report.clone());
            let answer = codec.pack_salvage(pack, out.lend(), report.lend());
            (answer, out, report)
        });
        let inputs = || format!("room {room}, report of {numbers}, pack {}", hex(pack));
        let (answer, filled, reported) = self.alike("pack_salvage", outcomes, inputs);
        if answer.refusal != 0 {
            let untouched = filled == out && reported == report;
            let rule = "a refusal changes nothing";
            self.expect(untouched, "pack_salvage", rule, inputs);
        }
        self.count("pack_salvage", answer.refusal);
        Salvaged {
            answer,
            pack: filled.cells().to_vec(),
            report: reported.cells().to_vec(),
        }
    }

    /// Any octets, with about as much room as it takes.
    pub(super) fn pack_salvage_any(&mut self) {
        let pack = salvages::broken(&mut self.rng);
        let needed = self.salvage_size(&pack);
        let room = self.room(needed.octets);
        let numbers = self.room(3 * needed.messages + 1);
        let salvaged = self.pack_salvage(&pack, room, numbers);
        if salvaged.answer.refusal == 0 {
            self.expect_salvaged(&pack, &salvaged);
        }
    }

    /// What a call answers that has room enough.
    fn salvage_size(&mut self, pack: &[u8]) -> Salvage {
        let mut out = vec![0; LARGEST_PACK];
        let mut report = vec![0; ohakelm::LARGEST_REPORT];
        ohakelm_fast::pack_salvage(pack, &mut out, &mut report)
    }

    /// The new pack is sound, has the octets that the report says, and what is skipped is
    /// the rest.
    fn expect_salvaged(&mut self, old: &[u8], salvaged: &Salvaged) {
        let Salvage {
            messages,
            octets,
            skipped,
            ..
        } = salvaged.answer;
        let new = &salvaged.pack[..octets];
        let read = self.pack_read(new);
        let inputs = || format!("pack {}", hex(old));
        let sound = (read.refusal, read.messages) == (0, messages);
        self.expect(sound, "pack_salvage", "the new pack is sound", inputs);
        let moved = salvaged.messages();
        let alike = |&[from, to, length]: &Moved| old[from..][..length] == new[to..][..length];
        let all = moved.iter().all(alike);
        self.expect(all, "pack_salvage", "a message is the same", inputs);
        let kept: usize = moved.iter().map(|row| row[2]).sum();
        let counted = kept + skipped == old.len().min(LARGEST_PACK)
            && salvaged.report[3 * messages] as usize == skipped;
        self.expect(counted, "pack_salvage", "the rest is skipped", inputs);
    }

    /// The messages of a sound pack are the first ones kept.
    pub(super) fn pack_salvage_sound(&mut self) {
        let made = Made::of(&packs::sound_messages(&mut self.rng));
        let pack = made.pack();
        let needed = self.salvage_size(&pack);
        let salvaged = self.pack_salvage(&pack, needed.octets, 3 * needed.messages + 1);
        let own = made
            .rows
            .iter()
            .map(|&[start, length]| [start, start, length]);
        let moved = salvaged.messages();
        let first = moved.len() >= made.rows.len() && own.zip(&moved).all(|(own, it)| own == *it);
        let rule = "a sound pack's messages come first";
        let inputs = || format!("pack {}", hex(&pack));
        let refused = salvaged.answer.refusal == 1;
        self.expect(first || refused, "pack_salvage", rule, inputs);
    }
}
