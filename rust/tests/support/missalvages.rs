//! Wrong ways to get messages out of a broken pack. The comparison must find each.

use ohakelm_answers::Salvage;

use super::codecs::{Codec, Obvious};
use super::packs::{Made, LARGEST_PACK};

#[derive(Clone, Copy, Debug, PartialEq, Eq)]
pub enum Missalvage {
    /// The right way, by the same steps.
    None,
    SkipsToFault,
    SkipsTwoOctets,
    StopsAtFirstFault,
    StopsAtFirstGap,
    GoesOnInsideMessage,
    KeepsAcrossBound,
    DropsAtBound,
    DropsAtEnd,
    KeepsTooLong,
    DropsLongest,
    TakesAnyTitle,
    TakesPlainAlone,
    CountsBehindBound,
    CountsFrontTwice,
    CountsSkippedAhead,
    ReportsNewForOld,
    ReportsOldForNew,
    ReportsEndForLength,
    ReportsSkippedFirst,
    LeavesSkipped,
    RefusesLongInput,
    RefusesFullPack,
    ForgetsRowsInSize,
    JudgesRoomAheadOfSize,
    JudgesReportWithoutLast,
    CountsMessagesOnRefusal,
    TouchesOutOnRefusal,
    TouchesReportOnRefusal,
    WritesOneOctetMore,
    WritesOneNumberMore,
}

pub const MISSALVAGES: [Missalvage; 30] = [
    Missalvage::SkipsToFault,
    Missalvage::SkipsTwoOctets,
    Missalvage::StopsAtFirstFault,
    Missalvage::StopsAtFirstGap,
    Missalvage::GoesOnInsideMessage,
    Missalvage::KeepsAcrossBound,
    Missalvage::DropsAtBound,
    Missalvage::DropsAtEnd,
    Missalvage::KeepsTooLong,
    Missalvage::DropsLongest,
    Missalvage::TakesAnyTitle,
    Missalvage::TakesPlainAlone,
    Missalvage::CountsBehindBound,
    Missalvage::CountsFrontTwice,
    Missalvage::CountsSkippedAhead,
    Missalvage::ReportsNewForOld,
    Missalvage::ReportsOldForNew,
    Missalvage::ReportsEndForLength,
    Missalvage::ReportsSkippedFirst,
    Missalvage::LeavesSkipped,
    Missalvage::RefusesLongInput,
    Missalvage::RefusesFullPack,
    Missalvage::ForgetsRowsInSize,
    Missalvage::JudgesRoomAheadOfSize,
    Missalvage::JudgesReportWithoutLast,
    Missalvage::CountsMessagesOnRefusal,
    Missalvage::TouchesOutOnRefusal,
    Missalvage::TouchesReportOnRefusal,
    Missalvage::WritesOneOctetMore,
    Missalvage::WritesOneNumberMore,
];

/// The messages that are kept, each with its start and length, and what is skipped.
#[derive(Default)]
struct Found {
    rows: Vec<[usize; 2]>,
    skipped: usize,
}

/// What stands where a message may start: its length, or the octet of its fault.
enum Tried {
    Whole(usize),
    Faulty(usize),
}

impl Missalvage {
    pub fn salvage(self, pack: &[u8], out: &mut [u8], report: &mut [u32]) -> Salvage {
        let found = self.found(pack);
        let new = new_pack(pack, &found);
        let numbers = self.report(&found);
        let needed = match self {
            Missalvage::JudgesReportWithoutLast => numbers.len() - 1,
            _ => numbers.len(),
        };
        let small = new.len() > out.len() || needed > report.len();
        match self.size_refused(pack, &new, small) {
            Some(refusal) => return self.refused(refusal, &found),
            None if small => {
                self.touch(out, report);
                return self.refused(11, &found);
            }
            None => {}
        }
        self.fill(&new, &numbers, out, report);
        Salvage {
            refusal: 0,
            place: 0,
            messages: found.rows.len(),
            octets: new.len(),
            skipped: found.skipped,
        }
    }

    // ---- What is kept.

    fn found(self, pack: &[u8]) -> Found {
        let bound = match self {
            Missalvage::DropsAtBound => LARGEST_PACK - 1,
            _ => LARGEST_PACK,
        };
        let counted = pack.len().min(bound);
        let mut found = Found::default();
        let mut start = 0;
        while start < counted {
            let end = match self {
                Missalvage::KeepsAcrossBound => pack.len(),
                _ => counted,
            };
            match self.tried(&pack[start..end]) {
                Tried::Whole(length) => {
                    found.rows.push([start, length]);
                    start += match self {
                        Missalvage::GoesOnInsideMessage => length - 1,
                        _ => length,
                    };
                }
                Tried::Faulty(at) => {
                    let here = &pack[start..counted];
                    let skipped = self.skipped(here, at, found.rows.len());
                    let again = self == Missalvage::CountsFrontTwice && is_front(here);
                    found.skipped += skipped + again as usize;
                    start += skipped;
                }
            }
        }
        self.miscount(pack, &mut found);
        found
    }

    /// How many octets are skipped where a message has its fault at an octet.
    fn skipped(self, octets: &[u8], fault: usize, kept: usize) -> usize {
        let skipped = match self {
            Missalvage::SkipsToFault => fault.max(1),
            Missalvage::SkipsTwoOctets => 2,
            Missalvage::StopsAtFirstFault if is_front(octets) => octets.len(),
            Missalvage::StopsAtFirstGap if kept > 0 => octets.len(),
            _ => 1,
        };
        skipped.min(octets.len())
    }

    fn tried(self, octets: &[u8]) -> Tried {
        let most = match self {
            Missalvage::DropsLongest => 4095,
            _ => 4096,
        };
        let here = &octets[..octets.len().min(most)];
        let sound = sound_length(here).or_else(|at| self.sound_otherwise(octets).ok_or(at));
        match sound {
            Ok(length) if self == Missalvage::DropsAtEnd && length == octets.len() => {
                Tried::Faulty(0)
            }
            Ok(_) if self == Missalvage::TakesPlainAlone && octets[0] == 3 => Tried::Faulty(0),
            Ok(length) => Tried::Whole(length),
            Err(at) => Tried::Faulty(at),
        }
    }

    /// The length of what is no message, but is taken for one.
    fn sound_otherwise(self, octets: &[u8]) -> Option<usize> {
        match self {
            // All is well as far as it may go, and it ends with the next octet.
            Missalvage::KeepsTooLong if is_front(octets) && octets.get(4096) == Some(&0) => {
                let answer = Obvious.read(&octets[..4096], &mut [], &mut []);
                (answer.refusal == 2).then_some(4097)
            }
            Missalvage::TakesAnyTitle if is_front(octets) => {
                sound_length(&with_title_of_ones(octets)).ok()
            }
            _ => None,
        }
    }

    fn miscount(self, pack: &[u8], found: &mut Found) {
        let counted = &pack[..pack.len().min(LARGEST_PACK)];
        let kept: usize = found.rows.iter().map(|row| row[1]).sum();
        match self {
            Missalvage::CountsBehindBound => found.skipped += pack.len() - counted.len(),
            Missalvage::CountsSkippedAhead => {
                let last = found.rows.last().map_or(0, |row| row[0] + row[1]);
                found.skipped = last.saturating_sub(kept);
            }
            _ => {}
        }
    }

    // ---- What is answered.

    fn size_refused(self, pack: &[u8], new: &[u8], small: bool) -> Option<u32> {
        let most = match self {
            Missalvage::RefusesFullPack => LARGEST_PACK - 1,
            _ => LARGEST_PACK,
        };
        let too_large = match self {
            Missalvage::RefusesLongInput => pack.len() > most || new.len() > most,
            // All its messages are in the input, so they alone are not too many.
            Missalvage::ForgetsRowsInSize => return (new.len() > most).then_some(11),
            _ => new.len() > most,
        };
        match self {
            Missalvage::JudgesRoomAheadOfSize if small => Some(11),
            _ => too_large.then_some(1),
        }
    }

    fn refused(self, refusal: u32, found: &Found) -> Salvage {
        let messages = match self {
            Missalvage::CountsMessagesOnRefusal => found.rows.len(),
            _ => 0,
        };
        Salvage {
            refusal,
            messages,
            ..Salvage::default()
        }
    }

    fn report(self, found: &Found) -> Vec<u32> {
        let mut report = Vec::new();
        let mut new = 0;
        for &[old, length] in &found.rows {
            let row = match self {
                Missalvage::ReportsNewForOld => [new, new, length],
                Missalvage::ReportsOldForNew => [old, old, length],
                Missalvage::ReportsEndForLength => [old, new, old + length],
                _ => [old, new, length],
            };
            report.extend(row.map(|number| number as u32));
            new += length;
        }
        let at = match self {
            Missalvage::ReportsSkippedFirst => 0,
            _ => report.len(),
        };
        report.insert(at, found.skipped as u32);
        report
    }

    fn touch(self, out: &mut [u8], report: &mut [u32]) {
        match (self, out.first_mut(), report.first_mut()) {
            (Missalvage::TouchesOutOnRefusal, Some(octet), _) => *octet ^= 1,
            (Missalvage::TouchesReportOnRefusal, _, Some(number)) => *number ^= 1,
            _ => {}
        }
    }

    fn fill(self, new: &[u8], numbers: &[u32], out: &mut [u8], report: &mut [u32]) {
        let filled = match self {
            Missalvage::LeavesSkipped => numbers.len() - 1,
            _ => numbers.len().min(report.len()),
        };
        out[..new.len()].copy_from_slice(new);
        report[..filled].copy_from_slice(&numbers[..filled]);
        match (self, out.get_mut(new.len()), report.get_mut(filled)) {
            (Missalvage::WritesOneOctetMore, Some(octet), _) => *octet = 0,
            (Missalvage::WritesOneNumberMore, _, Some(number)) => *number = 0,
            _ => {}
        }
    }
}

/// How many octets the message has that starts with these, or the octet of its fault.
fn sound_length(octets: &[u8]) -> Result<usize, usize> {
    let answer = Obvious.read(octets, &mut [], &mut []);
    match answer.refusal {
        // There is no room for its table, so it is sound.
        11 => Ok(octets.len()),
        10 => Ok(answer.place / 8),
        _ => Err(answer.place / 8),
    }
}

/// Whether octets begin as most messages do.
fn is_front(octets: &[u8]) -> bool {
    octets.starts_with(&[2, 0x4A, 0x3A])
}

/// A message with the last character of all throughout a title of three.
fn with_title_of_ones(octets: &[u8]) -> Vec<u8> {
    let mut other = octets[..octets.len().min(4096)].to_vec();
    // The length is ahead of the last two bits of octet 3, and the title begins there.
    if other.len() > 6 && other[3] >> 2 == 0b01_0011 {
        other[3] |= 3;
        other[4..6].fill(255);
        other[6] |= 0xFC;
    }
    other
}

fn new_pack(pack: &[u8], found: &Found) -> Vec<u8> {
    let messages = found
        .rows
        .iter()
        .map(|row| pack[row[0]..][..row[1]].to_vec());
    Made::of(&messages.collect::<Vec<_>>()).pack()
}
