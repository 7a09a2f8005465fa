//! Wrong ways to read, to cut and to write a pack. The comparison must find each.

use ohakelm_answers::{Pack, Stretch, Written};

use super::codecs::{Codec, Obvious};

#[derive(Clone, Copy, Debug)]
pub enum Mispack {
    TakesGaps,
    TakesOctetsBehindLast,
    TakesOctetsWithoutRows,
    TakesRowsInAnyOrder,
    TakesRowsOfNothing,
    TakesPackOf65536,
    ReadsLowOctetFirst,
    AddsUpIn16Bits,
    JudgesMessagesAmongRows,
    JudgesRowsAheadOfSize,
    JudgesLastMessageFirst,
    PlacesFaultInMessage,
    MovesPlaceByOctets,
    PlacesTooLongAtZero,
    RefusesEmptyPack,
    NotThereAheadOfFault,
    CountsMessagesFromOne,
    TakesPositionIn16Bits,
    EndsStretchForLength,
    TouchesOutOnRefusal,
    AddsLengthsIn32Bits,
    JudgesRoomAheadOfMessages,
    JudgesMessagesAheadOfLengths,
    ForgetsRowsInSize,
    WritesLowOctetFirst,
    WritesOneOctetMore,
}

pub const MISPACKS: [Mispack; 26] = [
    Mispack::TakesGaps,
    Mispack::TakesOctetsBehindLast,
    Mispack::TakesOctetsWithoutRows,
    Mispack::TakesRowsInAnyOrder,
    Mispack::TakesRowsOfNothing,
    Mispack::TakesPackOf65536,
    Mispack::ReadsLowOctetFirst,
    Mispack::AddsUpIn16Bits,
    Mispack::JudgesMessagesAmongRows,
    Mispack::JudgesRowsAheadOfSize,
    Mispack::JudgesLastMessageFirst,
    Mispack::PlacesFaultInMessage,
    Mispack::MovesPlaceByOctets,
    Mispack::PlacesTooLongAtZero,
    Mispack::RefusesEmptyPack,
    Mispack::NotThereAheadOfFault,
    Mispack::CountsMessagesFromOne,
    Mispack::TakesPositionIn16Bits,
    Mispack::EndsStretchForLength,
    Mispack::TouchesOutOnRefusal,
    Mispack::AddsLengthsIn32Bits,
    Mispack::JudgesRoomAheadOfMessages,
    Mispack::JudgesMessagesAheadOfLengths,
    Mispack::ForgetsRowsInSize,
    Mispack::WritesLowOctetFirst,
    Mispack::WritesOneOctetMore,
];

// ---- Reading.

impl Mispack {
    /// What reading a pack answers, where it is another answer than the right one.
    pub fn read(self, pack: &[u8], right: Pack) -> Option<Pack> {
        match right.refusal {
            26 | 27 => self.read_rows(pack, right.refusal),
            _ => self.read_messages(pack, right),
        }
    }

    /// The same where the rows are at fault.
    fn read_rows(self, pack: &[u8], right: u32) -> Option<Pack> {
        let rows = Rows::of(pack);
        match (self, right) {
            (Mispack::AddsUpIn16Bits, 26) => adds_up_in_16_bits(pack).then(|| refused(27, 0)),
            (Mispack::JudgesRowsAheadOfSize, 26) => Some(refused(27, 0)),
            (Mispack::TakesGaps, 27) => rows?.judged_if(pack, |rows| {
                rows.starts_rise() && rows.end() == rows.first_row
            }),
            (Mispack::TakesOctetsBehindLast, 27) => rows?.judged_if(pack, |rows| {
                !rows.rows.is_empty() && rows.are_in_turn(&rows.rows)
            }),
            (Mispack::TakesOctetsWithoutRows, 27) => {
                rows?.judged_if(pack, |rows| rows.rows.is_empty())
            }
            (Mispack::TakesRowsInAnyOrder, 27) => rows?.judged_if(pack, |rows| {
                let mut sorted = rows.rows.clone();
                sorted.sort();
                let end = sorted.last().map_or(0, |row| row[0] + row[1]);
                rows.are_in_turn(&sorted) && end == rows.first_row
            }),
            (Mispack::JudgesMessagesAmongRows, 27) => rows?.judged_one_by_one(pack),
            _ => None,
        }
    }

    /// The same where nothing or something else is at fault.
    fn read_messages(self, pack: &[u8], right: Pack) -> Option<Pack> {
        let at = |place: usize| Some(Pack { place, ..right });
        let start = || Some(Rows::of(pack)?.start_ahead_of(right.place));
        match (self, right.refusal) {
            (Mispack::TakesPackOf65536, 1) if pack.len() == 65_536 => {
                Some(Rows::of(pack)?.judged(pack))
            }
            (Mispack::RefusesEmptyPack, 0) if right.messages == 0 => Some(refused(2, 0)),
            (Mispack::ReadsLowOctetFirst, 0) => {
                let first_row = Rows::of(pack)?.first_row;
                Some(Obvious.pack_read(&turned(pack, first_row)))
            }
            (Mispack::PlacesTooLongAtZero, 1) => at(0),
            (Mispack::PlacesFaultInMessage, 2..=10 | 21) => at(right.place - 8 * start()?),
            (Mispack::MovesPlaceByOctets, 2..=10 | 21) => at(right.place - 7 * start()?),
            (Mispack::JudgesLastMessageFirst, 1..=10 | 21) => {
                let mut rows = Rows::of(pack)?;
                rows.rows.reverse();
                Some(rows.judged(pack))
            }
            (Mispack::TakesRowsOfNothing, 2) => {
                let mut rows = Rows::of(pack)?;
                rows.rows.retain(|row| row[1] > 0);
                Some(rows.judged(pack))
            }
            _ => None,
        }
    }
}

fn refused(refusal: u32, place: usize) -> Pack {
    Pack {
        refusal,
        place,
        messages: 0,
    }
}

/// Two octets as a number.
fn number(octets: &[u8]) -> usize {
    octets[0] as usize * 256 + octets[1] as usize
}

fn adds_up_in_16_bits(pack: &[u8]) -> bool {
    let Some((_, last)) = pack.split_last_chunk::<4>() else {
        return false;
    };
    (number(&last[2..]) + 4 * number(last) + 4) % 65_536 == pack.len()
}

/// A pack with the two octets of each number behind its messages turned.
fn turned(pack: &[u8], first_row: usize) -> Vec<u8> {
    let mut turned = pack.to_vec();
    let numbers = turned[first_row..].chunks_exact_mut(2);
    numbers.for_each(<[u8]>::reverse);
    turned
}

/// The rows of a pack as they stand, whether they continue one another or not.
struct Rows {
    rows: Vec<[usize; 2]>,
    first_row: usize,
}

impl Rows {
    /// None where the size is wrong.
    fn of(pack: &[u8]) -> Option<Rows> {
        let (front, last) = pack.split_last_chunk::<4>()?;
        let (count, first_row) = (number(last), number(&last[2..]));
        if first_row + 4 * count != front.len() {
            return None;
        }
        let rows = front[first_row..].chunks(4);
        Some(Rows {
            rows: rows.map(|row| [number(row), number(&row[2..])]).collect(),
            first_row,
        })
    }

    fn starts_rise(&self) -> bool {
        let mut pairs = self.rows.windows(2);
        pairs.all(|pair| pair[0][0] <= pair[1][0])
    }

    /// Where the last one ends.
    fn end(&self) -> usize {
        self.rows.last().map_or(0, |row| row[0] + row[1])
    }

    /// Whether rows continue one another from 0 on. The last one may end anywhere ahead
    /// of the rows.
    fn are_in_turn(&self, rows: &[[usize; 2]]) -> bool {
        let mut end = 0;
        let mut in_turn = true;
        for row in rows {
            in_turn &= row[0] == end;
            end = row[0] + row[1];
        }
        in_turn && end <= self.first_row
    }

    /// The last start that is not behind a bit place.
    fn start_ahead_of(&self, place: usize) -> usize {
        let starts = self.rows.iter().map(|row| row[0]);
        let ahead = starts.filter(|start| 8 * start <= place);
        ahead.max().unwrap_or(0)
    }

    /// The answer where nothing but the messages is judged, as the rows stand.
    fn judged(&self, pack: &[u8]) -> Pack {
        let mut refusals = self.rows.iter().map(|&row| refusal_of(pack, row));
        match refusals.find(|refusal| refusal.0 != 0) {
            Some((refusal, place)) => refused(refusal, place),
            None => Pack {
                messages: self.rows.len(),
                ..Pack::default()
            },
        }
    }

    /// The same, if the rows are what they are taken for.
    fn judged_if(self, pack: &[u8], held: impl Fn(&Rows) -> bool) -> Option<Pack> {
        held(&self).then(|| self.judged(pack))
    }

    /// The answer where each message is judged ahead of the next row.
    fn judged_one_by_one(mut self, pack: &[u8]) -> Option<Pack> {
        let in_turn = |count: &usize| self.are_in_turn(&self.rows[..*count]);
        let count = (0..=self.rows.len()).take_while(in_turn).last()?;
        self.rows.truncate(count);
        Some(self.judged(pack)).filter(|judged| judged.refusal != 0)
    }
}

/// The refusal of a message in a pack and its place, 0 for none.
fn refusal_of(pack: &[u8], row: [usize; 2]) -> (u32, usize) {
    let [start, length] = row;
    let Some(message) = pack.get(start..start + length) else {
        return (27, 0);
    };
    let answer = Obvious.read(message, &mut [], &mut []);
    match answer.refusal {
        // There is no room for its table, so it is sound.
        11 => (0, 0),
        refusal => (refusal, 8 * start + answer.place),
    }
}

// ---- A message of a pack.

impl Mispack {
    /// What finding a message answers, where it is another answer than the right one.
    pub fn message(self, pack: &[u8], n: u32, right: Stretch) -> Option<Stretch> {
        match (self, right.refusal) {
            (Mispack::NotThereAheadOfFault, 1..=10 | 21) => {
                let rows = Rows::of(pack)?.rows;
                (n as usize >= rows.len()).then(not_there)
            }
            (Mispack::CountsMessagesFromOne, 0) => match n {
                0 => Some(not_there()),
                _ => Some(Obvious.pack_message(pack, n - 1)),
            },
            (Mispack::TakesPositionIn16Bits, 12) => Some(Obvious.pack_message(pack, n % 65_536)),
            (Mispack::EndsStretchForLength, 0) => Some(Stretch {
                length: right.start + right.length,
                ..right
            }),
            _ => None,
        }
    }
}

fn not_there() -> Stretch {
    Stretch {
        refusal: 12,
        ..Stretch::default()
    }
}

// ---- Writing.

impl Mispack {
    /// What writing a pack answers, where it is another answer than the right one. The
    /// output is as the right call has left it, and may be made another one.
    pub fn write(
        self,
        messages: &[u8],
        lengths: &[u32],
        out: &mut [u8],
        right: Written,
    ) -> Option<Written> {
        let octets = messages.len() + 4 * lengths.len() + 4;
        let refusal = match (self, right.refusal) {
            (Mispack::ForgetsRowsInSize, 1) if messages.len() < 65_532 => 27,
            (Mispack::AddsLengthsIn32Bits, 27) if add_up_in_32_bits(lengths, messages) => 1,
            (Mispack::JudgesMessagesAheadOfLengths, 27) => {
                let first = messages.get(..*lengths.first()? as usize)?;
                Obvious.read(first, &mut [], &mut []).refusal
            }
            (Mispack::JudgesRoomAheadOfMessages, 1..=10 | 21)
                if out.len() < octets && octets <= 65_535 =>
            {
                11
            }
            _ => return self.spoil(out, messages.len()..octets, right),
        };
        Some(Written {
            refusal,
            ..Written::default()
        })
    }

    /// Leaves another output. So many octets behind the messages are filled.
    fn spoil(
        self,
        out: &mut [u8],
        behind: std::ops::Range<usize>,
        right: Written,
    ) -> Option<Written> {
        match (self, right.refusal) {
            (Mispack::TouchesOutOnRefusal, 11) => *out.first_mut()? ^= 1,
            (Mispack::WritesOneOctetMore, 0) => *out.get_mut(behind.end)? = 0,
            (Mispack::WritesLowOctetFirst, 0) => {
                let numbers = out[behind].chunks_mut(2);
                numbers.for_each(<[u8]>::reverse);
            }
            _ => {}
        }
        Some(right)
    }
}

fn add_up_in_32_bits(lengths: &[u32], messages: &[u8]) -> bool {
    let sum = lengths.iter().fold(0, |sum: u32, &it| sum.wrapping_add(it));
    sum as usize == messages.len()
}
