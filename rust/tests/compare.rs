//! The proved library, the obvious implementation and the optimised one, put
//! to the same inputs. Answers, places and every lent cell are compared.
//!
//! The gate's run has a fixed seed. A longer one, with a seed of its own that it
//! prints, is `cargo test --release --test compare -- --ignored --nocapture`.
//! For both `OHAKELM_SEED` sets the seed and `OHAKELM_CASES` the number of cases.

mod support;

use std::collections::BTreeMap;
use std::panic::{catch_unwind, AssertUnwindSafe};
use std::time::Instant;

use ohakelm::LARGEST_TABLE;
use ohakelm_answers::{Bitmap, Edited, Entry, Label, Listed, Logo};
use ohakelm_answers::{Pack, Salvage, Stretch, Tone, Written};
use ohakelm_answers::{ENTRY_CELLS, NO_MARK};
use support::codecs::{Codec, Edit, LogoParts, Obvious, Spot, ALL};
use support::compare::Comparison;
use support::heard::{list_of, restarts, Event, EVENTS};
use support::mispacks::{Mispack, MISPACKS};
use support::missalvages::{Missalvage, MISSALVAGES};
use support::origins::{apart, Patterns};
use support::rng::{cases_set, seed_from_clock, seed_set};
use support::tones::LARGEST_TONE;

/// So many that a rule which is wrong only at a bound comes up too. It takes some
/// fifteen seconds.
const GATE_RUN: usize = 1_200_000;
const LONGER_RUN: usize = 12_000_000;

/// From this many cases on each refusal and each of the faults below has surely
/// come up.
const ENOUGH_FOR_ALL: usize = 100_000;

#[test]
fn random_cases_agree() {
    let cases = cases_set().unwrap_or(GATE_RUN);
    compare(cases, seed_set().unwrap_or(20_001_231));
}

#[test]
#[ignore = "the longer run, to be asked for"]
fn more_random_cases_agree() {
    let cases = cases_set().unwrap_or(LONGER_RUN);
    compare(cases, seed_set().unwrap_or_else(seed_from_clock));
}

fn compare(cases: usize, seed: u64) {
    println!("seed {seed}, {cases} cases");
    let began = Instant::now();
    let mut comparison = Comparison::new(&ALL, seed);
    comparison.run(cases);
    let seconds = began.elapsed().as_secs_f64();
    println!("{} cases agree, {seconds:.1} s", comparison.cases);
    for ((call, refusal), times) in &comparison.tally {
        println!("{call} {refusal}: {times}");
    }
    if cases >= ENOUGH_FOR_ALL {
        each_refusal_came_up(&comparison);
    }
}

/// A run that never meets a refusal would compare nothing there.
fn each_refusal_came_up(comparison: &Comparison) {
    let message: Vec<u32> = (0..=11).collect();
    let with = |more: &[u32]| [&message[..], more].concat();
    let in_pack = |more: &[u32]| [&message[..11], more].concat();
    let expected: [(&str, Vec<u32>); 18] = [
        ("read", with(&[21])),
        ("list", with(&[21])),
        ("rows", with(&[21])),
        ("replace", with(&[12, 21])),
        ("insert", with(&[12, 14, 21])),
        ("delete", with(&[12, 13, 21])),
        ("write", vec![0, 1, 4, 5, 6, 7, 11, 17, 18, 21]),
        ("label", vec![0, 1]),
        ("pack_read", in_pack(&[21, 26, 27])),
        ("pack_message", in_pack(&[12, 21, 26, 27])),
        ("pack_write", with(&[21, 27])),
        ("pack_salvage", vec![0, 1, 11]),
        ("bitmap_read", vec![0, 2, 15, 16]),
        ("bitmap_write", vec![0, 11, 15, 16]),
        ("icon_read", vec![0, 2, 15, 16, 20]),
        ("icon_write", vec![0, 11, 15, 16]),
        ("logo_read", vec![0, 2, 15, 16, 20]),
        ("logo_write", vec![0, 11, 15, 16, 20]),
    ];
    for (call, refusals) in expected {
        let seen = comparison.tally.keys().filter(|key| key.0 == call);
        let seen: Vec<u32> = seen.map(|key| key.1).collect();
        assert_eq!(seen, refusals, "the refusals that {call} gave");
    }
}

/// One way to be wrong.
#[derive(Clone, Copy, Debug)]
enum Fault {
    TouchesCellOnRefusal,
    ClearsFirstCellLeftOver,
    ClearsSecondCellLeftOver,
    CountsOneEntryMore,
    MarksOneEntryLate,
    PlacesRestAtId,
    LeavesOldOctets,
    RefusesLengthAheadOfFullPart,
    NamesSongOnRefusal,
    WritesOneOctetMore,
    MissesOnePixel,
    TakesEmptyStandInForTitle,
    LeavesOneRow,
    TakesAnyVersion,
    WritesAnotherVersion,
    TakesCarriageReturn,
    JudgesVersionAheadOfLength,
    LosesZ,
    TakesThreeDigitNetwork,
    TouchesLogoOnRefusal,
    PlacesCharacterAtTitle,
    TouchesTitleOnRefusal,
    JudgesCharacterCutShort,
    JudgesCountAheadOfTitle,
    JudgesLowOctetAlone,
    Takes159InTitle,
    JudgesCharactersAheadOfTitle,
    JudgesTableAheadOfTitle,
    JudgesEntryAheadOfMessage,
    MarksFirstPass,
    CountsOnePass,
    SetsBackForSecondPass,
    MarksSilentPasses,
    JudgesRoomByOnePass,
    ListsOnePass,
    JudgesRoomByTwoCells,
    LeavesThirdCell,
    LeavesHeaderInRow,
    LeavesOriginInRow,
    ListsOldPositions,
    /// Restarts the sums of durations at an event that does not, or the reverse.
    RestartsOtherwise(Event),
    CountsOriginsOtherwise(Miscount),
    /// Reads, cuts or writes a pack the wrong way.
    MakesPacksOtherwise(Mispack),
    /// Gets messages out of a broken pack the wrong way.
    SalvagesOtherwise(Missalvage),
}

/// A wrong way to count a header or a position.
#[derive(Clone, Copy, Debug)]
enum Miscount {
    DefinitionForRecall,
    DefinitionsAlone,
    HeadersFromOne,
    PlaceInTable,
    NotesAlone,
    PositionsFromOne,
    OnOverPasses,
}

const MISCOUNTS: [Miscount; 7] = [
    Miscount::DefinitionForRecall,
    Miscount::DefinitionsAlone,
    Miscount::HeadersFromOne,
    Miscount::PlaceInTable,
    Miscount::NotesAlone,
    Miscount::PositionsFromOne,
    Miscount::OnOverPasses,
];

const FAULTS: [Fault; 40] = [
    Fault::TouchesCellOnRefusal,
    Fault::ClearsFirstCellLeftOver,
    Fault::ClearsSecondCellLeftOver,
    Fault::CountsOneEntryMore,
    Fault::MarksOneEntryLate,
    Fault::PlacesRestAtId,
    Fault::LeavesOldOctets,
    Fault::RefusesLengthAheadOfFullPart,
    Fault::NamesSongOnRefusal,
    Fault::WritesOneOctetMore,
    Fault::MissesOnePixel,
    Fault::TakesEmptyStandInForTitle,
    Fault::LeavesOneRow,
    Fault::TakesAnyVersion,
    Fault::WritesAnotherVersion,
    Fault::TakesCarriageReturn,
    Fault::JudgesVersionAheadOfLength,
    Fault::LosesZ,
    Fault::TakesThreeDigitNetwork,
    Fault::TouchesLogoOnRefusal,
    Fault::PlacesCharacterAtTitle,
    Fault::TouchesTitleOnRefusal,
    Fault::JudgesCharacterCutShort,
    Fault::JudgesCountAheadOfTitle,
    Fault::JudgesLowOctetAlone,
    Fault::Takes159InTitle,
    Fault::JudgesCharactersAheadOfTitle,
    Fault::JudgesTableAheadOfTitle,
    Fault::JudgesEntryAheadOfMessage,
    Fault::MarksFirstPass,
    Fault::CountsOnePass,
    Fault::SetsBackForSecondPass,
    Fault::MarksSilentPasses,
    Fault::JudgesRoomByOnePass,
    Fault::ListsOnePass,
    Fault::JudgesRoomByTwoCells,
    Fault::LeavesThirdCell,
    Fault::LeavesHeaderInRow,
    Fault::LeavesOriginInRow,
    Fault::ListsOldPositions,
];

/// The comparison itself must be able to fail, at each of these faults.
#[test]
fn wrong_codecs_are_found() {
    let restarts = EVENTS.map(Fault::RestartsOtherwise);
    let miscounts = MISCOUNTS.map(Fault::CountsOriginsOtherwise);
    let mispacks = MISPACKS.map(Fault::MakesPacksOtherwise);
    let missalvages = MISSALVAGES.map(Fault::SalvagesOtherwise);
    let others = restarts.into_iter().chain(miscounts);
    let others = others.chain(mispacks).chain(missalvages);
    for fault in FAULTS.into_iter().chain(others) {
        let wrong: &'static dyn Codec = Box::leak(Box::new(Wrong(fault)));
        let found = catch_unwind(AssertUnwindSafe(|| {
            Comparison::new(&[&Obvious, wrong], 1).run(ENOUGH_FOR_ALL);
        }));
        assert!(found.is_err(), "nobody noticed {fault:?}");
    }
}

/// Where the wrong ways share steps, these must be right: else each would be found for
/// what is not its own fault.
#[test]
fn what_the_wrong_salvages_share_is_right() {
    let right = Wrong(Fault::SalvagesOtherwise(Missalvage::None));
    let right: &'static dyn Codec = Box::leak(Box::new(right));
    Comparison::new(&[&Obvious, right], 1).run(ENOUGH_FOR_ALL);
}

/// Whether an edit's entry is of an instruction's kind. A deletion has none.
fn names_instruction(edit: Edit) -> bool {
    match edit {
        Edit::Replace(entry) | Edit::Insert(entry) => (1..=5).contains(&(entry / 65536)),
        Edit::Delete => true,
    }
}

fn has_refused_low_octet(title: &[u8], unicode: bool) -> bool {
    let each = if unicode { 2 } else { 1 };
    let mut low = title.iter().skip(each - 1).step_by(each);
    low.any(|octet| matches!(octet, 0..=31 | 127..=159))
}

/// Where a message's title would begin.
fn title_place(message: &[u8]) -> usize {
    match message.first() {
        Some(3) => 38,
        _ => 30,
    }
}

fn read_alone(message: &[u8]) -> Tone {
    Obvious.read(message, &mut [], &mut [])
}

/// A message with the last character of all throughout its title.
fn with_title_of_ones(message: &[u8]) -> Vec<u8> {
    let place = title_place(message);
    let each = if place == 38 { 16 } else { 8 };
    // Its length is in the four bits ahead of it.
    let characters = (message[place / 8] >> 2 & 15) as usize;
    let mut ones = message.to_vec();
    for bit in place..place + characters * each {
        if let Some(octet) = ones.get_mut(bit / 8) {
            *octet |= 128 >> (bit % 8);
        }
    }
    ones
}

/// How many entries a pass of the endless part has. They are those behind the mark,
/// and without a mark there are none.
fn entries_of_pass(entries: usize, mark: u32) -> usize {
    match mark {
        NO_MARK => 0,
        mark => entries - mark as usize,
    }
}

/// The table of a sound message.
fn table_of(message: &[u8]) -> Vec<u32> {
    let mut table = vec![0; LARGEST_TABLE];
    let entries = Obvious.read(message, &mut table, &mut [0; 30]).entries;
    table.truncate(entries);
    table
}

/// Whether a sound message has a header with loop 15.
fn has_endless_part(message: &[u8]) -> bool {
    let table = table_of(message);
    let mut headers = table.iter().filter(|&&entry| entry < 65536);
    headers.any(|header| header / 256 % 16 == 15)
}

/// Rows that are made where there is room for one pass. Where that ends, they end
/// too.
fn rows_with_room_for_one_pass(
    message: &[u8],
    list: &mut [u32],
    rows: &mut [Entry],
) -> Option<Listed> {
    let whole = (list.len() + ENTRY_CELLS * 255, rows.len() + 255);
    let (mut cells, mut records) = (vec![0; whole.0], vec![Entry::default(); whole.1]);
    let answer = Obvious.rows(message, &mut cells, &mut records);
    // As many entries are ahead of the mark as there are with one pass.
    let ahead = answer.mark as usize;
    if answer.refusal != 0 || list.len() < ENTRY_CELLS * ahead || rows.len() < ahead {
        return None;
    }
    let filled = (
        list.len().min(ENTRY_CELLS * answer.entries),
        rows.len().min(answer.entries),
    );
    list[..filled.0].copy_from_slice(&cells[..filled.0]);
    rows[..filled.1].copy_from_slice(&records[..filled.1]);
    Some(answer)
}

/// A list that is made where there is room for two cells an entry. It ends where
/// the room ends.
fn list_with_room_for_two_cells(message: &[u8], list: &mut [u32]) -> Option<Listed> {
    let mut whole = vec![0; ENTRY_CELLS * list.len()];
    let answer = Obvious.list(message, &mut whole);
    if answer.refusal != 0 || list.len() < 2 * answer.entries {
        return None;
    }
    list.copy_from_slice(&whole[..list.len()]);
    Some(answer)
}

/// Puts a fault into a list that was made, and into its answer.
fn spoil_list(fault: Fault, message: &[u8], list: &mut [u32], answer: &mut Listed) {
    let pass = entries_of_pass(answer.entries, answer.mark);
    let filled = ENTRY_CELLS * answer.entries;
    let left_over = list.len() - filled;
    match fault {
        Fault::MarksOneEntryLate if answer.mark != NO_MARK => answer.mark += 1,
        Fault::ClearsFirstCellLeftOver if left_over == 1 => list[filled] = 0,
        Fault::ClearsSecondCellLeftOver if left_over == 2 => list[filled + 1] = 0,
        Fault::MarksFirstPass => answer.mark -= pass as u32,
        Fault::CountsOnePass => answer.entries -= pass,
        Fault::SetsBackForSecondPass => {
            let second = filled - ENTRY_CELLS * pass;
            list.copy_within(second - ENTRY_CELLS * pass..second, second);
        }
        Fault::RestartsOtherwise(event) => {
            let wrong = |it| restarts(it) != (it == event);
            let cells = list_of(&table_of(message), wrong);
            list[..cells.len()].copy_from_slice(&cells);
        }
        Fault::CountsOriginsOtherwise(miscount) => {
            count_origins(miscount, &table_of(message), &mut list[..filled]);
        }
        _ => {}
    }
}

/// Counts the origins of a list the wrong way.
fn count_origins(miscount: Miscount, table: &[u32], list: &mut [u32]) {
    let patterns = Patterns::of(table);
    // How often each origin came up so far.
    let mut passes: BTreeMap<u32, usize> = BTreeMap::new();
    for entry in list.chunks_mut(ENTRY_CELLS) {
        let pass = passes.entry(entry[2]).or_default();
        let (header, position) = counted(miscount, table, &patterns, entry[2], *pass);
        *pass += 1;
        entry[2] = (header * 256 + position) as u32;
    }
}

/// The wrong header and position for an origin, in a pass that has so many ahead of
/// it.
fn counted(
    miscount: Miscount,
    table: &[u32],
    patterns: &Patterns,
    origin: u32,
    pass: usize,
) -> (usize, usize) {
    let (header, position) = apart(origin);
    let definition = patterns.definition(header);
    let place = patterns.place(definition);
    let ahead = &table[place + 1..][..position];
    match miscount {
        Miscount::DefinitionForRecall => (definition, position),
        Miscount::DefinitionsAlone => {
            let earlier = (0..header).filter(|&it| !patterns.is_recall(it));
            (earlier.count(), position)
        }
        Miscount::HeadersFromOne => (header + 1, position),
        Miscount::PlaceInTable => (patterns.place(header), position),
        Miscount::NotesAlone => {
            let notes = ahead.iter().filter(|&it| it / 65536 == 1);
            (header, notes.count())
        }
        Miscount::PositionsFromOne => (header, position + 1),
        Miscount::OnOverPasses => {
            let count = (table[place] % 256) as usize;
            (header, position + pass * count)
        }
    }
}

/// The obvious implementation with one fault.
struct Wrong(Fault);

impl Codec for Wrong {
    fn name(&self) -> &'static str {
        "wrong on purpose"
    }

    fn read(&self, message: &[u8], table: &mut [u32], title: &mut [u8]) -> Tone {
        let mut answer = Obvious.read(message, table, title);
        match (self.0, answer.refusal) {
            (Fault::TouchesCellOnRefusal, 10) if !table.is_empty() => table[0] ^= 1,
            (Fault::CountsOneEntryMore, 0) => answer.entries += 1,
            (Fault::PlacesRestAtId, 7) => answer.place -= 3,
            (Fault::NamesSongOnRefusal, 5) => answer.song = 1,
            (Fault::PlacesCharacterAtTitle, 21) => answer.place = title_place(message),
            (Fault::TouchesTitleOnRefusal, 21) if !title.is_empty() => title[0] ^= 1,
            (Fault::JudgesCharacterCutShort, 2) => {
                // The missing bits are taken for zeros.
                let longer = read_alone(&[message, &[0; 2]].concat());
                if (longer.refusal, longer.place) == (21, answer.place) {
                    return longer;
                }
            }
            (Fault::JudgesCountAheadOfTitle, 21) => {
                let other = read_alone(&with_title_of_ones(message));
                if other.refusal == 5 {
                    return other;
                }
            }
            _ => {}
        }
        answer
    }

    fn write(
        &self,
        song: u32,
        unicode: bool,
        title: &[u8],
        table: &[u32],
        out: &mut [u8],
    ) -> Written {
        if matches!(self.0, Fault::Takes159InTitle) && !unicode {
            let next = |&octet: &u8| if octet == 159 { 160 } else { octet };
            let title: Vec<u8> = title.iter().map(next).collect();
            return Obvious.write(song, unicode, &title, table, out);
        }
        let mut answer = Obvious.write(song, unicode, title, table, out);
        let more = out.get_mut(answer.octets);
        let refused = has_refused_low_octet(title, unicode);
        match (self.0, answer.refusal, more) {
            (Fault::WritesOneOctetMore, 0, Some(octet)) => *octet = 0,
            (Fault::JudgesLowOctetAlone, 0, _) if refused => {
                (answer.refusal, answer.octets) = (21, 0);
            }
            (Fault::JudgesCharactersAheadOfTitle, 17, _) if refused => answer.refusal = 21,
            (Fault::JudgesTableAheadOfTitle, 21, _) => {
                let other = Obvious.write(song, unicode, &[], table, &mut []);
                if other.refusal == 18 {
                    return other;
                }
            }
            _ => {}
        }
        answer
    }

    fn label(&self, title: &[u8], unicode: bool, stand_in: &[u8]) -> Label {
        let mut answer = Obvious.label(title, unicode, stand_in);
        if matches!(self.0, Fault::TakesEmptyStandInForTitle) && stand_in.is_empty() {
            answer.stand_in = false;
        }
        answer
    }

    fn list(&self, message: &[u8], list: &mut [u32]) -> Listed {
        let old = list.to_vec();
        let mut answer = Obvious.list(message, list);
        match (self.0, answer.refusal) {
            (Fault::JudgesRoomByTwoCells, 11) => {
                return list_with_room_for_two_cells(message, list).unwrap_or(answer);
            }
            (Fault::LeavesThirdCell, 0) if answer.entries > 0 => list[2] = old[2],
            (fault, 0) => spoil_list(fault, message, list, &mut answer),
            _ => {}
        }
        answer
    }

    fn rows(&self, message: &[u8], list: &mut [u32], rows: &mut [Entry]) -> Listed {
        let old = rows.to_vec();
        let mut answer = Obvious.rows(message, list, rows);
        // The last one that is lent, and the last one that is filled.
        let lent = rows.len().checked_sub(1);
        let filled = answer.entries.checked_sub(1);
        match (self.0, answer.refusal, lent, filled) {
            (Fault::LeavesOneRow, _, Some(last), _) => rows[last] = old[last],
            (Fault::LeavesHeaderInRow, 0, _, Some(last)) => rows[last].header = old[last].header,
            (Fault::LeavesOriginInRow, 0, _, Some(last)) => {
                rows[last].position += rows[last].header * 256;
            }
            (Fault::JudgesRoomByOnePass, 11, ..) => {
                return rows_with_room_for_one_pass(message, list, rows).unwrap_or(answer);
            }
            (Fault::MarksSilentPasses, 0, ..)
                if answer.mark == NO_MARK && has_endless_part(message) =>
            {
                answer.mark = answer.entries as u32;
            }
            _ => {}
        }
        answer
    }

    fn edit(&self, buffer: &mut [u8], spot: Spot, edit: Edit, list: &mut [u32]) -> Edited {
        let (old, old_list) = (buffer.to_vec(), list.to_vec());
        let mut answer = Obvious.edit(buffer, spot, edit, list);
        match (self.0, answer.refusal) {
            (Fault::LeavesOldOctets, 0) if answer.change < 0 => {
                let left = answer.length..spot.used;
                buffer[left.clone()].copy_from_slice(&old[left]);
            }
            (Fault::RefusesLengthAheadOfFullPart, 14) if spot.used == LARGEST_TONE => {
                answer.refusal = 1;
            }
            (Fault::JudgesEntryAheadOfMessage, 21) if !names_instruction(edit) => {
                (answer.refusal, answer.place) = (6, 0);
            }
            (Fault::ListsOnePass, 0) => {
                let pass = entries_of_pass(answer.entries, answer.mark);
                answer.entries -= pass;
                answer.mark -= pass as u32;
                let end = ENTRY_CELLS * answer.entries;
                let left = end..end + ENTRY_CELLS * pass;
                list[left.clone()].copy_from_slice(&old_list[left]);
            }
            (Fault::ListsOldPositions, 0) if matches!(edit, Edit::Insert(_)) => {
                let inserted = (spot.pattern * 256 + spot.instruction) as u32;
                let filled = list[..ENTRY_CELLS * answer.entries].chunks_mut(ENTRY_CELLS);
                let behind = |origin: u32| origin > inserted && origin / 256 == inserted / 256;
                filled
                    .filter(|entry| behind(entry[2]))
                    .for_each(|entry| entry[2] -= 1);
            }
            _ => {}
        }
        answer
    }

    fn pack_read(&self, pack: &[u8]) -> Pack {
        let right = Obvious.pack_read(pack);
        match self.0 {
            Fault::MakesPacksOtherwise(mispack) => mispack.read(pack, right).unwrap_or(right),
            _ => right,
        }
    }

    fn pack_message(&self, pack: &[u8], n: u32) -> Stretch {
        let right = Obvious.pack_message(pack, n);
        match self.0 {
            Fault::MakesPacksOtherwise(mispack) => mispack.message(pack, n, right).unwrap_or(right),
            _ => right,
        }
    }

    fn pack_write(&self, messages: &[u8], lengths: &[u32], out: &mut [u8]) -> Written {
        let right = Obvious.pack_write(messages, lengths, out);
        match self.0 {
            Fault::MakesPacksOtherwise(mispack) => mispack
                .write(messages, lengths, out, right)
                .unwrap_or(right),
            _ => right,
        }
    }

    fn pack_salvage(&self, pack: &[u8], out: &mut [u8], report: &mut [u32]) -> Salvage {
        match self.0 {
            Fault::SalvagesOtherwise(missalvage) => missalvage.salvage(pack, out, report),
            _ => Obvious.pack_salvage(pack, out, report),
        }
    }

    fn bitmap_read(&self, message: &[u8]) -> Bitmap {
        let mut answer = Obvious.bitmap_read(message);
        if matches!(self.0, Fault::MissesOnePixel) && answer.black > 1000 {
            answer.black -= 1;
        }
        answer
    }

    fn bitmap_write(&self, width: u32, height: u32, image: &[u8], out: &mut [u8]) -> Written {
        Obvious.bitmap_write(width, height, image, out)
    }

    fn icon_read(&self, message: &[u8]) -> Bitmap {
        let mut message = message.to_vec();
        if let (Fault::TakesAnyVersion, Some(version)) = (self.0, message.first_mut()) {
            *version = b'0';
        }
        Obvious.icon_read(&message)
    }

    fn icon_write(&self, width: u32, height: u32, image: &[u8], out: &mut [u8]) -> Written {
        let answer = Obvious.icon_write(width, height, image, out);
        if matches!(self.0, Fault::WritesAnotherVersion) && answer.refusal == 0 {
            out[0] = 0;
        }
        answer
    }

    fn logo_read(&self, message: &[u8]) -> Logo {
        let mut message = message.to_vec();
        match (self.0, message.get_mut(14)) {
            (Fault::TakesCarriageReturn, Some(end)) if *end == b'\r' => *end = b'\n',
            _ => {}
        }
        let mut answer = Obvious.logo_read(&message);
        match (self.0, answer.refusal) {
            (Fault::JudgesVersionAheadOfLength, 2) if message.first() != Some(&b'0') => {
                answer.refusal = 20
            }
            (Fault::LosesZ, 0) if answer.date_length == 16 => answer.date_length = 15,
            _ => {}
        }
        answer
    }

    fn logo_write(&self, mut parts: LogoParts, out: &mut [u8]) -> Written {
        if matches!(self.0, Fault::TakesThreeDigitNetwork) && parts.mnc.len() == 3 {
            parts.mnc = &parts.mnc[..2];
        }
        let answer = Obvious.logo_write(parts, out);
        match (self.0, out.first_mut()) {
            (Fault::TouchesLogoOnRefusal, Some(version)) if answer.refusal == 11 => *version = b'0',
            _ => {}
        }
        answer
    }
}
