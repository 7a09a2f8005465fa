//! Parts that sound for ever: two passes are listed, and the list returns to the
//! second. Lists were worked out by hand, and each case is put to each codec.

mod support;

use ohakelm::entry::{header, note, scale, style, tempo, volume};
use ohakelm_answers::{Edited, Entry, Listed, ENTRY_CELLS, NO_MARK};
use support::codecs::{each, Codec, Edit, Spot};
use support::heard::{restarts, Event, Player};
use support::largest::origin_in_longest;
use support::octets;
use support::rng::Rng;
use support::tones::{self, Bounds};

/// The loop value of an endless part.
const FOR_EVER: u32 = 15;

/// The ids of the first two parts.
const A: u32 = 0;
const B: u32 = 1;

/// Quarters. At the tempo of the start, 63 beats, each is 60,000,000 / 63 or
/// 952,380 20/21 microseconds.
const NOTE_C: u32 = note(1, 2, 0);
const NOTE_D: u32 = note(3, 2, 0);
const PAUSE: u32 = note(0, 2, 0);

/// An entry of a list.
type Numbers = [u32; ENTRY_CELLS];

/// They are listed so at volume 7, which is that of the start, with scale 1 and
/// natural style: note * 1,024 + 256 + 7. The first one behind a restart is rounded
/// down. It is the first instruction of the first pattern.
const C: Numbers = [1287, 952_380, 0];
const D: Numbers = [3335, 952_380, 0];

/// The same at another volume.
fn at(volume: u32, [first, microseconds, origin]: Numbers) -> Numbers {
    [first - 7 + volume, microseconds, origin]
}

/// The same as the second quarter since a restart, or one of the next 19: with it
/// the sum of so many 20/21 comes to one more.
fn later([first, microseconds, origin]: Numbers) -> Numbers {
    [first, microseconds + 1, origin]
}

/// The same, sounded by another header or from another position in the body.
fn from(header: u32, position: u32, [first, microseconds, _]: Numbers) -> Numbers {
    [first, microseconds, header * 256 + position]
}

/// The note C as one of many quarters, so many of them behind the restart. 21
/// quarters are 20 seconds, and then it all begins again.
fn c_behind(quarters: usize) -> Numbers {
    match quarters % 21 {
        0 => C,
        _ => later(C),
    }
}

/// A part that sounds for ever, ending with volume 2. Ahead of the header are 34
/// bits. It is 000, 00, 1111 and 00000010; behind it are 001 0001 010 00 and 101
/// 0010, two bits of filler and the end octet.
const CHIME: &str = "02 4A 3A 80 41 E0 44 51 48 00";

/// What lies in a lent cell, octet or record before a call.
const OLD: u32 = 7;
const OLD_OCTET: u8 = 7;
const OLD_ROW: Entry = Entry {
    note: 99,
    scale: 99,
    style: 99,
    volume: 99,
    microseconds: 99,
    header: 99,
    position: 99,
};

fn temporary(table: &[u32]) -> Vec<u8> {
    tones::written(2, false, &[], table)
}

/// A header with the body that it defines.
fn with_header(id: u32, loops: u32, body: &[u32]) -> Vec<u32> {
    [&[header(id, loops, body.len() as u32)][..], body].concat()
}

// ---- Lists and edits, with each room from none to more than enough.

/// A message's list in both forms. With less room than it takes, both are refused
/// and nothing changes.
fn assert_list(codec: &dyn Codec, message: &[u8], entries: &[Numbers], mark: u32) {
    let cells = entries.concat();
    let answer = Listed {
        refusal: 0,
        place: 0,
        entries: entries.len(),
        mark,
    };
    for room in 0..=cells.len() + ENTRY_CELLS {
        let mut list = vec![OLD; room];
        let made = codec.list(message, &mut list);
        assert_made(made, answer, &list, &cells);
    }
    for room in 0..entries.len() + 2 {
        assert_rows(codec, message, answer, entries, (cells.len(), room));
    }
    for room in cells.len().saturating_sub(ENTRY_CELLS)..=cells.len() + ENTRY_CELLS {
        assert_rows(codec, message, answer, entries, (room, entries.len()));
    }
}

/// What making a list answers and leaves: the answer and the cells where they have
/// room, else the refusal 11 and nothing.
fn assert_made(made: Listed, answer: Listed, list: &[u32], cells: &[u32]) {
    let has_room = list.len() >= cells.len();
    let filled = if has_room { cells.len() } else { 0 };
    assert_eq!(made, if has_room { answer } else { no_room() });
    assert_eq!(list[..filled], cells[..filled]);
    assert!(list[filled..].iter().all(|&cell| cell == OLD));
}

fn no_room() -> Listed {
    Listed {
        refusal: 11,
        ..Listed::default()
    }
}

/// The rows of a message with so much room for numbers and for records.
fn assert_rows(
    codec: &dyn Codec,
    message: &[u8],
    answer: Listed,
    entries: &[Numbers],
    (numbers, records): (usize, usize),
) {
    let (mut list, mut rows) = (vec![OLD; numbers], vec![OLD_ROW; records]);
    let made = codec.rows(message, &mut list, &mut rows);
    let has_room = numbers >= ENTRY_CELLS * entries.len() && records >= entries.len();
    let listed = if has_room { entries } else { &[] };
    let cells = listed.concat();
    assert_eq!(made, if has_room { answer } else { no_room() });
    assert_eq!(list[..cells.len()], cells);
    assert!(list[cells.len()..].iter().all(|&cell| cell == OLD));
    let expected: Vec<Entry> = listed.iter().map(|&entry| row(entry)).collect();
    assert_eq!(rows[..listed.len()], expected);
    assert!(rows[listed.len()..].iter().all(|&row| row == OLD_ROW));
}

fn row([first, microseconds, origin]: Numbers) -> Entry {
    Entry {
        note: first / 1024,
        scale: first / 256 % 4,
        style: first / 16 % 16,
        volume: first % 16,
        microseconds,
        header: origin / 256,
        position: origin % 256,
    }
}

/// An edit that makes one message of another, and the list that it fills, with
/// each room for the list.
fn assert_edit(
    codec: &dyn Codec,
    messages: [&[u8]; 2],
    (pattern, instruction): (usize, usize),
    edit: Edit,
    entries: &[Numbers],
    mark: u32,
) {
    let ([before, after], cells) = (messages, entries.concat());
    let used = before.len();
    let spot = Spot {
        used,
        pattern,
        instruction,
    };
    let lent = [before, &[OLD_OCTET; 2]].concat();
    // The octets that the message gave up are 0, and the rest is as it was.
    let mut left = after.to_vec();
    left.resize(used.max(after.len()), 0);
    left.resize(lent.len(), OLD_OCTET);
    for room in 0..=cells.len() + ENTRY_CELLS {
        let (mut buffer, mut list) = (lent.clone(), vec![OLD; room]);
        let done = codec.edit(&mut buffer, spot, edit, &mut list);
        let answer = Edited {
            refusal: 0,
            place: 0,
            length: after.len(),
            entries: entries.len(),
            mark,
            change: after.len() as i32 - used as i32,
        };
        assert_edited(done, answer, &list, &cells);
        let has_room = room >= cells.len();
        assert_eq!(buffer, *if has_room { &left } else { &lent });
    }
}

fn assert_edited(done: Edited, answer: Edited, list: &[u32], cells: &[u32]) {
    let refused = Edited {
        refusal: 11,
        ..Edited::default()
    };
    let has_room = list.len() >= cells.len();
    let filled = if has_room { cells.len() } else { 0 };
    assert_eq!(done, if has_room { answer } else { refused });
    assert_eq!(list[..filled], cells[..filled]);
    assert!(list[filled..].iter().all(|&cell| cell == OLD));
}

// ---- The settings in both passes.

#[test]
fn the_chime_is_loud_in_its_first_pass_only() {
    each(|codec| {
        let message = octets(CHIME);
        let table = [header(A, FOR_EVER, 2), NOTE_C, volume(2)];
        assert_eq!(message, temporary(&table));
        assert_list(codec, &message, &[C, at(2, C)], 1);
    });
}

/// The part is the note C and a setting. Its second pass has that setting.
#[test]
fn each_setting_at_the_end_of_an_endless_part() {
    each(|codec| {
        let ends_with = |setting, second| {
            let message = temporary(&[header(A, FOR_EVER, 2), NOTE_C, setting]);
            assert_list(codec, &message, &[C, second], 1);
        };
        ends_with(scale(0), [1024 + 7, 952_380, 0]);
        ends_with(scale(3), [1024 + 3 * 256 + 7, 952_380, 0]);
        ends_with(style(1), [1024 + 256 + 16 + 7, 952_380, 0]);
        ends_with(style(2), [1024 + 256 + 2 * 16 + 7, 952_380, 0]);
        // A quarter at 25, 125 and 900 beats a minute.
        ends_with(tempo(0), [1287, 2_400_000, 0]);
        ends_with(tempo(14), [1287, 480_000, 0]);
        ends_with(tempo(31), [1287, 66_666, 0]);
        ends_with(volume(0), [1280, 952_380, 0]);
        ends_with(volume(15), [1295, 952_380, 0]);
        // What is set already changes nothing.
        for setting in [scale(1), style(0), tempo(8), volume(7)] {
            ends_with(setting, C);
        }
    });
}

#[test]
fn all_settings_at_the_end_of_an_endless_part() {
    each(|codec| {
        let settings = [scale(2), style(1), tempo(14), volume(3)];
        let table = [&[header(A, FOR_EVER, 6), NOTE_C, NOTE_D][..], &settings].concat();
        let second = 2 * 256 + 16 + 3;
        let passes = [[1024 + second, 480_000, 0], [3 * 1024 + second, 480_000, 1]];
        let list = [C, from(0, 1, later(D)), passes[0], passes[1]];
        assert_list(codec, &temporary(&table), &list, 2);
    });
}

/// A setting is heard from where it stands. At the front of the part it makes
/// both passes alike; the last one of several is heard in the next pass.
#[test]
fn settings_elsewhere_in_an_endless_part() {
    each(|codec| {
        let message = temporary(&[header(A, FOR_EVER, 2), volume(2), NOTE_C]);
        let c = from(0, 1, at(2, C));
        assert_list(codec, &message, &[c, c], 1);
        let message = temporary(&[header(A, FOR_EVER, 3), NOTE_C, volume(9), NOTE_D]);
        let d = from(0, 2, later(at(9, D)));
        assert_list(codec, &message, &[C, d, at(9, C), d], 2);
        let table = [header(A, FOR_EVER, 4), NOTE_C, volume(9), NOTE_D, volume(2)];
        let list = [C, d, at(2, C), d];
        assert_list(codec, &temporary(&table), &list, 2);
        let table = [header(A, FOR_EVER, 3), NOTE_C, volume(9), volume(2)];
        assert_list(codec, &temporary(&table), &[C, at(2, C)], 1);
    });
}

// ---- Where the part stands.

#[test]
fn an_endless_part_alone() {
    each(|codec| {
        let message = temporary(&[header(A, FOR_EVER, 1), NOTE_C]);
        assert_list(codec, &message, &[C, C], 1);
        let (d, again) = (from(0, 1, later(D)), from(0, 2, later(D)));
        let message = temporary(&[header(A, FOR_EVER, 2), NOTE_C, NOTE_D]);
        assert_list(codec, &message, &[C, d, C, d], 2);
        let message = temporary(&[header(A, FOR_EVER, 3), NOTE_C, NOTE_D, NOTE_D]);
        assert_list(codec, &message, &[C, d, again, C, d, again], 3);
    });
}

/// Settings of the parts ahead are heard in the first pass.
#[test]
fn an_endless_part_behind_others() {
    each(|codec| {
        let message = temporary(&[header(A, 0, 1), NOTE_C, header(B, FOR_EVER, 1), NOTE_D]);
        let d = from(1, 0, D);
        assert_list(codec, &message, &[C, d, d], 2);
        // The part ahead sounds twice and ends with volume 9.
        let ahead = [header(A, 1, 2), NOTE_C, volume(9)];
        let endless = [header(B, FOR_EVER, 3), NOTE_D, NOTE_C, volume(2)];
        let heard = [C, later(at(9, C))];
        let (d, c) = (from(1, 0, D), from(1, 1, later(C)));
        let both = [at(9, d), at(9, c), at(2, d), at(2, c)];
        let message = temporary(&[&ahead[..], &endless].concat());
        assert_list(codec, &message, &[&heard[..], &both].concat(), 4);
        // The part ahead has no entry.
        let ahead = [header(A, 14, 1), volume(9)];
        let message = temporary(&[&ahead[..], &endless].concat());
        assert_list(codec, &message, &both, 2);
    });
}

/// A recall has its own loop value, and the settings at each of its passes.
#[test]
fn an_endless_recall() {
    each(|codec| {
        let message = temporary(&[header(A, 0, 1), NOTE_C, header(A, FOR_EVER, 0)]);
        let c = from(1, 0, C);
        assert_list(codec, &message, &[C, c, c], 2);
        let table = [header(A, 0, 2), NOTE_C, volume(2), header(A, FOR_EVER, 0)];
        assert_list(codec, &temporary(&table), &[C, at(2, c), at(2, c)], 2);
        // B sets another volume between the two.
        let part = [header(A, 0, 2), NOTE_C, volume(2)];
        let between = [header(B, 0, 2), NOTE_D, volume(9)];
        let recall = [header(A, FOR_EVER, 0)];
        let message = temporary(&[&part[..], &between, &recall].concat());
        let (d, c) = (from(1, 0, later(at(2, D))), from(2, 0, C));
        assert_list(codec, &message, &[C, d, at(9, c), at(2, c)], 3);
        // The nearest definition is recalled.
        let again = [header(A, 2, 1), NOTE_D];
        let message = temporary(&[&part[..], &again, &recall].concat());
        let first = from(2, 0, at(2, D));
        assert_list(codec, &message, &[C, d, d, d, first, first], 5);
    });
}

/// What is behind an endless part is never heard, not even another one.
#[test]
fn nothing_is_listed_behind_an_endless_part() {
    each(|codec| {
        let endless = [header(A, FOR_EVER, 1), NOTE_C];
        for behind in [
            &[header(B, 0, 1), NOTE_D][..],
            &[header(B, FOR_EVER, 1), NOTE_D],
            &[header(A, 0, 1), NOTE_D],
            &[header(A, 0, 0)],
            &[header(A, 14, 0)],
            &[header(A, FOR_EVER, 0)],
        ] {
            let message = temporary(&[&endless[..], behind].concat());
            assert_list(codec, &message, &[C, C], 1);
            // It is not what the endless recall plays.
            let recalled = [header(A, 0, 1), NOTE_C, header(A, FOR_EVER, 0)];
            let message = temporary(&[&recalled[..], behind].concat());
            let c = from(1, 0, C);
            assert_list(codec, &message, &[C, c, c], 2);
        }
    });
}

/// Loop 1 and loop 15 both have two passes. Only one list returns, and only there
/// the second pass restarts.
#[test]
fn loop_1_and_loop_14_are_not_endless() {
    each(|codec| {
        let (restarted, carried) = (at(2, C), later(at(2, C)));
        for (loops, passes, second, mark) in [
            (0, 1, carried, NO_MARK),
            (1, 2, carried, NO_MARK),
            (14, 15, carried, NO_MARK),
            (FOR_EVER, 2, restarted, 1),
        ] {
            let message = temporary(&[header(A, loops, 2), NOTE_C, volume(2)]);
            let mut list = vec![second; passes];
            list[0] = C;
            assert_list(codec, &message, &list, mark);
        }
    });
}

// ---- Passes without an entry.

#[test]
fn a_silent_endless_part_has_no_mark() {
    each(|codec| {
        let settings = [scale(0), style(2), tempo(31), volume(0)];
        for setting in settings {
            let message = temporary(&[header(A, FOR_EVER, 1), setting]);
            assert_list(codec, &message, &[], NO_MARK);
        }
        // It still ends the list.
        let sounding = [header(A, 0, 1), NOTE_C];
        let silent = with_header(B, FOR_EVER, &settings);
        let recall = [header(A, 0, 0)];
        let message = temporary(&[&sounding[..], &silent, &recall].concat());
        assert_list(codec, &message, &[C], NO_MARK);
        // As a recall, behind a part that sounds.
        let table = [
            header(B, 0, 1),
            volume(9),
            header(A, 0, 1),
            NOTE_C,
            header(B, FOR_EVER, 0),
        ];
        let c = from(1, 0, at(9, C));
        assert_list(codec, &temporary(&table), &[c], NO_MARK);
        // An endless part that sounds, behind it, is not heard.
        let table = [
            header(B, FOR_EVER, 1),
            volume(9),
            header(A, FOR_EVER, 1),
            NOTE_C,
        ];
        assert_list(codec, &temporary(&table), &[], NO_MARK);
    });
}

/// A pause is an entry like a note: note 0.
#[test]
fn a_pause_for_ever_has_a_mark() {
    each(|codec| {
        let message = temporary(&[header(A, FOR_EVER, 1), PAUSE]);
        let pause = [256 + 7, 952_380, 0];
        assert_list(codec, &message, &[pause, pause], 1);
    });
}

// ---- Room.

/// A full part and 253 recalls of it, all with loop 14, then one for ever: 254 *
/// 15 * 255 entries, and 2 * 255 more. That is less than the largest list, whose
/// last recall sounds 15 times.
#[test]
fn the_longest_endless_list() {
    let mut table = vec![header(A, 14, 255)];
    table.extend([NOTE_C; 255]);
    table.extend([header(A, 14, 0); 253]);
    table.push(header(A, FOR_EVER, 0));
    let message = temporary(&table);
    let (entries, mark) = (971_550 + 510, 971_550 + 255);
    assert!(entries < ohakelm::LARGEST_ROWS);
    each(|codec| {
        let (mut list, mut rows) = (vec![OLD; ENTRY_CELLS * entries], vec![OLD_ROW; entries]);
        assert_eq!(codec.list(&message, &mut list[1..]), no_room());
        assert_eq!(codec.rows(&message, &mut list, &mut rows[1..]), no_room());
        assert!(list.iter().all(|&cell| cell == OLD));
        assert!(rows.iter().all(|&row| row == OLD_ROW));
        let answer = Listed {
            refusal: 0,
            place: 0,
            entries,
            mark,
        };
        // Two restarts, one ahead of each of the last two passes. These are header
        // 254's, behind 15 passes of each other one.
        let behind = (0..971_550).chain(0..255).chain(0..255);
        let expected: Vec<Numbers> = behind
            .enumerate()
            .map(|(entry, quarters)| {
                let [first, microseconds, _] = c_behind(quarters);
                [first, microseconds, origin_in_longest(entry)]
            })
            .collect();
        assert_eq!(codec.list(&message, &mut list), answer);
        assert!(list.chunks(ENTRY_CELLS).eq(&expected));
        list.fill(OLD);
        assert_eq!(codec.rows(&message, &mut list, &mut rows), answer);
        assert!(list.chunks(ENTRY_CELLS).eq(&expected));
        let records = expected.iter().map(|&entry| row(entry));
        assert!(rows.iter().copied().eq(records));
    });
}

/// Room for the first pass alone is not enough, in either form: 255 notes are 510
/// entries.
#[test]
fn room_counts_both_passes() {
    let message = temporary(&with_header(A, FOR_EVER, &[NOTE_C; 255]));
    let pass = (0..255).map(|note| from(0, note as u32, c_behind(note)));
    let entries: Vec<Numbers> = pass.clone().chain(pass).collect();
    let cells = ENTRY_CELLS * 510;
    each(|codec| {
        let answer = Listed {
            refusal: 0,
            place: 0,
            entries: 510,
            mark: 255,
        };
        for room in [cells / 2, cells - ENTRY_CELLS, cells - 1, cells] {
            let mut list = vec![OLD; room];
            let made = codec.list(&message, &mut list);
            assert_made(made, answer, &list, &entries.concat());
        }
        for room in [(cells / 2, 255), (cells, 255), (cells / 2, 510)] {
            assert_rows(codec, &message, answer, &entries, room);
        }
        for room in [(cells, 509), (cells - 1, 510), (cells, 510)] {
            assert_rows(codec, &message, answer, &entries, room);
        }
    });
}

// ---- Edits.

/// The last three bits of the part's count are 011, 001 and 010.
#[test]
fn edits_of_the_chime() {
    each(|codec| {
        let chime = &octets(CHIME)[..];
        // 001 0011 010 00 behind the volume.
        let longer = octets("02 4A 3A 80 41 E0 64 51 48 9A 00 00");
        let d = from(0, 2, later(at(2, D)));
        let list = [C, d, at(2, C), d];
        let insert = Edit::Insert(NOTE_D);
        assert_edit(codec, [chime, &longer], (0, 2), insert, &list, 2);
        // Without the volume.
        let shorter = octets("02 4A 3A 80 41 E0 24 50 00");
        assert_edit(codec, [chime, &shorter], (0, 1), Edit::Delete, &[C, C], 1);
        // 101 1001 for the volume.
        let louder = octets("02 4A 3A 80 41 E0 44 51 64 00");
        let replace = Edit::Replace(volume(9));
        assert_edit(codec, [chime, &louder], (0, 1), replace, &[C, at(9, C)], 1);
    });
}

/// With the note D behind its volume the chime has four entries, two in each
/// pass.
#[test]
fn edits_count_both_passes_for_room() {
    each(|codec| {
        let chime = octets(CHIME);
        let spot = Spot {
            used: chime.len(),
            pattern: 0,
            instruction: 2,
        };
        for (room, refusal) in [(0, 11), (6, 11), (9, 11), (11, 11), (12, 0), (13, 0)] {
            let mut buffer = [&chime[..], &[OLD_OCTET; 2]].concat();
            let (lent, mut list) = (buffer.clone(), vec![OLD; room]);
            let done = codec.edit(&mut buffer, spot, Edit::Insert(NOTE_D), &mut list);
            assert_eq!((done.refusal, done.place), (refusal, 0), "{room}");
            let unchanged = buffer == lent && list.iter().all(|&cell| cell == OLD);
            assert_eq!(unchanged, refusal == 11, "{room}");
        }
    });
}

/// The last note of an endless part goes and comes.
#[test]
fn an_edit_takes_the_mark_and_brings_it() {
    each(|codec| {
        let chime = &octets(CHIME)[..];
        // 010 00 for the note.
        let silent = &octets("02 4A 3A 80 41 E0 48 A4 00")[..];
        let replace = Edit::Replace(scale(0));
        assert_edit(codec, [chime, silent], (0, 0), replace, &[], NO_MARK);
        let replace = Edit::Replace(NOTE_C);
        assert_edit(codec, [silent, chime], (0, 0), replace, &[C, at(2, C)], 1);
        let alone = &temporary(&[header(A, FOR_EVER, 1), volume(2)])[..];
        assert_edit(codec, [chime, alone], (0, 0), Edit::Delete, &[], NO_MARK);
        let insert = Edit::Insert(NOTE_C);
        assert_edit(codec, [alone, chime], (0, 0), insert, &[C, at(2, C)], 1);
    });
}

/// The body named sounds once where it stands and for ever where it is recalled.
#[test]
fn edits_of_a_body_that_is_recalled_for_ever() {
    let recalled = |body: &[u32]| {
        let recall = [header(A, FOR_EVER, 0)];
        temporary(&[&with_header(A, 0, body)[..], &recall].concat())
    };
    each(|codec| {
        let before = &recalled(&[NOTE_C, volume(2)])[..];
        let longer = &recalled(&[NOTE_C, volume(2), NOTE_D])[..];
        let d = later(at(2, D));
        let (own, c, d) = (from(0, 2, d), from(1, 0, at(2, C)), from(1, 2, d));
        let list = [C, own, c, d, c, d];
        let insert = Edit::Insert(NOTE_D);
        assert_edit(codec, [before, longer], (0, 2), insert, &list, 4);
        let delete = Edit::Delete;
        assert_edit(codec, [longer, before], (0, 2), delete, &[C, c, c], 2);
        let other = &recalled(&[NOTE_C, tempo(14)])[..];
        let replace = Edit::Replace(tempo(14));
        let fast = [1287, 480_000, 256];
        assert_edit(codec, [before, other], (0, 1), replace, &[C, fast, fast], 2);
        let silent = &recalled(&[volume(2)])[..];
        assert_edit(codec, [before, silent], (0, 0), delete, &[], NO_MARK);
    });
}

/// An edit ahead of the endless part moves the mark, and one behind it changes
/// octets alone.
#[test]
fn edits_ahead_of_an_endless_part_and_behind_it() {
    let around = |ahead: &[u32], behind: &[u32]| {
        let ahead = with_header(B, 1, ahead);
        let endless = with_header(A, FOR_EVER, &[NOTE_C, volume(2)]);
        let behind = with_header(B, 0, behind);
        temporary(&[ahead, endless, behind].concat())
    };
    each(|codec| {
        let before = &around(&[NOTE_D], &[NOTE_D])[..];
        let c = from(1, 0, C);
        // Two passes of the part ahead.
        let ahead = &around(&[NOTE_C, NOTE_D], &[NOTE_D])[..];
        let insert = Edit::Insert(NOTE_C);
        let d = from(0, 1, later(D));
        let list = [C, d, later(C), d, c, at(2, c)];
        assert_edit(codec, [before, ahead], (0, 0), insert, &list, 5);
        let louder = &around(&[NOTE_D, volume(9)], &[NOTE_D])[..];
        let list = [D, later(at(9, D)), at(9, c), at(2, c)];
        let insert = Edit::Insert(volume(9));
        assert_edit(codec, [before, louder], (0, 1), insert, &list, 3);
        let behind = &around(&[NOTE_D], &[NOTE_C, NOTE_D])[..];
        let insert = Edit::Insert(NOTE_C);
        let list = [D, later(D), c, at(2, c)];
        assert_edit(codec, [before, behind], (2, 0), insert, &list, 3);
    });
}

// ---- What is heard for ever.

/// What a player hears that goes through a list and then some rounds from the
/// mark to the end. Without a mark there is nothing more to hear.
fn heard(list: &[u32], mark: u32, rounds: usize) -> Vec<u32> {
    let round: &[u32] = match mark {
        NO_MARK => &[],
        mark => &list[ENTRY_CELLS * mark as usize..],
    };
    [list, &round.repeat(rounds)].concat()
}

/// A message's list and its mark.
fn listed(codec: &dyn Codec, message: &[u8]) -> (Vec<u32>, u32) {
    let mut list = vec![OLD; ENTRY_CELLS * 10_000];
    let answer = codec.list(message, &mut list);
    assert_eq!(answer.refusal, 0);
    list.truncate(ENTRY_CELLS * answer.entries);
    (list, answer.mark)
}

/// A random body of one to six instructions.
fn body(rng: &mut Rng) -> Vec<u32> {
    let count = rng.within(1, 6);
    (0..count).map(|_| tones::instruction(rng)).collect()
}

/// A random part that sounds once, and a second one for ever or the first for
/// ever. All that is heard is what its passes give, one after the other.
#[test]
fn rounds_from_the_mark_are_more_passes() {
    each(|codec| {
        let mut rng = Rng::new(3_801);
        for _ in 0..3000 {
            let (first, second) = (body(&mut rng), body(&mut rng));
            let part = with_header(A, 0, &first);
            let (behind, endless) = match rng.one_in(3) {
                true => (vec![header(A, FOR_EVER, 0)], &first),
                false => (with_header(B, FOR_EVER, &second), &second),
            };
            let (list, mark) = listed(codec, &temporary(&[part, behind].concat()));
            let mut player = Player::at_start(restarts);
            player.pass(0, &first);
            player.meet(Event::FirstEndlessPass);
            player.pass(1, endless);
            for rounds in 0..5 {
                // What holds of the second pass holds of each later one.
                player.meet(Event::SecondEndlessPass);
                player.pass(1, endless);
                let passes = player.cells();
                assert_eq!(heard(&list, mark, rounds), passes, "{first:?} {endless:?}");
            }
        }
    });
}

/// Where the first endless pattern of a table is.
fn endless_header(table: &[u32]) -> Option<usize> {
    table
        .iter()
        .position(|&it| it < 65536 && it / 256 % 16 == FOR_EVER)
}

/// A table up to its endless pattern, which sounds so many times instead: once
/// where it stands, and in recalls. Ahead of each pass a part of another id sets
/// the tempo that is in force, and nothing else, so the durations restart.
fn spelled_out(table: &[u32], at: usize, passes: usize) -> Vec<u32> {
    let (once, body) = (table[at] - FOR_EVER * 256, (table[at] % 256) as usize);
    let other = (once / 4096 + 1) % 4;
    let restart = |spelled: &[u32]| {
        let mut player = Player::at_start(restarts);
        player.table(spelled);
        [header(other, 0, 1), tempo(player.tempo())]
    };
    let mut spelled = table[..at].to_vec();
    spelled.extend(restart(&spelled));
    spelled.push(once);
    spelled.extend(&table[at + 1..at + 1 + body]);
    for _ in 1..passes {
        spelled.extend(restart(&spelled));
        spelled.push(once / 256 * 256);
    }
    spelled
}

/// A list with the positions of its origins and without their headers.
fn without_headers(mut list: Vec<u32>) -> Vec<u32> {
    for entry in list.chunks_mut(ENTRY_CELLS) {
        entry[2] %= 256;
    }
    list
}

/// Any tone with an endless part is heard as if its passes were spelled out, each
/// behind its tempo set once more. Only the headers are others.
#[test]
fn rounds_from_the_mark_are_as_if_spelled_out() {
    each(|codec| {
        let mut rng = Rng::new(3_802);
        let mut seen = 0;
        while seen < 1500 {
            let bounds = Bounds::small(&mut rng);
            let table = tones::tone(&mut rng, bounds).table;
            let Some(at) = endless_header(&table) else {
                continue;
            };
            seen += 1;
            let (list, mark) = listed(codec, &temporary(&table));
            for rounds in 0..4 {
                let message = temporary(&spelled_out(&table, at, rounds + 2));
                let (passes, none) = listed(codec, &message);
                assert_eq!(none, NO_MARK);
                let heard = without_headers(heard(&list, mark, rounds));
                assert_eq!(heard, without_headers(passes), "{table:?}");
            }
        }
    });
}

/// The comparison finds faults only in what its random tones have. Of 4,000 tones
/// 100 or more have a heard endless part of its own body, a recalled one, a silent
/// one, one whose passes differ, and one with something behind it.
#[test]
fn random_tones_have_each_kind_of_endless_part() {
    let mut rng = Rng::new(3_803);
    let mut list = vec![0; ohakelm::LARGEST_LIST];
    let mut counts = [0; 5];
    for _ in 0..4000 {
        let bounds = Bounds::random(&mut rng);
        let made = tones::tone(&mut rng, bounds);
        let Some(at) = endless_header(&made.table) else {
            continue;
        };
        let answer = ohakelm_reference::list(&made.message, &mut list);
        let heard = answer.mark != NO_MARK;
        let body = (made.table[at] % 256) as usize;
        let kinds = [
            heard && body > 0,
            heard && body == 0,
            !heard,
            heard && passes_differ(&answer, &list),
            heard && made.table.len() > at + 1 + body,
        ];
        for (count, is_kind) in counts.iter_mut().zip(kinds) {
            *count += is_kind as usize;
        }
    }
    println!("{counts:?}");
    assert!(counts.iter().all(|&count| count >= 100), "{counts:?}");
}

/// Whether the two passes at the end of a list are unlike.
fn passes_differ(answer: &Listed, list: &[u32]) -> bool {
    let second = ENTRY_CELLS * answer.mark as usize;
    let end = ENTRY_CELLS * answer.entries;
    let first = second - (end - second);
    list[first..second] != list[second..end]
}
