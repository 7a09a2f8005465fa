//! Origins: each entry of a list says which header sounds it and where in the body
//! it stands. Numbers were worked out by hand, and each case is put to each codec.
//!
//! A line of a table is a header or an instruction. A header's position counts the
//! headers ahead of it, an instruction's the instructions of its body ahead of it.

mod support;

use ohakelm::entry::{header, note, scale, style, tempo, volume};
use ohakelm_answers::{Entry, ENTRY_CELLS, NO_MARK};
use support::codecs::{each, Codec, Edit, Spot};
use support::lists::listed;
use support::octets;
use support::tones::written;

/// The loop value of an endless part.
const FOR_EVER: u32 = 15;

/// The ids of the parts.
const PART_A: u32 = 0;
const PART_B: u32 = 1;
const PART_C: u32 = 2;

/// Quarters. Each instruction of a table here sounds another one, so that an entry
/// is known by its note.
const C: u32 = note(1, 2, 0);
const D: u32 = note(3, 2, 0);
const E: u32 = note(5, 2, 0);
const F: u32 = note(6, 2, 0);
const G: u32 = note(8, 2, 0);
const PAUSE: u32 = note(0, 2, 0);

/// What lies in a lent cell before a call.
const OLD: u32 = 77_777;

/// The note that an entry sounds, the header that sounds it, and the position in
/// the body.
type Sound = (u32, u32, u32);

fn temporary(table: &[u32]) -> Vec<u8> {
    written(2, false, &[], table)
}

/// A pattern with a body of its own.
fn part(id: u32, loops: u32, body: &[u32]) -> Vec<u32> {
    [&[header(id, loops, body.len() as u32)][..], body].concat()
}

fn recall(id: u32, loops: u32) -> Vec<u32> {
    vec![header(id, loops, 0)]
}

/// What the entries of a list sound.
fn sounds(list: &[u32]) -> Vec<Sound> {
    let entries = list.chunks(ENTRY_CELLS);
    entries
        .map(|entry| (entry[0] / 1024, entry[2] / 256, entry[2] % 256))
        .collect()
}

fn assert_sounds(codec: &dyn Codec, patterns: &[Vec<u32>], expected: &[Sound]) {
    assert_marked(codec, patterns, expected, NO_MARK);
}

fn assert_marked(codec: &dyn Codec, patterns: &[Vec<u32>], expected: &[Sound], mark: u32) {
    let (list, found) = listed(codec, &temporary(&patterns.concat()));
    assert_eq!((&sounds(&list)[..], found), (expected, mark));
}

// ---- The sample of the rules.

/// The tempo is instruction 0 of header 0, and the note is instruction 1.
#[test]
fn p1_has_origin_1() {
    let message = octets("02 4A 3A 80 40 00 51 C6 90 00");
    each(|codec| {
        let mut list = [OLD; ENTRY_CELLS];
        assert_eq!(codec.list(&message, &mut list).entries, 1);
        assert_eq!(list, [10_503, 480_000, 1]);
    });
}

// ---- Positions.

/// Settings have positions and no entries. Pauses have both.
#[test]
fn settings_count_like_notes() {
    each(|codec| {
        let body = [
            scale(2),
            C,
            style(1),
            tempo(14),
            D,
            PAUSE,
            volume(9),
            E,
            volume(3),
        ];
        let sounds = [(1, 0, 1), (3, 0, 4), (0, 0, 5), (5, 0, 7)];
        assert_sounds(codec, &[part(PART_A, 0, &body)], &sounds);
        // The same setting twice, and the same note.
        let body = [volume(7), volume(7), C, C];
        assert_sounds(codec, &[part(PART_A, 0, &body)], &[(1, 0, 2), (1, 0, 3)]);
    });
}

/// A position never counts on from one pass to the next.
#[test]
fn each_pass_begins_at_0_again() {
    let pass = [(1, 0, 0), (3, 0, 2)];
    each(|codec| {
        for (loops, passes) in [(0, 1), (1, 2), (2, 3), (14, 15)] {
            let pattern = part(PART_A, loops, &[C, scale(0), D]);
            assert_sounds(codec, &[pattern], &pass.repeat(passes));
        }
        let patterns = [part(PART_A, 1, &[C, scale(0), D]), recall(PART_A, 2)];
        let recalled = [(1, 1, 0), (3, 1, 2)];
        let all = [pass.repeat(2), recalled.repeat(3)].concat();
        assert_sounds(codec, &patterns, &all);
    });
}

// ---- Headers.

/// Also one without an entry, and whatever its id is.
#[test]
fn each_header_counts() {
    each(|codec| {
        let patterns = [
            part(PART_B, 0, &[C, D]),
            part(PART_C, 3, &[tempo(14)]),
            part(PART_A, 0, &[volume(2), E]),
            part(PART_C, 0, &[F]),
        ];
        let sounds = [(1, 0, 0), (3, 0, 1), (5, 2, 1), (6, 3, 0)];
        assert_sounds(codec, &patterns, &sounds);
    });
}

/// What is ahead of the patterns counts for nothing.
#[test]
fn titles_and_unicode_do_not_count() {
    let table = [part(PART_A, 0, &[volume(2), C]), part(PART_B, 0, &[D])].concat();
    each(|codec| {
        for message in [
            written(1, false, b"Tune", &table),
            written(1, true, b"\0T\0u\0n\0e", &table),
            written(1, false, b"", &table),
            written(2, true, b"", &table),
        ] {
            let (list, _) = listed(codec, &message);
            assert_eq!(sounds(&list), [(1, 0, 1), (3, 1, 0)]);
        }
    });
}

/// The header is the recall's, and the position is in the body that it recalls.
#[test]
fn a_recall_has_its_own_header() {
    each(|codec| {
        let patterns = [
            part(PART_A, 0, &[tempo(14), C, D]),
            part(PART_B, 0, &[E]),
            recall(PART_A, 0),
            recall(PART_B, 1),
            recall(PART_A, 0),
        ];
        let defined = [(1, 0, 1), (3, 0, 2), (5, 1, 0)];
        let recalled = [(1, 2, 1), (3, 2, 2), (5, 3, 0), (5, 3, 0)];
        let sounds = [&defined[..], &recalled, &[(1, 4, 1), (3, 4, 2)]].concat();
        assert_sounds(codec, &patterns, &sounds);
    });
}

/// Behind a second definition the positions are those of the new body.
#[test]
fn a_second_definition_has_its_own_header_and_positions() {
    each(|codec| {
        let patterns = [
            part(PART_A, 0, &[C, D]),
            recall(PART_A, 0),
            part(PART_A, 1, &[volume(2), scale(0), E]),
            recall(PART_A, 0),
        ];
        let first = [(1, 0, 0), (3, 0, 1), (1, 1, 0), (3, 1, 1)];
        let second = [(5, 2, 2), (5, 2, 2), (5, 3, 2)];
        assert_sounds(codec, &patterns, &[&first[..], &second].concat());
    });
}

/// Each recall takes the nearest earlier body, and names neither definition.
#[test]
fn recalls_of_an_earlier_and_of_a_later_definition() {
    each(|codec| {
        let patterns = [
            part(PART_A, 0, &[C]),
            part(PART_B, 0, &[style(2), D]),
            recall(PART_A, 0),
            part(PART_A, 0, &[scale(3), E, F]),
            recall(PART_A, 0),
            recall(PART_B, 0),
            part(PART_B, 0, &[G]),
            recall(PART_B, 0),
            recall(PART_A, 0),
        ];
        let earlier = [(1, 0, 0), (3, 1, 1), (1, 2, 0)];
        let later = [(5, 3, 1), (6, 3, 2), (5, 4, 1), (6, 4, 2), (3, 5, 1)];
        let last = [(8, 6, 0), (8, 7, 0), (5, 8, 1), (6, 8, 2)];
        let sounds = [&earlier[..], &later, &last].concat();
        assert_sounds(codec, &patterns, &sounds);
    });
}

/// A full part and 254 recalls of it, each sounding once: header by header and
/// position by position, up to 254 * 256 + 254.
#[test]
fn the_last_origin_of_a_recall_is_65278() {
    let notes = [C; 255];
    let recalls = [header(PART_A, 0, 0); 254];
    let message = temporary(&[&part(PART_A, 0, &notes)[..], &recalls].concat());
    let all = (0..255).flat_map(|header| (0..255).map(move |position| (1, header, position)));
    let all: Vec<Sound> = all.collect();
    each(|codec| {
        let (list, _) = listed(codec, &message);
        assert!(sounds(&list) == all);
        assert_eq!(list.last(), Some(&65_278));
    });
}

/// A note, 253 recalls of it, and a full part as the last pattern.
#[test]
fn the_last_origin_of_a_definition_is_65278() {
    let recalls = vec![header(PART_A, 0, 0); 253];
    let last = part(PART_B, 0, &[D; 255]);
    let message = temporary(&[part(PART_A, 0, &[C]), recalls, last].concat());
    let ahead = (0..254).map(|header| (1, header, 0));
    let all: Vec<Sound> = ahead
        .chain((0..255).map(|position| (3, 254, position)))
        .collect();
    each(|codec| {
        let (list, _) = listed(codec, &message);
        assert_eq!(sounds(&list), all);
        assert_eq!(list.last(), Some(&65_278));
    });
}

// ---- Endless parts.

/// The second pass has the origins of the first.
#[test]
fn both_passes_of_an_endless_part_have_the_same_origins() {
    each(|codec| {
        let endless = part(PART_A, FOR_EVER, &[C, volume(2), D]);
        let pass = [(1, 0, 0), (3, 0, 2)];
        assert_marked(codec, &[endless], &pass.repeat(2), 2);
        // Behind a part that sounds twice, and with one behind it that is not heard.
        let patterns = [
            part(PART_B, 1, &[E]),
            part(PART_A, FOR_EVER, &[C, volume(2), D]),
            part(PART_B, 0, &[F]),
        ];
        let pass = [(1, 1, 0), (3, 1, 2)];
        let sounds = [&[(5, 0, 0), (5, 0, 0)][..], &pass, &pass].concat();
        assert_marked(codec, &patterns, &sounds, 4);
    });
}

#[test]
fn both_passes_of_an_endless_recall_have_its_header() {
    each(|codec| {
        let patterns = [
            part(PART_A, 0, &[scale(0), C, D]),
            part(PART_B, 0, &[E]),
            recall(PART_A, FOR_EVER),
        ];
        let pass = [(1, 2, 1), (3, 2, 2)];
        let ahead = [(1, 0, 1), (3, 0, 2), (5, 1, 0)];
        let sounds = [&ahead[..], &pass, &pass].concat();
        assert_marked(codec, &patterns, &sounds, 5);
    });
}

// ---- Room.

/// Two entries take six cells. With less nothing changes, and with more the cells
/// that are left over are as they were.
#[test]
fn room_is_three_cells_an_entry() {
    let table = [part(PART_A, 0, &[volume(2), C]), recall(PART_A, 0)].concat();
    let message = temporary(&table);
    // The note C at scale 1 and volume 2: 1,024 + 256 + 2.
    let cells = [1282, 952_380, 1, 1282, 952_381, 257];
    each(|codec| {
        for room in 0..12 {
            let (entries, refusal) = if room < 6 { (0, 11) } else { (2, 0) };
            let mut expected = vec![OLD; room];
            expected[..3 * entries].copy_from_slice(&cells[..3 * entries]);
            let mut list = vec![OLD; room];
            let answer = codec.list(&message, &mut list);
            assert_eq!((answer.refusal, answer.entries), (refusal, entries));
            assert_eq!(list, expected, "a list of {room}");
            list.fill(OLD);
            let answer = codec.rows(&message, &mut list, &mut [Entry::default(); 2]);
            assert_eq!((answer.refusal, answer.entries), (refusal, entries));
            assert_eq!(list, expected, "rows with a list of {room}");
        }
    });
}

/// Each number of entries from none to four, with one cell too few, just enough,
/// and one or two left over.
#[test]
fn room_for_any_number_of_entries() {
    each(|codec| {
        for notes in 0..5_usize {
            let body = [vec![volume(2)], vec![C; notes]].concat();
            let message = temporary(&part(PART_A, 0, &body));
            let made = |room| {
                let mut list = vec![OLD; room];
                let answer = codec.list(&message, &mut list);
                let left = list.iter().filter(|&&cell| cell == OLD).count();
                (answer.refusal, answer.entries, left)
            };
            for left_over in 0..3 {
                let room = 3 * notes + left_over;
                assert_eq!(made(room), (0, notes, left_over), "{notes} in {room}");
            }
            if let Some(room) = (3 * notes).checked_sub(1) {
                assert_eq!(made(room), (11, 0, room), "{notes} in {room}");
            }
        }
    });
}

// ---- Edits.

/// What an edit answers and the list that it fills.
fn edited(
    codec: &dyn Codec,
    patterns: &[Vec<u32>],
    (pattern, instruction): (usize, usize),
    edit: Edit,
) -> (u32, Vec<Sound>) {
    let mut buffer = temporary(&patterns.concat());
    let spot = Spot {
        used: buffer.len(),
        pattern,
        instruction,
    };
    buffer.extend([0; 2]);
    let mut list = [OLD; 60];
    let answer = codec.edit(&mut buffer, spot, edit, &mut list);
    let (filled, rest) = list.split_at(ENTRY_CELLS * answer.entries);
    assert!(rest.iter().all(|&cell| cell == OLD));
    (answer.refusal, sounds(filled))
}

/// Part A twice, part B, and A once more.
fn three_patterns() -> [Vec<u32>; 3] {
    [
        part(PART_A, 1, &[C, volume(2), D]),
        part(PART_B, 0, &[E]),
        recall(PART_A, 0),
    ]
}

/// What stands behind an instruction that comes or goes moves by one, in the body
/// named and where it is recalled. Nothing else moves.
#[test]
fn the_list_of_an_edit_has_the_new_positions() {
    each(|codec| {
        let patterns = three_patterns();
        let sounds = |at, edit| edited(codec, &patterns, at, edit);
        let b = [(5, 1, 0)];
        let pass = [(1, 0, 1), (3, 0, 3)];
        let list = [&pass[..], &pass, &b, &[(1, 2, 1), (3, 2, 3)]].concat();
        assert_eq!(sounds((0, 0), Edit::Insert(scale(0))), (0, list));
        let pass = [(1, 0, 0), (3, 0, 3)];
        let list = [&pass[..], &pass, &b, &[(1, 2, 0), (3, 2, 3)]].concat();
        assert_eq!(sounds((0, 2), Edit::Insert(tempo(14))), (0, list));
        let pass = [(1, 0, 0), (3, 0, 1)];
        let list = [&pass[..], &pass, &b, &[(1, 2, 0), (3, 2, 1)]].concat();
        assert_eq!(sounds((0, 1), Edit::Delete), (0, list));
        // At the end of B, where no other instruction moves.
        let pass = [(1, 0, 0), (3, 0, 2)];
        let b = [(5, 1, 0), (6, 1, 1)];
        let list = [&pass[..], &pass, &b, &[(1, 2, 0), (3, 2, 2)]].concat();
        assert_eq!(sounds((1, 1), Edit::Insert(F)), (0, list));
    });
}

/// Another note at an origin changes the entries that have it, of both passes, and
/// the recall's entry of the same instruction. The others stay.
#[test]
fn an_origin_is_where_to_edit() {
    each(|codec| {
        let patterns = three_patterns();
        let (c, d, e) = ((1, 0, 0), (3, 0, 2), (5, 1, 0));
        let before = [c, d, c, d, e, (1, 2, 0), (3, 2, 2)];
        assert_sounds(codec, &patterns, &before);
        let sounds = |(_, header, position): Sound, edit| {
            edited(codec, &patterns, (header as usize, position as usize), edit)
        };
        let replace = Edit::Replace(G);
        let first = [(8, 0, 0), d, (8, 0, 0), d, e, (8, 2, 0), (3, 2, 2)];
        assert_eq!(sounds(c, replace), (0, first.to_vec()));
        let second = [c, (8, 0, 2), c, (8, 0, 2), e, (1, 2, 0), (8, 2, 2)];
        assert_eq!(sounds(d, replace), (0, second.to_vec()));
        let third = [c, d, c, d, (8, 1, 0), (1, 2, 0), (3, 2, 2)];
        assert_eq!(sounds(e, replace), (0, third.to_vec()));
        // A recall takes no edit.
        for edit in [replace, Edit::Insert(G), Edit::Delete] {
            assert_eq!(sounds((1, 2, 0), edit), (12, vec![]));
            assert_eq!(sounds((3, 2, 2), edit), (12, vec![]));
        }
    });
}

/// With D behind its volume the chime has four entries, two in each pass. Its list
/// takes twelve cells.
#[test]
fn room_for_the_list_of_an_edit_is_three_cells_an_entry() {
    let message = temporary(&part(PART_A, FOR_EVER, &[C, volume(2)]));
    let spot = Spot {
        used: message.len(),
        pattern: 0,
        instruction: 2,
    };
    // At volume 7 the note C is 1,287, at volume 2 it is 1,282 and D is 3,330.
    let first = [1287, 952_380, 0, 3330, 952_381, 2];
    let second = [1282, 952_380, 0, 3330, 952_381, 2];
    let cells = [first, second].concat();
    each(|codec| {
        for room in 0..18 {
            let mut buffer = [&message[..], &[0; 2]].concat();
            let mut list = vec![OLD; room];
            let answer = codec.edit(&mut buffer, spot, Edit::Insert(D), &mut list);
            let (filled, refusal) = if room < 12 { (0, 11) } else { (12, 0) };
            assert_eq!((answer.refusal, answer.entries), (refusal, filled / 3));
            assert_eq!(list[..filled], cells[..filled], "a list of {room}");
            assert!(list[filled..].iter().all(|&cell| cell == OLD));
        }
    });
}
