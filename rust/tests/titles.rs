//! Titles that would wreck a menu line: characters 0 to 31 and 127 to 159 are
//! refused, in either width. Numbers and places were worked out by hand, and
//! each case is put to each codec.
//!
//! A title begins at bit 30, and at bit 38 under UNICODE.

mod support;

use ohakelm_answers::{Edited, Entry, Listed, Tone, Written, ENTRY_CELLS};
use support::codecs::{each, Codec, Edit, Spot};
use support::octets;
use support::tones::{octets_of, written, LARGEST_TONE};

const NOTE_C: u32 = 65536 + 32 + 2 * 4;
/// A part of one note, as short as a tone can be, and one of 24 notes.
const SHORT: [u32; 2] = [1, NOTE_C];
const LONG: [u32; 25] = {
    let mut table = [NOTE_C; 25];
    table[0] = 24;
    table
};

const EDITS: [Edit; 3] = [Edit::Replace(NOTE_C), Edit::Insert(NOTE_C), Edit::Delete];

/// What lies in a lent cell before a call.
const OLD: u8 = 7;

// ---- Each call on one message.

/// The refusal and the place that reading gives. A refusal changes nothing, and
/// its other numbers are 0.
fn read(codec: &dyn Codec, message: &[u8]) -> (u32, usize) {
    let (mut table, mut title) = ([OLD as u32; 40], [OLD; 30]);
    let answer = codec.read(message, &mut table, &mut title);
    if answer.refusal != 0 {
        let refused = Tone {
            refusal: answer.refusal,
            place: answer.place,
            ..Tone::default()
        };
        assert_eq!(answer, refused);
        assert_eq!((table, title), ([OLD as u32; 40], [OLD; 30]));
    }
    (answer.refusal, answer.place)
}

/// Reading, both lists and all edits refuse alike, and change nothing.
fn assert_refused(codec: &dyn Codec, message: &[u8], refusal: u32, place: usize) {
    assert_eq!(read(codec, message), (refusal, place));
    let old_row = Entry {
        note: 99,
        ..Entry::default()
    };
    let (mut list, mut rows) = ([OLD as u32; ENTRY_CELLS * 30], [old_row; 30]);
    let refused = Listed {
        refusal,
        place,
        ..Listed::default()
    };
    assert_eq!(codec.list(message, &mut list), refused);
    assert_eq!(codec.rows(message, &mut list, &mut rows), refused);
    assert_eq!(rows, [old_row; 30]);
    let refused = Edited {
        refusal,
        place,
        ..Edited::default()
    };
    let before = [message, &[OLD; 3]].concat();
    for edit in EDITS {
        let mut buffer = before.clone();
        let answer = codec.edit(&mut buffer, first_of(message), edit, &mut list);
        assert_eq!((answer, buffer), (refused, before.clone()), "{edit:?}");
    }
    assert_eq!(list, [OLD as u32; ENTRY_CELLS * 30]);
}

/// The first instruction of the first pattern.
fn first_of(message: &[u8]) -> Spot {
    Spot {
        used: message.len(),
        pattern: 0,
        instruction: 0,
    }
}

/// The same calls take a message of one part with so many notes, and reading
/// gives its title.
fn assert_taken(codec: &dyn Codec, message: &[u8], title: &[u8], notes: usize) {
    let (mut table, mut lent) = ([0; 40], [OLD; 30]);
    let answer = codec.read(message, &mut table, &mut lent);
    assert_eq!((answer.refusal, answer.entries), (0, 1 + notes));
    assert_eq!(lent[..title.len()], *title);
    let (mut list, mut rows) = ([0; ENTRY_CELLS * 30], [Entry::default(); 30]);
    let answer = codec.list(message, &mut list);
    assert_eq!((answer.refusal, answer.entries), (0, notes));
    let answer = codec.rows(message, &mut list, &mut rows);
    assert_eq!((answer.refusal, answer.entries), (0, notes));
    let mut buffer = [message, &[OLD; 3]].concat();
    let insert = Edit::Insert(NOTE_C);
    let answer = codec.edit(&mut buffer, first_of(message), insert, &mut list);
    assert_eq!((answer.refusal, answer.entries), (0, notes + 1));
}

/// The refusal and the octets of a title written with a part of one note. A
/// refusal has the place 0 and changes nothing.
fn write(codec: &dyn Codec, song: u32, unicode: bool, title: &[u8]) -> (u32, usize) {
    write_to(codec, song, unicode, title, &SHORT, 60)
}

fn write_to(
    codec: &dyn Codec,
    song: u32,
    unicode: bool,
    title: &[u8],
    table: &[u32],
    room: usize,
) -> (u32, usize) {
    let mut out = vec![OLD; room];
    let answer = codec.write(song, unicode, title, table, &mut out);
    if answer.refusal != 0 {
        let refused = Written {
            refusal: answer.refusal,
            ..Written::default()
        };
        assert_eq!(answer, refused);
        assert!(out.iter().all(|&octet| octet == OLD));
    }
    (answer.refusal, answer.octets)
}

// ---- The bounds.

/// Characters on both sides of each bound, and whether a title may have them.
const PLAIN: [(usize, bool); 9] = [
    (0, false),
    (31, false),
    (32, true),
    (126, true),
    (127, false),
    (128, false),
    (159, false),
    (160, true),
    (255, true),
];

/// The same under UNICODE, and those that have a refused octet and are allowed.
const WIDE: [(usize, bool); 19] = [
    (0x0000, false),
    (0x0009, false),
    (0x001F, false),
    (0x0020, true),
    (0x007E, true),
    (0x007F, false),
    (0x0080, false),
    (0x009F, false),
    (0x00A0, true),
    (0x00FF, true),
    (0x0100, true),
    (0x0109, true),
    (0x0900, true),
    (0x017F, true),
    (0x7F41, true),
    (0x7F7F, true),
    (0x8000, true),
    (0x8009, true),
    (0xFFFF, true),
];

/// Fifteen times A but for one character.
fn with_one(position: usize, character: usize, unicode: bool) -> Vec<u8> {
    let characters = (0..15).map(|at| if at == position { character } else { 0x41 });
    characters.flat_map(|it| octets_of(it, unicode)).collect()
}

fn assert_bound(unicode: bool, position: usize, place: usize, character: usize, allowed: bool) {
    let title = with_one(position, character, unicode);
    println!("{character:04X} at {position}, unicode {unicode}");
    for table in [&SHORT[..], &LONG] {
        let message = written(1, unicode, &title, table);
        each(|codec| match allowed {
            true => assert_taken(codec, &message, &title, table.len() - 1),
            false => assert_refused(codec, &message, 21, place),
        });
    }
    each(|codec| {
        // 30 bits are ahead of 15 octets, or 38 of 30. Behind them are 8 of
        // count, 17 of header, 12 of note, filler and the end octet.
        let octets = if unicode { 41 } else { 25 };
        let expected = if allowed { (0, octets) } else { (21, 0) };
        assert_eq!(write(codec, 1, unicode, &title), expected);
    });
}

/// The first character, one in the middle and the last one of fifteen.
#[test]
fn each_bound_of_an_octet() {
    for (character, allowed) in PLAIN {
        for (position, place) in [(0, 30), (7, 86), (14, 142)] {
            assert_bound(false, position, place, character, allowed);
        }
    }
}

#[test]
fn each_bound_of_sixteen_bits() {
    for (character, allowed) in WIDE {
        for (position, place) in [(0, 38), (7, 150), (14, 262)] {
            assert_bound(true, position, place, character, allowed);
        }
    }
}

/// Each octet as each character of a title of each length. 65 are refused.
#[test]
fn each_octet_at_each_position() {
    each(|codec| {
        for length in 1..=15 {
            for position in 0..length {
                for table in [&SHORT[..], &LONG] {
                    let refused = (0..=255).filter(|&octet| {
                        let mut title = vec![0x41; length];
                        title[position] = octet;
                        is_refused(codec, &title, table, 30 + 8 * position)
                    });
                    assert_eq!(refused.count(), 65, "{position} of {length}");
                }
            }
        }
    });
}

/// Whether reading and writing refuse a title, both or none of them.
fn is_refused(codec: &dyn Codec, title: &[u8], table: &[u32], place: usize) -> bool {
    let (refusal, at) = read(codec, &written(1, false, title, table));
    assert!([(0, 0), (21, place)].contains(&(refusal, at)));
    let (other, _) = write_to(codec, 1, false, title, table, 80);
    assert_eq!(other, refusal);
    refusal == 21
}

/// Each number of 16 bits as the only character, which takes the bits from 38
/// on. The same 65 are refused.
#[test]
fn each_number_of_sixteen_bits() {
    each(|codec| {
        let mut refused = Vec::new();
        for number in 0..=0xFFFF {
            let title = octets_of(number, true);
            let answer = read(codec, &written(1, true, &title, &SHORT));
            assert!([(0, 0), (21, 38)].contains(&answer), "{number:04X}");
            assert_eq!(write(codec, 1, true, &title).0, answer.0, "{number:04X}");
            if answer.0 == 21 {
                refused.push(number);
            }
        }
        let expected: Vec<usize> = (0..=31).chain(127..=159).collect();
        assert_eq!(refused, expected);
    });
}

/// A refused character at each position of a UNICODE title of each length.
#[test]
fn each_position_of_sixteen_bits() {
    each(|codec| {
        for length in 1..=15 {
            for position in 0..length {
                for character in [0x0000, 0x001F, 0x007F, 0x009F] {
                    let mut title = [0x01, 0x09].repeat(length);
                    title[2 * position..2 * position + 2]
                        .copy_from_slice(&octets_of(character, true));
                    for table in [&SHORT[..], &LONG] {
                        let message = written(1, true, &title, table);
                        assert_eq!(read(codec, &message), (21, 38 + 16 * position));
                    }
                    assert_eq!(write(codec, 1, true, &title), (21, 0));
                }
            }
        }
    });
}

// ---- Whole messages.

/// The song type is at 23 and the title's length at 26: 0010 for two. A is
/// 01000001, a tab 00001001, a bell 00000111 and a space 00100000.
#[test]
fn a_tab_and_a_bell() {
    each(|codec| {
        let refused = |digits, place| assert_refused(codec, &octets(digits), 21, place);
        // A tab alone, and A and a tab.
        refused("02 4A 3A 44 24 04 00 02 45 00 00", 30);
        refused("02 4A 3A 49 04 24 04 00 02 45 00 00", 38);
        // A bell and a tab: the first counts.
        refused("02 4A 3A 48 1C 24 04 00 02 45 00 00", 30);
        // A tab alone under UNICODE, and A and a tab.
        refused("03 4A 44 3A 44 00 24 04 00 02 45 00 00", 38);
        refused("03 4A 44 3A 48 01 04 00 24 04 00 02 45 00 00", 54);
        // 0900 is another character, and the title is read.
        let other = octets("03 4A 44 3A 44 24 00 04 00 02 45 00 00");
        assert_taken(codec, &other, &[0x09, 0x00], 1);
        let space = octets("02 4A 3A 44 80 04 00 02 45 00 00");
        assert_taken(codec, &space, b" ", 1);
    });
}

#[test]
fn the_first_of_two_counts() {
    each(|codec| {
        for (title, place) in [
            (&[0x41, 0x7F, 0x09][..], 38),
            (&[0x41, 0x41, 0x09, 0x7F], 46),
            (&[0x9F, 0x41, 0x41, 0x00], 30),
        ] {
            let message = written(1, false, title, &SHORT);
            assert_refused(codec, &message, 21, place);
        }
        // 0041, 0900, 009F, 0000.
        let title = [0x00, 0x41, 0x09, 0x00, 0x00, 0x9F, 0x00, 0x00];
        assert_refused(codec, &written(1, true, &title, &SHORT), 21, 70);
    });
}

// ---- What comes first.

/// A character is judged once it is complete.
#[test]
fn a_character_that_is_cut_short_is_not_judged() {
    each(|codec| {
        let refused =
            |digits, refusal, place| assert_refused(codec, &octets(digits), refusal, place);
        // A bell: two of its bits are in the fourth octet, six in the fifth.
        refused("02 4A 3A 44", 2, 30);
        refused("02 4A 3A 44 1C", 21, 30);
        // 0007: two bits, ten and all sixteen. Ten are its high octet and more.
        refused("03 4A 44 3A 44", 2, 38);
        refused("03 4A 44 3A 44 00", 2, 38);
        refused("03 4A 44 3A 44 00 1C", 21, 38);
        // Two characters. The first one is A or a bell, the second one is cut.
        refused("02 4A 3A 49 04", 2, 38);
        refused("02 4A 3A 48 1C", 21, 30);
        refused("03 4A 44 3A 48 01 04 00", 2, 54);
        refused("03 4A 44 3A 48 00 1C 00", 21, 38);
    });
}

/// Fifteen characters, cut behind each octet. The last one is refused.
#[test]
fn a_long_title_is_cut_behind_each_octet() {
    each(|codec| {
        let plain = written(1, false, &with_one(14, 0x07, false), &SHORT);
        // Character k has two bits in octet 3 + k and six in the next one.
        for length in 4..19 {
            let place = 30 + 8 * (length - 4);
            assert_eq!(read(codec, &plain[..length]), (2, place));
        }
        assert_eq!(read(codec, &plain[..19]), (21, 142));
        let wide = written(1, true, &with_one(14, 0x07, true), &SHORT);
        for length in 5..35 {
            let place = 38 + 16 * ((length - 5) / 2);
            assert_eq!(read(codec, &wide[..length]), (2, place));
        }
        assert_eq!(read(codec, &wide[..35]), (21, 262));
    });
}

#[test]
fn a_character_comes_ahead_of_all_behind_it() {
    each(|codec| {
        let refused =
            |digits, refusal, place| assert_refused(codec, &octets(digits), refusal, place);
        // A pattern count of zero behind A, and behind a tab.
        refused("02 4A 3A 45 04 00 00", 5, 38);
        refused("02 4A 3A 44 24 00 00", 21, 30);
        refused("03 4A 44 3A 44 01 04 00 00", 5, 54);
        refused("03 4A 44 3A 44 00 24 00 00", 21, 38);
        // An octet behind the end, and a filler bit.
        refused("02 4A 3A 44 24 04 00 02 45 00 00 00", 21, 30);
        refused("02 4A 3A 44 24 04 00 02 45 01 00", 21, 30);
        // What is ahead of the title comes ahead of it: an unknown song type, a
        // filler bit, and too many octets.
        refused("02 4A 3A C4 24 04 00 02 45 00 00", 4, 23);
        refused("02 4B 3A 44 24 04 00 02 45 00 00", 8, 15);
        let mut long = octets("02 4A 3A 44 24 04 00 02 45 00 00");
        long.resize(LARGEST_TONE + 1, 0);
        assert_refused(codec, &long, 1, 0);
        long.pop();
        assert_refused(codec, &long, 21, 30);
    });
}

/// A temporary song has no title, so its octets are not taken for one.
#[test]
fn a_temporary_song_has_no_title() {
    each(|codec| {
        assert_taken(codec, &octets("02 4A 3A 80 40 00 24 50 00"), &[], 1);
        assert_taken(codec, &octets("03 4A 44 3A 80 40 00 24 50 00"), &[], 1);
    });
}

/// A refused title comes ahead of too little room.
#[test]
fn a_character_comes_ahead_of_no_room() {
    each(|codec| {
        let message = octets("02 4A 3A 44 24 04 00 02 45 00 00");
        assert_eq!(codec.read(&message, &mut [], &mut []).refusal, 21);
        assert_eq!(codec.list(&message, &mut []).refusal, 21);
        assert_eq!(codec.rows(&message, &mut [], &mut []).refusal, 21);
        for edit in EDITS {
            let mut buffer = message.clone();
            let answer = codec.edit(&mut buffer, first_of(&message), edit, &mut []);
            assert_eq!((answer.refusal, answer.place), (21, 30));
        }
    });
}

// ---- Writing and edits.

#[test]
fn writing_refuses_titles_in_order() {
    each(|codec| {
        let refusal = |song, unicode, title: &[u8]| write(codec, song, unicode, title).0;
        // 4, whatever the title.
        assert_eq!(refusal(0, false, &[9; 16]), 4);
        assert_eq!(refusal(3, false, &[9]), 4);
        // 17: sixteen tabs, odd octets, and a title in a temporary song.
        assert_eq!(refusal(1, false, &[9; 16]), 17);
        assert_eq!(refusal(1, true, &[0, 9].repeat(16)), 17);
        assert_eq!(refusal(1, true, &[0, 9, 0]), 17);
        assert_eq!(refusal(1, true, &[9]), 17);
        assert_eq!(refusal(2, false, &[9]), 17);
        assert_eq!(refusal(2, true, &[0, 9]), 17);
        // 21: fifteen tabs, one tab, and a tab behind other characters.
        assert_eq!(refusal(1, false, &[9; 15]), 21);
        assert_eq!(refusal(1, true, &[0, 9].repeat(15)), 21);
        assert_eq!(refusal(1, false, &[9]), 21);
        assert_eq!(refusal(1, true, &[0, 9]), 21);
        assert_eq!(refusal(1, false, b"Tone\t"), 21);
        assert_eq!(refusal(1, true, &[9, 0, 1, 9, 0, 9]), 21);
        // Two octets are one number under UNICODE and two characters without.
        for title in [[9, 0], [1, 9], [0x7F, 0x41], [0x80, 0x80]] {
            assert_eq!(refusal(1, true, &title), 0);
            assert_eq!(refusal(1, false, &title), 21);
        }
    });
}

#[test]
fn a_written_title_comes_ahead_of_the_table() {
    each(|codec| {
        let refusal =
            |title: &[u8], table: &[u32], room| write_to(codec, 1, false, title, table, room).0;
        // A kind that there is not, no pattern, a cut body, and a recall of
        // nothing.
        for (table, own) in [
            (&[u32::MAX][..], 6),
            (&[], 5),
            (&[2, NOTE_C], 18),
            (&[0], 7),
        ] {
            assert_eq!(refusal(b"A", table, 60), own);
            assert_eq!(refusal(b"\t", table, 60), 21);
        }
        // Too long, and no room.
        let long: Vec<u32> = (0..12)
            .flat_map(|_| [&[255][..], &[NOTE_C; 255]].concat())
            .collect();
        assert_eq!(refusal(b"A", &long, 60), 1);
        assert_eq!(refusal(b"\t", &long, 60), 21);
        assert_eq!(refusal(b"A", &SHORT, 10), 11);
        assert_eq!(refusal(b"\t", &SHORT, 10), 21);
    });
}

/// It is one of the message's own refusals: behind 1 for the used length, and
/// ahead of 6, 12 and 13.
#[test]
fn edits_refuse_titles_in_order() {
    each(|codec| {
        let message = octets("02 4A 3A 44 24 04 00 02 45 00 00");
        let refused = |used, pattern, instruction, edit| {
            let (mut buffer, mut list) = ([&message[..], &[OLD; 3]].concat(), [OLD as u32; 8]);
            let spot = Spot {
                used,
                pattern,
                instruction,
            };
            let answer = codec.edit(&mut buffer, spot, edit, &mut list);
            assert_eq!(buffer, [&message[..], &[OLD; 3]].concat());
            assert_eq!(list, [OLD as u32; 8]);
            (answer.refusal, answer.place)
        };
        assert_eq!(refused(15, 0, 0, Edit::Delete), (1, 0));
        // A header as an instruction, and a kind that there is not.
        assert_eq!(refused(11, 0, 0, Edit::Insert(1)), (21, 30));
        assert_eq!(refused(11, 0, 0, Edit::Replace(u32::MAX)), (21, 30));
        for edit in EDITS {
            assert_eq!(refused(11, 1, 0, edit), (21, 30));
            assert_eq!(refused(11, 0, 2, edit), (21, 30));
        }
        // Its part has one instruction.
        assert_eq!(refused(11, 0, 0, Edit::Delete), (21, 30));
    });
}
