//! The samples of the rules and other cases whose answers were worked out by
//! hand, put to each codec.

mod support;

use ohakelm_answers::{Bitmap, Edited, Entry, Label, Listed, Tone, Written};
use ohakelm_answers::{ENTRY_CELLS, NO_MARK};
use support::codecs::{each, Codec, Edit, Spot};
use support::largest::origin_in_longest;
use support::octets;
use support::tones::{written, LARGEST_TONE};

const P1: &str = "02 4A 3A 80 40 00 51 C6 90 00";
const P2: &str = "02 4A 3A 80 40 00 71 C8 34 80 00";
const P3: &str = "02 4A 3A 80 40 00 26 90 00";

const P1_TABLE: [u32; 3] = [2, 262158, 65864];

const SCALE_0: u32 = 2 * 65536;
const NOTE_C: u32 = 65536 + 32 + 2 * 4;
const NOTE_D: u32 = 65536 + 3 * 32 + 2 * 4;
/// A quarter at the default tempo, so many of them behind the start: 60,000,000 /
/// 63 or 952,380 20/21 microseconds. Where 21 quarters or none are behind, the sum
/// is whole, and the quarter is rounded down. At each other one the sum of the
/// 20/21 comes to one more.
fn quarter_behind(quarters: usize) -> u32 {
    match quarters % 21 {
        0 => 952_380,
        _ => 952_381,
    }
}

/// A temporary song with a certain table.
fn temporary(table: &[u32]) -> Vec<u8> {
    written(2, false, &[], table)
}

fn refused_read(codec: &dyn Codec, message: &[u8]) -> (u32, usize) {
    let (mut table, mut title) = ([7; 7000], [7; 30]);
    let answer = codec.read(message, &mut table, &mut title);
    let expected = Tone {
        refusal: answer.refusal,
        place: answer.place,
        ..Tone::default()
    };
    assert_ne!(answer.refusal, 0, "{answer:?}");
    assert_eq!(answer, expected, "all other numbers are 0");
    assert!(table.iter().all(|&cell| cell == 7));
    assert!(title.iter().all(|&octet| octet == 7));
    (answer.refusal, answer.place)
}

fn listed(codec: &dyn Codec, message: &[u8]) -> (Listed, Vec<u32>) {
    let mut list = vec![7; 3000];
    let answer = codec.list(message, &mut list);
    let filled = ENTRY_CELLS * answer.entries;
    assert!(list[filled..].iter().all(|&cell| cell == 7));
    list.truncate(filled);
    (answer, list)
}

fn accepted_list(entries: usize, mark: u32) -> Listed {
    Listed {
        refusal: 0,
        place: 0,
        entries,
        mark,
    }
}

/// The first number of an entry with scale 1 and natural style.
fn sounding(note: u32, volume: u32) -> u32 {
    note * 1024 + 256 + volume
}

/// Edits a message in a buffer with two octets to spare.
fn edited(
    codec: &dyn Codec,
    message: &[u8],
    pattern: usize,
    instruction: usize,
    edit: Edit,
) -> (Edited, Vec<u8>, Vec<u32>) {
    let mut buffer = message.to_vec();
    buffer.extend([0xEE, 0xEE]);
    edited_in(codec, buffer, message.len(), pattern, instruction, edit)
}

fn edited_in(
    codec: &dyn Codec,
    mut buffer: Vec<u8>,
    used: usize,
    pattern: usize,
    instruction: usize,
    edit: Edit,
) -> (Edited, Vec<u8>, Vec<u32>) {
    let before = buffer.clone();
    let mut list = vec![7; 20_000];
    let spot = Spot {
        used,
        pattern,
        instruction,
    };
    let answer = codec.edit(&mut buffer, spot, edit, &mut list);
    let filled = ENTRY_CELLS * answer.entries;
    assert!(list[filled..].iter().all(|&cell| cell == 7));
    list.truncate(filled);
    if answer.refusal != 0 {
        assert_eq!(buffer, before);
        let expected = Edited {
            refusal: answer.refusal,
            place: answer.place,
            ..Edited::default()
        };
        assert_eq!(answer, expected, "all other numbers are 0");
    }
    (answer, buffer, list)
}

fn refused_edit(
    codec: &dyn Codec,
    message: &[u8],
    pattern: usize,
    instruction: usize,
    edit: Edit,
) -> (u32, usize) {
    let (answer, ..) = edited(codec, message, pattern, instruction, edit);
    (answer.refusal, answer.place)
}

// ---- The samples that the rules name.

#[test]
fn p1_is_read_written_and_listed() {
    each(|codec| {
        let message = octets(P1);
        let (mut table, mut title) = ([7; 4], [7; 1]);
        let answer = codec.read(&message, &mut table, &mut title);
        let expected = Tone {
            refusal: 0,
            place: 0,
            song: 2,
            unicode: false,
            characters: 0,
            patterns: 1,
            entries: 3,
        };
        assert_eq!(answer, expected);
        assert_eq!((table, title), ([2, 262158, 65864, 7], [7]));

        let mut out = [7; 11];
        let answer = codec.write(2, false, &[], &P1_TABLE, &mut out);
        let expected = Written {
            refusal: 0,
            place: 0,
            octets: 10,
        };
        assert_eq!(answer, expected);
        assert_eq!((&out[..10], out[10]), (&message[..], 7));

        // The note is behind the tempo.
        let list = vec![10 * 1024 + 256 + 7, 480_000, 1];
        assert_eq!(listed(codec, &message), (accepted_list(1, NO_MARK), list));
    });
}

#[test]
fn p1_is_listed_in_rows() {
    each(|codec| {
        let (mut list, mut rows) = ([7; 4], [Entry::default(); 2]);
        let answer = codec.rows(&octets(P1), &mut list, &mut rows);
        assert_eq!(answer, accepted_list(1, NO_MARK));
        assert_eq!(list, [10 * 1024 + 256 + 7, 480_000, 1, 7]);
        let row = Entry {
            note: 10,
            scale: 1,
            style: 0,
            volume: 7,
            microseconds: 480_000,
            header: 0,
            position: 1,
        };
        assert_eq!(rows, [row, Entry::default()]);
    });
}

#[test]
fn p2_inserts_a_scale() {
    each(|codec| {
        let (answer, buffer, list) = edited(codec, &octets(P1), 0, 1, Edit::Insert(SCALE_0));
        let expected = Edited {
            refusal: 0,
            place: 0,
            length: 11,
            entries: 1,
            mark: NO_MARK,
            change: 1,
        };
        assert_eq!(answer, expected);
        assert_eq!((&buffer[..11], buffer[11]), (&octets(P2)[..], 0xEE));
        assert_eq!(list, [10 * 1024 + 7, 480_000, 2]);
    });
}

#[test]
fn p3_deletes_the_tempo() {
    each(|codec| {
        let (answer, buffer, list) = edited(codec, &octets(P1), 0, 0, Edit::Delete);
        let expected = Edited {
            refusal: 0,
            place: 0,
            length: 9,
            entries: 1,
            mark: NO_MARK,
            change: -1,
        };
        assert_eq!(answer, expected);
        // The octet that the message gave up is cleared.
        assert_eq!(
            (&buffer[..9], &buffer[9..]),
            (&octets(P3)[..], &[0, 0xEE, 0xEE][..])
        );
        assert_eq!(list, [10 * 1024 + 256 + 7, 952_380, 0]);
    });
}

#[test]
fn p4_to_p8_are_refused() {
    each(|codec| {
        let message = octets(P1);
        assert_eq!(refused_read(codec, &message[..9]), (2, 72));
        assert_eq!(
            refused_read(codec, &[&message[..], &[0]].concat()),
            (10, 80)
        );
        assert_eq!(
            refused_edit(codec, &octets(P3), 0, 0, Edit::Delete),
            (13, 0)
        );
        assert_eq!(refused_read(codec, &[]), (2, 0));
        let filled = octets("02 4A 3A 80 40 00 51 C6 91 00");
        assert_eq!(refused_read(codec, &filled), (8, 71));
    });
}

#[test]
fn p9_and_p10_are_the_slowest_and_the_fastest() {
    each(|codec| {
        let slowest = temporary(&[2, 4 * 65536, 65536 + 32 + 2]);
        assert_eq!(listed(codec, &slowest).1[1], 16_800_000);
        let fastest = temporary(&[2, 4 * 65536 + 31, 65536 + 32 + 5 * 4 + 3]);
        assert_eq!(listed(codec, &fastest).1[1], 5555);
    });
}

#[test]
fn p11_and_p12_are_bitmaps() {
    each(|codec| {
        let message = octets("00 08 02 01 FF 01");
        let expected = Bitmap {
            refusal: 0,
            place: 0,
            width: 8,
            height: 2,
            black: 9,
            start: 4,
            length: 2,
        };
        assert_eq!(codec.bitmap_read(&message), expected);
        let short = Bitmap {
            refusal: 16,
            ..Bitmap::default()
        };
        assert_eq!(codec.bitmap_read(&message[..5]), short);
    });
}

/// One part of 255 notes takes 17 + 255 * 12 = 3,077 bits.
fn full_parts(count: usize) -> Vec<u32> {
    let mut table = Vec::new();
    for _ in 0..count {
        table.push(255);
        table.extend([NOTE_C; 255]);
    }
    table
}

/// A tone of just 4,096 octets: 34 bits ahead of the patterns, ten full parts
/// and one of 161 notes are 32,753 bits. Seven of filler make 4,095 octets.
fn longest() -> Vec<u32> {
    let mut table = full_parts(10);
    table.push(161);
    table.extend([NOTE_C; 161]);
    table
}

#[test]
fn a_tone_has_at_most_4096_octets() {
    each(|codec| {
        let mut message = temporary(&longest());
        assert_eq!(message.len(), LARGEST_TONE);
        let (mut table, mut out) = (vec![0; 4000], vec![0; 5000]);
        let answer = codec.read(&message, &mut table, &mut []);
        assert_eq!((answer.refusal, answer.entries), (0, 2560 + 162));
        let written = codec.write(2, false, &[], &longest(), &mut out);
        assert_eq!((written.refusal, written.octets), (0, LARGEST_TONE));

        // Seven bits of filler leave room for one volume.
        let volume = 5 * 65536;
        let (answer, ..) = edited(codec, &message, 10, 0, Edit::Insert(volume));
        assert_eq!((answer.refusal, answer.change), (0, 0));
        let refused = refused_edit(codec, &message, 10, 0, Edit::Insert(NOTE_C));
        assert_eq!(refused, (1, 0));

        message.push(0);
        assert_eq!(refused_read(codec, &message), (1, 0));
        let mut longer = longest();
        longer.extend([1, NOTE_C]);
        let written = codec.write(2, false, &[], &longer, &mut out);
        assert_eq!((written.refusal, written.octets), (1, 0));
    });
}

#[test]
fn a_width_is_at_most_248() {
    each(|codec| {
        let mut message = vec![0, 248, 1, 1];
        message.extend([255; 31]);
        let answer = codec.bitmap_read(&message);
        assert_eq!((answer.refusal, answer.black), (0, 248));
        message[1] = 249;
        assert_eq!(codec.bitmap_read(&message).refusal, 15);
        let mut out = [0; 40];
        assert_eq!(codec.bitmap_write(248, 1, &[0; 31], &mut out).octets, 35);
        assert_eq!(codec.bitmap_write(249, 1, &[0; 31], &mut out).refusal, 15);
    });
}

// ---- Places.

#[test]
fn the_place_is_where_the_faulty_element_begins() {
    each(|codec| {
        for (message, refusal) in [
            ("024A3A80400051", (2, 54)),
            ("024A3A8040002F00", (6, 54)),
            ("024A3A8040003800", (6, 51)),
            ("024A3A8080002808000000", (7, 59)),
            // A command to cancel.
            ("020A3AC000", (3, 8)),
        ] {
            assert_eq!(refused_read(codec, &octets(message)), refusal, "{message}");
        }
    });
}

/// A basic song under UNICODE with the title "A", one part and one note:
/// length 0, part 8, filler 15, UNICODE 16, filler 23, sound 24, song type 31,
/// title length 34, title 38, count 54, header 62 and 65, note 79 and 82,
/// filler 91, end 96.
fn each_element() -> Vec<u8> {
    let message = written(1, true, &[0, 0x41], &[1, NOTE_C]);
    assert_eq!(message.len(), 13);
    message
}

#[test]
fn each_element_can_be_cut_short() {
    each(|codec| {
        let message = each_element();
        let places = [0, 8, 16, 24, 31, 38, 38, 54, 62, 65, 79, 82, 96];
        for (octets, place) in places.into_iter().enumerate() {
            assert_eq!(refused_read(codec, &message[..octets]), (2, place));
        }
        // A title length that is cut is one of a song without UNICODE.
        let plain = written(1, false, &[], &[1, NOTE_C]);
        assert_eq!(refused_read(codec, &plain[..3]), (2, 23));
        let second = written(1, true, &[0, 0x41, 0, 0x42], &[1, NOTE_C]);
        assert_eq!(refused_read(codec, &second[..8]), (2, 54));
    });
}

/// A message with some bits put in another way.
fn with_bits(message: &[u8], place: usize, width: usize, value: usize) -> Vec<u8> {
    let mut message = message.to_vec();
    for k in 0..width {
        let (octet, weight) = ((place + k) / 8, 128 >> ((place + k) % 8));
        message[octet] &= !weight;
        if value >> (width - 1 - k) & 1 == 1 {
            message[octet] |= weight;
        }
    }
    message
}

#[test]
fn each_element_can_be_at_fault() {
    each(|codec| {
        let message = each_element();
        for (place, width, value, refusal) in [
            (0, 8, 0, (3, 0)),
            (0, 8, 1, (3, 0)),
            (0, 8, 4, (3, 0)),
            (0, 8, 2, (3, 16)),
            (8, 7, 0b0000101, (3, 8)),
            (15, 1, 1, (8, 15)),
            (16, 7, 0b0011101, (3, 16)),
            (23, 1, 1, (8, 23)),
            (24, 7, 0b0100010, (3, 24)),
            (31, 3, 0b000, (4, 31)),
            (31, 3, 0b011, (4, 31)),
            (31, 3, 0b100, (4, 31)),
            (31, 3, 0b111, (4, 31)),
            (38, 16, 0x0009, (21, 38)),
            (54, 8, 0, (5, 54)),
            (62, 3, 0b001, (6, 62)),
            (71, 8, 0, (7, 65)),
            (79, 3, 0b000, (6, 79)),
            (79, 3, 0b110, (6, 79)),
            (79, 3, 0b111, (6, 79)),
            (82, 4, 13, (6, 82)),
            (86, 3, 6, (6, 82)),
            (86, 3, 7, (6, 82)),
            (91, 5, 0b00001, (8, 91)),
            (91, 5, 0b10000, (8, 91)),
            (96, 8, 1, (9, 96)),
            (96, 8, 128, (9, 96)),
        ] {
            let faulty = with_bits(&message, place, width, value);
            let found = refused_read(codec, &faulty);
            assert_eq!(found, refusal, "{value:b} in {width} bits at {place}");
        }
        let followed = [&message[..], &[1]].concat();
        assert_eq!(refused_read(codec, &followed), (10, 104));
    });
}

#[test]
fn a_style_has_three_codes() {
    each(|codec| {
        // The style's rest is at 54.
        assert_eq!(codec_reads(codec, &temporary(&[1, 3 * 65536 + 2])), (0, 0));
        assert_eq!(codec_reads(codec, &temporary(&[1, 3 * 65536 + 3])), (6, 54));
    });
}

fn codec_reads(codec: &dyn Codec, message: &[u8]) -> (u32, usize) {
    let answer = codec.read(message, &mut [0; 10], &mut [0; 30]);
    (answer.refusal, answer.place)
}

// ---- Room.

#[test]
fn room_is_judged_last_and_to_the_cell() {
    each(|codec| {
        let message = written(1, true, &[0, 0x41], &[1, NOTE_C]);
        for (table, title, refusal) in [(2, 2, 0), (1, 2, 11), (2, 1, 11), (0, 0, 11), (3, 3, 0)] {
            let answer = codec.read(&message, &mut vec![0; table], &mut vec![0; title]);
            assert_eq!((answer.refusal, answer.place), (refusal, 0));
        }
        for (list, rows, refusal) in [(3, 1, 0), (2, 1, 11), (3, 0, 11), (4, 2, 0)] {
            let mut rows = vec![Entry::default(); rows];
            let answer = codec.rows(&message, &mut vec![0; list], &mut rows);
            assert_eq!((answer.refusal, answer.place), (refusal, 0));
        }
        assert_eq!(codec.list(&message, &mut [0; 2]).refusal, 11);
        assert_eq!(codec.list(&message, &mut [0; 3]).refusal, 0);
        // The fault in the message comes first.
        assert_eq!(codec.list(&message[..12], &mut []).refusal, 2);
    });
}

// ---- Playing.

#[test]
fn a_loop_value_is_one_less_than_the_soundings() {
    each(|codec| {
        for (repeats, soundings) in [(0, 1), (1, 2), (14, 15)] {
            let message = temporary(&[repeats * 256 + 1, NOTE_C]);
            let (answer, list) = listed(codec, &message);
            assert_eq!(answer, accepted_list(soundings, NO_MARK));
            // Each pass sounds the same instruction.
            let entry = |position| [sounding(1, 7), quarter_behind(position), 0];
            let entries: Vec<u32> = (0..soundings).flat_map(entry).collect();
            assert_eq!(list, entries);
        }
    });
}

#[test]
fn settings_carry_on() {
    each(|codec| {
        // Part A twice, with a volume behind its note, then recalled.
        let message = temporary(&[256 + 2, NOTE_C, 5 * 65536 + 9, 0]);
        let (answer, list) = listed(codec, &message);
        assert_eq!(answer, accepted_list(3, NO_MARK));
        let [first, later] = [sounding(1, 7), sounding(1, 9)];
        // What rounding left over carries on as well. The recall is header 1.
        let twice = [first, 952_380, 0, later, 952_381, 0];
        assert_eq!(list, [&twice[..], &[later, 952_381, 256]].concat());
    });
}

#[test]
fn a_recall_takes_the_nearest_body() {
    each(|codec| {
        let message = temporary(&[1, NOTE_C, 0, 1, NOTE_D, 0]);
        let list = listed(codec, &message).1;
        let notes: Vec<u32> = list.chunks(ENTRY_CELLS).map(|entry| entry[0]).collect();
        let [c, d] = [sounding(1, 7), sounding(3, 7)];
        assert_eq!(notes, [c, c, d, d]);
    });
}

#[test]
fn an_endless_part_ends_the_list() {
    each(|codec| {
        // A, then B for ever, in two passes, then A again, which is never heard.
        let b_endless = 4096 + 15 * 256;
        let message = temporary(&[1, NOTE_C, b_endless + 2, NOTE_D, NOTE_C, 0]);
        assert_eq!(listed(codec, &message).0, accepted_list(5, 3));
        // A recall has its own loop value.
        let message = temporary(&[1, NOTE_C, 15 * 256, 1, NOTE_D]);
        assert_eq!(listed(codec, &message).0, accepted_list(3, 2));
        // A pass without an entry has no place to return to.
        let message = temporary(&[1, NOTE_C, b_endless + 1, SCALE_0, 0]);
        assert_eq!(listed(codec, &message).0, accepted_list(1, NO_MARK));
        // What is never heard is judged all the same: header 34, note 51,
        // recall 63, and at 80 a recall of C, whose rest is at 83.
        let message = temporary(&[1, NOTE_C, 15 * 256, 2 * 4096]);
        let refused = Listed {
            refusal: 7,
            place: 83,
            ..Listed::default()
        };
        assert_eq!(listed(codec, &message).0, refused);
    });
}

#[test]
fn the_longest_list_is_made() {
    // One part of 255 notes and 254 recalls of it, each sounding 15 times.
    let mut table = vec![14 * 256 + 255];
    table.extend([NOTE_C; 255]);
    table.extend([14 * 256; 254]);
    let message = temporary(&table);
    let entries = 255 * 15 * 255;
    each(|codec| {
        let filled = ENTRY_CELLS * entries;
        let mut list = vec![7; filled + 1];
        let mut rows = vec![Entry::default(); entries + 1];
        assert_eq!(codec.list(&message, &mut list[1..filled]).refusal, 11);
        let answer = codec.rows(&message, &mut list, &mut rows);
        assert_eq!(answer, accepted_list(975_375, NO_MARK));
        let mut all = list[..filled].chunks(ENTRY_CELLS).enumerate();
        assert!(all.all(|(position, entry)| entry == of_longest(position)));
        assert_eq!((list[filled], rows[entries]), (7, Entry::default()));
        assert!(rows[..entries].iter().all(|row| row.volume == 7));
    });
}

fn of_longest(position: usize) -> [u32; ENTRY_CELLS] {
    let microseconds = quarter_behind(position);
    [sounding(1, 7), microseconds, origin_in_longest(position)]
}

/// Each duration code with each specifier at tempo code 14, 125 beats: a unit
/// is 5,000 microseconds.
#[test]
fn every_length_of_a_note() {
    let units: [[u32; 4]; 6] = [
        [384, 576, 672, 256],
        [192, 288, 336, 128],
        [96, 144, 168, 64],
        [48, 72, 84, 32],
        [24, 36, 42, 16],
        [12, 18, 21, 8],
    ];
    each(|codec| {
        for (duration, row) in units.iter().enumerate() {
            for (specifier, units) in row.iter().enumerate() {
                let note = 65536 + (duration * 4 + specifier) as u32;
                let message = temporary(&[2, 4 * 65536 + 14, note]);
                let list = listed(codec, &message).1;
                assert_eq!(list, [sounding(0, 7), units * 5000, 1]);
            }
        }
    });
}

// ---- Writing.

fn refused_write(codec: &dyn Codec, song: u32, unicode: bool, title: &[u8], table: &[u32]) -> u32 {
    let mut out = [7; 6000];
    let answer = codec.write(song, unicode, title, table, &mut out);
    assert_eq!((answer.place, answer.octets), (0, 0), "{answer:?}");
    assert!(out.iter().all(|&octet| octet == 7));
    answer.refusal
}

#[test]
fn writing_refuses_in_order() {
    each(|codec| {
        let good = [1, NOTE_C];
        let refused = |song, unicode, title: &[u8], table: &[u32]| {
            refused_write(codec, song, unicode, title, table)
        };
        assert_eq!(refused(4_000_000_000, true, &[0; 99], &[u32::MAX]), 4);
        assert_eq!(refused(1, false, &[65; 16], &[u32::MAX]), 17);
        assert_eq!(refused(1, true, &[65; 32], &good), 17);
        assert_eq!(refused(1, true, &[65; 29], &good), 17);
        assert_eq!(refused(2, false, &[65], &good), 17);
        assert_eq!(refused(1, false, &[], &[]), 5);
        assert_eq!(refused(1, false, &[], &[1]), 18);
        assert_eq!(refused(1, false, &[], &[NOTE_C]), 18);
        assert_eq!(refused(1, false, &[], &[2, NOTE_C, 0]), 18);
        assert_eq!(refused(1, false, &[], &[0]), 7);
        assert_eq!(refused(1, false, &[], &[4096, NOTE_C]), 7);
        // Out of range comes ahead of the wrong kind.
        assert_eq!(refused(1, false, &[], &[6 * 65536]), 6);
        assert_eq!(refused(1, false, &[], &[16384]), 6);
        assert_eq!(refused(1, false, &[], &[1, 16384]), 6);
        assert_eq!(refused(1, false, &[], &[1, 65536 + 416]), 6);
        assert_eq!(refused(1, false, &[], &[1, 65536 + 24]), 6);
        assert_eq!(refused(1, false, &[], &[1, 3 * 65536 + 3]), 6);
        // The wrong kind comes ahead of the recall that has nothing earlier.
        assert_eq!(refused(1, false, &[], &[2, NOTE_C, 4096]), 18);
        // A 256th pattern is judged behind all entries and the cut body.
        let mut many = vec![1, NOTE_C];
        many.extend([0; 255]);
        assert_eq!(refused(1, false, &[], &many), 18);
        many.push(4096);
        assert_eq!(refused(1, false, &[], &many), 7);
    });
}

#[test]
fn writing_takes_255_patterns_and_15_characters() {
    each(|codec| {
        let mut table = vec![1, NOTE_C];
        table.extend([0; 254]);
        for (unicode, title) in [(false, vec![65; 15]), (true, vec![65; 30]), (true, vec![])] {
            let expected = written(1, unicode, &title, &table);
            let mut out = vec![7; expected.len()];
            let answer = codec.write(1, unicode, &title, &table, &mut out);
            assert_eq!((answer.refusal, answer.octets), (0, expected.len()));
            assert_eq!(out, expected);
            let short = &mut out[1..];
            let answer = codec.write(1, unicode, &title, &table, short);
            assert_eq!(answer.refusal, 11);
        }
    });
}

// ---- Labels.

#[test]
fn labels() {
    each(|codec| {
        let title = |length| Label {
            stand_in: false,
            start: 0,
            length,
        };
        let stand_in = Label {
            stand_in: true,
            start: 0,
            length: 4,
        };
        let label = |title: &[u8], unicode| codec.label(title, unicode, b"Tone");
        assert_eq!(label(b"", false), stand_in);
        assert_eq!(label(b"   ", false), stand_in);
        assert_eq!(label(b" A B  ", false), title(4));
        assert_eq!(label(&[65, 160], false), title(2));
        assert_eq!(label(&[65, 0, 32], false), title(2));
        assert_eq!(label(b"", true), stand_in);
        assert_eq!(label(&[0, 65, 0], true), stand_in);
        assert_eq!(label(&[0, 32, 0, 32], true), stand_in);
        assert_eq!(label(&[0, 65, 0, 32], true), title(2));
        assert_eq!(label(&[0, 65, 32, 0], true), title(4));
        assert_eq!(label(&[32, 32], true), title(2));
        // Characters that the title of a tone may not have.
        assert_eq!(label(&[7, 9, 32], false), title(2));
        assert_eq!(label(&[127, 159, 32, 32], false), title(2));
        assert_eq!(label(&[0, 9, 0, 32], true), title(2));
        assert_eq!(label(&[0, 0, 0, 127], true), title(4));
        let empty = Label {
            stand_in: true,
            start: 0,
            length: 0,
        };
        assert_eq!(codec.label(b" ", false, b""), empty);
    });
}

// ---- Edits.

#[test]
fn edits_refuse_in_order() {
    each(|codec| {
        let header = Edit::Insert(1);
        let note = Edit::Insert(NOTE_C);
        // Part A of two, and a recall of it.
        let message = temporary(&[2, NOTE_C, NOTE_D, 0]);
        let refused = |message: &[u8], pattern, instruction, edit| {
            refused_edit(codec, message, pattern, instruction, edit)
        };
        // The message's own refusal comes first, with its place.
        let cut = &message[..message.len() - 1];
        assert_eq!(refused(cut, 9, 9, header), (2, 8 * cut.len()));
        assert_eq!(refused(&message, 9, 9, header), (6, 0));
        assert_eq!(refused(&message, 0, 0, Edit::Replace(6 * 65536)), (6, 0));
        assert_eq!(refused(&message, 0, 0, Edit::Replace(65536 + 416)), (6, 0));
        assert_eq!(refused(&message, 2, 0, note), (12, 0));
        assert_eq!(refused(&message, 1 << 32, 0, note), (12, 0));
        assert_eq!(refused(&message, 0, 3, note), (12, 0));
        assert_eq!(refused(&message, 0, 2, Edit::Replace(NOTE_C)), (12, 0));
        assert_eq!(refused(&message, 0, 2, Edit::Delete), (12, 0));
        for edit in [note, Edit::Replace(NOTE_C), Edit::Delete] {
            assert_eq!(refused(&message, 1, 0, edit), (12, 0));
        }
        let single = temporary(&[1, NOTE_C]);
        assert_eq!(refused(&single, 0, 1, Edit::Delete), (12, 0));
        assert_eq!(refused(&single, 0, 0, Edit::Delete), (13, 0));
        let full = temporary(&full_parts(1));
        assert_eq!(refused(&full, 0, 300, note), (12, 0));
        assert_eq!(refused(&full, 0, 255, note), (14, 0));
    });
}

#[test]
fn edits_refuse_for_want_of_room() {
    each(|codec| {
        let message = temporary(&[1, NOTE_C]);
        let used = message.len();
        let refused = |buffer: &[u8], used| {
            let edit = Edit::Insert(NOTE_D);
            let (answer, ..) = edited_in(codec, buffer.to_vec(), used, 0, 0, edit);
            (answer.refusal, answer.place)
        };
        assert_eq!(refused(&message, used), (11, 0));
        assert_eq!(refused(&message, used + 1), (1, 0));
        assert_eq!(refused(&message, usize::MAX), (1, 0));
        assert_eq!(refused(&[0; 5000], 4097), (1, 0));
        // Past 4,096 octets comes ahead of past the buffer.
        let longest = temporary(&longest());
        let edit = Edit::Insert(NOTE_C);
        let (answer, ..) = edited_in(codec, longest, LARGEST_TONE, 10, 0, edit);
        assert_eq!((answer.refusal, answer.place), (1, 0));
        // The list has one cell too few.
        let spot = Spot {
            used,
            pattern: 0,
            instruction: 1,
        };
        let mut buffer = [&message[..], &[0; 4]].concat();
        let answer = codec.edit(&mut buffer, spot, edit, &mut [0; 5]);
        assert_eq!((answer.refusal, answer.place), (11, 0));
        assert_eq!(buffer[..used], message);
    });
}

/// Each edit at each position of three parts, one of them defined twice, held
/// against writing the changed table afresh.
#[test]
fn edits_are_as_good_as_writing_afresh() {
    let parts: [&[u32]; 3] = [
        &[256 + 3, NOTE_C, SCALE_0, NOTE_D],
        &[4096 + 2, 4 * 65536 + 20, NOTE_C],
        &[14 * 256 + 4, NOTE_D, 3 * 65536 + 1, 5 * 65536 + 2, NOTE_C],
    ];
    each(|codec| {
        for (position, part) in parts.iter().enumerate() {
            for instruction in 0..part.len() {
                for edit in [Edit::Replace(SCALE_0), Edit::Insert(NOTE_D), Edit::Delete] {
                    let at_end = instruction + 1 == part.len();
                    if at_end && !matches!(edit, Edit::Insert(_)) {
                        continue;
                    }
                    let mut changed = parts.map(|part| part.to_vec());
                    change(&mut changed[position], instruction, edit);
                    let before = with_recalls(&parts.map(|part| part.to_vec()));
                    let after = with_recalls(&changed);
                    let (answer, buffer, list) =
                        edited(codec, &before, position, instruction, edit);
                    assert_eq!(answer.refusal, 0);
                    assert_eq!(buffer[..answer.length], after);
                    let (plain, expected) = listed(codec, &after);
                    assert_eq!((answer.entries, answer.mark), (plain.entries, plain.mark));
                    assert_eq!(list, expected);
                }
            }
        }
    });
}

/// The three parts, each recalled, and the first at last for ever.
fn with_recalls(parts: &[Vec<u32>; 3]) -> Vec<u8> {
    let [first, second, third] = parts;
    let recalls = [0, 4096, 15 * 256];
    temporary(&[&first[..], second, third, &recalls].concat())
}

/// The same change to a part's own entries.
fn change(part: &mut Vec<u32>, instruction: usize, edit: Edit) {
    match edit {
        Edit::Replace(entry) => part[1 + instruction] = entry,
        Edit::Insert(entry) => {
            part.insert(1 + instruction, entry);
            part[0] += 1;
        }
        Edit::Delete => {
            part.remove(1 + instruction);
            part[0] -= 1;
        }
    }
}

// ---- Bitmaps.

#[test]
fn bitmaps_refuse_in_order() {
    each(|codec| {
        let read = |message: &[u8]| {
            let answer = codec.bitmap_read(message);
            if answer.refusal != 0 {
                let expected = Bitmap {
                    refusal: answer.refusal,
                    ..Bitmap::default()
                };
                assert_eq!(answer, expected, "all other numbers are 0");
            }
            answer.refusal
        };
        for short in 0..4 {
            assert_eq!(read(&[9; 4][..short]), 2);
        }
        assert_eq!(read(&[0, 8, 1, 1, 0]), 0);
        for header in [
            [1, 8, 1, 1],
            [128, 8, 1, 1],
            [0, 0, 1, 1],
            [0, 7, 1, 1],
            [0, 9, 1, 1],
            [0, 255, 1, 1],
            [0, 8, 0, 1],
            [0, 8, 1, 0],
            [0, 8, 1, 2],
        ] {
            assert_eq!(read(&header), 15, "{header:?}");
        }
        assert_eq!(read(&[0, 8, 1, 1]), 16);
        assert_eq!(read(&[0, 8, 1, 1, 0, 0]), 16);
    });
}

#[test]
fn the_largest_bitmap() {
    each(|codec| {
        for (octet, black) in [(0, 0), (255, 248 * 255), (0x81, 2 * 31 * 255)] {
            let image = vec![octet; 31 * 255];
            let mut out = vec![7; 4 + image.len() + 1];
            let answer = codec.bitmap_write(248, 255, &image, &mut out);
            assert_eq!((answer.refusal, answer.octets), (0, 4 + image.len()));
            assert_eq!(out.pop(), Some(7));
            assert_eq!(out[..4], [0, 248, 255, 1]);
            let answer = codec.bitmap_read(&out);
            assert_eq!((answer.refusal, answer.black), (0, black));
            assert_eq!((answer.start, answer.length), (4, image.len()));
            let answer = codec.bitmap_write(248, 255, &image, &mut out[1..]);
            assert_eq!((answer.refusal, answer.octets), (11, 0));
            let answer = codec.bitmap_write(248, 255, &image[1..], &mut []);
            assert_eq!(answer.refusal, 16);
        }
        let answer = codec.bitmap_write(8 + 256, 1, &[0], &mut [0; 9]);
        assert_eq!(answer.refusal, 15);
    });
}

// ---- Inputs of four gibioctets.

/// The memory is never touched, so it is never really taken.
#[test]
#[ignore = "needs four gibioctets of address space"]
fn a_message_may_be_of_any_length() {
    let message = vec![0; 1 << 32];
    each(|codec| {
        assert_eq!(refused_read(codec, &message), (1, 0));
        assert_eq!(codec.list(&message, &mut []).refusal, 1);
        assert_eq!(codec.rows(&message, &mut [], &mut []).refusal, 1);
        assert_eq!(codec.bitmap_read(&message).refusal, 15);
        assert_eq!(codec.icon_read(&message).refusal, 20);
        assert_eq!(codec.logo_read(&message).refusal, 20);
    });
}
