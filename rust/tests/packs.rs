//! Packs whose answers were worked out by hand from the rules, put to each codec.

mod support;

use ohakelm_answers::{Pack, Stretch, Written};
use support::codecs::{each, Codec};
use support::largest;
use support::octets;
use support::packs::{of_octets, Made};
use support::tones::written;

/// The first three samples of the rules, of 10, 11 and 9 octets.
const P1: &str = "024A3A8040 0051C69000";
const P2: &str = "024A3A8040 0071C8348000";
const P3: &str = "024A3A8040 00269000";

/// The pack of P1 alone: 10 octets, one row, and four octets.
const ONE: &str = "024A3A80400051C69000 0000000A 0001 000A";
/// P1 and P3: the second one starts at 10, and the rows at 19.
const TWO: &str = "024A3A80400051C69000 024A3A804000269000 0000000A 000A0009 0002 0013";
/// P1, P3 and P2: the third one starts at 19, and the rows at 30.
const THREE: &str = "024A3A80400051C69000 024A3A804000269000 024A3A80400071C8348000 \
     0000000A 000A0009 0013000B 0003 001E";
const EMPTY: &str = "0000 0000";

/// How many messages a pack has that must be read.
fn messages(codec: &dyn Codec, pack: &[u8]) -> usize {
    let answer = codec.pack_read(pack);
    let expected = Pack {
        messages: answer.messages,
        ..Pack::default()
    };
    assert_eq!(answer, expected, "it is read");
    answer.messages
}

/// The refusal and the place of a pack that must be refused. Whatever message is asked
/// for is refused alike.
fn refused(codec: &dyn Codec, pack: &[u8]) -> (u32, usize) {
    let Pack { refusal, place, .. } = codec.pack_read(pack);
    assert_ne!(refusal, 0);
    let expected = Pack {
        refusal,
        place,
        messages: 0,
    };
    assert_eq!(codec.pack_read(pack), expected, "all other numbers are 0");
    let no_stretch = Stretch {
        refusal,
        place,
        start: 0,
        length: 0,
    };
    for n in [0, 1, 2, 65_536, u32::MAX] {
        assert_eq!(codec.pack_message(pack, n), no_stretch, "message {n}");
    }
    (refusal, place)
}

/// The start and the length of a message that is there.
fn stretch(codec: &dyn Codec, pack: &[u8], n: u32) -> (usize, usize) {
    let Stretch { start, length, .. } = codec.pack_message(pack, n);
    let expected = Stretch {
        refusal: 0,
        place: 0,
        start,
        length,
    };
    assert_eq!(codec.pack_message(pack, n), expected, "message {n}");
    (start, length)
}

const NOT_THERE: Stretch = Stretch {
    refusal: 12,
    place: 0,
    start: 0,
    length: 0,
};

/// What lies in a lent octet before a call.
const OLD: u8 = 7;

/// Writes a pack to so much room. All that is not written is as it was.
fn pack_written(
    codec: &dyn Codec,
    messages: &[u8],
    lengths: &[u32],
    room: usize,
) -> (Written, Vec<u8>) {
    let mut out = vec![OLD; room];
    let answer = codec.pack_write(messages, lengths, &mut out);
    assert!(out[answer.octets..].iter().all(|&octet| octet == OLD));
    out.truncate(answer.octets);
    (answer, out)
}

/// The refusal and the place where a pack must not be written, however much room is
/// lent.
fn not_written(codec: &dyn Codec, messages: &[u8], lengths: &[u32]) -> (u32, usize) {
    let (answer, _) = pack_written(codec, messages, lengths, 70_000);
    let Written { refusal, place, .. } = answer;
    assert_ne!(refusal, 0);
    for room in [0, 4, 70_000] {
        let expected = Written {
            refusal,
            place,
            octets: 0,
        };
        let (answer, _) = pack_written(codec, messages, lengths, room);
        assert_eq!(answer, expected, "room {room}");
    }
    (refusal, place)
}

// ---- Packs that are read.

#[test]
fn a_pack_of_nothing_is_four_octets_of_0() {
    each(|codec| {
        let empty = octets(EMPTY);
        assert_eq!(messages(codec, &empty), 0);
        for n in [0, 1, 65_536, u32::MAX] {
            assert_eq!(codec.pack_message(&empty, n), NOT_THERE);
        }
        let (answer, out) = pack_written(codec, &[], &[], 6);
        assert_eq!((answer.refusal, answer.place, answer.octets), (0, 0, 4));
        assert_eq!(out, empty);
        for room in 0..4 {
            assert_eq!(pack_written(codec, &[], &[], room).0.refusal, 11);
        }
    });
}

#[test]
fn a_pack_of_one_message() {
    each(|codec| {
        let (pack, p1) = (octets(ONE), octets(P1));
        assert_eq!(messages(codec, &pack), 1);
        assert_eq!(stretch(codec, &pack, 0), (0, 10));
        assert_eq!(codec.pack_message(&pack, 1), NOT_THERE);
        let (answer, out) = pack_written(codec, &p1, &[10], 30);
        assert_eq!((answer.refusal, answer.place, answer.octets), (0, 0, 18));
        assert_eq!(out, pack);
    });
}

#[test]
fn a_pack_of_some_messages() {
    each(|codec| {
        let pack = octets(TWO);
        assert_eq!(messages(codec, &pack), 2);
        assert_eq!(stretch(codec, &pack, 0), (0, 10));
        assert_eq!(stretch(codec, &pack, 1), (10, 9));
        let pack = octets(THREE);
        assert_eq!(messages(codec, &pack), 3);
        let all = [(0, 10, P1), (10, 9, P3), (19, 11, P2)];
        for (n, (start, length, message)) in all.into_iter().enumerate() {
            assert_eq!(stretch(codec, &pack, n as u32), (start, length));
            assert_eq!(pack[start..start + length], octets(message));
        }
        let (answer, out) = pack_written(codec, &pack[..30], &[10, 9, 11], 46);
        assert_eq!((answer.refusal, answer.octets), (0, 46));
        assert_eq!(out, pack);
    });
}

/// The same message may be there more than once.
#[test]
fn messages_may_be_alike() {
    each(|codec| {
        let made = Made::of(&vec![octets(P1); 300]);
        let pack = made.pack();
        assert_eq!(pack.len(), 300 * 14 + 4);
        assert_eq!(messages(codec, &pack), 300);
        assert_eq!(stretch(codec, &pack, 299), (2990, 10));
        let (answer, out) = pack_written(codec, &made.octets, &[10; 300], pack.len());
        assert_eq!((answer.refusal, out == pack), (0, true));
    });
}

#[test]
fn no_such_message() {
    each(|codec| {
        let pack = octets(THREE);
        for n in [3, 4, 255, 256, 65_535, 65_536, 65_538, 1 << 31, u32::MAX] {
            assert_eq!(codec.pack_message(&pack, n), NOT_THERE, "message {n}");
        }
    });
}

// ---- Size and rows.

#[test]
fn a_pack_has_four_octets_at_least() {
    each(|codec| {
        for pack in ["", "00", "0000", "000000", "02", "FFFF", "FFFFFF", "000001"] {
            assert_eq!(refused(codec, &octets(pack)), (2, 0), "{pack}");
        }
    });
}

#[test]
fn first_row_start_and_rows_add_up_to_the_pack() {
    each(|codec| {
        for pack in [
            // No row, which would start at 1, and one row, for which there is no room.
            "0000 0001",
            "0001 0000",
            "FFFF FFFF",
            "0000 0000 00",
            "00 0000 0000",
            // The row of P1 once too often and not at all.
            "024A3A80400051C69000 0000000A 0002 000A",
            "024A3A80400051C69000 0000000A 0000 000A",
            // The rows from 9 on and from 11 on.
            "024A3A80400051C69000 0000000A 0001 0009",
            "024A3A80400051C69000 0000000A 0001 000B",
            // Low octets first.
            "024A3A80400051C69000 0000000A 0100 000A",
            "024A3A80400051C69000 0000000A 0001 0A00",
            // 10 + 4 * 16,385 + 4 is 65,554, or 18 and 65,536.
            "024A3A80400051C69000 0000000A 4001 000A",
        ] {
            assert_eq!(refused(codec, &octets(pack)), (26, 0), "{pack}");
        }
    });
}

#[test]
fn a_pack_can_be_cut_or_go_on_anywhere() {
    each(|codec| {
        let pack = octets(THREE);
        for length in 0..pack.len() {
            let expected = if length < 4 { (2, 0) } else { (26, 0) };
            assert_eq!(refused(codec, &pack[..length]), expected, "{length} octets");
        }
        for more in [&[0][..], &[0, 0], &[0, 3, 0, 30]] {
            let longer = [&pack[..], more].concat();
            assert_eq!(refused(codec, &longer), (26, 0), "{more:?} more");
        }
        // A count and a first row start that add up, and no row ahead of them.
        let longer = [&pack[..], &[0, 0, 0, 46]].concat();
        assert_eq!(refused(codec, &longer), (27, 0));
    });
}

#[test]
fn without_rows_the_first_one_starts_at_0() {
    each(|codec| {
        for pack in [
            "FF 0000 0001",
            "00 0000 0001",
            "024A3A80400051C69000 0000 000A",
            // That of P1, but its row is taken for octets.
            "024A3A80400051C69000 0000000A 0000 000E",
        ] {
            assert_eq!(refused(codec, &octets(pack)), (27, 0), "{pack}");
        }
    });
}

#[test]
fn each_number_of_each_row_is_right_or_refused() {
    each(|codec| {
        let made = Made::of(&[P1, P3, P2].map(octets));
        assert_eq!(made.pack(), octets(THREE));
        for (at, which) in [(0, 0), (0, 1), (1, 0), (1, 1), (2, 0), (2, 1)] {
            let right = made.rows[at][which];
            // The last of them for the number with the low octet first.
            for other in [right + 1, right.wrapping_sub(1), right + 256, right * 256] {
                let mut wrong = made.clone();
                wrong.rows[at][which] = other;
                if other != right {
                    assert_eq!(refused(codec, &wrong.pack()), (27, 0), "row {at}: {other}");
                }
            }
        }
        for off in [1, usize::MAX] {
            let mut wrong = made.clone();
            wrong.count = made.count.wrapping_add(off);
            assert_eq!(refused(codec, &wrong.pack()), (26, 0));
            let mut wrong = made.clone();
            wrong.first_row = made.first_row.wrapping_add(off);
            assert_eq!(refused(codec, &wrong.pack()), (26, 0));
        }
    });
}

#[test]
fn rows_continue_without_a_gap() {
    each(|codec| {
        for pack in [
            // An octet ahead of P1, behind it, and between P1 and P3.
            "00 024A3A80400051C69000 0001000A 0001 000B",
            "024A3A80400051C69000 00 0000000A 0001 000B",
            "024A3A80400051C69000 00 024A3A804000269000 0000000A 000B0009 0002 0014",
            // The rows the other way round, and one of them twice.
            "024A3A80400051C69000 024A3A804000269000 000A0009 0000000A 0002 0013",
            "024A3A80400051C69000 0000000A 0000000A 0002 000A",
            // Two that overlap by an octet.
            "024A3A80400051C69000 4A3A804000269000 0000000A 00090009 0002 0012",
            // 40,000 and 25,546 are 65,546, or 10 and 65,536.
            "024A3A80400051C69000 00009C40 9C4063CA 0002 000A",
            // A row that is as long as the pack.
            "024A3A80400051C69000 00000012 0001 000A",
        ] {
            assert_eq!(refused(codec, &octets(pack)), (27, 0), "{pack}");
        }
    });
}

// ---- Messages.

#[test]
fn every_octet_of_a_pack_counts() {
    each(|codec| {
        let pack = octets(THREE);
        for at in 0..pack.len() {
            for flip in 1..=255 {
                let mut other = pack.clone();
                other[at] ^= flip;
                let expected = match at {
                    0..=9 => alone(codec, &other, 0, 10),
                    10..=18 => alone(codec, &other, 10, 9),
                    19..=29 => alone(codec, &other, 19, 11),
                    30..=41 => (27, 0),
                    _ => (26, 0),
                };
                let answer = codec.pack_read(&other);
                assert_eq!(
                    (answer.refusal, answer.place),
                    expected,
                    "octet {at}: {flip}"
                );
                assert_eq!(answer.messages, if expected.0 == 0 { 3 } else { 0 });
            }
        }
    });
}

/// Notes with every kind of setting among them, and a recall, so that bodies of many lengths
/// stand at many places.
fn mixed() -> Vec<u32> {
    let settings = [131_073, 196_610, 262_175, 327_695];
    let note = |k: u32| 65536 + k % 13 * 32 + k % 6 * 4 + k % 4;
    let mut table = vec![];
    for length in [1, 2, 3, 5, 11, 31] {
        table.push(length % 4 * 4096 + length);
        table.extend((0..length).map(|k| match k % 4 {
            3 => settings[(k / 4 % 4) as usize],
            _ => note(k + length),
        }));
    }
    table.push(4096);
    table
}

/// Flips each bit of a message that has others ahead of it and behind it. The pack is then
/// read, or refused as the message is by itself.
fn flip_each_bit(codec: &dyn Codec, message: &[u8], ahead: usize, behind: usize) {
    let small = vec![octets(P3); ahead + behind];
    let mut messages = small;
    messages.insert(ahead, message.to_vec());
    let pack = Made::of(&messages).pack();
    assert_eq!(codec.pack_read(&pack).messages, ahead + behind + 1);
    let start = 9 * ahead;
    for bit in 0..8 * message.len() {
        let mut other = pack.clone();
        other[start + bit / 8] ^= 128 >> (bit % 8);
        let expected = alone(codec, &other, start, message.len());
        let answer = codec.pack_read(&other);
        assert_eq!((answer.refusal, answer.place), expected, "bit {bit}");
        // Written from the messages there is nothing behind the last one.
        let lengths: Vec<u32> = messages.iter().map(|m| m.len() as u32).collect();
        let all = &other[..messages.concat().len()];
        let written = codec.pack_write(all, &lengths, &mut vec![0; pack.len()]);
        assert_eq!((written.refusal, written.place), expected, "bit {bit}");
    }
}

#[test]
fn every_bit_of_a_long_message_counts_wherever_it_lies() {
    let wide: Vec<u8> = b"Ohakelm".iter().flat_map(|&c| [1, c]).collect();
    each(|codec| {
        for message in [
            written(2, false, &[], &mixed()),
            written(1, false, b"Ohakelm, a tune", &mixed()),
            written(1, true, &wide, &mixed()),
        ] {
            for (ahead, behind) in [(0, 0), (1, 0), (0, 1), (2, 3), (0, 12)] {
                flip_each_bit(codec, &message, ahead, behind);
            }
        }
    });
}

/// What a message of a pack is refused for by itself, at the place in the pack.
fn alone(codec: &dyn Codec, pack: &[u8], start: usize, length: usize) -> (u32, usize) {
    let message = &pack[start..start + length];
    let answer = codec.read(message, &mut [0; 300], &mut [0; 30]);
    match answer.refusal {
        0 => (0, 0),
        refusal => (refusal, 8 * start + answer.place),
    }
}

#[test]
fn a_place_is_counted_from_the_packs_first_bit() {
    each(|codec| {
        // P4, P5 and P8 of the rules, and others, with their places in a message.
        for (message, refusal, place) in [
            ("024A3A80400051C690", 2, 72),
            ("024A3A80400051C6900000", 10, 80),
            ("024A3A80400051C69100", 8, 71),
            ("014A3A80400051C69000", 3, 0),
            ("024C3A80400051C69000", 3, 8),
            ("024A3AE0400051C69000", 4, 23),
            ("024A3A80000051C69000", 5, 26),
            ("024A3A80480051C69000", 6, 34),
            ("024A3A80400000000000", 7, 37),
            ("024A3A80400051C69001", 9, 72),
            // A title of A and a tab.
            ("024A3A490424040002450000", 21, 38),
        ] {
            let message = octets(message);
            let read = codec.read(&message, &mut [0; 9], &mut [0; 9]);
            assert_eq!((read.refusal, read.place), (refusal, place));
            let (p1, p2) = (octets(P1), octets(P2));
            let first = Made::of(&[message.clone(), p1.clone()]).pack();
            assert_eq!(refused(codec, &first), (refusal, place));
            let second = Made::of(&[p1.clone(), message.clone(), p2.clone()]);
            assert_eq!(refused(codec, &second.pack()), (refusal, 80 + place));
            let last = Made::of(&[p1, p2, message]);
            assert_eq!(refused(codec, &last.pack()), (refusal, 168 + place));
            for made in [second, last] {
                let lengths: Vec<u32> = made.rows.iter().map(|row| row[1] as u32).collect();
                let expected = refused(codec, &made.pack());
                assert_eq!(not_written(codec, &made.octets, &lengths), expected);
            }
        }
    });
}

#[test]
fn the_first_message_at_fault_is_named() {
    each(|codec| {
        // P1 without its last octet, P1 with 91 for 90, and P1.
        let (cut, filler, p1) = (&octets(P1)[..9], octets("024A3A80400051C69100"), octets(P1));
        let made = Made::of(&[p1.clone(), cut.to_vec(), filler.clone()]);
        assert_eq!(refused(codec, &made.pack()), (2, 152));
        let made = Made::of(&[p1.clone(), filler, cut.to_vec()]);
        assert_eq!(refused(codec, &made.pack()), (8, 151));
        // What is cut from one message is no part of the next one.
        let made = Made::of(&[cut.to_vec(), vec![0], p1]);
        assert_eq!(refused(codec, &made.pack()), (2, 72));
    });
}

#[test]
fn a_row_of_nothing_continues_and_its_message_is_cut_short() {
    each(|codec| {
        let one = octets("00000000 0001 0000");
        assert_eq!(refused(codec, &one), (2, 0));
        let (p1, p3) = (octets(P1), octets(P3));
        for (made, place) in [
            (Made::of(&[vec![], p1.clone(), p3.clone()]), 0),
            (Made::of(&[p1.clone(), vec![], p3.clone()]), 80),
            (Made::of(&[p1.clone(), p3.clone(), vec![]]), 152),
            (Made::of(&[p1, p3, vec![], vec![]]), 152),
        ] {
            assert_eq!(refused(codec, &made.pack()), (2, place));
        }
        assert_eq!(not_written(codec, &[], &[0]), (2, 0));
        assert_eq!(not_written(codec, &octets(P1), &[0, 10]), (2, 0));
        assert_eq!(not_written(codec, &octets(P1), &[10, 0]), (2, 80));
    });
}

#[test]
fn a_message_of_4097_octets_is_too_long_at_its_start() {
    each(|codec| {
        let (p1, full) = (octets(P1), largest::of_octets(4096));
        let long = [&full[..], &[0]].concat();
        assert_eq!(messages(codec, &Made::of(&[p1.clone(), full]).pack()), 2);
        for (made, place) in [
            (Made::of(&[long.clone(), p1.clone()]), 0),
            (Made::of(&[p1.clone(), long.clone()]), 80),
            (Made::of(&[p1.clone(), vec![0xFF; 60_000]]), 80),
            // The long one comes first, and then the other one.
            (Made::of(&[p1.clone(), long, vec![]]), 80),
        ] {
            assert_eq!(refused(codec, &made.pack()), (1, place));
            let lengths: Vec<u32> = made.rows.iter().map(|row| row[1] as u32).collect();
            assert_eq!(not_written(codec, &made.octets, &lengths), (1, place));
        }
    });
}

// ---- The order.

#[test]
fn packs_refuse_in_order() {
    each(|codec| {
        // All four faults at once, and one fewer each time: too long, the size wrong, the
        // rows wrong, and no message sound.
        let mut made = Made::of(&vec![vec![1; 100]; 700]);
        made.rows[699][1] += 1;
        assert_eq!(refused(codec, &made.pack()), (1, 0));
        let mut made = Made::of(&vec![vec![1; 100]; 600]);
        made.rows[599][1] += 1;
        made.count += 1;
        assert_eq!(refused(codec, &made.pack()), (26, 0));
        made.count -= 1;
        assert_eq!(refused(codec, &made.pack()), (27, 0));
        made.rows[599][1] -= 1;
        assert_eq!(refused(codec, &made.pack()), (3, 0));
        // A sound pack but for its size, and octets of any kind.
        let outgrown = Made::of(&of_octets(65_536));
        assert_eq!(outgrown.pack().len(), 65_536);
        assert_eq!(refused(codec, &outgrown.pack()), (1, 0));
        assert_eq!(refused(codec, &vec![0; 65_536]), (1, 0));
        assert_eq!(refused(codec, &vec![0; 65_535]), (26, 0));
    });
}

// ---- The largest packs.

/// 15 messages of 4,096 octets take 61,440. 16 rows and four octets leave 4,027 for one
/// more.
#[test]
fn messages_of_4096_octets_up_to_65535_in_all() {
    each(|codec| {
        let full = Made::of(&of_octets(65_535));
        let pack = full.pack();
        assert_eq!((pack.len(), full.first_row), (65_535, 65_467));
        assert_eq!(messages(codec, &pack), 16);
        assert_eq!(stretch(codec, &pack, 14), (57_344, 4096));
        assert_eq!(stretch(codec, &pack, 15), (61_440, 4027));
        assert_eq!(codec.pack_message(&pack, 16), NOT_THERE);
        let lengths: Vec<u32> = full.rows.iter().map(|row| row[1] as u32).collect();
        let (answer, out) = pack_written(codec, &full.octets, &lengths, 65_536);
        assert_eq!((answer.refusal, answer.octets), (0, 65_535));
        assert!(out == pack);
        let (answer, _) = pack_written(codec, &full.octets, &lengths, 65_534);
        assert_eq!((answer.refusal, answer.place), (11, 0));
        // The end octet of the last message, at octet 65,466, is not 00.
        let mut wrong = pack;
        wrong[65_466] = 1;
        assert_eq!(refused(codec, &wrong), (9, 523_728));
    });
}

#[test]
fn one_more_than_fits_is_not_written() {
    each(|codec| {
        let more = Made::of(&of_octets(65_536));
        let lengths: Vec<u32> = more.rows.iter().map(|row| row[1] as u32).collect();
        assert_eq!(not_written(codec, &more.octets, &lengths), (1, 0));
        let sixteen = largest::of_octets(4096).repeat(16);
        assert_eq!(not_written(codec, &sixteen, &[4096; 16]), (1, 0));
        let (answer, _) = pack_written(codec, &sixteen[4096..], &[4096; 15], 70_000);
        assert_eq!((answer.refusal, answer.octets), (0, 61_504));
    });
}

/// The smallest message has a part of one scale: 34 + 17 + 5 bits and the end octet.
#[test]
fn as_many_messages_as_there_can_be() {
    each(|codec| {
        let small = written(2, false, &[], &[1, 131_072]);
        assert_eq!(small.len(), 8);
        // With its row each takes 12 octets.
        let made = Made::of(&vec![small.clone(); 5460]);
        let pack = made.pack();
        assert_eq!(pack.len(), 65_524);
        assert_eq!(messages(codec, &pack), 5460);
        assert_eq!(stretch(codec, &pack, 5459), (43_672, 8));
        let (answer, out) = pack_written(codec, &made.octets, &[8; 5460], 65_524);
        assert_eq!((answer.refusal, out == pack), (0, true));
        let more = small.repeat(5461);
        assert_eq!(not_written(codec, &more, &[8; 5461]), (1, 0));
    });
}

// ---- Writing.

#[test]
fn lengths_add_up_to_the_octets() {
    each(|codec| {
        let two = [octets(P1), octets(P3)].concat();
        for lengths in [
            &[][..],
            &[10],
            &[9],
            &[20],
            &[10, 8],
            &[10, 10],
            &[9, 9],
            &[11, 9],
            &[10, 9, 1],
            &[u32::MAX],
            &[u32::MAX, u32::MAX],
            // The same sum in 8, in 16 and in 32 bits.
            &[10, 9 + 256],
            &[10 + 65_536, 9],
            &[10 + (1 << 31), 9 + (1 << 31)],
            &[10, 9, u32::MAX, 1],
        ] {
            assert_eq!(not_written(codec, &two, lengths), (27, 0), "{lengths:?}");
        }
        assert_eq!(not_written(codec, &[], &[1]), (27, 0));
        assert_eq!(not_written(codec, &[], &[1 << 31, 1 << 31]), (27, 0));
        assert_eq!(not_written(codec, &[0], &[]), (27, 0));
        assert_eq!(pack_written(codec, &two, &[10, 9], 31).1, octets(TWO));
    });
}

/// The lengths say where messages are cut, and each piece is judged by itself.
#[test]
fn messages_are_cut_by_the_lengths() {
    each(|codec| {
        let two = [octets(P1), octets(P3)].concat();
        // P1 without its end octet, and then one that begins with it.
        assert_eq!(not_written(codec, &two, &[9, 10]), (2, 72));
        // P1 and the first octet of P3.
        assert_eq!(not_written(codec, &two, &[11, 8]), (10, 80));
        assert_eq!(not_written(codec, &two, &[19]), (10, 80));
        // The second piece ends in P3, and the third one is its end octet.
        assert_eq!(not_written(codec, &two, &[10, 8, 1]), (2, 144));
    });
}

#[test]
fn the_size_of_a_pack_is_judged_by_what_is_handed_over() {
    each(|codec| {
        // A length takes four octets, and there are four more.
        assert_eq!(not_written(codec, &[0; 65_527], &[0]), (27, 0));
        assert_eq!(not_written(codec, &[0; 65_528], &[0]), (1, 0));
        assert_eq!(not_written(codec, &[0; 65_527], &[65_527]), (1, 0));
        assert_eq!(not_written(codec, &[0; 65_531], &[]), (27, 0));
        assert_eq!(not_written(codec, &[0; 65_532], &[]), (1, 0));
        // 16,382 of them take 65,528 octets.
        assert_eq!(not_written(codec, &[], &[0; 16_382]), (2, 0));
        assert_eq!(not_written(codec, &[], &[u32::MAX; 16_382]), (27, 0));
        assert_eq!(not_written(codec, &[0; 3], &[u32::MAX; 16_382]), (27, 0));
        assert_eq!(not_written(codec, &[0; 4], &[u32::MAX; 16_382]), (1, 0));
        assert_eq!(not_written(codec, &[], &[0; 16_383]), (1, 0));
        assert_eq!(not_written(codec, &[], &vec![1 << 30; 20_000]), (1, 0));
    });
}

#[test]
fn writing_a_pack_refuses_in_order() {
    each(|codec| {
        // P1 without its last octet, and P1.
        let (cut, p1) = (&octets(P1)[..9], octets(P1));
        let messages = [&p1[..], cut].concat();
        assert_eq!(pack_written(codec, &[0; 65_600], &[1], 0).0.refusal, 1);
        assert_eq!(pack_written(codec, &messages, &[10, 10], 0).0.refusal, 27);
        let (answer, _) = pack_written(codec, &messages, &[10, 9], 0);
        assert_eq!((answer.refusal, answer.place), (2, 152));
        let messages = p1.repeat(2);
        for room in [0, 4, 20, 31] {
            let (answer, _) = pack_written(codec, &messages, &[10, 10], room);
            assert_eq!((answer.refusal, answer.place, answer.octets), (11, 0, 0));
        }
        let (answer, out) = pack_written(codec, &messages, &[10, 10], 32);
        assert_eq!((answer.refusal, answer.octets), (0, 32));
        assert_eq!(out[20..], octets("0000000A 000A000A 0002 0014"));
    });
}

// ---- There and back.

/// What each message of a pack is, put together again, is the pack.
#[test]
fn reading_and_writing_undo_each_other() {
    each(|codec| {
        let sizes = [8, 9, 40, 255, 256, 257, 1000, 4095, 4096];
        for count in 0..=sizes.len() {
            let made: Vec<Vec<u8>> = sizes[..count]
                .iter()
                .map(|&it| largest::of_octets(it))
                .collect();
            let pack = Made::of(&made).pack();
            assert_eq!(messages(codec, &pack), count);
            let taken = (0..count).map(|n| stretch(codec, &pack, n as u32));
            let taken = taken.map(|(start, length)| pack[start..start + length].to_vec());
            let taken: Vec<Vec<u8>> = taken.collect();
            assert_eq!(taken, made);
            let lengths: Vec<u32> = taken.iter().map(|it| it.len() as u32).collect();
            let (answer, out) = pack_written(codec, &taken.concat(), &lengths, pack.len());
            assert_eq!((answer.refusal, out == pack), (0, true));
        }
    });
}
