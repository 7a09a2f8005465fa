//! Getting messages out of broken packs, with answers worked out by hand from the rules.
//! Each case is put to each codec and to the safe function.

mod support;

use ohakelm::{LARGEST_PACK, LARGEST_REPORT};
use ohakelm_answers::Salvage;
use support::codecs::{each, Codec, Obvious};
use support::largest::{self, temporary};
use support::packs::{rows_of, Made};
use support::salvages::smallest;
use support::tones::written;
use support::{octets, worst};

/// The first three samples of the rules, of 10, 11 and 9 octets.
const P1: &str = "024A3A8040 0051C69000";
const P2: &str = "024A3A8040 0071C8348000";
const P3: &str = "024A3A8040 00269000";

/// The packs of P1 alone, of P3 alone, and of both.
const ONE: &str = "024A3A80400051C69000 0000000A 0001 000A";
const OTHER: &str = "024A3A804000269000 00000009 0001 0009";
const TWO: &str = "024A3A80400051C69000 024A3A804000269000 0000000A 000A0009 0002 0013";
const EMPTY: &str = "0000 0000";

/// What lies in a lent octet and in a lent number before a call.
const OLD_OCTET: u8 = 7;
const OLD: u32 = 7;

/// What is to be gotten out of octets.
struct Salvaged {
    pack: Vec<u8>,
    /// Old start, new start and length of each message.
    moved: Vec<[u32; 3]>,
    skipped: usize,
}

impl Salvaged {
    fn new(pack: &[u8], moved: &[[u32; 3]], skipped: usize) -> Salvaged {
        Salvaged {
            pack: pack.to_vec(),
            moved: moved.to_vec(),
            skipped,
        }
    }

    fn report(&self) -> Vec<u32> {
        [self.moved.concat(), vec![self.skipped as u32]].concat()
    }

    /// What the calls answer.
    fn answer(&self) -> Salvage {
        Salvage {
            refusal: 0,
            place: 0,
            messages: self.moved.len(),
            octets: self.pack.len(),
            skipped: self.skipped,
        }
    }
}

/// A call of a codec, or the safe function in the same form.
type Call<'a> = &'a dyn Fn(&[u8], &mut [u8], &mut [u32]) -> Salvage;

fn each_call(test: impl Fn(Call)) {
    each(|codec| test(&|pack, out, report| codec.pack_salvage(pack, out, report)));
    println!("safe");
    test(&safe);
}

fn safe(pack: &[u8], out: &mut [u8], report: &mut [u32]) -> Salvage {
    match ohakelm::salvage_pack(pack, out, report) {
        Ok(salvage) => Salvage {
            refusal: 0,
            place: 0,
            messages: salvage.messages,
            octets: salvage.octets,
            skipped: salvage.skipped,
        },
        Err(refusal) => Salvage {
            refusal: refusal.number,
            place: refusal.place,
            ..Salvage::default()
        },
    }
}

/// This comes out, with just enough room and with more. With less it is refused 11.
fn assert_salvaged(input: &[u8], expected: &Salvaged) {
    let (octets, numbers) = (expected.pack.len(), expected.report().len());
    each_call(|call| {
        for more in [0, 1, 9] {
            let (mut out, mut report) = (vec![OLD_OCTET; octets + more], vec![OLD; numbers + more]);
            let answer = call(input, &mut out, &mut report);
            assert_eq!(answer, expected.answer());
            assert!(out[..octets] == expected.pack, "the new pack");
            assert!(report[..numbers] == expected.report(), "the report");
            assert_eq!(out[octets..], vec![OLD_OCTET; more]);
            assert_eq!(report[numbers..], vec![OLD; more]);
        }
        for (octets, numbers) in [
            (octets - 1, numbers),
            (octets, numbers - 1),
            (octets - 1, numbers - 1),
            (0, numbers + 9),
            (octets + 9, 0),
        ] {
            assert_eq!(refused(call, input, octets, numbers), 11);
        }
    });
}

/// The refusal with so much room. All that is lent is as it was.
fn refused(call: Call, input: &[u8], octets: usize, numbers: usize) -> u32 {
    let (mut out, mut report) = (vec![OLD_OCTET; octets], vec![OLD; numbers]);
    let answer = call(input, &mut out, &mut report);
    let expected = Salvage {
        refusal: answer.refusal,
        ..Salvage::default()
    };
    assert_eq!(answer, expected, "place and all other numbers are 0");
    assert_ne!(answer.refusal, 0);
    assert!(out.iter().all(|&octet| octet == OLD_OCTET));
    assert!(report.iter().all(|&number| number == OLD));
    answer.refusal
}

/// The pack of nothing, and so many octets skipped.
fn nothing(skipped: usize) -> Salvaged {
    Salvaged::new(&octets(EMPTY), &[], skipped)
}

// ---- Sound and cut.

#[test]
fn a_sound_pack_comes_out_as_it_is() {
    // Two rows and four octets are skipped.
    let expected = Salvaged::new(&octets(TWO), &[[0, 0, 10], [10, 10, 9]], 12);
    assert_salvaged(&octets(TWO), &expected);
    let expected = Salvaged::new(&octets(ONE), &[[0, 0, 10]], 8);
    assert_salvaged(&octets(ONE), &expected);
    assert_salvaged(&octets(EMPTY), &nothing(4));
}

#[test]
fn a_message_alone_becomes_a_pack() {
    let expected = Salvaged::new(&octets(ONE), &[[0, 0, 10]], 0);
    assert_salvaged(&octets(P1), &expected);
}

#[test]
fn no_octets_become_the_pack_of_nothing() {
    assert_salvaged(&[], &nothing(0));
}

/// In the middle of a message, of a row and of the last four octets, and elsewhere.
#[test]
fn a_pack_can_be_cut_anywhere() {
    let pack = octets(TWO);
    for length in 0..pack.len() {
        let expected = match length {
            0..=9 => nothing(length),
            10..=18 => Salvaged::new(&octets(ONE), &[[0, 0, 10]], length - 10),
            _ => Salvaged::new(&octets(TWO), &[[0, 0, 10], [10, 10, 9]], length - 19),
        };
        assert_salvaged(&pack[..length], &expected);
    }
}

/// Without its first octets, so that the first message has no front.
#[test]
fn a_pack_can_begin_late() {
    for late in 1..=10 {
        // What is left of P1, and the rows.
        let expected = Salvaged::new(&octets(OTHER), &[[10 - late, 0, 9]], 22 - late as usize);
        assert_salvaged(&octets(TWO)[late as usize..], &expected);
    }
}

// ---- Spoilt.

#[test]
fn noise_has_no_message() {
    assert_salvaged(&octets("FF"), &nothing(1));
    assert_salvaged(&octets("024A3A80"), &nothing(4));
    assert_salvaged(
        &octets("024A 034A 024A44 034A443A 0202020203030303"),
        &nothing(19),
    );
    assert_salvaged(&[0; 300], &nothing(300));
}

/// The end octet of P1 is 01. Behind it P3 is whole.
#[test]
fn a_spoilt_message_is_skipped() {
    let spoilt = octets("024A3A80400051C69001 024A3A804000269000 0000000A 000A00");
    let expected = Salvaged::new(&octets(OTHER), &[[10, 0, 9]], 10 + 7);
    assert_salvaged(&spoilt, &expected);
}

/// P1 was written up to its sixth octet, and then P3. Taken together that is a header
/// that recalls a part which nothing has.
#[test]
fn a_message_inside_a_spoilt_one_comes_out() {
    let spoilt = octets("024A3A804000 024A3A804000269000 51C69000");
    let expected = Salvaged::new(&octets(OTHER), &[[6, 0, 9]], 6 + 4);
    assert_salvaged(&spoilt, &expected);
}

/// A gap between two messages goes, so that the second one moves.
#[test]
fn messages_move_up() {
    let spread = octets("FF024A 024A3A80400051C69000 0202 024A3A804000269000 4A");
    let expected = Salvaged::new(&octets(TWO), &[[3, 0, 10], [15, 10, 9]], 3 + 2 + 1);
    assert_salvaged(&spread, &expected);
}

/// Two messages and nothing else.
#[test]
fn it_goes_on_behind_a_message() {
    let both = [octets(P2), octets(P1)];
    let expected = Salvaged::new(&Made::of(&both).pack(), &[[0, 0, 11], [11, 11, 10]], 0);
    assert_salvaged(&both.concat(), &expected);
}

/// A basic song, UNICODE, whose title is A: both fronts are looked for.
#[test]
fn a_message_with_unicode_comes_out() {
    let message = written(1, true, &[0, 65], &[1, 131_072]);
    let pack = Made::of(std::slice::from_ref(&message)).pack();
    let expected = Salvaged::new(&pack, &[[2, 0, message.len() as u32]], 3);
    assert_salvaged(&[&[3, 3], &message[..], &[3]].concat(), &expected);
}

// ---- Titles.

/// The title A and a tab.
#[test]
fn a_refused_character_is_skipped_octet_by_octet() {
    let tab = octets("024A3A49 04240400 02450000");
    assert_salvaged(&tab, &nothing(12));
}

/// A title of 11 characters begins at bit 30. With two bits ahead of them it has the
/// octets of P1 from bit 32 on, and so from octet 4. The second character is 92, which is
/// refused. The whole has 20 octets: four are ahead of P1, and six behind.
#[test]
fn a_message_in_a_refused_title_comes_out() {
    let title = octets("40 92 8E A0 10 00 14 71 A4 00 20");
    let outer = written(1, false, &title, &[1, 131_072]);
    assert_eq!((outer.len(), &outer[4..14]), (20, &octets(P1)[..]));
    let expected = Salvaged::new(&octets(ONE), &[[4, 0, 10]], 4 + 6);
    assert_salvaged(&outer, &expected);
}

// ---- Bounds.

#[test]
fn a_tone_has_4096_octets_at_most() {
    // One scale more than the fullest one has makes one octet more.
    let (fullest, longer) = (largest::of_octets(4096), temporary(&largest::parts(82)));
    assert_eq!(longer.len(), 4097);
    let input = [&fullest[..], &longer, &octets(P1)].concat();
    let pack = Made::of(&[fullest, octets(P1)]).pack();
    let moved = [[0, 0, 4096], [8193, 4096, 10]];
    assert_salvaged(&input, &Salvaged::new(&pack, &moved, 4097));
}

#[test]
fn a_message_may_end_with_octet_65535() {
    let input = [vec![0; 65_525], octets(P1)].concat();
    let expected = Salvaged::new(&octets(ONE), &[[65_525, 0, 10]], 65_525);
    assert_salvaged(&input, &expected);
    // What is behind it is neither kept nor counted.
    let longer = [input, octets(P3), vec![0; 5000]].concat();
    assert_salvaged(&longer, &expected);
}

#[test]
fn a_message_across_octet_65535_is_not_whole() {
    for late in 1..=10 {
        let input = [vec![0; 65_525 + late], octets(P1), octets(P3)].concat();
        assert_salvaged(&input, &nothing(65_535));
    }
}

#[test]
fn only_65535_octets_count() {
    let expected = Salvaged::new(&octets(ONE), &[[0, 0, 10]], 65_525);
    for length in [65_535, 65_536, 70_000, 200_000] {
        let mut input = octets(P1);
        input.resize(length, 0);
        assert_salvaged(&input, &expected);
    }
}

/// 5,460 messages of eight octets have a pack of 65,524 octets, and one more has 65,536.
#[test]
fn a_new_pack_has_5460_messages_at_most() {
    assert_eq!(smallest(), octets("024A3A8040002800"));
    let all: Vec<[u32; 3]> = (0..5460).map(|n| [8 * n, 8 * n, 8]).collect();
    let expected = Salvaged::new(&Made::of(&vec![smallest(); 5460]).pack(), &all, 0);
    assert_eq!(
        (expected.pack.len(), expected.report().len()),
        (65_524, LARGEST_REPORT)
    );
    assert_salvaged(&smallest().repeat(5460), &expected);
    assert_too_large(&smallest().repeat(5461));
    // 8,191 are all that there can be.
    assert_too_large(&smallest().repeat(9000));
}

/// Eleven of these have nine octets, so that the pack has 65,535; with twelve it would
/// have one more.
#[test]
fn a_new_pack_has_65535_octets_at_most() {
    let messages = |longer: usize| {
        let mut messages = vec![smallest(); 5460 - longer];
        messages.extend(vec![octets(P3); longer]);
        messages
    };
    let pack = Made::of(&messages(11)).pack();
    assert_eq!(pack.len(), LARGEST_PACK);
    let lengths: Vec<usize> = messages(11).iter().map(Vec::len).collect();
    let moved = rows_of(&lengths)
        .into_iter()
        .map(|[start, length]| [start as u32, start as u32, length as u32]);
    let moved: Vec<[u32; 3]> = moved.collect();
    assert_salvaged(&messages(11).concat(), &Salvaged::new(&pack, &moved, 0));
    assert_too_large(&messages(12).concat());
}

/// 15 messages of 4,096 octets and one of 4,095 leave no octet for a row.
#[test]
fn messages_alone_may_be_too_much() {
    let input = [
        largest::of_octets(4096).repeat(15),
        largest::of_octets(4095),
    ]
    .concat();
    assert_eq!(input.len(), 65_535);
    assert_too_large(&input);
}

/// It is refused 1, however much room is lent.
fn assert_too_large(input: &[u8]) {
    each_call(|call| {
        for (octets, numbers) in [(70_000, 30_000), (0, 30_000), (70_000, 0), (0, 0)] {
            assert_eq!(refused(call, input, octets, numbers), 1);
        }
    });
}

// ---- More than there was.

/// The fifth row ends with 024A and the sixth is 3A4D01B7, as the fifth message has 586
/// octets and the sixth starts at 14,925. With the next two rows these are a message: a
/// basic song whose title has three characters, with one pattern of one instruction.
#[test]
fn rows_may_be_a_message() {
    let lengths = [4096, 4096, 4096, 2051, 586, 439, 2052, 8];
    let mut messages = lengths.map(largest::of_octets).to_vec();
    let pack = Made::of(&messages).pack();
    assert_eq!(pack.len(), 17_424 + 8 * 4 + 4);
    let neighbour = octets("024A3A4D01B73C040804440800");
    assert_eq!(pack[17_442..17_455], neighbour);
    messages.push(neighbour);
    let mut moved = Vec::new();
    for (start, length) in [0, 4096, 8192, 12_288, 14_339, 14_925, 15_364, 17_416]
        .into_iter()
        .zip(lengths)
    {
        moved.push([start, start, length as u32]);
    }
    moved.push([17_442, 17_424, 13]);
    // 18 octets of rows ahead of it, and five behind.
    let expected = Salvaged::new(&Made::of(&messages).pack(), &moved, 23);
    assert_eq!(expected.pack.len(), 17_437 + 9 * 4 + 4);
    assert_salvaged(&pack, &expected);
}

/// What comes out of the new pack is what is in it, and more only if it is among its rows.
#[test]
fn the_new_pack_comes_out_as_it_is() {
    let spread = octets("FF024A 024A3A80400051C69000 0202 024A3A804000269000 4A");
    each_call(|call| {
        let (mut out, mut report) = ([0; 31], [0; 7]);
        call(&spread, &mut out, &mut report);
        let mut again = [0; 31];
        let answer = call(&out, &mut again, &mut report);
        assert_eq!(
            (answer.messages, answer.octets, answer.skipped),
            (2, 31, 12)
        );
        assert_eq!(out, again);
    });
}

// ---- The inputs that take longest.

/// Of a thousand octets so many begin a reading that goes on for nearly as long as it may.
const IN_A_THOUSAND: usize = 114;

#[test]
fn the_worst_inputs_are_as_bad_as_is_said() {
    for number in 0..worst::PERIODS.len() {
        let input = worst::of_number(number);
        // It repeats itself after fewer octets than these.
        let starts = (0..1000).filter(|&start| {
            let answer = Obvious.read(&input[start..start + 4096], &mut [], &mut []);
            answer.place > 8 * 3900
        });
        let dense = starts.count();
        assert!(dense >= IN_A_THOUSAND, "{dense} of input {number}");
    }
}

#[test]
fn the_worst_inputs_have_no_message() {
    for number in 0..worst::PERIODS.len() {
        let input = worst::of_number(number);
        let answer = safe(&input, &mut [OLD_OCTET; 4], &mut [OLD]);
        assert_eq!(answer, nothing(65_535).answer());
    }
    // The obvious one takes some time.
    for number in [0, 1] {
        let input = worst::of_number(number);
        each_call(|call| {
            let (mut out, mut report) = ([OLD_OCTET; 4], [OLD]);
            let answer = call(&input, &mut out, &mut report);
            assert_eq!(answer, nothing(65_535).answer());
        });
    }
    assert_ne!(worst::of_number(0), worst::of_number(worst::PERIODS.len()));
}
