//! The border to C: null for a buffer of nothing, octets that are no bool,
//! threads, and odd addresses. Nothing checks these at the border itself.

mod support;

use std::collections::{BTreeMap, BTreeSet};
use std::sync::Barrier;
use std::thread;

use ohakelm::raw;
use ohakelm_answers::Written;
use support::calls::{Answer, Case, Nulls, Room, BUFFERS};
use support::cases;
use support::octets;
use support::rng::{seed_set, Rng};
use support::tones;

fn rng(usual: u64) -> Rng {
    let seed = seed_set().unwrap_or(usual);
    println!("seed {seed}");
    Rng::new(seed)
}

// ---- Null

/// How often what was passed as null.
#[derive(Default)]
struct Tally {
    calls: usize,
    /// By the export and the buffer's position among its buffers.
    nulls: BTreeMap<(&'static str, usize), usize>,
    /// The exports that accepted with null.
    accepted: BTreeSet<&'static str>,
}

const ROUNDS: usize = 4000;

#[test]
fn null_is_as_good_as_any_address_of_nothing() {
    let mut rng = rng(1515);
    let mut tally = Tally::default();
    for _ in 0..ROUNDS {
        let cases = cases::of_each(&mut rng);
        cases
            .iter()
            .for_each(|case| put_every_null(case, &mut tally));
    }
    println!("{} calls with null", tally.calls);
    assert!(tally.calls >= 10_000, "{} calls", tally.calls);
    for (name, buffers) in BUFFERS {
        let often = |position: usize| tally.nulls.get(&(name, position)) >= Some(&100);
        assert!((0..buffers).all(often), "{name}: {:?}", tally.nulls);
        assert!(!tally.nulls.contains_key(&(name, buffers)), "{name}");
    }
    // An image has at least one octet, and so has what is written of it. A pack has four
    // octets at least, and may be written from nothing and gotten out of nothing.
    let can = [
        "delete",
        "insert",
        "label",
        "list",
        "pack_salvage",
        "pack_write",
        "read",
        "replace",
        "rows",
    ];
    let can: BTreeSet<&str> = can.into_iter().chain(["write"]).collect();
    assert_eq!(tally.accepted, can);
}

/// Puts a case once with addresses only, and then with null for every choice of
/// its empty buffers.
fn put_every_null(case: &Case, tally: &mut Tally) {
    let before = case.clone();
    let mut nulls = Nulls::chosen(0);
    let usual = outcome(case, &mut nulls);
    for chosen in 1..1 << nulls.empty {
        let mut nulls = Nulls::chosen(chosen);
        let (answer, room) = outcome(case, &mut nulls);
        let call = case.call;
        assert_eq!(answer, usual.0, "{call:?}, null {:?}", nulls.passed);
        assert!(room == usual.1, "{call:?}, null {:?}", nulls.passed);
        assert!(*case == before, "{call:?} changed an input");
        tally.count(call.name(), &nulls, &answer);
    }
}

fn outcome(case: &Case, nulls: &mut Nulls) -> (Answer, Room) {
    let mut room = case.room.clone();
    (case.put(&mut room, nulls), room)
}

impl Tally {
    fn count(&mut self, name: &'static str, nulls: &Nulls, answer: &Answer) {
        self.calls += 1;
        for &position in &nulls.passed {
            *self.nulls.entry((name, position)).or_default() += 1;
        }
        if answer.accepted() {
            self.accepted.insert(name);
        }
    }
}

// ---- Octets that are no bool

/// The same two exports for a caller whose bool may be any octet.
mod loose {
    use ohakelm_answers::Written;

    #[repr(C)]
    pub struct Stretch {
        pub stand_in: u8,
        pub start: usize,
        pub length: usize,
    }

    extern "C" {
        #[link_name = "ohakelm_write"]
        pub fn write(
            song: u32,
            unicode: u8,
            title: *const u8,
            title_len: usize,
            table: *const u32,
            table_len: usize,
            out: *mut u8,
            out_len: usize,
        ) -> Written;

        #[link_name = "ohakelm_label"]
        pub fn label(
            title: *const u8,
            title_len: usize,
            unicode: u8,
            stand_in: *const u8,
            stand_in_len: usize,
        ) -> Stretch;
    }
}

/// A part of one note.
const TABLE: [u32; 2] = [1, 65864];

/// What is left of a buffer where nothing is written.
const OLD: u8 = 0xA5;

#[test]
fn the_lowest_bit_of_an_octet_decides_how_a_title_is_written() {
    for octet in 0..=255 {
        let unicode = octet % 2 == 1;
        // Two octets are two characters, or one under UNICODE.
        let message = tones::written(1, unicode, b"AB", &TABLE);
        assert_eq!(write(octet, b"AB"), (0, message), "octet {octet}");
        // Three are three characters, and odd under UNICODE.
        let odd = match unicode {
            false => (0, tones::written(1, false, b"ABC", &TABLE)),
            true => (17, vec![]),
        };
        assert_eq!(write(octet, b"ABC"), odd, "octet {octet}");
    }
}

/// The refusal and what was written. All behind it is as it was.
fn write(unicode: u8, title: &[u8]) -> (u32, Vec<u8>) {
    let mut out = [OLD; 40];
    // SAFETY: the pointers and numbers are those of live slices that are apart.
    let written: Written = unsafe {
        loose::write(
            1,
            unicode,
            title.as_ptr(),
            title.len(),
            TABLE.as_ptr(),
            TABLE.len(),
            out.as_mut_ptr(),
            out.len(),
        )
    };
    let (front, rest) = out.split_at(written.octets);
    assert!(rest.iter().all(|&octet| octet == OLD), "unicode {unicode}");
    assert_eq!(written.place, 0);
    (written.refusal, front.to_vec())
}

#[test]
fn the_lowest_bit_of_an_octet_decides_on_a_label() {
    for octet in 0..=255 {
        // Octet 0 and a space, or one space of two octets.
        let two = label(octet, &[0, 32]);
        // Three characters, or odd octets.
        let three = label(octet, b"ABC");
        let expected = match octet % 2 {
            0 => [(0, 0, 1), (0, 0, 3)],
            _ => [(1, 0, 4), (1, 0, 4)],
        };
        assert_eq!([two, three], expected, "octet {octet}");
    }
}

/// Whether the stand-in supplies the label, as a number, and the stretch.
fn label(unicode: u8, title: &[u8]) -> (u8, usize, usize) {
    let stand_in = b"Tone";
    // SAFETY: the pointers and numbers are those of live slices.
    let label = unsafe {
        loose::label(
            title.as_ptr(),
            title.len(),
            unicode,
            stand_in.as_ptr(),
            stand_in.len(),
        )
    };
    (label.stand_in, label.start, label.length)
}

// ---- Threads

const THREADS: usize = 8;
const THREAD_ROUNDS: usize = 60;

/// Eight at once, on the same inputs and on rooms of their own.
#[test]
fn threads_do_not_disturb_each_other() {
    let mut rng = rng(808);
    let cases: Vec<Case> = (0..40).flat_map(|_| cases::of_each(&mut rng)).collect();
    let alone: Vec<(Answer, Room)> = cases
        .iter()
        .map(|case| outcome(case, &mut Nulls::default()))
        .collect();
    let before = cases.clone();
    let start = Barrier::new(THREADS);
    thread::scope(|scope| {
        for thread in 0..THREADS {
            let (cases, alone, start) = (&cases, &alone, &start);
            scope.spawn(move || {
                start.wait();
                (0..THREAD_ROUNDS).for_each(|round| put_all(cases, alone, thread + round));
            });
        }
    });
    assert!(cases == before, "an input has changed");
}

/// Puts all cases, from another one on in each thread and round.
fn put_all(cases: &[Case], alone: &[(Answer, Room)], begin: usize) {
    for position in 0..cases.len() {
        let at = (begin * 97 + position) % cases.len();
        let (answer, room) = outcome(&cases[at], &mut Nulls::default());
        let call = cases[at].call;
        assert_eq!(answer, alone[at].0, "{call:?}");
        assert!(room == alone[at].1, "{call:?}");
    }
}

// ---- Addresses

/// Octets at an address with a certain rest by sixteen.
struct Placed {
    cells: Vec<u8>,
    start: usize,
    length: usize,
}

impl Placed {
    fn new(rest: usize, octets: &[u8]) -> Placed {
        let mut cells = vec![OLD; octets.len() + 32];
        let start = (rest + 16 - cells.as_ptr() as usize % 16) % 16;
        cells[start..start + octets.len()].copy_from_slice(octets);
        let length = octets.len();
        let placed = Placed {
            cells,
            start,
            length,
        };
        assert_eq!(placed.at() as usize % 16, rest);
        placed
    }

    fn at(&self) -> *const u8 {
        self.octets().as_ptr()
    }

    fn octets(&self) -> &[u8] {
        &self.cells[self.start..self.start + self.length]
    }

    fn lend(&mut self) -> *mut u8 {
        self.cells[self.start..].as_mut_ptr()
    }
}

/// Inserting P2's scale into P1, at every address, the odd ones too.
#[test]
fn octets_may_lie_at_any_address() {
    let p1 = octets("02 4A 3A 80 40 00 51 C6 90 00 A5");
    let p2 = octets("02 4A 3A 80 40 00 71 C8 34 80 00");
    for rest in 0..16 {
        let mut buffer = Placed::new(rest, &p1);
        let mut list = [0; 3];
        // SAFETY: the pointers and numbers are those of live buffers that are apart.
        let edited = unsafe {
            raw::ohakelm_insert(buffer.lend(), 11, 10, 0, 1, 131_072, list.as_mut_ptr(), 3)
        };
        assert_eq!((edited.refusal, edited.length), (0, 11), "rest {rest}");
        assert_eq!(buffer.octets(), p2, "rest {rest}");
        assert_eq!(list, [10 * 1024 + 7, 480_000, 2], "rest {rest}");
        assert!(buffer.cells[..buffer.start].iter().all(|&cell| cell == OLD));
    }
}

/// A pack is read at every address, and written from and to every address.
#[test]
fn packs_may_lie_at_any_address() {
    let two = octets("024A3A80400051C69000 024A3A804000269000 0000000A 000A0009 0002 0013");
    for rest in 0..16 {
        let pack = Placed::new(rest, &two);
        let mut out = Placed::new(15 - rest, &[OLD; 31]);
        let lengths = [10, 9];
        // SAFETY: the pointers and numbers are those of live buffers that are apart.
        let (read, stretch, written) = unsafe {
            let read = raw::ohakelm_pack_read(pack.at(), 31);
            let stretch = raw::ohakelm_pack_message(pack.at(), 31, 1);
            let written =
                raw::ohakelm_pack_write(pack.at(), 19, lengths.as_ptr(), 2, out.lend(), 31);
            (read, stretch, written)
        };
        assert_eq!((read.refusal, read.messages), (0, 2), "rest {rest}");
        assert_eq!((stretch.start, stretch.length), (10, 9), "rest {rest}");
        assert_eq!((written.refusal, written.octets), (0, 31), "rest {rest}");
        assert_eq!(out.octets(), two, "rest {rest}");
    }
}

/// A logo is read at every address, and written from and to every address.
#[test]
fn logos_may_lie_at_any_address() {
    let message = b"02440519991231T235958Z\n\0\x08\x02\x01\xFF\x01";
    for rest in 0..16 {
        let logo = Placed::new(rest, message);
        let mut out = Placed::new(15 - rest, &[OLD; 29]);
        let at = |start: usize| logo.octets()[start..].as_ptr();
        // SAFETY: the stretches lie within the message, and the output is apart.
        let (read, written) = unsafe {
            let read = raw::ohakelm_logo_read(logo.at(), 29);
            let written = raw::ohakelm_logo_write(
                at(1),
                3,
                at(4),
                2,
                at(6),
                16,
                8,
                2,
                at(27),
                2,
                out.lend(),
                29,
            );
            (read, written)
        };
        assert_eq!((read.refusal, read.black, read.start), (0, 9, 27));
        assert_eq!((written.refusal, written.octets), (0, 29), "rest {rest}");
        assert_eq!(out.octets(), message, "rest {rest}");
    }
}
