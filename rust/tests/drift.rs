//! Durations that do not drift: counted from the last restart, entry boundaries are
//! the exact sums rounded down. Numbers were worked out by hand or by exact sums,
//! and each case is put to each codec.

mod support;

use ohakelm::entry::{header, note, scale, style, tempo, volume};
use ohakelm_answers::{ENTRY_CELLS, NO_MARK};
use support::codecs::{each, Codec, Edit, Spot};
use support::heard::{heard, list_of, restarts, EVENTS};
use support::lists::listed;
use support::origins::Patterns;
use support::rng::Rng;
use support::tones::{self, Bounds};

/// The loop value of an endless part.
const FOR_EVER: u32 = 15;

/// The ids of the parts.
const A: u32 = 0;
const B: u32 = 1;
const C: u32 = 2;
const D: u32 = 3;

/// The codes of 90 and of 900 beats. At the start there are 63.
const BEATS_90: u32 = tempo(11);
const BEATS_900: u32 = tempo(31);
const BEATS_63: u32 = tempo(8);

/// A 1/32 note of two thirds, and such a pause: 8 units.
const SHORT: u32 = note(1, 5, 3);
const PAUSE: u32 = note(0, 5, 3);

/// At 90 beats 8 units are 55,555 5/9 microseconds. The first boundaries are
/// 55,555, 111,111, 166,666, 222,222 and 277,777.
const ODD: u32 = 55_555;
const EVEN: u32 = 55_556;

/// At 63 beats 8 units are 79,365 5/63 microseconds.
const AT_63: u32 = 79_365;

/// Units by duration code and specifier, plain, dotted, double dotted, two thirds.
const UNITS: [u128; 24] = [
    384, 576, 672, 256, 192, 288, 336, 128, 96, 144, 168, 64, 48, 72, 84, 32, 24, 36, 42, 16, 12,
    18, 21, 8,
];

/// A note by its row in `UNITS`.
fn of_length(row: usize) -> u32 {
    note(1, row as u32 / 4, row as u32 % 4)
}

fn temporary(table: &[u32]) -> Vec<u8> {
    tones::written(2, false, &[], table)
}

/// A part with its own body.
fn part(id: u32, loops: u32, body: &[u32]) -> Vec<u32> {
    [&[header(id, loops, body.len() as u32)][..], body].concat()
}

/// A part that sets 90 beats and has no entry.
fn at_90_beats() -> Vec<u32> {
    part(D, 0, &[BEATS_90])
}

fn durations(list: &[u32]) -> Vec<u32> {
    list.chunks(ENTRY_CELLS).map(|entry| entry[1]).collect()
}

/// The durations and the mark of a table.
fn assert_lasts(codec: &dyn Codec, table: &[u32], expected: &[u32], mark: u32) {
    let (list, found) = listed(codec, &temporary(table));
    assert_eq!((durations(&list), found), (expected.to_vec(), mark));
}

// ---- Sums.

/// 8 units at 900 beats are 5,555 5/9 microseconds, so nine of them are 50,000.
#[test]
fn nine_short_notes_at_900_beats_come_out_even() {
    let nine = [5555, 5556, 5555, 5556, 5555, 5556, 5555, 5556, 5556];
    assert_eq!(nine.iter().sum::<u32>(), 50_000);
    each(|codec| {
        let table = part(A, 0, &[&[BEATS_900][..], &[SHORT; 4]].concat());
        assert_lasts(codec, &table, &[5555, 5556, 5555, 5556], NO_MARK);
        let table = part(A, 0, &[&[BEATS_900][..], &[SHORT; 27]].concat());
        assert_lasts(codec, &table, &nine.repeat(3), NO_MARK);
    });
}

/// 240 notes, ten of each length in turn, sound 150 times at 63 beats. A boundary
/// is told from all units up to it, and from no boundary before.
#[test]
fn a_long_tone_does_not_drift() {
    let body: Vec<u32> = (0..240).map(|k| of_length(k % 24)).collect();
    let recalls = [header(A, 14, 0); 9];
    let message = temporary(&[&part(A, 14, &body)[..], &recalls].concat());
    let sheet: u128 = UNITS.iter().sum();
    each(|codec| {
        let list = listed(codec, &message).0;
        assert_eq!(list.len(), ENTRY_CELLS * 36_000);
        let mut boundary = 0;
        for (position, duration) in durations(&list).into_iter().enumerate() {
            boundary += duration as u128;
            let rows: u128 = UNITS[..=position % 24].iter().sum();
            let units = (position / 24) as u128 * sheet + rows;
            assert_eq!(boundary, units * 625_000 / 63, "entry {position}");
        }
    });
}

/// The row in `UNITS` of each note of a long body. All but one are the longest.
fn row_in_body(position: usize) -> usize {
    match position {
        254 => 22,
        _ => 2,
    }
}

/// 971,550 entries are nearly as many as a list can have, and so long a time needs
/// the finest sums. At each tempo.
#[test]
fn the_longest_lists_do_not_drift() {
    let body: Vec<u32> = (0..255).map(|k| of_length(row_in_body(k))).collect();
    let sounding = [&part(A, 14, &body)[..], &[header(A, 14, 0); 253]].concat();
    each(|codec| {
        let mut list = vec![0; ENTRY_CELLS * 971_550];
        for (code, &beats) in BEATS.iter().enumerate() {
            let table = [&part(D, 0, &[tempo(code as u32)])[..], &sounding].concat();
            assert_eq!(codec.list(&temporary(&table), &mut list).entries, 971_550);
            assert_exact(&durations(&list), beats);
        }
    });
}

fn assert_exact(durations: &[u32], beats: u32) {
    let (mut boundary, mut units) = (0, 0);
    for (position, &duration) in durations.iter().enumerate() {
        boundary += duration as u64;
        units += UNITS[row_in_body(position % 255)] as u64;
        let exact = units * 625_000 / beats as u64;
        assert_eq!(boundary, exact, "entry {position} at {beats} beats");
    }
}

/// By the rule before, each of these quarters lost 20/21 of a microsecond, and an
/// hour of them ran ahead by 3.6 milliseconds.
#[test]
fn quarters_keep_the_time_for_an_hour() {
    // 63 beats a minute are 3,780 an hour: 252 of them, 15 times.
    let message = temporary(&part(A, 14, &[note(1, 2, 0); 252]));
    each(|codec| {
        let durations = durations(&listed(codec, &message).0);
        let hour: u64 = durations.iter().map(|&it| it as u64).sum();
        assert_eq!((durations.len(), hour), (3780, 3_600_000_000));
    });
}

/// The pause takes what the first note left over, and leaves something itself.
#[test]
fn a_pause_between_two_notes_counts() {
    each(|codec| {
        let table = part(A, 0, &[BEATS_90, SHORT, PAUSE, SHORT]);
        assert_lasts(codec, &table, &[ODD, EVEN, ODD], NO_MARK);
        // A quarter's pause is 666,666 2/3, and ends at 722,222 2/9.
        let table = part(A, 0, &[BEATS_90, SHORT, note(0, 2, 0), SHORT]);
        assert_lasts(codec, &table, &[ODD, 666_667, ODD], NO_MARK);
    });
}

/// The longest note behind each length, twice. It lasts its own 420,000,000 / beats
/// microseconds rounded down, or one more. Answers how long it lasts at most.
fn longest_at(codec: &dyn Codec, code: u32) -> u32 {
    let exact = 420_000_000 / BEATS[code as usize];
    let mut longest = 0;
    for row in 0..24 {
        let body = [tempo(code), of_length(row), of_length(2), of_length(2)];
        let message = temporary(&part(A, 0, &body));
        let durations = durations(&listed(codec, &message).0);
        let [_, one, two] = durations[..] else {
            panic!("{durations:?}");
        };
        let near = exact..=exact + 1;
        assert!(near.contains(&one) && near.contains(&two), "{durations:?}");
        longest = longest.max(one).max(two);
    }
    longest
}

/// At 25 beats a unit is 25,000 microseconds, so nothing is ever left over.
#[test]
fn no_duration_exceeds_16_800_000() {
    each(|codec| {
        assert_eq!(longest_at(codec, 0), 16_800_000);
        assert!((1..32).all(|code| longest_at(codec, code) < 16_800_000));
    });
}

/// Beats a minute of the tempo codes.
const BEATS: [u32; 32] = [
    25, 28, 31, 35, 40, 45, 50, 56, 63, 70, 80, 90, 100, 112, 125, 140, 160, 180, 200, 225, 250,
    285, 320, 355, 400, 450, 500, 565, 635, 715, 800, 900,
];

// ---- Where the sums restart.

#[test]
fn a_tempo_restarts() {
    each(|codec| {
        let body = [BEATS_90, SHORT, BEATS_900, SHORT, SHORT, BEATS_90, SHORT];
        assert_lasts(codec, &part(A, 0, &body), &[ODD, 5555, 5556, ODD], NO_MARK);
        let body = [SHORT, BEATS_90, SHORT, SHORT, BEATS_63, SHORT];
        assert_lasts(
            codec,
            &part(A, 0, &body),
            &[AT_63, ODD, EVEN, AT_63],
            NO_MARK,
        );
        // In a recall it restarts at each pass.
        let recalled = [part(A, 0, &[SHORT, BEATS_90, SHORT]), vec![header(A, 1, 0)]];
        let lasts = [AT_63, ODD, EVEN, ODD, EVEN, ODD];
        assert_lasts(codec, &recalled.concat(), &lasts, NO_MARK);
    });
}

#[test]
fn a_tempo_that_is_set_already_restarts() {
    each(|codec| {
        let body = [BEATS_90, SHORT, BEATS_90, SHORT, SHORT, BEATS_90, SHORT];
        assert_lasts(codec, &part(A, 0, &body), &[ODD, ODD, EVEN, ODD], NO_MARK);
        // The tempo of the start, 952,380 20/21 microseconds a quarter.
        let quarter = note(1, 2, 0);
        let body = [quarter, quarter, BEATS_63, quarter, quarter];
        let lasts = [952_380, 952_381, 952_380, 952_381];
        assert_lasts(codec, &part(A, 0, &body), &lasts, NO_MARK);
        // In a part of its own.
        let parts = [
            part(A, 0, &[BEATS_90, SHORT]),
            at_90_beats(),
            vec![header(A, 0, 0)],
        ];
        assert_lasts(codec, &parts.concat(), &[ODD, ODD], NO_MARK);
    });
}

/// The part ahead leaves a fraction, which the first pass does not take.
#[test]
fn an_endless_part_restarts_at_its_first_pass() {
    each(|codec| {
        let ahead = [at_90_beats(), part(A, 0, &[SHORT])].concat();
        let endless = part(B, FOR_EVER, &[SHORT, SHORT]);
        let table = [&ahead[..], &endless].concat();
        assert_lasts(codec, &table, &[ODD, ODD, EVEN, ODD, EVEN], 3);
        let table = [&ahead[..], &[header(A, FOR_EVER, 0)]].concat();
        assert_lasts(codec, &table, &[ODD, ODD, ODD], 2);
    });
}

#[test]
fn an_endless_part_restarts_at_its_second_pass() {
    each(|codec| {
        let table = [at_90_beats(), part(A, FOR_EVER, &[SHORT])].concat();
        assert_lasts(codec, &table, &[ODD, ODD], 1);
        let table = [at_90_beats(), part(A, FOR_EVER, &[SHORT, PAUSE, SHORT])].concat();
        assert_lasts(codec, &table, &[ODD, EVEN, ODD, ODD, EVEN, ODD], 3);
        // The second pass begins with the tempo that the first one set.
        let table = part(A, FOR_EVER, &[SHORT, BEATS_90, SHORT]);
        assert_lasts(codec, &table, &[AT_63, ODD, ODD, ODD], 2);
        // Twice is not for ever.
        let table = [at_90_beats(), part(A, 1, &[SHORT])].concat();
        assert_lasts(codec, &table, &[ODD, EVEN], NO_MARK);
    });
}

// ---- Where they do not.

#[test]
fn scale_style_and_volume_carry_the_fraction_on() {
    each(|codec| {
        let scales = [scale(0), scale(1), scale(2), scale(3)];
        let styles = [style(0), style(1), style(2)];
        let volumes = [volume(0), volume(7), volume(15)];
        for setting in [&scales[..], &styles, &volumes].concat() {
            let body = [BEATS_90, setting, SHORT, setting, SHORT, setting, SHORT];
            assert_lasts(codec, &part(A, 0, &body), &[ODD, EVEN, ODD], NO_MARK);
        }
    });
}

#[test]
fn patterns_and_recalls_carry_the_fraction_on() {
    each(|codec| {
        let table = [
            at_90_beats(),
            part(A, 0, &[SHORT]),
            part(B, 0, &[SHORT]),
            vec![header(A, 0, 0)],
            part(C, 0, &[volume(3)]),
            // Another body of the same id, and a recall of it.
            part(A, 0, &[PAUSE]),
            vec![header(A, 0, 0), header(C, 14, 0), header(B, 0, 0)],
        ];
        let lasts = [ODD, EVEN, ODD, EVEN, ODD, EVEN];
        assert_lasts(codec, &table.concat(), &lasts, NO_MARK);
    });
}

/// 15 passes, as a definition and as a recall. Nine of them are 500,000.
#[test]
fn passes_carry_the_fraction_on() {
    let nine = [ODD, EVEN, ODD, EVEN, ODD, EVEN, ODD, EVEN, EVEN];
    let fifteen = [&nine[..], &nine[..6]].concat();
    // The sixteenth is the seventh of its nine.
    let sixteen = [&nine[..], &nine[..7]].concat();
    each(|codec| {
        let table = [at_90_beats(), part(A, 14, &[SHORT])].concat();
        assert_lasts(codec, &table, &fifteen, NO_MARK);
        let table = [at_90_beats(), part(A, 0, &[SHORT]), vec![header(A, 14, 0)]].concat();
        assert_lasts(codec, &table, &sixteen, NO_MARK);
        let table = [at_90_beats(), part(A, 2, &[SHORT, SHORT])].concat();
        assert_lasts(codec, &table, &[ODD, EVEN, ODD, EVEN, ODD, EVEN], NO_MARK);
    });
}

// ---- Edits.

/// A table with one instruction put, replaced or taken.
fn changed(table: &[u32], (pattern, instruction): (usize, usize), edit: Edit) -> Vec<u32> {
    let mut table = table.to_vec();
    let at = Patterns::of(&table).place(pattern);
    let spot = at + 1 + instruction;
    match edit {
        Edit::Replace(entry) => table[spot] = entry,
        Edit::Insert(entry) => {
            table.insert(spot, entry);
            table[at] += 1;
        }
        Edit::Delete => {
            table.remove(spot);
            table[at] -= 1;
        }
    }
    table
}

/// Edits a table's message. Answers the list that the edit fills.
fn edited(codec: &dyn Codec, table: &[u32], at: (usize, usize), edit: Edit) -> Vec<u32> {
    let mut buffer = temporary(table);
    let spot = Spot {
        used: buffer.len(),
        pattern: at.0,
        instruction: at.1,
    };
    buffer.extend([0; 2]);
    let mut list = vec![0; ENTRY_CELLS * 10_000];
    let answer = codec.edit(&mut buffer, spot, edit, &mut list);
    assert_eq!(answer.refusal, 0, "{edit:?} at {spot:?} of {table:?}");
    let after = temporary(&changed(table, at, edit));
    assert_eq!(buffer[..answer.length], after);
    list.truncate(ENTRY_CELLS * answer.entries);
    list
}

#[test]
fn an_edit_of_a_tempo_lists_the_changed_tone() {
    let table = part(A, 0, &[BEATS_90, SHORT, SHORT, SHORT]);
    each(|codec| {
        let lasts = |at, edit, expected: [u32; 3]| {
            let list = edited(codec, &table, (0, at), edit);
            assert_eq!(durations(&list), expected, "{edit:?} at {at}");
        };
        lasts(0, Edit::Replace(BEATS_90), [ODD, EVEN, ODD]);
        lasts(0, Edit::Replace(BEATS_900), [5555, 5556, 5555]);
        // Three are 238,095 5/21.
        lasts(0, Edit::Delete, [AT_63, AT_63, AT_63]);
        lasts(1, Edit::Insert(BEATS_90), [ODD, EVEN, ODD]);
        lasts(2, Edit::Insert(BEATS_90), [ODD, ODD, EVEN]);
        lasts(3, Edit::Insert(BEATS_90), [ODD, EVEN, ODD]);
        lasts(3, Edit::Insert(BEATS_900), [ODD, EVEN, 5555]);
        lasts(4, Edit::Insert(BEATS_900), [ODD, EVEN, ODD]);
        lasts(2, Edit::Insert(scale(2)), [ODD, EVEN, ODD]);
    });
}

#[test]
fn an_edit_of_a_note_lists_the_changed_tone() {
    let table = part(A, 0, &[BEATS_90, SHORT, SHORT, SHORT]);
    each(|codec| {
        let lasts = |at, edit, expected: &[u32]| {
            let list = edited(codec, &table, (0, at), edit);
            assert_eq!(durations(&list), expected, "{edit:?} at {at}");
        };
        lasts(1, Edit::Delete, &[ODD, EVEN]);
        // 96 units: boundaries 666,666, 722,222, 777,777 and 833,333.
        let quarter = Edit::Insert(note(0, 2, 0));
        lasts(1, quarter, &[666_666, EVEN, ODD, EVEN]);
        // 12 units: boundaries 83,333, 138,888 and 194,444.
        let longer = note(1, 5, 0);
        lasts(1, Edit::Replace(longer), &[83_333, ODD, EVEN]);
        // Boundaries 55,555, 138,888 and 194,444.
        lasts(2, Edit::Replace(longer), &[ODD, 83_333, EVEN]);
        lasts(1, Edit::Replace(volume(2)), &[ODD, EVEN]);
        lasts(2, Edit::Replace(BEATS_90), &[ODD, ODD]);
    });
}

/// The body named sounds twice, then it is recalled, and at last for ever.
#[test]
fn an_edit_of_a_recalled_body_lists_the_changed_tone() {
    let recalls = vec![header(A, 0, 0), header(A, FOR_EVER, 0)];
    let table = [at_90_beats(), part(A, 1, &[SHORT, scale(0)]), recalls].concat();
    each(|codec| {
        let lasts = |at, edit, expected: &[u32]| {
            let list = edited(codec, &table, (1, at), edit);
            assert_eq!(durations(&list), expected, "{edit:?} at {at}");
        };
        lasts(1, Edit::Delete, &[ODD, EVEN, ODD, ODD, ODD]);
        lasts(1, Edit::Replace(BEATS_90), &[ODD; 5]);
        let lasting = [ODD, EVEN, ODD, EVEN, ODD, EVEN, ODD, EVEN, ODD, EVEN];
        lasts(2, Edit::Insert(SHORT), &lasting);
    });
}

// ---- Random tones.

/// Small and middling ones, whose list fits the room here.
fn random_table(rng: &mut Rng) -> Vec<u32> {
    let bounds = match rng.one_in(10) {
        true => Bounds {
            repeats: 2,
            ..Bounds::medium(rng)
        },
        false => Bounds::small(rng),
    };
    tones::tone(rng, bounds).table
}

/// A boundary of u units since the restart is b microseconds where b * beats <= u *
/// 625,000 < (b + 1) * beats: never late, and early by less than a microsecond.
fn assert_boundaries(durations: &[u32], table: &[u32]) {
    let sounds = heard(table);
    assert_eq!(durations.len(), sounds.len());
    let (mut boundary, mut units) = (0, 0);
    for (&duration, sound) in durations.iter().zip(sounds) {
        if sound.anew {
            (boundary, units) = (0, 0);
        }
        boundary += duration as u128;
        units += sound.units;
        let exact = units * 625_000;
        assert!(boundary * sound.beats <= exact, "late: {table:?}");
        assert!(exact < (boundary + 1) * sound.beats, "early: {table:?}");
    }
}

#[test]
fn each_boundary_is_never_late_and_less_than_a_microsecond_early() {
    each(|codec| {
        let mut rng = Rng::new(7_001);
        for _ in 0..2000 {
            let table = random_table(&mut rng);
            let list = listed(codec, &temporary(&table)).0;
            assert_boundaries(&durations(&list), &table);
        }
    });
}

/// The list in both forms, settings and all.
#[test]
fn random_tones_are_listed_as_exact_sums_have_it() {
    each(|codec| {
        let mut rng = Rng::new(7_002);
        for _ in 0..2000 {
            let table = random_table(&mut rng);
            let list = listed(codec, &temporary(&table)).0;
            assert_eq!(list, list_of(&table, restarts), "{table:?}");
        }
    });
}

/// An edit that is accepted at some pattern with a body of its own.
fn random_edit(rng: &mut Rng, table: &[u32]) -> ((usize, usize), Edit) {
    let counts = tones::counts(table);
    let mut pattern = rng.below(counts.len());
    while counts[pattern] == 0 {
        pattern = rng.below(counts.len());
    }
    let count = counts[pattern];
    let entry = match rng.below(3) {
        0 => tempo(rng.below(32) as u32),
        1 => note(
            rng.below(13) as u32,
            rng.below(6) as u32,
            rng.below(4) as u32,
        ),
        _ => tones::instruction(rng),
    };
    match rng.below(3) {
        0 if count < 255 => ((pattern, rng.within(0, count)), Edit::Insert(entry)),
        1 if count > 1 => ((pattern, rng.below(count)), Edit::Delete),
        _ => ((pattern, rng.below(count)), Edit::Replace(entry)),
    }
}

#[test]
fn random_edits_list_the_changed_tone() {
    each(|codec| {
        let mut rng = Rng::new(7_003);
        for _ in 0..2000 {
            let bounds = Bounds::small(&mut rng);
            let table = tones::tone(&mut rng, bounds).table;
            let (at, edit) = random_edit(&mut rng, &table);
            let expected = list_of(&changed(&table, at, edit), restarts);
            let list = edited(codec, &table, at, edit);
            assert_eq!(list, expected, "{edit:?} at {at:?} of {table:?}");
        }
    });
}

/// The random tones above would find a wrong rule: of 2,000 of them 40 or more sound
/// otherwise if the sums restart, or do not, at any one of the events.
#[test]
fn random_tones_tell_each_wrong_restart() {
    let mut rng = Rng::new(7_002);
    let tables: Vec<Vec<u32>> = (0..2000).map(|_| random_table(&mut rng)).collect();
    for event in EVENTS {
        let wrong = |it| restarts(it) != (it == event);
        let told = tables
            .iter()
            .filter(|table| list_of(table, restarts) != list_of(table, wrong));
        let told = told.count();
        println!("{event:?}: {told}");
        assert!(told >= 40, "{event:?}: {told}");
    }
}
