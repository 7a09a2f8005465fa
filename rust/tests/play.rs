//! The program `play`, driven through a pipe. What it prints is compared with
//! text made from the obvious implementation.
//!
//! `../examples/play` starts it. `OHAKELM_PLAY` names another program.

mod support;

use std::env;
use std::fs::File;
use std::io::Write;
use std::path::{Path, PathBuf};
use std::process::{Child, Command, Output, Stdio};
use std::thread::sleep;
use std::time::{Duration, Instant};

use ohakelm_answers::{ENTRY_CELLS, NO_MARK};
use support::inputs;
use support::octets;
use support::rng::{seed_set, Rng};
use support::tones::{self, Bounds, LARGEST_TONE};

/// Entries that the program has room for.
const ROOM: usize = 4096;

fn program() -> PathBuf {
    match env::var_os("OHAKELM_PLAY") {
        Some(path) => PathBuf::from(path),
        None => Path::new(env!("CARGO_MANIFEST_DIR")).join("../examples/play"),
    }
}

/// Starts a command. A program that is not there is a failure.
fn start(command: &mut Command, input: Stdio) -> Child {
    let started = command
        .stdin(input)
        .stdout(Stdio::piped())
        .stderr(Stdio::piped())
        .spawn();
    match started {
        Ok(child) => child,
        Err(error) => panic!("{command:?} does not start: {error}"),
    }
}

/// Runs the program on a message that arrives in pieces of a certain size.
fn play(message: &[u8], piece: usize, pause: Duration) -> Output {
    given(&mut Command::new(program()), message, piece, pause)
}

fn given(command: &mut Command, message: &[u8], piece: usize, pause: Duration) -> Output {
    let mut child = start(command, Stdio::piped());
    if let Some(mut input) = child.stdin.take() {
        for part in message.chunks(piece.max(1)) {
            // A program that has read enough may close its end.
            if input.write_all(part).is_err() {
                break;
            }
            sleep(pause);
        }
    }
    match child.wait_with_output() {
        Ok(output) => output,
        Err(error) => panic!("no output: {error}"),
    }
}

/// The text that a message should give.
fn expected(message: &[u8]) -> String {
    let mut list = vec![0; ENTRY_CELLS * ROOM];
    let answer = ohakelm_reference::list(message, &mut list);
    if answer.refusal != 0 {
        return format!("refused {} at {}\n", answer.refusal, answer.place);
    }
    let mark = match answer.mark {
        NO_MARK => "none".to_string(),
        mark => mark.to_string(),
    };
    let mut text = format!("entries {} return {mark}\n", answer.entries);
    let entries = list.chunks(ENTRY_CELLS).take(answer.entries);
    text.extend(entries.map(|entry| line(entry[0], entry[1], entry[2])));
    text
}

fn line(first: u32, microseconds: u32, origin: u32) -> String {
    let (note, scale) = (first / 1024, first / 256 % 4);
    let (style, volume) = (first / 16 % 16, first % 16);
    let (header, position) = (origin / 256, origin % 256);
    format!("{note} {scale} {style} {volume} {microseconds} {header} {position}\n")
}

fn assert_plays(message: &[u8], piece: usize, pause: Duration) {
    let output = play(message, piece, pause);
    let printed = String::from_utf8_lossy(&output.stdout);
    let message_text = support::hex(message);
    assert_eq!(printed, expected(message), "message {message_text}");
}

fn assert_plays_at_once(message: &[u8]) {
    assert_plays(message, usize::MAX, Duration::ZERO);
}

#[test]
fn the_sample_prints_as_the_rules_say() {
    let message = octets("02 4A 3A 80 40 00 51 C6 90 00");
    let output = play(&message, usize::MAX, Duration::ZERO);
    let printed = String::from_utf8_lossy(&output.stdout);
    assert_eq!(printed, "entries 1 return none\n10 1 0 7 480000 0 1\n");
    let output = play(&message[..9], usize::MAX, Duration::ZERO);
    let printed = String::from_utf8_lossy(&output.stdout);
    assert_eq!(printed, "refused 2 at 72\n");
}

/// A basic song whose title is A and a tab, and the same with a space.
#[test]
fn a_title_with_a_tab_prints_its_refusal() {
    let message = octets("02 4A 3A 49 04 24 04 00 02 45 00 00");
    let output = play(&message, usize::MAX, Duration::ZERO);
    let printed = String::from_utf8_lossy(&output.stdout);
    assert_eq!(printed, "refused 21 at 38\n");
    let message = octets("02 4A 3A 49 04 80 04 00 02 45 00 00");
    let output = play(&message, usize::MAX, Duration::ZERO);
    let printed = String::from_utf8_lossy(&output.stdout);
    assert_eq!(printed, "entries 1 return none\n1 1 0 7 952380 0 0\n");
}

/// A part for ever: the note C, a quarter, and then volume 2. The first round has
/// volume 7, and the second has what all later ones have.
#[test]
fn a_chime_prints_two_rounds_and_returns_to_the_second() {
    let message = octets("02 4A 3A 80 41 E0 44 51 48 00");
    let output = play(&message, usize::MAX, Duration::ZERO);
    let printed = String::from_utf8_lossy(&output.stdout);
    let rounds = "entries 2 return 1\n1 1 0 7 952380 0 0\n1 1 0 2 952380 0 0\n";
    assert_eq!(printed, rounds);
    // The same with scale 0 for the note: two rounds of nothing.
    let message = octets("02 4A 3A 80 41 E0 48 A4 00");
    let output = play(&message, usize::MAX, Duration::ZERO);
    let printed = String::from_utf8_lossy(&output.stdout);
    assert_eq!(printed, "entries 0 return none\n");
}

/// At 900 beats a 1/32 note of two thirds is 5,555 5/9 microseconds. At 90 beats it
/// is 55,555 5/9, and for ever each round begins anew.
#[test]
fn durations_print_as_differences_of_exact_sums() {
    let (short, tempo) = (65536 + 32 + 5 * 4 + 3, 4 * 65536);
    let message = tones::written(2, false, &[], &[4, tempo + 31, short, short, short]);
    let output = play(&message, usize::MAX, Duration::ZERO);
    let printed = String::from_utf8_lossy(&output.stdout);
    // They are behind the tempo.
    let three = "1 1 0 7 5555 0 1\n1 1 0 7 5556 0 2\n1 1 0 7 5555 0 3\n";
    assert_eq!(printed, format!("entries 3 return none\n{three}"));
    let table = [1, tempo + 11, 4096 + 15 * 256 + 1, short];
    let message = tones::written(2, false, &[], &table);
    let output = play(&message, usize::MAX, Duration::ZERO);
    let printed = String::from_utf8_lossy(&output.stdout);
    let rounds = "1 1 0 7 55555 1 0\n1 1 0 7 55555 1 0\n";
    assert_eq!(printed, format!("entries 2 return 1\n{rounds}"));
}

/// A scale and the note C, the note D, and a recall of the first part: the last
/// two numbers of a line are the header that sounds and the position in its body.
#[test]
fn origins_print_at_the_end_of_a_line() {
    let (c, d, scale) = (65536 + 32 + 8, 65536 + 3 * 32 + 8, 2 * 65536 + 2);
    let message = tones::written(2, false, &[], &[2, scale, c, 4096 + 1, d, 0]);
    let output = play(&message, usize::MAX, Duration::ZERO);
    let printed = String::from_utf8_lossy(&output.stdout);
    let three = "1 2 0 7 952380 0 1\n3 2 0 7 952381 1 0\n1 2 0 7 952381 2 1\n";
    assert_eq!(printed, format!("entries 3 return none\n{three}"));
}

#[test]
fn a_few_hundred_messages_play() {
    let seed = seed_set().unwrap_or(5505);
    println!("seed {seed}");
    let mut rng = Rng::new(seed);
    for _ in 0..250 {
        let message = inputs::message(&mut rng);
        let piece = rng.pick(&[usize::MAX, 1000, 100, 7]);
        assert_plays(&message, piece, Duration::ZERO);
    }
}

#[test]
fn input_may_come_in_pieces() {
    let mut rng = Rng::new(3);
    let pause = Duration::from_millis(3);
    for _ in 0..12 {
        let bounds = Bounds::small(&mut rng);
        let message = tones::tone(&mut rng, bounds).message;
        let piece = rng.within(1, 9);
        assert_plays(&message, piece, pause);
    }
    let bounds = Bounds::large(&mut rng);
    let message = tones::tone(&mut rng, bounds).message;
    assert_plays(&message, 500, pause);
}

#[test]
fn nothing_and_too_much() {
    assert_plays_at_once(&[]);
    for length in [
        LARGEST_TONE - 1,
        LARGEST_TONE,
        LARGEST_TONE + 1,
        3 * LARGEST_TONE,
    ] {
        assert_plays_at_once(&vec![2; length]);
    }
    let bounds = Bounds {
        octets: LARGEST_TONE,
        patterns: 255,
        body: 255,
        repeats: 0,
        endless: 1000,
    };
    let mut message = tones::tone(&mut Rng::new(8), bounds).message;
    message.resize(LARGEST_TONE + 1, 0);
    assert_plays_at_once(&message);
}

/// A full part, recalls of it, and a part of the notes that are left.
fn tone_of_entries(entries: usize) -> Vec<u8> {
    let note = 65536 + 32;
    let mut table = vec![255];
    table.extend([note; 255]);
    let mut left = entries - 255;
    for passes in [15, 1] {
        while left >= 255 * passes {
            table.push((passes as u32 - 1) * 256);
            left -= 255 * passes;
        }
    }
    table.push(4096 + left as u32);
    table.extend(vec![note; left]);
    tones::written(2, false, &[], &table)
}

#[test]
fn there_is_room_for_4096_entries() {
    assert!(expected(&tone_of_entries(ROOM)).starts_with("entries 4096 return none\n"));
    assert_plays_at_once(&tone_of_entries(ROOM));
    assert_eq!(expected(&tone_of_entries(ROOM + 1)), "refused 11 at 0\n");
    assert_plays_at_once(&tone_of_entries(ROOM + 1));
}

/// A full part sounding 14 times, one of a few notes, and the first for ever:
/// 3,570 entries, the few, and twice 255.
fn endless_tone(few: usize) -> Vec<u8> {
    let note = 65536 + 32;
    let mut table = vec![13 * 256 + 255];
    table.extend([note; 255]);
    table.push(4096 + few as u32);
    table.extend(vec![note; few]);
    table.push(15 * 256);
    tones::written(2, false, &[], &table)
}

/// With 17 notes one pass would still fit, and both are one entry too many.
#[test]
fn there_is_room_for_4096_entries_with_both_passes() {
    let whole = endless_tone(16);
    assert!(expected(&whole).starts_with("entries 4096 return 3841\n"));
    assert_plays_at_once(&whole);
    let output = play(&endless_tone(17), usize::MAX, Duration::ZERO);
    let printed = String::from_utf8_lossy(&output.stdout);
    assert_eq!(printed, "refused 11 at 0\n");
}

/// More than 4,096 octets are refused, and the program does not read on.
#[test]
fn endless_input_is_refused() {
    let Ok(zeros) = File::open("/dev/zero") else {
        panic!("there is no /dev/zero");
    };
    let mut child = start(&mut Command::new(program()), Stdio::from(zeros));
    let until = Instant::now() + Duration::from_secs(20);
    while matches!(child.try_wait(), Ok(None)) {
        if Instant::now() > until {
            let _ = child.kill();
            panic!("the program reads on for ever");
        }
        sleep(Duration::from_millis(10));
    }
    let Ok(output) = child.wait_with_output() else {
        panic!("no output");
    };
    assert_eq!(String::from_utf8_lossy(&output.stdout), "refused 1 at 0\n");
}

/// The stack that the program is said to run with, in KiB. Its arrays take 364.1
/// and a row that it writes by takes 4. The system puts the program's words and
/// up to 8 KiB of nothing ahead of it.
#[cfg(target_arch = "x86_64")]
const STACK: usize = 392;

/// The emulator has a stack of its own, so this is for x86-64 alone.
#[cfg(target_arch = "x86_64")]
#[test]
fn it_runs_with_the_stack_that_is_said() {
    let longest = tone_of_entries(ROOM);
    for message in [&longest[..], &longest[1..], &[2; LARGEST_TONE + 1]] {
        let printed = printed_within(STACK, message);
        assert_eq!(printed, expected(message));
    }
}

/// What the program prints where its stack is limited.
#[cfg(target_arch = "x86_64")]
fn printed_within(kibibytes: usize, message: &[u8]) -> String {
    let limited = format!("ulimit -s {kibibytes} && exec \"$0\"");
    let mut command = Command::new("sh");
    command.args(["-c", &limited]).arg(program()).env_clear();
    let output = given(&mut command, message, usize::MAX, Duration::ZERO);
    String::from_utf8_lossy(&output.stdout).into_owned()
}

/// A folder can be opened but not read.
#[test]
fn input_that_cannot_be_read_is_said_on_standard_error() {
    let Ok(folder) = File::open(".") else {
        panic!("the folder does not open");
    };
    let Ok(output) = start(&mut Command::new(program()), Stdio::from(folder)).wait_with_output()
    else {
        panic!("no output");
    };
    assert!(output.stdout.is_empty());
    assert!(!output.stderr.is_empty());
}
