//! How much stack each call takes, by running it: on its largest input, on a
//! small one and on random ones. It must be no more than docs/TRUST.md says and
//! than `link/stack` adds up, and that no more than the header says.
//!
//! `cargo test --release --test stack -- --nocapture` prints the table.

mod support;

use std::collections::BTreeMap;
use std::hint::black_box;
use std::path::{Path, PathBuf};
use std::process::Command;

use ohakelm::{entry, Entry};
use ohakelm::{LARGEST_LIST, LARGEST_LOGO, LARGEST_PACK, LARGEST_REPORT, LARGEST_ROWS};
use ohakelm::{LARGEST_TABLE, LARGEST_TONE};
use support::c::{own_archive, printed};
use support::codecs::{Codec, Edit, LogoParts, Obvious, Spot};
use support::compare::Comparison;
use support::document::blocks;
use support::largest::{behind, fullest, longest, temporary, IMAGE, NOTE_C};
use support::measured::Measured;
use support::packs::{of_octets, Made};
use support::salvages::smallest;
use support::tones::written;
use support::{root, text, worst};

const RANDOM_CASES: usize = 20_000;

/// Each input is put so often, to a stack filled with another octet each time.
const TIMES: usize = 4;

#[test]
fn no_call_takes_more_stack_than_is_said() {
    // What is bound at its first call is bound now.
    put_all(&Measured::new());
    let measured: &'static Measured = Box::leak(Box::new(Measured::new()));
    for _ in 0..TIMES {
        put_all(measured);
    }
    Comparison::new(&[&Obvious, measured], 1).run(RANDOM_CASES);
    let (added, most) = (added_up(&own_folder()), measured.most());
    assert_eq!((most.len(), added.len()), (19, 19));
    println!("| call | measured | added up | the header says |\n|---|--:|--:|--:|");
    for (call, measured) in most {
        let said = said_by_header(call);
        let added = added[call];
        println!("| `ohakelm_{call}` | {measured} | {added} | {said} |");
        assert!(measured <= added && added <= said, "{call}");
        let written = said_by_document(call, PROCESSOR);
        assert!(
            written.is_some_and(|written| measured <= written),
            "docs/TRUST.md says {written:?} of {call}"
        );
        assert_eq!(said_by_document(call, "the header says"), Some(said));
    }
}

/// Every gate builds the archives of both processors.
#[test]
fn what_is_added_up_is_what_the_document_says() {
    for (folder, column) in [
        ("target/staticlib", "x86-64, added up"),
        ("target/aarch64", "Arm, added up"),
    ] {
        let added = added_up(&root(folder));
        assert_eq!(added.len(), 19, "{folder}");
        for (call, octets) in added {
            assert_eq!(said_by_document(&call, column), Some(octets), "{call}");
        }
    }
}

// ---- The inputs.

/// The largest inputs of every call, and small ones.
fn put_all(codec: &Measured) {
    codec.version();
    put_tones(codec);
    put_lists(codec);
    put_edits(codec);
    put_packs(codec);
    put_broken_packs(codec);
    put_bitmaps(codec);
}

fn put_tones(codec: &Measured) {
    let (title, table) = ([b'A'; 30], fullest());
    let message = temporary(&table);
    let mut out = vec![0; message.len()];
    assert_eq!(codec.write(2, false, &[], &table, &mut out).refusal, 0);
    assert!(out == message);
    let mut cells = vec![0; LARGEST_TABLE];
    assert_eq!(codec.read(&message, &mut cells, &mut []).refusal, 0);
    assert!(cells == table);
    let small = [1, NOTE_C];
    let message = written(1, true, &title, &small);
    assert_eq!(codec.write(1, true, &title, &small, &mut out).refusal, 0);
    let mut lent = [0; 30];
    assert_eq!(codec.read(&message, &mut cells, &mut lent).refusal, 0);
    assert_eq!(lent, title);
    assert_eq!(codec.label(&title, true, &title).length, 30);
    assert_eq!(codec.label(&[b' '; 30], false, &title).length, 30);
}

fn put_lists(codec: &Measured) {
    let mut list = vec![0; LARGEST_LIST];
    let mut rows = vec![Entry::default(); LARGEST_ROWS];
    for message in [longest(), temporary(&fullest()), temporary(&[1, NOTE_C])] {
        let listed = codec.list(&message, &mut list);
        assert_eq!(listed.refusal, 0);
        assert_eq!(codec.rows(&message, &mut list, &mut rows), listed);
    }
}

/// A message of 4,096 octets becomes one of 4,095 and the reverse, the longest
/// list is made, and a small message is edited.
fn put_edits(codec: &Measured) {
    let longest_row = (longest(), 0, 254, NOTE_C);
    let fullest_row = (temporary(&fullest()), 25, 81, entry::scale(3));
    let small_row = (temporary(&[2, NOTE_C, NOTE_C]), 0, 1, NOTE_C);
    let mut list = vec![0; LARGEST_LIST];
    for (message, pattern, instruction, entry) in [longest_row, fullest_row, small_row] {
        let mut buffer = message.clone();
        buffer.resize(message.len() + 2, 0);
        let mut used = message.len();
        let mut edit = |buffer: &mut [u8], edit, instruction| {
            let spot = Spot {
                used,
                pattern,
                instruction,
            };
            let edited = codec.edit(buffer, spot, edit, &mut list);
            assert_eq!(edited.refusal, 0);
            used = edited.length;
        };
        edit(&mut buffer, Edit::Delete, 0);
        edit(&mut buffer, Edit::Insert(entry), instruction - 1);
        edit(&mut buffer, Edit::Replace(entry), instruction - 1);
        assert_eq!(used, message.len());
    }
}

/// The largest pack, of few messages and of many, and the one of nothing.
fn put_packs(codec: &Measured) {
    let mut out = vec![0; LARGEST_PACK];
    let many = vec![temporary(&[1, entry::scale(0)]); 5460];
    for messages in [of_octets(LARGEST_PACK), many, vec![]] {
        let made = Made::of(&messages);
        let lengths: Vec<u32> = made.rows.iter().map(|row| row[1] as u32).collect();
        let written = codec.pack_write(&made.octets, &lengths, &mut out);
        assert_eq!(written.refusal, 0);
        let pack = &out[..written.octets];
        assert!(pack == made.pack());
        assert_eq!(codec.pack_read(pack).messages, messages.len());
        let last = messages.len().saturating_sub(1) as u32;
        let refusal = if messages.is_empty() { 12 } else { 0 };
        assert_eq!(codec.pack_message(pack, last).refusal, refusal);
    }
}

/// As many messages as a new pack has at most, the largest ones, one too many, one of the
/// inputs that take longest, and nothing.
fn put_broken_packs(codec: &Measured) {
    let (mut out, mut report) = (vec![0; LARGEST_PACK], vec![0; LARGEST_REPORT]);
    let most = smallest().repeat(5460);
    let largest = of_octets(LARGEST_PACK).concat();
    let worst = worst::of_number(0)[..2 * LARGEST_TONE].to_vec();
    for (input, messages) in [(most, 5460), (largest, 16), (worst, 0), (vec![], 0)] {
        let answer = codec.pack_salvage(&input, &mut out, &mut report);
        assert_eq!((answer.refusal, answer.messages), (0, messages));
    }
    let more = smallest().repeat(8191);
    assert_eq!(codec.pack_salvage(&more, &mut out, &mut report).refusal, 1);
    assert_eq!(
        codec.pack_salvage(&more[..800], &mut out, &mut []).refusal,
        11
    );
}

fn put_bitmaps(codec: &Measured) {
    let mut out = vec![0; LARGEST_LOGO];
    for (width, height) in [(248, 255), (8, 1)] {
        let image = &IMAGE[..(width / 8 * height) as usize];
        let parts = LogoParts {
            mcc: b"244",
            mnc: b"05",
            date: b"19991231T235958Z",
            width,
            height,
            image,
        };
        let written = codec.bitmap_write(width, height, image, &mut out);
        assert_eq!(codec.bitmap_read(&out[..written.octets]).refusal, 0);
        let written = codec.icon_write(width, height, image, &mut out);
        assert_eq!(codec.icon_read(&out[..written.octets]).refusal, 0);
        let written = codec.logo_write(parts, &mut out);
        assert_eq!(codec.logo_read(&out[..written.octets]).refusal, 0);
    }
    assert_eq!(codec.bitmap_read(&behind(b"")).refusal, 0);
}

// ---- What is said.

/// What the header says of a call.
fn said_by_header(call: &str) -> usize {
    let group = match call {
        "replace" | "insert" | "delete" => "EDITS",
        "read" | "write" | "list" | "rows" => "TONES",
        "pack_read" | "pack_message" | "pack_write" => "PACKS",
        "pack_salvage" => "SALVAGE",
        _ => "OTHERS",
    };
    let header = text("include/ohakelm.h");
    let front = format!("#define OHAKELM_STACK_{group} ");
    let line = header.lines().find_map(|line| line.strip_prefix(&front));
    match line.map(str::parse) {
        Some(Ok(octets)) => octets,
        _ => panic!("the header says nothing of {group}"),
    }
}

/// This processor, by the name of its column in docs/TRUST.md.
const PROCESSOR: &str = match cfg!(target_arch = "x86_64") {
    true => "x86-64",
    false => "Arm",
};

/// What docs/TRUST.md says of a call in a column, where it gives a number.
fn said_by_document(call: &str, column: &str) -> Option<usize> {
    let blocks = blocks(&text("docs/TRUST.md"));
    let named = format!("`ohakelm_{call}`");
    let row = blocks.iter().find(|cell| cell.text == named)?.line;
    let mut cells = blocks.iter().filter(|cell| cell.line == row);
    let cell = cells.find(|cell| cell.column == column)?;
    cell.text.replace(',', "").parse().ok()
}

/// The folder of the archive that these tests are linked with.
fn own_folder() -> PathBuf {
    let archive = own_archive();
    archive.parent().unwrap_or(Path::new(".")).to_path_buf()
}

/// What `link/stack` adds up for each call of the archive in a folder.
fn added_up(folder: &Path) -> BTreeMap<String, usize> {
    let lines = printed(Command::new(root("link/stack")).arg("--all").arg(folder));
    lines
        .lines()
        .filter_map(|line| added(folder, line))
        .collect()
}

/// FOLDER ohakelm_CALL OCTETS
fn added(folder: &Path, line: &str) -> Option<(String, usize)> {
    let words = line.strip_prefix(folder.to_str()?)?;
    let (call, octets) = words.strip_prefix(" ohakelm_")?.split_once(' ')?;
    Some((call.to_string(), octets.parse().ok()?))
}

// ---- The measuring itself.

extern "C" fn takes_2048() {
    black_box(&mut [1_u8; 2048]);
}

#[test]
fn a_row_of_2048_octets_is_found() {
    for _ in 0..TIMES {
        let measured = Measured::new();
        let _: [usize; 1] = measured.call("row", takes_2048 as *const (), &[]);
        let octets = measured.most()["row"];
        assert!((2048..2200).contains(&octets), "{octets}");
    }
}
