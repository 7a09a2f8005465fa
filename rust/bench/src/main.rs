//! The proved library and an optimised plain Rust implementation, side by
//! side in one run: `cargo run --release --bin bench`.
//!
//! Lists and buffers are cleared ahead of each run, outside the time taken.
//! Answers and buffers are compared after each run.

mod broken;
mod clock;
mod measure;
mod tones;
// The tests have them too.
#[path = "../../tests/support/worst.rs"]
mod worst;

use std::cell::Cell;

use measure::{compare, once_each, repeated, Batch, Row, RUNS};
use ohakelm::numbers as proved;
use ohakelm_answers::{Entry, Listed, ENTRY_CELLS};
use tones::{Tone, BASIC};

/// An insertion of one note may lengthen a message by two octets.
const LARGEST_EDITED: usize = 4096 - 2;

const NOTE: u32 = 65536 + 10 * 32 + 2 * 4;
const SCALE: u32 = 2 * 65536;
/// 63 beats, which are those of the start.
const TEMPO: u32 = 4 * 65536 + 8;

fn main() {
    let mut rows = Vec::new();
    for octets in [24, 400, 4096] {
        let tone = tones::of_octets(octets);
        rows.push(read(&tone));
        rows.push(write(&tone));
        rows.push(list(&tone));
        rows.push(rows_of(&tone.message, "rows"));
        rows.extend(edits(&tones::of_octets(octets.min(LARGEST_EDITED))));
    }
    for tone in tones::of_titles() {
        rows.push(read(&tone));
        rows.push(write(&tone));
        rows.push(list(&tone));
    }
    rows.extend(tempos());
    rows.extend(recalls());
    rows.extend(endless_part());
    // With its row and the last four octets a message of 1,000 has 61 at most.
    for (messages, octets) in [(10, 400), (1000, 61)] {
        rows.extend(packs(messages, octets));
    }
    rows.extend(salvages());
    for (width, height) in [(72, 14), (248, 255)] {
        rows.extend(bitmaps(width, height));
        rows.extend(icons(width, height));
        rows.extend(logos(width, height));
    }
    measure::print(&rows);
}

/// The longest titles are told apart from the usual ones.
fn name(call: &str, tone: &Tone) -> String {
    let title = match (tone.unicode, tone.title.len()) {
        (true, _) => ", 15 UNICODE characters",
        (false, 15) => ", 15 characters",
        (false, 0) => ", no title",
        (false, _) => "",
    };
    format!("{call}{title}, {} octets", tone.message.len())
}

fn read(tone: &Tone) -> Row {
    let message = &tone.message[..];
    let buffers = (vec![0; tone.table.len()], vec![0; tone.title.len()]);
    compare(
        &name("read", tone),
        repeated(message.len()),
        &buffers,
        |(table, title)| proved::read(message, table, title),
        |(table, title)| ohakelm_fast::read(message, table, title),
    )
}

fn write(tone: &Tone) -> Row {
    let (unicode, title, table) = (tone.unicode, &tone.title[..], &tone.table[..]);
    let out = vec![0; tone.message.len()];
    compare(
        &name("write", tone),
        repeated(tone.message.len()),
        &out,
        |out| proved::write(BASIC, unicode, title, table, out),
        |out| ohakelm_fast::write(BASIC, unicode, title, table, out),
    )
}

fn list(tone: &Tone) -> Row {
    list_of(&tone.message, &name("list", tone))
}

fn list_of(message: &[u8], name: &str) -> Row {
    let cells = vec![0; ENTRY_CELLS * entries(message)];
    compare(
        name,
        repeated(message.len()),
        &cells,
        |cells| proved::list(message, cells),
        |cells| ohakelm_fast::list(message, cells),
    )
}

fn rows_of(message: &[u8], what: &str) -> Row {
    let count = entries(message);
    let buffers = (vec![0; ENTRY_CELLS * count], vec![Entry::default(); count]);
    compare(
        &format!("{what}, {} octets", message.len()),
        repeated(message.len()),
        &buffers,
        |(cells, rows)| proved::rows(message, cells, rows),
        |(cells, rows)| ohakelm_fast::rows(message, cells, rows),
    )
}

fn entries(message: &[u8]) -> usize {
    // The tone of recalls has 38,250.
    let mut scratch = vec![0; ENTRY_CELLS * 50_000];
    let listed = ohakelm_fast::list(message, &mut scratch);
    assert_eq!(listed.refusal, 0);
    listed.entries
}

/// The three edits in the middle of the message.
fn edits(tone: &Tone) -> [Row; 3] {
    let used = tone.message.len();
    let (pattern, at) = (tone.middle, tone.middle_count / 2);
    let mut buffer = tone.message.clone();
    buffer.extend([0; 2]);
    // An edit of a part that is recalled may lengthen the list by a few.
    let cells = ENTRY_CELLS * (entries(&tone.message) + 32);
    let buffers = (buffer, vec![0; cells]);
    let batch = once_each(used);
    let insert = compare(
        &name("insert a note", tone),
        batch,
        &buffers,
        |(buffer, list)| proved::insert(buffer, used, pattern, at, NOTE, list),
        |(buffer, list)| ohakelm_fast::insert(buffer, used, pattern, at, NOTE, list),
    );
    let replace = compare(
        &name("replace by a scale", tone),
        batch,
        &buffers,
        |(buffer, list)| proved::replace(buffer, used, pattern, at, SCALE, list),
        |(buffer, list)| ohakelm_fast::replace(buffer, used, pattern, at, SCALE, list),
    );
    let delete = compare(
        &name("delete", tone),
        batch,
        &buffers,
        |(buffer, list)| proved::delete(buffer, used, pattern, at, list),
        |(buffer, list)| ohakelm_fast::delete(buffer, used, pattern, at, list),
    );
    [insert, replace, delete]
}

/// Notes alone, few and many, at one tempo and with a tempo ahead of every tenth.
/// What differs is what restarts of the durations cost.
fn tempos() -> [Row; 4] {
    [(12, false), (12, true), (2400, false), (2400, true)].map(|(notes, with_tempos)| {
        let message = &tones::of_notes(notes, with_tempos)[..];
        let tempos = if with_tempos {
            "a tempo every ten"
        } else {
            "no tempo"
        };
        list_of(message, &format!("list, {notes} notes, {tempos}"))
    })
}

/// The tone of 254 recalls, whose list is much longer than its message.
fn recalls() -> [Row; 4] {
    let message = &tones::of_recalls(None)[..];
    let name = format!("list, {} entries", entries(message));
    let plain = long_list(message, &name, ohakelm_fast::list);
    let rows = rows_of(message, &format!("rows, {} entries", entries(message)));
    // A pass is copied where the one before began with the same fraction. Here that
    // takes a tempo in each, for ten quarters leave another fraction each time.
    let message = &tones::of_recalls(Some(TEMPO))[..];
    let name = format!("{name}, a tempo in each pass");
    let decoding = long_list(message, &name, ohakelm_fast::list);
    let name = format!("{name}, plain Rust copies passes");
    let copying = long_list(message, &name, ohakelm_fast::list_by_copying);
    [plain, rows, decoding, copying]
}

/// A list that is made once in each run, held against one of plain Rust's ways.
fn long_list(message: &[u8], name: &str, plain: impl Fn(&[u8], &mut [u32]) -> Listed) -> Row {
    let batch = Batch {
        buffers: 1,
        times: 1,
        runs: RUNS,
    };
    compare(
        name,
        batch,
        &vec![0; ENTRY_CELLS * entries(message)],
        |cells| proved::list(message, cells),
        |cells| plain(message, cells),
    )
}

/// One part for ever, of which two passes are listed.
fn endless_part() -> [Row; 2] {
    let message = &tones::of_endless_part()[..];
    let name = format!("list, endless part, {} octets", message.len());
    let rows = rows_of(message, "rows, endless part");
    [list_of(message, &name), rows]
}

/// A pack of different tones, read, its last message found, and written.
fn packs(count: usize, octets: usize) -> [Row; 4] {
    let (messages, lengths) = tones::of_pack(0, count, octets);
    let mut pack = vec![0; messages.len() + 4 * count + 4];
    let written = ohakelm_fast::pack_write(&messages, &lengths, &mut pack);
    assert_eq!((written.refusal, written.octets), (0, pack.len()));
    let (name, last) = (format!("{count} messages"), count as u32 - 1);
    let batch = repeated(pack.len());
    let read = compare(
        &format!("pack, read, {name}"),
        batch,
        &(),
        |_| proved::pack_read(&pack),
        |_| ohakelm_fast::pack_read(&pack),
    );
    let branching = compare(
        &format!("pack, read, {name}, plain Rust branches by kinds"),
        batch,
        &(),
        |_| proved::pack_read(&pack),
        |_| ohakelm_fast::pack_read_by_branches(&pack),
    );
    let message = compare(
        &format!("pack, message, {name}"),
        batch,
        &(),
        |_| proved::pack_message(&pack, last),
        |_| ohakelm_fast::pack_message(&pack, last),
    );
    let write = compare(
        &format!("pack, write, {name}"),
        batch,
        &vec![0; pack.len()],
        |out| proved::pack_write(&messages, &lengths, out),
        |out| ohakelm_fast::pack_write(&messages, &lengths, out),
    );
    [read, branching, message, write]
}

/// Messages gotten out of broken packs, of noise, and of what takes longest.
fn salvages() -> [Row; 4] {
    // A run goes through all of them.
    let all = |inputs: &[Vec<u8>]| Batch {
        buffers: 1,
        times: inputs.len(),
        runs: RUNS,
    };
    let (few, many) = (broken::packs(10, 400), broken::packs(1000, 61));
    let (noise, worst) = (broken::noise(), broken::worst());
    // These take so long that a run has one, and there are few runs.
    let one = Batch {
        times: 1,
        runs: RUNS / 8,
        ..all(&worst)
    };
    [
        salvage("10 messages", &few, all(&few)),
        salvage("1000 messages", &many, all(&many)),
        salvage("noise", &noise, all(&noise)),
        salvage("the worst inputs", &worst, one),
    ]
}

/// Each call takes the next input. Both sides make as many calls, so they go in step.
fn salvage(what: &str, inputs: &[Vec<u8>], batch: Batch) -> Row {
    let turns = (Cell::new(0), Cell::new(0));
    let next = |turn: &Cell<usize>| {
        let at = turn.replace(turn.get() + 1);
        &inputs[at % inputs.len()][..]
    };
    let room = (
        vec![0; ohakelm::LARGEST_PACK],
        vec![0; ohakelm::LARGEST_REPORT],
    );
    compare(
        &format!("pack, salvage, {what}"),
        batch,
        &room,
        |(out, report)| proved::pack_salvage(next(&turns.0), out, report),
        |(out, report)| ohakelm_fast::pack_salvage(next(&turns.1), out, report),
    )
}

fn image(width: u32, height: u32) -> Vec<u8> {
    let octets = (width / 8 * height) as usize;
    (0..octets).map(|k| (k * 37 % 251) as u8).collect()
}

/// A message of what its kind has ahead of a bitmap, and the bitmap.
fn with_bitmap(ahead: &[u8], width: u32, height: u32) -> Vec<u8> {
    let header = [0, width as u8, height as u8, 1];
    [ahead, &header, &image(width, height)].concat()
}

fn bitmaps(width: u32, height: u32) -> [Row; 2] {
    let image = image(width, height);
    let message = with_bitmap(b"", width, height);
    let read = compare(
        &format!("bitmap read, {width} by {height}"),
        repeated(image.len()),
        &(),
        |_| proved::bitmap_read(&message),
        |_| ohakelm_fast::bitmap_read(&message),
    );
    let write = compare(
        &format!("bitmap write, {width} by {height}"),
        repeated(image.len()),
        &vec![0; message.len()],
        |out| proved::bitmap_write(width, height, &image, out),
        |out| ohakelm_fast::bitmap_write(width, height, &image, out),
    );
    [read, write]
}

fn icons(width: u32, height: u32) -> [Row; 2] {
    let image = image(width, height);
    let message = with_bitmap(b"0", width, height);
    let read = compare(
        &format!("icon read, {width} by {height}"),
        repeated(image.len()),
        &(),
        |_| proved::icon_read(&message),
        |_| ohakelm_fast::icon_read(&message),
    );
    let write = compare(
        &format!("icon write, {width} by {height}"),
        repeated(image.len()),
        &vec![0; message.len()],
        |out| proved::icon_write(width, height, &image, out),
        |out| ohakelm_fast::icon_write(width, height, &image, out),
    );
    [read, write]
}

/// Logos with the longest date.
fn logos(width: u32, height: u32) -> [Row; 2] {
    let image = image(width, height);
    let message = with_bitmap(b"02440519991231T235958Z\n", width, height);
    let (mcc, mnc, date) = (&message[1..4], &message[4..6], &message[6..22]);
    let read = compare(
        &format!("logo read, {width} by {height}"),
        repeated(image.len()),
        &(),
        |_| proved::logo_read(&message),
        |_| ohakelm_fast::logo_read(&message),
    );
    let write = compare(
        &format!("logo write, {width} by {height}"),
        repeated(image.len()),
        &vec![0; message.len()],
        |out| proved::logo_write(mcc, mnc, date, width, height, &image, out),
        |out| ohakelm_fast::logo_write(mcc, mnc, date, width, height, &image, out),
    );
    [read, write]
}
