//! The C header and the package say the same: refusals, rooms, entries and
//! versions.

mod support;

use ohakelm::{entry, raw, Kind};
use support::{c, text};

fn header() -> String {
    text("include/ohakelm.h")
}

// ---- Values.

/// The names of the header that stand for one word each, with that word.
fn values() -> Vec<(String, String)> {
    let header = header();
    let lines = header.lines().filter(|line| line.starts_with("#define "));
    let words = lines.map(|line| line.split_whitespace().skip(1));
    words
        .filter_map(|mut words| Some((words.next()?.to_string(), words.next()?.to_string())))
        .collect()
}

/// What one name stands for.
fn value(name: &str) -> String {
    match values().into_iter().find(|value| value.0 == name) {
        Some((_, value)) => value,
        None => panic!("the header has no {name}"),
    }
}

fn number(digits: &str) -> usize {
    match digits.parse() {
        Ok(number) => number,
        Err(error) => panic!("{digits}: {error}"),
    }
}

/// A room's name in the header and in the proof, and its number in the package.
const ROOMS: [(&str, &str, usize); 10] = [
    ("TITLE", "title_room", ohakelm::LARGEST_TITLE),
    ("TABLE", "table_room", ohakelm::LARGEST_TABLE),
    ("TONE", "tone_room", ohakelm::LARGEST_TONE),
    ("ROWS", "entries_room", ohakelm::LARGEST_ROWS),
    ("LIST", "list_room", ohakelm::LARGEST_LIST),
    ("BITMAP", "bitmap_room", ohakelm::LARGEST_BITMAP),
    ("ICON", "icon_room", ohakelm::LARGEST_ICON),
    ("LOGO", "logo_room", ohakelm::LARGEST_LOGO),
    ("PACK", "pack_room", ohakelm::LARGEST_PACK),
    ("REPORT", "report_room", ohakelm::LARGEST_REPORT),
];

#[test]
fn the_rooms_are_those_of_the_header() {
    let values = values();
    let rooms = values.iter().filter_map(|(name, value)| {
        let room = name.strip_prefix("OHAKELM_LARGEST_")?;
        Some((room, number(value)))
    });
    let package = ROOMS.map(|(name, _, room)| (name, room));
    assert_eq!(rooms.collect::<Vec<_>>(), package);
}

/// The files of the numbers that the proofs are about.
const PROVED: [&str; 2] = [
    "crates/list_rules/specs/Sounding.antt",
    "crates/ohakelm/specs/Room.antt",
];

/// The names that these files give to numbers, in their order.
fn proved() -> Vec<(String, usize)> {
    let mut known = Vec::new();
    for line in PROVED.map(text).concat().lines() {
        let Some((name, value)) = line.split_once(" = ") else {
            continue;
        };
        if let Some(number) = product(value, &known) {
            known.push((name.to_string(), number));
        }
    }
    known
}

/// A product of numbers and of names that are known. Other definitions have none.
fn product(words: &str, known: &[(String, usize)]) -> Option<usize> {
    let named = |word: &str| known.iter().find(|it| it.0 == word).map(|it| it.1);
    let factors = words.split(" * ");
    factors
        .map(|word| word.parse().ok().or_else(|| named(word)))
        .product()
}

#[test]
fn the_rooms_are_those_of_the_proof() {
    let proved = proved();
    let rooms = proved.iter().filter(|(name, _)| name.ends_with("_room"));
    let rooms = rooms.map(|(name, room)| (&name[..], *room));
    let package = ROOMS.map(|(_, name, room)| (name, room));
    assert_eq!(rooms.collect::<Vec<_>>(), package);
}

#[test]
fn an_entry_takes_three_cells() {
    assert_eq!(ohakelm::ENTRY_CELLS, 3, "package");
    assert_eq!(number(&value("OHAKELM_ENTRY_CELLS")), 3, "header");
    let cells = proved().into_iter().find(|it| it.0 == "entry_cells");
    assert_eq!(cells.map(|it| it.1), Some(3), "proof");
}

#[test]
fn no_mark_is_that_of_the_header() {
    let mark = value("OHAKELM_NO_MARK");
    assert_eq!(mark.strip_suffix('u'), Some(&*raw::NO_MARK.to_string()));
}

// ---- Refusals.

/// The items of the header's list: number, name and words.
fn refusals() -> Vec<(u32, String, String)> {
    let header = header();
    let Some((_, list)) = header.split_once("#define OHAKELM_REFUSALS(ITEM)") else {
        panic!("the header has no list of refusals");
    };
    // It goes on as long as its lines end so.
    let lines = list.split_inclusive('\n');
    let last = lines.clone().position(|line| !line.ends_with("\\\n"));
    let list: String = lines.take(last.unwrap_or(0) + 1).collect();
    list.split("ITEM(").skip(1).map(item).collect()
}

/// One item. Its words may be in several pieces, each in quotation marks.
fn item(text: &str) -> (u32, String, String) {
    let mut parts = text.splitn(3, ',').map(str::trim);
    let (Some(number_text), Some(name), Some(words)) = (parts.next(), parts.next(), parts.next())
    else {
        panic!("no item: {text}");
    };
    let words: String = words.split('"').skip(1).step_by(2).collect();
    (number(number_text) as u32, camel(name), words)
}

/// `TooLong` of `OHAKELM_TOO_LONG`.
fn camel(name: &str) -> String {
    let words = name.split('_').skip(1);
    words
        .map(|word| word[..1].to_string() + &word[1..].to_lowercase())
        .collect()
}

#[test]
fn the_refusals_are_those_of_the_header() {
    let kinds = Kind::ALL.iter();
    let package = kinds.map(|kind| (kind.number(), format!("{kind:?}"), kind.words().to_string()));
    let package: Vec<_> = package.collect();
    assert_eq!(refusals(), package);
    let numbers: Vec<u32> = package.iter().map(|kind| kind.0).collect();
    // 19 is no longer given, and 22 to 25 are not given yet.
    let given = (1..=27).filter(|&number| number != 19 && !(22..=25).contains(&number));
    assert_eq!(numbers, given.collect::<Vec<u32>>());
}

#[test]
fn a_number_has_one_kind() {
    for &kind in Kind::ALL {
        assert_eq!(Kind::of(kind.number()), kind);
    }
    let unknown = header().contains("default:\n        return \"no refusal of this version\";");
    assert!(unknown, "the header's words for other numbers");
    for number in [0, 19, 22, 25, 28, u32::MAX] {
        let kind = Kind::of(number);
        assert!(matches!(kind, Kind::Unknown(..)));
        assert_eq!(kind.number(), number);
        assert_eq!(kind.to_string(), "no refusal of this version");
    }
}

// ---- Versions.

#[test]
fn there_is_one_version() {
    let version = env!("CARGO_PKG_VERSION");
    assert_eq!(
        value("OHAKELM_VERSION_STRING").trim_matches('"'),
        version,
        "header"
    );
    assert_eq!(first_of_changes(), version, "CHANGELOG.md");
    let digits: Vec<usize> = version.split('.').map(number).collect();
    assert_eq!(digits.len(), 3);
    let as_number = digits[0] * 10_000 + digits[1] * 100 + digits[2];
    assert_eq!(number(&value("OHAKELM_VERSION")), as_number, "header");
    assert_eq!(ohakelm::VERSION as usize, as_number, "package");
    assert_eq!(ohakelm::version() as usize, as_number, "archive");
}

/// The version of the first heading that begins with one.
fn first_of_changes() -> String {
    let changes = text("CHANGELOG.md");
    let headings = changes.lines().filter_map(|line| line.strip_prefix("## "));
    let mut versions = headings.filter(|heading| heading.starts_with(|c: char| c.is_numeric()));
    let first = versions.next().and_then(|it| it.split_whitespace().next());
    match first {
        Some(version) => version.to_string(),
        None => panic!("CHANGELOG.md has no version"),
    }
}

// ---- Entries.

/// What the header's macros are to make, what the functions make, and what is
/// right by the rules.
const ENTRIES: [(&str, u32, u32); 26] = [
    ("HEADER(3, 14, 255)", entry::header(3, 14, 255), 16_127),
    ("NOTE(12, 5, 3)", entry::note(12, 5, 3), 65_943),
    ("SCALE(3)", entry::scale(3), 131_075),
    ("STYLE(2)", entry::style(2), 196_610),
    ("TEMPO(31)", entry::tempo(31), 262_175),
    ("VOLUME(15)", entry::volume(15), 327_695),
    ("KIND_HEADER", entry::HEADER, 0),
    ("KIND_NOTE", entry::NOTE, 1),
    ("KIND_SCALE", entry::SCALE, 2),
    ("KIND_STYLE", entry::STYLE, 3),
    ("KIND_TEMPO", entry::TEMPO, 4),
    ("KIND_VOLUME", entry::VOLUME, 5),
    ("KIND(262175)", entry::kind(262_175), 4),
    ("PAYLOAD(262175)", entry::payload(262_175), 31),
    ("HEADER_ID(16127)", entry::header_id(16_127), 3),
    ("HEADER_LOOP(16127)", entry::header_loop(16_127), 14),
    (
        "HEADER_SPECIFIER(16127)",
        entry::header_specifier(16_127),
        255,
    ),
    ("NOTE_VALUE(65943)", entry::note_value(65_943), 12),
    ("NOTE_DURATION(65943)", entry::note_duration(65_943), 5),
    ("NOTE_SPECIFIER(65943)", entry::note_specifier(65_943), 3),
    // 10 * 1024 + 1 * 256 + 2 * 16 + 7.
    ("LISTED_NOTE(10535)", entry::listed_note(10_535), 10),
    ("LISTED_SCALE(10535)", entry::listed_scale(10_535), 1),
    ("LISTED_STYLE(10535)", entry::listed_style(10_535), 2),
    ("LISTED_VOLUME(10535)", entry::listed_volume(10_535), 7),
    // 254 * 256 + 253.
    ("LISTED_HEADER(65277)", entry::listed_header(65_277), 254),
    (
        "LISTED_POSITION(65277)",
        entry::listed_position(65_277),
        253,
    ),
];

#[test]
fn entries_are_those_of_the_header() {
    let lines = ENTRIES.map(|(made, ..)| format!("printf(\"%u\\n\", (unsigned)OHAKELM_{made});\n"));
    let printed = c::printed_by("entries", &lines.concat());
    let printed: Vec<usize> = printed.lines().map(number).collect();
    assert_eq!(printed.len(), ENTRIES.len());
    for ((made, package, right), header) in ENTRIES.into_iter().zip(printed) {
        assert_eq!(package, right, "the package's {made}");
        assert_eq!(header, right as usize, "the header's {made}");
    }
}
