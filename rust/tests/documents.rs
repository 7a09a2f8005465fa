//! The documents and the code say the same. Every name, path and count in
//! docs/PROMISES.md, docs/TRUST.md and docs/TRACE.md is as they say.
//!
//! How a document is to be written so that this can be seen:
//! - A name is in backticks.
//! - Its file, or the must-fail folder of its crate, stands in brackets behind it
//!   and its neighbours: `a`, `b` (tone/proofs/Exact.antt). Or it stands ahead of
//!   them, for all that follows in the same paragraph, item or cell: in
//!   tone/must-fail, `c`; and in the heading of a column, for the whole column.
//! - A path is from the root or from crates/, in a crate's section also from the
//!   crate. The next file in the same folder may do without the folder.
//! - In a row of the trace each name has its place in brackets behind it, and
//!   what has no names is `–`.

mod support;

use std::collections::{BTreeMap, BTreeSet};

use support::c::calls_of_header;
use support::code::{definitions_in, exports, files_below, signature, Code, Definition};
use support::document::{blocks, resolved, Block, Named};
use support::{root, text};

const DOCUMENTS: [&str; 3] = ["docs/PROMISES.md", "docs/TRUST.md", "docs/TRACE.md"];

/// What may stand in backticks and is no name of the repository.
const OTHER_WORDS: [(&str, &[&str]); 6] = [
    ("words of Rattle", &["ensures", "requires", "pub", "where"]),
    (
        "types",
        &["&[u8]", "&mut [u8]", "u8", "u32", "usize", "bool"],
    ),
    ("words of a check's last line", &["axioms", "axioms="]),
    (
        "the toolchain",
        &[
            "rattle-kit-13f logic dac8208d650f15bf",
            "rattle-kit-5b-plain logic 097e4c862dff5811",
            "rattle-kit-5b logic 064da1ca440f63e7",
        ],
    ),
    ("what link/archives adds to a name", &["_proved"]),
    (
        "folders of a crate",
        &["specs/", "proofs/", "src/", "must-fail/"],
    ),
];

/// Commands that the repository does not have itself.
const COMMANDS: [&str; 2] = ["rt", "cargo"];

/// All that is wrong, as one list.
fn assert_none(faults: Vec<String>) {
    let lines = faults.join("\n");
    assert!(faults.is_empty(), "{} faults:\n{lines}", faults.len());
}

// ---- Names and paths.

#[test]
fn every_name_is_there() {
    let code = Code::new();
    let mut faults = Vec::new();
    for document in DOCUMENTS {
        for block in blocks(&text(document)) {
            let found = faults_of_block(&code, &block);
            let lines = found
                .into_iter()
                .map(|it| format!("{document}:{}: {it}", block.line));
            faults.extend(lines);
        }
    }
    assert_none(faults);
}

fn faults_of_block(code: &Code, block: &Block) -> Vec<String> {
    let paths = block.paths();
    let missing = paths
        .iter()
        .filter(|path| resolved(path, &block.crate_name).is_none());
    let mut faults: Vec<String> = missing.map(|path| format!("there is no {path}")).collect();
    for named in block.named() {
        faults.extend(fault_of_name(code, block, &named));
    }
    faults
}

fn fault_of_name(code: &Code, block: &Block, named: &Named) -> Option<String> {
    if let Some((function, rest)) = named.name.split_once('(') {
        return fault_of_signature(code, &block.crate_name, function, rest);
    }
    // A theorem may stand with what it shows.
    let (name, shown) = named.name.split_once(" : ").unwrap_or((&named.name, ""));
    let unknown = [name, shown].into_iter().find(|it| !is_known(code, it));
    if let Some(unknown) = unknown {
        return Some(format!("nothing is called {unknown}"));
    }
    let path = resolved(named.path.as_ref()?, &block.crate_name)?;
    let in_code = path.contains("/src/") || path.ends_with(".h");
    fault_of_place(code, name, &path).filter(|_| in_code || !is_beside(&code.places(name)))
}

fn fault_of_place(code: &Code, name: &str, place: &str) -> Option<String> {
    let places = code.places(name);
    let elsewhere: Vec<&str> = places.iter().map(|it| &it[..]).collect();
    let elsewhere = elsewhere.join(", ");
    (!places.contains(place)).then(|| format!("{name} is not in {place} (it is in: {elsewhere})"))
}

/// Whether a name is a crate's, or of the code alone. Such a name may stand
/// beside those that a path of definitions or theorems is given for.
fn is_beside(places: &BTreeSet<String>) -> bool {
    let is_crate = |place: &String| place.matches('/').count() == 1;
    let is_code = |place: &String| place.contains("/src/") || place.ends_with(".h");
    places.iter().any(is_crate) || places.iter().all(is_code)
}

fn is_known(code: &Code, name: &str) -> bool {
    if let Some(end) = name.strip_prefix('…') {
        return code.has_one_ending_in(end);
    }
    let other = OTHER_WORDS.iter().any(|(_, words)| words.contains(&name));
    let command = name.split(' ').next().unwrap_or_default();
    let is_own = root(command).exists() && (command == name || command.contains('/'));
    let is_command = COMMANDS.contains(&command) || is_own;
    let built = name.starts_with("target/");
    other || is_command || built || name.split("::").all(|part| code.has(part))
}

/// `NAME(PARAMETER, ..) -> ANSWER`, in the section of a crate. The parameters may
/// be left out as `…`. Elsewhere the name alone must be there.
fn fault_of_signature(code: &Code, crate_name: &str, function: &str, rest: &str) -> Option<String> {
    let (Some((parameters, answer)), false) = (rest.split_once(") -> "), crate_name.is_empty())
    else {
        return (!code.has(function)).then(|| format!("nothing is called {function}"));
    };
    let Some(real) = signature(crate_name, function) else {
        return Some(format!("{crate_name} has no public function {function}"));
    };
    let parameters: Vec<&str> = parameters.split(", ").collect();
    let alike = parameters == ["…"] || parameters == real.parameters;
    (!alike || answer != real.answer).then(|| {
        let parameters = real.parameters.join(", ");
        format!("it is {function}({parameters}) -> {}", real.answer)
    })
}

// ---- The exports.

#[test]
fn every_export_is_in_the_header_and_in_the_documents() {
    let exports = exports();
    assert!(!exports.is_empty());
    let mut faults = differences(&exports, &calls_of_header(), "include/ohakelm.h");
    for document in ["docs/PROMISES.md", "docs/TRACE.md"] {
        let blocks = blocks(&text(document));
        let names = blocks.iter().flat_map(Block::named).map(|named| named.name);
        let named = names.filter(|name| name.starts_with("ohakelm_")).collect();
        faults.extend(differences(&exports, &named, document));
    }
    assert_none(faults);
}

fn differences(exports: &BTreeSet<String>, named: &BTreeSet<String>, file: &str) -> Vec<String> {
    let missing = exports.difference(named);
    let missing = missing.map(|name| format!("{file} does not name the export {name}"));
    let other = named.difference(exports);
    let other = other.map(|name| format!("{file} names {name}, which is no export"));
    missing.chain(other).collect()
}

// ---- The definitions that must be believed.

/// The files that a row of the table counts, and their lines.
fn counted_files() -> Vec<(usize, Vec<String>, String)> {
    let blocks = blocks(&text("docs/TRUST.md"));
    let rows = blocks.windows(2).filter(|cells| cells[0].column == "file");
    let row = |cells: &[Block]| {
        let files = cells[0]
            .paths()
            .into_iter()
            .filter_map(|path| resolved(&path, ""));
        (
            cells[0].line,
            files.collect(),
            cells[1].text.replace(',', ""),
        )
    };
    rows.map(row).collect()
}

#[test]
fn the_lines_of_the_definitions_are_counted() {
    let rows = counted_files();
    assert!(!rows.is_empty());
    let wrong = rows.into_iter().filter_map(|(line, files, count)| {
        let lines: usize = files.iter().map(|file| text(file).lines().count()).sum();
        let fault = format!("docs/TRUST.md:{line}: {files:?} have {lines} lines, not {count}");
        (lines.to_string() != count).then_some(fault)
    });
    assert_none(wrong.collect());
}

/// All files of specs/ but those that list the others.
fn specs() -> Vec<String> {
    let files = files_below("crates").into_iter();
    let specs = files.filter(|file| file.contains("/specs/") && file.ends_with(".antt"));
    specs.filter(|file| !file.ends_with("/Lib.antt")).collect()
}

#[test]
fn no_definition_is_left_out() {
    let blocks = blocks(&text("docs/TRUST.md"));
    let paths = blocks.iter().flat_map(Block::paths);
    let named: BTreeSet<String> = paths.filter_map(|path| resolved(&path, "")).collect();
    let left_out = specs().into_iter().filter(|file| !named.contains(file));
    assert_none(
        left_out
            .map(|file| format!("docs/TRUST.md has no {file}"))
            .collect(),
    );
}

/// Files of the table that no promise cites, and why they are read.
const READ_BESIDE: [(&str, &str); 4] = [
    ("/Samples.antt", "to hold the rules against"),
    ("crates/samples/", "the same"),
    (
        "/Room.antt",
        "how much to lend, which the theorems are about",
    ),
    ("/Text.antt", "what the program prints"),
];

/// What a promise of a public call stands on must be read, and nothing else.
#[test]
fn the_table_has_what_the_promises_stand_on() {
    let counted: BTreeSet<String> = counted_files().into_iter().flat_map(|row| row.1).collect();
    let promises = specs().into_iter().filter(|file| file.contains("/Promise"));
    let cited = files_cited(promises.collect());
    assert!(cited.len() > 9, "{cited:?}");
    let beside = |file: &str| READ_BESIDE.iter().any(|(part, _)| file.contains(part));
    let left_out = cited
        .difference(&counted)
        .map(|file| format!("{file} is cited by a promise"));
    let idle = counted.difference(&cited).filter(|file| !beside(file));
    let idle = idle.filter(|file| file.contains("/specs/"));
    let idle = idle.map(|file| format!("{file} is cited by no promise"));
    assert_none(left_out.chain(idle).collect());
}

/// The files of specs/ that have what the definitions of these files are stated
/// with, directly or by way of others.
fn files_cited(files: Vec<String>) -> BTreeSet<String> {
    let specs: BTreeMap<String, String> = specs()
        .into_iter()
        .map(|it| (it.clone(), text(it)))
        .collect();
    let mut left: Vec<(String, Definition)> = Vec::new();
    for file in files {
        left.extend(
            definitions_in(&specs[&file])
                .into_iter()
                .map(|it| (file.clone(), it)),
        );
    }
    let (mut cited, mut seen) = (BTreeSet::new(), BTreeSet::new());
    while let Some((file, definition)) = left.pop() {
        for word in definition.words {
            let (file, name) = used_as(&specs[&file], &word).unwrap_or((file.clone(), word));
            if seen.insert((file.clone(), name.clone())) {
                let there = definitions_in(&specs[&file]).into_iter();
                let named = there.filter(|it| it.names.contains(&name));
                left.extend(named.map(|it| (file.clone(), it)));
            }
        }
        cited.insert(file);
    }
    cited
}

/// The file of specs/ that a file has a name from, and its name there: `use
/// Rattle.CRATE.specs.FILE.{NAME, NAME as NAME}`. The types of the code are
/// declared there too, and are no files.
fn used_as(text: &str, name: &str) -> Option<(String, String)> {
    text.lines().find_map(|line| {
        let (from, behind) = line.strip_prefix("use Rattle.")?.split_once(".specs.")?;
        let (path, names) = behind.trim_end_matches('}').split_once(".{")?;
        let mut pairs = names
            .split(", ")
            .map(|it| it.split_once(" as ").unwrap_or((it, it)));
        let (there, _) = pairs.find(|(_, here)| *here == name)?;
        let file = format!("crates/{from}/specs/{}.antt", path.replace('.', "/"));
        root(&file).exists().then(|| (file, there.to_string()))
    })
}

// ---- The trace.

/// A row has the words of the rules, and then definitions, theorems and tests:
/// `–`, or names with the place where each stands.
#[test]
fn every_row_of_the_trace_says_where_things_stand() {
    let (code, mut faults) = (Code::new(), Vec::new());
    let blocks = blocks(&text("docs/TRACE.md"));
    let rows: Vec<&[Block]> = blocks.chunk_by(|a, b| a.line == b.line).collect();
    let rows = rows.into_iter().filter(|cells| !cells[0].column.is_empty());
    let mut seen = 0;
    for cells in rows {
        let line = cells[0].line;
        if cells.len() != 4 {
            faults.push(format!(
                "docs/TRACE.md:{line}: {} cells, not 4",
                cells.len()
            ));
        }
        let items = cells[1..].iter().flat_map(|cell| cell.text.split("; "));
        for item in items.filter(|item| *item != "–") {
            let fault = fault_of_item(&code, item);
            faults.extend(fault.map(|it| format!("docs/TRACE.md:{line}: {it}")));
        }
        seen += 1;
    }
    assert!(seen > 0);
    assert_none(faults);
}

/// `NAME`, `NAME` (PATH), or a file or a folder alone in backticks.
fn fault_of_item(code: &Code, item: &str) -> Option<String> {
    let block = Block {
        text: item.to_string(),
        ..Block::default()
    };
    let (named, paths) = (block.named(), block.paths());
    if let ([file], []) = (&named[..], &paths[..]) {
        if file.name.contains('/') && resolved(&file.name, "").is_some() {
            return None;
        }
    }
    if named.is_empty() || paths.len() != 1 || !item.ends_with(&format!(" ({})", paths[0])) {
        return Some(format!("no names with their place: {item}"));
    }
    let place = resolved(&paths[0], "")?;
    let mut names = named.iter().map(|it| it.name.split(" : ").next());
    names.find_map(|name| fault_of_place(code, name.unwrap_or_default(), &place))
}
