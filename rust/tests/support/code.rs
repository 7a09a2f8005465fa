//! What the repository declares: every name with the places where it stands.
//!
//! A place is a path from the repository's root: of a definition, a theorem, a
//! function, a type or a test the file, of a must-fail edit its folder, of a
//! crate the crate's.

use std::collections::{BTreeMap, BTreeSet};
use std::fs;

use super::c::calls_of_header;
use super::{root, text};

pub struct Code {
    places: BTreeMap<String, BTreeSet<String>>,
}

impl Code {
    pub fn new() -> Code {
        let mut code = Code {
            places: BTreeMap::new(),
        };
        for folder in inside("crates") {
            code.add(last_part(&folder), &folder);
        }
        for call in calls_of_header() {
            code.add(&call, "include/ohakelm.h");
        }
        let tests = files_below("rust/tests");
        for file in files_below("crates").iter().chain(&tests) {
            code.add_file(file);
        }
        code
    }

    /// Where a name stands.
    pub fn places(&self, name: &str) -> BTreeSet<String> {
        self.places.get(name).cloned().unwrap_or_default()
    }

    pub fn has(&self, name: &str) -> bool {
        self.places.contains_key(name)
    }

    pub fn has_one_ending_in(&self, end: &str) -> bool {
        self.places.keys().any(|name| name.ends_with(end))
    }

    fn add(&mut self, name: &str, place: &str) {
        let places = self.places.entry(name.to_string()).or_default();
        places.insert(place.to_string());
    }

    fn add_file(&mut self, file: &str) {
        let (path, end) = file.rsplit_once('.').unwrap_or((file, ""));
        match end {
            "edit" => {
                let (folder, name) = path.rsplit_once('/').unwrap_or_default();
                self.add(name, folder);
            }
            "antt" => self.add_all(declared_in_antt(&text(file)), file),
            "rt" => self.add_all(declared_in_rattle(&text(file)), file),
            "rs" => self.add_all(tests_in_rust(&text(file)), file),
            "c" | "cpp" => self.add_all(functions_in_c(&text(file)), file),
            _ => {}
        }
    }

    fn add_all(&mut self, names: Vec<String>, file: &str) {
        for name in names {
            self.add(&name, file);
        }
    }
}

// ---- Files.

/// The files and folders that a folder has. They are by their paths from the
/// repository's root, as it was given, and in order.
pub fn inside(folder: &str) -> Vec<String> {
    let Ok(entries) = fs::read_dir(root(folder)) else {
        panic!("there is no folder {folder}");
    };
    let names = entries.flatten().map(|entry| entry.file_name());
    let mut paths: Vec<String> = names
        .map(|name| format!("{folder}/{}", name.to_string_lossy()))
        .collect();
    paths.sort();
    paths
}

/// All files of a folder and of those in it, but for what was built.
pub fn files_below(folder: &str) -> Vec<String> {
    let (folders, mut files): (Vec<String>, Vec<String>) = inside(folder)
        .into_iter()
        .partition(|path| root(path).is_dir());
    for folder in folders
        .iter()
        .filter(|folder| !["target", "out"].contains(&last_part(folder)))
    {
        files.extend(files_below(folder));
    }
    files
}

fn last_part(path: &str) -> &str {
    path.rsplit('/').next().unwrap_or(path)
}

// ---- Declarations.

/// Words that may stand ahead of a declared name.
const AHEAD: [&str; 6] = ["pub", "abbrev", "unfoldable", "record", "data", "ruleset"];

/// Definitions, theorems, records with their fields and types with their cases:
/// all that begins a line or is `pub`. What a `where` has is not seen outside.
fn declared_in_antt(text: &str) -> Vec<String> {
    let definitions = definitions_in(text).into_iter();
    definitions
        .flat_map(|definition| definition.names)
        .collect()
}

/// A definition of a file: its name with those of its fields or cases, and all
/// words that it is stated with.
#[derive(Default)]
pub struct Definition {
    pub names: Vec<String>,
    pub words: BTreeSet<String>,
}

pub fn definitions_in(text: &str) -> Vec<Definition> {
    // The first one is for what stands ahead of all others.
    let mut definitions = vec![Definition::default()];
    let mut in_data = false;
    for line in text.lines().filter(|line| !line.starts_with("use ")) {
        let line = line.split("--").next().unwrap_or_default();
        let words: Vec<&str> = line.split_whitespace().collect();
        let ahead = words.iter().take_while(|word| AHEAD.contains(word));
        let (ahead, words) = words.split_at(ahead.count());
        let (first, typed) = (!line.starts_with(' '), words.get(1) == Some(&":"));
        let is_public = ahead.contains(&"pub");
        let begins = first && (!ahead.is_empty() || typed);
        if begins {
            in_data = ahead.contains(&"data");
            definitions.push(Definition::default());
        }
        let Some(definition) = definitions.last_mut() else {
            continue;
        };
        let named = words
            .first()
            .filter(|_| begins || is_public || in_data && typed);
        definition.names.extend(named.map(|name| name.to_string()));
        let words = line.split(|c: char| c.is_whitespace() || "(){}[];,.=λ".contains(c));
        definition.words.extend(words.map(String::from));
    }
    definitions
}

/// Functions, types, constants, and the lines of a type: its fields or its cases.
fn declared_in_rattle(text: &str) -> Vec<String> {
    let mut names = Vec::new();
    let mut in_type = false;
    for line in text.lines() {
        let words = line.trim_start();
        let words = words.strip_prefix("pub ").unwrap_or(words);
        let words = words.strip_prefix("extern \"C\" ").unwrap_or(words);
        let (first, rest) = words.split_once(' ').unwrap_or((words, ""));
        match first {
            "fn" | "const" | "struct" | "enum" | "type" => names.push(front_of(rest)),
            _ if in_type => names.push(front_of(words)),
            _ => {}
        }
        in_type = match first {
            "struct" | "enum" => line.ends_with('{'),
            _ => in_type && line != "}",
        };
    }
    names.retain(|name| !name.is_empty());
    names
}

fn tests_in_rust(text: &str) -> Vec<String> {
    let tests = text.split("#[test]\n").skip(1);
    let named = tests.filter_map(|test| test.split_once("fn "));
    named.map(|(_, name)| front_of(name)).collect()
}

/// Functions of the C sources, which are all static.
fn functions_in_c(text: &str) -> Vec<String> {
    let lines = text.lines().filter(|line| line.starts_with("static "));
    let fronts = lines.filter_map(|line| line.split_once('('));
    fronts
        .filter_map(|(front, _)| Some(front.split_whitespace().last()?.to_string()))
        .collect()
}

/// The letters, digits and underscores that a text begins with.
fn front_of(text: &str) -> String {
    let letters = text.chars();
    letters
        .take_while(|&c| c.is_alphanumeric() || c == '_')
        .collect()
}

// ---- Functions.

/// The names of a function's parameters and the type of its answer, without
/// lifetimes.
#[derive(Debug, PartialEq, Eq)]
pub struct Signature {
    pub parameters: Vec<String>,
    pub answer: String,
}

/// The public function of a crate with this name.
pub fn signature(crate_name: &str, function: &str) -> Option<Signature> {
    let source = text(format!("crates/{crate_name}/src/lib.rt"));
    let functions = source.split("\npub fn ").skip(1);
    let mut found = functions.filter(|text| front_of(text) == function);
    let (parameters, behind) = found.next()?.split_once('(')?.1.split_once(')')?;
    let parameters = parameters.split(',').map(str::trim);
    let answer = behind.lines().next()?.trim().strip_prefix("-> ")?;
    let answer = answer.trim_end_matches(" {").replace("&'a ", "&");
    Some(Signature {
        parameters: parameters
            .filter(|text| !text.is_empty())
            .map(front_of)
            .collect(),
        answer,
    })
}

/// The exports, as the crate has them.
pub fn exports() -> BTreeSet<String> {
    let source = text("crates/ohakelm_c/src/lib.rt");
    let exports = source
        .split("#[unsafe(no_mangle)]\npub extern \"C\" fn ")
        .skip(1);
    exports.map(front_of).collect()
}
