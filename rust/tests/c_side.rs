//! The C side: the header under all warnings, its macros over all codes, every
//! call from C and C++, the example as it is installed, and what the archives
//! have and need.
//!
//! `CC`, `CXX` and `NM` name other tools than `cc`, `c++` and `nm`.

mod support;

use std::collections::BTreeSet;
use std::env;
use std::fs;
use std::path::{Path, PathBuf};
use std::process::Command;

use support::c::{
    calls_of_header, output, own_archive, printed, said, source, write, Folder, Language, BOTH,
};
use support::{root, text};

// ---- The header

#[test]
fn the_header_alone_gives_no_warning() {
    for language in BOTH {
        let mut command = language.strict();
        command.arg("-I").arg(root("include")).arg("-fsyntax-only");
        let compiled = output(command.arg(source("header_alone.c")));
        assert_eq!(said(&compiled), "", "{language:?}");
        assert!(compiled.status.success(), "{language:?}");
    }
}

/// The sources that check the header and the calls, with their languages.
const SOURCES: [(Language, &str); 8] = [
    (Language::C, "entries.c"),
    (Language::C, "refusals.c"),
    (Language::C, "calls.c"),
    (Language::C, "constants.c"),
    (Language::Cpp, "entries.c"),
    (Language::Cpp, "refusals.c"),
    (Language::Cpp, "calls.c"),
    (Language::Cpp, "constants.cpp"),
];

#[test]
fn the_header_and_the_archive_are_as_the_rules_say() {
    let folder = Folder::new("sources");
    for (language, name) in SOURCES {
        let ran = language.build_and_run(&source(name), &root("include"), &folder);
        assert_eq!(said(&ran), "", "{language:?} {name}");
        assert!(ran.status.success(), "{language:?} {name}");
    }
}

/// Changes of the header that the sources must find, with the one that does.
const WRONG_HEADERS: [(&str, &str, &str); 21] = [
    ("(id) * 4096u", "(id) * 2048u", "entries.c"),
    ("(note) * 32u", "note * 32u", "entries.c"),
    (
        "(2u * 65536u + (code))",
        "2u * 65536u + (code)",
        "entries.c",
    ),
    ("(first) / 16u % 16u", "(first) / 16u % 4u", "entries.c"),
    ("(origin) / 256u", "(origin) / 256u % 16u", "entries.c"),
    ("(origin) % 256u", "origin % 256u", "entries.c"),
    ("(header) / 256u % 16u", "(header) / 256u", "entries.c"),
    ("\"pattern count zero\"", "\"no pattern\"", "refusals.c"),
    ("ITEM(20, ", "ITEM(19, ", "refusals.c"),
    ("ITEM(21, ", "ITEM(22, ", "refusals.c"),
    ("ITEM(26, ", "ITEM(22, ", "refusals.c"),
    ("ITEM(27, ", "ITEM(28, ", "refusals.c"),
    (
        "OHAKELM_TEMPORARY = 2",
        "OHAKELM_TEMPORARY = 3",
        "constants.c",
    ),
    (
        "#define OHAKELM_VERSION ",
        "#define OHAKELM_VERSION 1",
        "constants.c",
    ),
    (
        "OHAKELM_ENTRY_CELLS 3",
        "OHAKELM_ENTRY_CELLS 2",
        "constants.c",
    ),
    (
        "OHAKELM_LARGEST_PACK 65535",
        "OHAKELM_LARGEST_PACK 65536",
        "constants.c",
    ),
    (
        "OHAKELM_LARGEST_REPORT 16381",
        "OHAKELM_LARGEST_REPORT 16380",
        "constants.c",
    ),
    ("bool unicode;  ", "size_t unicode;  ", "calls.c"),
    (
        "size_t octets;   /* the new pack's octets */\n    size_t skipped;",
        "size_t skipped;\n    size_t octets;",
        "calls.c",
    ),
    (
        "size_t start;  /* the message's first octet in the pack */\n    size_t length;",
        "size_t length;\n    size_t start;",
        "calls.c",
    ),
    ("uint32_t microseconds;", "size_t microseconds;", "calls.c"),
];

/// The sources themselves must be able to fail.
#[test]
fn wrong_headers_are_found() {
    let folder = Folder::new("wrong");
    let header = text("include/ohakelm.h");
    for (right, wrong, name) in WRONG_HEADERS {
        assert!(header.contains(right), "the header has no {right}");
        write(&folder.file("ohakelm.h"), &header.replace(right, wrong));
        let ran = Language::C.build_and_run(&source(name), folder.path(), &folder);
        assert!(!ran.status.success(), "nobody noticed {wrong}");
    }
}

/// There is no archive for these, so the header must not compile.
#[test]
fn another_processor_or_system_is_an_error() {
    let words = "libohakelm.a is for Linux and Android on x86-64 and on 64-bit Arm";
    for (language, missing) in BOTH.into_iter().flat_map(|language| {
        let without: [&[&str]; 3] = [
            &["-U__linux__"],
            &["-U__x86_64__", "-U__AARCH64EL__"],
            &["-U__LP64__"],
        ];
        without.map(|missing| (language, missing))
    }) {
        let mut command = language.strict();
        command.args(missing).arg("-I").arg(root("include"));
        let compiled = output(command.arg("-fsyntax-only").arg(source("header_alone.c")));
        assert!(!compiled.status.success(), "{language:?} with {missing:?}");
        assert!(said(&compiled).contains(words), "{}", said(&compiled));
    }
}

// ---- Installing

/// P1 of the rules and its list, then P2 and its list. Scale 0 changes the note
/// from scale 1 to scale 0, moves it one position on, and nothing else.
const RING: &str = "\
02 4A 3A 80 40 00 51 C6 90 00
entries 1 return none
10 1 0 7 480000 0 1
02 4A 3A 80 40 00 71 C8 34 80 00
entries 1 return none
10 0 0 7 480000 0 2
";

#[test]
fn the_example_builds_with_what_is_installed() {
    let folder = Folder::new("installed");
    printed(Command::new(root("link/install")).arg(folder.path()));
    assert_installed(folder.path());
    let packages = Packages {
        path: folder.file("lib/pkgconfig"),
        sysroot: None,
    };
    assert_eq!(packages.ask(&["--modversion"]), [header_version()]);
    for language in BOTH {
        assert_rings(language, &packages, &folder);
    }
}

/// A package is put together in one place, and names the place where it goes.
#[test]
fn it_installs_below_destdir() {
    let folder = Folder::new("staged");
    let mut install = Command::new(root("link/install"));
    printed(install.arg("/usr/tones/").env("DESTDIR", folder.path()));
    let prefix = folder.file("usr/tones");
    assert_installed(&prefix);
    let described = text(prefix.join("lib/pkgconfig/ohakelm.pc"));
    assert!(described.starts_with("prefix=/usr/tones\n"), "{described}");
    let packages = Packages {
        path: prefix.join("lib/pkgconfig"),
        sysroot: Some(folder.path().to_path_buf()),
    };
    assert_rings(Language::C, &packages, &folder);
}

#[test]
fn it_installs_nowhere_without_a_whole_path_and_a_known_archive() {
    let folder = Folder::new("refused");
    let prefix = folder.file("new");
    let whole = prefix.to_string_lossy();
    let not_so: [&[&str]; 4] = [
        &[],
        &["prefix"],
        &[&whole, "sparc"],
        &[&whole, "x86_64", "more"],
    ];
    for words in not_so {
        let refused = output(Command::new(root("link/install")).args(words));
        assert_eq!(refused.status.code(), Some(1), "{words:?}");
        assert!(refused.stdout.is_empty() && !refused.stderr.is_empty());
        assert!(!prefix.exists(), "{words:?}");
    }
}

/// The three files are there, with the octets of the repository's.
fn assert_installed(prefix: &Path) {
    let installed = |name: &str| fs::read(prefix.join(name)).unwrap_or_default();
    let own = |name: &str| fs::read(root(name)).unwrap_or_default();
    let archive = match cfg!(target_arch = "x86_64") {
        true => "target/staticlib/libohakelm.a",
        false => "target/aarch64/libohakelm.a",
    };
    assert!(!own("include/ohakelm.h").is_empty() && !own(archive).is_empty());
    assert!(installed("include/ohakelm.h") == own("include/ohakelm.h"));
    assert!(installed("lib/libohakelm.a") == own(archive));
    assert!(!installed("lib/pkgconfig/ohakelm.pc").is_empty());
}

/// The example is compiled by what pkg-config says, and prints what it should.
fn assert_rings(language: Language, packages: &Packages, folder: &Folder) {
    let program = folder.file("ring");
    let mut command = language.strict();
    command.arg(root("examples/ring.c")).arg("-xnone");
    command.args(packages.ask(&["--cflags", "--libs"]));
    printed(command.arg("-o").arg(&program));
    assert_eq!(printed(&mut Command::new(&program)), RING, "{language:?}");
}

/// Where pkg-config is to look.
struct Packages {
    path: PathBuf,
    sysroot: Option<PathBuf>,
}

impl Packages {
    /// The words of its answer about this package.
    fn ask(&self, questions: &[&str]) -> Vec<String> {
        let mut command = Command::new("pkg-config");
        command.args(questions).arg("ohakelm");
        command.env("PKG_CONFIG_PATH", &self.path);
        if let Some(sysroot) = &self.sysroot {
            command.env("PKG_CONFIG_SYSROOT_DIR", sysroot);
        }
        let answer = printed(&mut command);
        answer.split_whitespace().map(String::from).collect()
    }
}

/// The version that the header names in words.
fn header_version() -> String {
    let header = text("include/ohakelm.h");
    let front = "#define OHAKELM_VERSION_STRING \"";
    let line = header.lines().find_map(|line| line.strip_prefix(front));
    line.unwrap_or_default().trim_end_matches('"').to_string()
}

// ---- The archives

#[test]
fn the_archives_have_the_calls_and_need_two_functions() {
    let calls = calls_of_header();
    assert_eq!(calls.len(), 19, "{calls:?}");
    let needed = BTreeSet::from(["memmove".to_string(), "memset".to_string()]);
    for archive in archives() {
        let Some(symbols) = symbols_of(&archive) else {
            println!("nm cannot read {}", archive.display());
            continue;
        };
        let of_kind = |kind: char| -> BTreeSet<String> {
            let these = symbols.iter().filter(|symbol| symbol.kind == kind);
            these.map(|symbol| symbol.name.clone()).collect()
        };
        let archive = archive.display();
        assert_eq!(of_kind('T'), calls, "{archive}");
        assert_eq!(of_kind('U'), needed, "{archive}");
        // Code and what is only read. So there are no variables. An `nm` of another
        // processor shows the marks of Arm between code and data too.
        let mut own = symbols
            .iter()
            .filter(|symbol| !symbol.name.starts_with('$'));
        let other = own.find(|symbol| !"TUtr".contains(symbol.kind));
        assert_eq!(other, None, "{archive}");
    }
}

/// All that are built, the one that the tests are linked with first.
fn archives() -> Vec<PathBuf> {
    let mut archives = vec![own_archive()];
    for folder in ["staticlib", "aarch64", "aarch64-android"] {
        let archive = root("target").join(folder).join("libohakelm.a");
        if archive.is_file() && !archives.contains(&archive) {
            archives.push(archive);
        }
    }
    archives
}

#[derive(Debug, PartialEq, Eq)]
struct Symbol {
    /// A letter of `nm`: a capital one is seen by the linker.
    kind: char,
    name: String,
}

/// The symbols of an archive. Only another processor's may be unreadable.
fn symbols_of(archive: &Path) -> Option<Vec<Symbol>> {
    let nm = env::var_os("NM").unwrap_or("nm".into());
    let listed = output(Command::new(nm).arg(archive));
    let lines = String::from_utf8_lossy(&listed.stdout);
    let symbols: Vec<Symbol> = lines.lines().filter_map(symbol).collect();
    if symbols.is_empty() && archive != own_archive() {
        return None;
    }
    assert!(listed.status.success(), "{}", said(&listed));
    Some(symbols)
}

/// Sixteen digits or spaces, a letter and a name. Other lines name a member.
fn symbol(line: &str) -> Option<Symbol> {
    let (front, name) = (line.get(..18)?, line.get(19..)?);
    let kind = front.chars().last()?;
    let value = &front[..16];
    let plain = value.chars().all(|c| c == ' ' || c.is_ascii_hexdigit());
    (plain && kind.is_ascii_alphabetic()).then(|| Symbol {
        kind,
        name: name.to_string(),
    })
}
