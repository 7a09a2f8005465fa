//! The C side: the two compilers, and a folder for what they make.

use std::collections::BTreeSet;
use std::env;
use std::fs;
use std::path::{Path, PathBuf};
use std::process::{self, Command, Output};

use super::{root, text};

/// A folder of its own, which goes with its owner.
pub struct Folder(PathBuf);

impl Folder {
    /// Each test has another name, and each run another process.
    pub fn new(name: &str) -> Folder {
        let path = env::temp_dir().join(format!("ohakelm-{name}-{}", process::id()));
        let _ = fs::remove_dir_all(&path);
        if let Err(error) = fs::create_dir_all(&path) {
            panic!("{} cannot be made: {error}", path.display());
        }
        Folder(path)
    }

    pub fn path(&self) -> &Path {
        &self.0
    }

    pub fn file(&self, name: &str) -> PathBuf {
        self.0.join(name)
    }
}

impl Drop for Folder {
    fn drop(&mut self) {
        let _ = fs::remove_dir_all(&self.0);
    }
}

/// A C source of these tests.
pub fn source(name: &str) -> PathBuf {
    root("rust/tests/c").join(name)
}

/// The archive that the tests are linked with, as the build script finds it.
pub fn own_archive() -> PathBuf {
    let folder = match env::var_os("OHAKELM_LIB_DIR") {
        Some(folder) => root("rust").join(folder),
        None if cfg!(target_arch = "x86_64") => root("target/staticlib"),
        None if cfg!(target_os = "android") => root("target/aarch64-android"),
        None => root("target/aarch64"),
    };
    folder.join("libohakelm.a")
}

#[derive(Clone, Copy, Debug)]
pub enum Language {
    C,
    Cpp,
}

pub const BOTH: [Language; 2] = [Language::C, Language::Cpp];

const WARNINGS: [&str; 11] = [
    "-Werror",
    "-Wall",
    "-Wextra",
    "-pedantic",
    "-Wconversion",
    "-Wsign-conversion",
    "-Wshadow",
    "-Wcast-qual",
    "-Wundef",
    "-Wmissing-declarations",
    // Clang does not know all that gcc warns of, and says so otherwise.
    "-Wno-unknown-warning-option",
];

impl Language {
    /// `cc` or `c++`, or what the variable `CC` or `CXX` names, which may be a
    /// program with words behind it.
    pub fn compiler(self) -> Command {
        let (variable, usual) = match self {
            Language::C => ("CC", "cc"),
            Language::Cpp => ("CXX", "c++"),
        };
        let named = env::var(variable).unwrap_or_default();
        let mut words = named.split_whitespace();
        let mut command = Command::new(words.next().unwrap_or(usual));
        command.args(words);
        command
    }

    /// The compiler with all warnings as errors. Sources that follow are of
    /// this language, whatever their names end in.
    pub fn strict(self) -> Command {
        let mut command = self.compiler();
        command.args(WARNINGS).args(match self {
            Language::C => ["-std=c99", "-Wstrict-prototypes", "-Wc++-compat", "-xc"],
            Language::Cpp => ["-std=c++17", "-Wold-style-cast", "-Wuseless-cast", "-xc++"],
        });
        command
    }

    /// Compiles a source with the header of a folder, links it with the archive
    /// and runs it.
    pub fn build_and_run(self, source: &Path, include: &Path, folder: &Folder) -> Output {
        let program = folder.file("program");
        let mut command = self.strict();
        command.arg("-I").arg(include).arg(source);
        command.arg("-xnone").arg(own_archive());
        let built = output(command.arg("-o").arg(&program));
        if !built.status.success() {
            return built;
        }
        output(&mut Command::new(&program))
    }
}

/// What a C program prints that includes the header and runs these lines. It is
/// of 2011, which can ask for a type. Tests run side by side, so each has a name.
pub fn printed_by(name: &str, lines: &str) -> String {
    let folder = Folder::new(name);
    let (source, program) = (folder.file("program.c"), folder.file("program"));
    write(
        &source,
        &format!(
            "#include <stdio.h>\n#include \"ohakelm.h\"\nint main(void)\n{{\n{lines}\nreturn 0;\n}}\n"
        ),
    );
    let mut compiler = Language::C.compiler();
    compiler.args(["-std=c11", "-Wall", "-Wextra", "-Werror", "-I"]);
    compiler.arg(root("include")).arg(source);
    printed(compiler.arg("-o").arg(&program));
    printed(&mut Command::new(program))
}

pub fn write(path: &Path, text: &str) {
    if let Err(error) = fs::write(path, text) {
        panic!("{} cannot be written: {error}", path.display());
    }
}

/// What a command gives. A command that does not start is a failure.
pub fn output(command: &mut Command) -> Output {
    match command.output() {
        Ok(output) => output,
        Err(error) => panic!("{command:?} does not start: {error}"),
    }
}

/// Standard output of a command that must end well.
pub fn printed(command: &mut Command) -> String {
    let output = output(command);
    assert!(output.status.success(), "{command:?}\n{}", said(&output));
    String::from_utf8_lossy(&output.stdout).into_owned()
}

/// All that a command printed.
pub fn said(output: &Output) -> String {
    let (out, err) = (&output.stdout, &output.stderr);
    String::from_utf8_lossy(out).into_owned() + &String::from_utf8_lossy(err)
}

/// The names of the calls that the header declares. What is static is none.
pub fn calls_of_header() -> BTreeSet<String> {
    // A macro of several lines becomes one.
    let header = text("include/ohakelm.h").replace("\\\n", "");
    let code = without_comments(&header);
    let plain: Vec<&str> = code.lines().filter(|line| !line.starts_with('#')).collect();
    let plain = plain.join(" ");
    let declared = plain.split(';').filter(|part| !part.contains("static "));
    declared.filter_map(call_of).collect()
}

/// The name ahead of the first bracket, if it is one of the library's.
fn call_of(declaration: &str) -> Option<String> {
    let (ahead, _) = declaration.split_once('(')?;
    let name = ahead.split_whitespace().last()?;
    name.starts_with("ohakelm_").then(|| name.to_string())
}

fn without_comments(text: &str) -> String {
    let mut pieces = text.split("/*");
    let first = pieces.next().unwrap_or_default().to_string();
    let behind = pieces.filter_map(|piece| piece.split_once("*/"));
    behind.fold(first, |code, (_, rest)| code + rest)
}
