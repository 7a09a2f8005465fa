//! What the tests share: the implementations under one roof, the makers of
//! inputs, and lent buffers with guard cells around them.

// Each test takes what it needs of this.
#![allow(dead_code)]

pub mod c;
pub mod calls;
pub mod cases;
pub mod code;
pub mod codecs;
pub mod compare;
pub mod document;
pub mod heard;
pub mod inputs;
pub mod kinds;
pub mod largest;
pub mod lent;
pub mod lists;
pub mod logos;
pub mod measured;
pub mod mispacks;
pub mod missalvages;
pub mod origins;
pub mod packing;
pub mod packs;
pub mod rng;
pub mod salvages;
pub mod salvaging;
pub mod tones;
pub mod worst;

use std::fs::read_to_string;
use std::path::{Path, PathBuf};

/// A file or a folder, by its path from the repository's root.
pub fn root(path: impl AsRef<Path>) -> PathBuf {
    Path::new(env!("CARGO_MANIFEST_DIR")).join("..").join(path)
}

/// The text of a file, by its path from the repository's root.
pub fn text(path: impl AsRef<Path>) -> String {
    let path = root(path);
    match read_to_string(&path) {
        Ok(text) => text,
        Err(error) => panic!("{}: {error}", path.display()),
    }
}

/// Octets as hexadecimal digits.
pub fn hex(octets: &[u8]) -> String {
    octets.iter().map(|octet| format!("{octet:02X}")).collect()
}

/// The octets of hexadecimal digits. Spaces do not count.
pub fn octets(digits: &str) -> Vec<u8> {
    let digits: Vec<u32> = digits.chars().filter_map(|c| c.to_digit(16)).collect();
    digits
        .chunks(2)
        .map(|pair| (pair[0] * 16 + pair[1]) as u8)
        .collect()
}
