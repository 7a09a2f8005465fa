//! Links the proved static library.
//!
//! `link/archives` writes it below `../target`. The variable `OHAKELM_LIB_DIR`
//! names another folder.

use std::env;
use std::path::{Path, PathBuf};
use std::process::exit;

fn main() {
    println!("cargo:rerun-if-env-changed=OHAKELM_LIB_DIR");
    let folder = library_folder();
    let archive = folder.join("libohakelm.a");
    println!("cargo:rerun-if-changed={}", archive.display());
    if !archive.is_file() {
        eprintln!("There is no library at {}.", archive.display());
        eprintln!("Make it with `link/archives` in the repository's root, or set");
        eprintln!("OHAKELM_LIB_DIR to the folder that holds libohakelm.a.");
        exit(1);
    }
    println!("cargo:rustc-link-search=native={}", folder.display());
    println!("cargo:rustc-link-lib=static=ohakelm");
}

fn library_folder() -> PathBuf {
    if let Some(folder) = env::var_os("OHAKELM_LIB_DIR") {
        return PathBuf::from(folder);
    }
    let processor = env::var("CARGO_CFG_TARGET_ARCH").unwrap_or_default();
    let system = env::var("CARGO_CFG_TARGET_OS").unwrap_or_default();
    let folder = match (&processor[..], &system[..]) {
        ("x86_64", "linux" | "android") => "../target/staticlib",
        ("aarch64", "linux") => "../target/aarch64",
        ("aarch64", "android") => "../target/aarch64-android",
        _ => {
            eprintln!("The library is for Linux and Android on x86-64 and on 64-bit Arm.");
            exit(1);
        }
    };
    package_folder().join(folder)
}

fn package_folder() -> PathBuf {
    let folder = env::var_os("CARGO_MANIFEST_DIR").unwrap_or_default();
    Path::new(&folder).to_path_buf()
}
