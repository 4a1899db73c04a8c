//! Links the archive that hosts/archive writes, and gives the wrapper the numbers of the C header.
use std::path::{Path, PathBuf};
use std::{env, fs};

/// A constant for each plain number of the header, by its name without STRATELYN_.
fn numbers(header: &str) -> String {
    let constant = |line: &str| {
        let (name, number) = line.strip_prefix("#define STRATELYN_")?.split_once(' ')?;
        let number: usize = number.parse().ok()?;
        Some(format!("pub const {name}: usize = {number};\n"))
    };
    header.lines().filter_map(constant).collect()
}

/// A file that has to be there. When it changes, the wrapper is built anew.
fn needed(path: PathBuf, what: &str) -> PathBuf {
    println!("cargo:rerun-if-changed={}", path.display());
    assert!(path.is_file(), "there is no {}, {what}", path.display());
    path
}

fn main() {
    let root = Path::new(env!("CARGO_MANIFEST_DIR")).join("../..");
    let header = needed(root.join("include/stratelyn.h"), "the core's header");
    let constants = numbers(&fs::read_to_string(header).expect("the header is text"));
    let out = PathBuf::from(env::var_os("OUT_DIR").expect("cargo names a folder"));
    fs::write(out.join("header.rs"), constants).expect("cargo's folder is there");
    let archives = root.join("target/staticlib");
    needed(archives.join("libstratelyn.a"), "which hosts/archive writes");
    println!("cargo:rustc-link-search=native={}", archives.display());
    println!("cargo:rustc-link-lib=static=stratelyn");
}
