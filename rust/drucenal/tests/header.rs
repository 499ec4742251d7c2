//! The C header: it names what the library exports, and a C program over it compiles, links and runs.

use std::collections::BTreeSet;
use std::path::{Path, PathBuf};
use std::process::Command;

fn repository() -> PathBuf {
    Path::new(env!("CARGO_MANIFEST_DIR")).join("../..")
}

fn text(path: impl AsRef<Path>) -> String {
    std::fs::read_to_string(&path).unwrap_or_else(|error| panic!("{}: {error}", path.as_ref().display()))
}

/// The names of calls in a text, where they are followed by their arguments.
fn calls(text: &str) -> BTreeSet<String> {
    let ends_name = |byte: char| !byte.is_ascii_alphanumeric() && byte != '_';
    let starts = text.match_indices("drucenal_").map(|(at, _)| &text[at..]);
    let names = starts.filter_map(|rest| rest.find(ends_name).map(|end| rest.split_at(end)));
    let called = names.filter(|(_, rest)| rest.starts_with('('));
    called.map(|(name, _)| name.to_string()).collect()
}

/// How many calls the library exports.
const EXPORTS: usize = 32;

#[test]
fn the_header_names_every_export() {
    let sources = std::fs::read_dir(repository().join("crates/drucenal_c/src")).expect("the library's sources");
    let sources = sources.map(|file| text(file.expect("a file").path()));
    let exported: BTreeSet<String> = sources.flat_map(|source| calls(&source)).collect();
    let header = calls(&text(repository().join("include/drucenal.h")));
    assert_eq!(header, exported);
    assert_eq!(exported.len(), EXPORTS);
    let program = calls(&text(Path::new(env!("CARGO_MANIFEST_DIR")).join("tests/header.c")));
    assert_eq!(program, exported, "the C program makes every call");
}

#[test]
fn a_c_program_links_and_runs() {
    let here = Path::new(env!("CARGO_MANIFEST_DIR")).join("tests/header.c");
    let program = Path::new(env!("CARGO_TARGET_TMPDIR")).join("header");
    let compiled = Command::new("cc")
        .args(["-std=c99", "-Wall", "-Wextra", "-Werror", "-pedantic", "-O1", "-I"])
        .arg(repository().join("include"))
        .arg(here)
        .arg("-L")
        .arg(env!("DRUCENAL_FOUND"))
        .args(["-ldrucenal", "-o"])
        .arg(&program)
        .output()
        .expect("a C compiler is there as `cc`");
    assert!(
        compiled.status.success(),
        "{}",
        String::from_utf8_lossy(&compiled.stderr)
    );
    let ran = Command::new(program).output().expect("the program starts");
    let said = String::from_utf8_lossy(&ran.stdout);
    assert!(ran.status.success(), "{said}");
    assert_eq!(said, "the header's calls answered as they should\n");
}
