//! Links the static library, which `rust/library` leaves in the repository's target folder;
//! DRUCENAL_LIB names another folder.

use std::path::PathBuf;

fn main() {
    println!("cargo:rerun-if-env-changed=DRUCENAL_LIB");
    let here = PathBuf::from(std::env::var_os("CARGO_MANIFEST_DIR").unwrap_or_default());
    let folder = match std::env::var_os("DRUCENAL_LIB") {
        Some(named) => here.join("../..").join(named),
        None => here.join("../../target/staticlib"),
    };
    let archive = folder.join("libdrucenal.a");
    println!("cargo:rerun-if-changed={}", archive.display());
    if !archive.is_file() {
        eprintln!("the static library was not found: run `rust/library` at the repository's root");
        std::process::exit(1);
    }
    println!("cargo:rustc-env=DRUCENAL_FOUND={}", folder.display());
    println!("cargo:rustc-link-search=native={}", folder.display());
    println!("cargo:rustc-link-lib=static=drucenal");
}
