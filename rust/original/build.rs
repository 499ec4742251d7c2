//! Finds the original's files: in the folder that RUSTDDS_SRC names, else in the shared folder beside the repository.

use std::path::PathBuf;

const FILES: [&str; 3] = [
    "src/structure/sequence_number.rs",
    "src/rtps/fragment_assembler.rs",
    "src/rtps/rtps_writer_proxy.rs",
];

fn main() {
    println!("cargo:rerun-if-env-changed=RUSTDDS_SRC");
    let here = PathBuf::from(std::env::var_os("CARGO_MANIFEST_DIR").unwrap_or_default());
    let folder = match std::env::var_os("RUSTDDS_SRC") {
        Some(named) => here.join("../..").join(named),
        None => here.join("../../../shared/docs/src"),
    };
    for file in FILES {
        let path = folder.join(file);
        println!("cargo:rerun-if-changed={}", path.display());
        if !path.is_file() {
            eprintln!("the Rust sources were not found: set RUSTDDS_SRC to a folder that holds {file}");
            std::process::exit(1);
        }
    }
    println!("cargo:rustc-env=RUSTDDS_FOUND={}", folder.display());
}
