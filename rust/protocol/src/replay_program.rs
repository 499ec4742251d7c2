//! Where the port's replay program is.

use std::path::{Path, PathBuf};

const PROGRAM: &str = "target/bin/replay";

/// The program that `rust/library` leaves in the repository: that of these sources, else the one above the current
/// folder. Where there is none, what to run.
pub fn replay_program() -> Result<PathBuf, String> {
    let of_these_sources = Path::new(env!("CARGO_MANIFEST_DIR")).join("../..");
    let here = std::env::current_dir().unwrap_or_default();
    let folders = [of_these_sources.as_path()].into_iter().chain(here.ancestors());
    let mut programs = folders.map(|folder| folder.join(PROGRAM));
    match programs.find(|program| program.is_file()) {
        Some(program) => Ok(program),
        None => Err(format!("no {PROGRAM}: run `rust/library` at the repository's root")),
    }
}
