//! Replay lines: the port's program beside the original's replay, each a process that reads the same file and writes to
//! one of its own.

use std::fs::File;
use std::io::{stdin, stdout, Write};
use std::path::{Path, PathBuf};
use std::process::{Command, ExitCode};

use protocol::{replay_program, Random};

use crate::rounds::Case;

pub const NAME: &str = "replay lines";
/// Asks this program to replay its input by the original.
pub const BY_ORIGINAL: &str = "--replay-by-the-original";

const LINES: usize = 50_000;

pub fn cases() -> Result<Vec<Box<dyn Case>>, String> {
    let broken = |error: std::io::Error| error.to_string();
    let folder = std::env::temp_dir().join(format!("drucenal-bench-{}", std::process::id()));
    std::fs::create_dir_all(&folder).map_err(broken)?;
    let case = Replay {
        port: replay_program()?,
        original: std::env::current_exe().map_err(broken)?,
        folder: Folder(folder),
    };
    let mut input = File::create(case.folder.input()).map_err(broken)?;
    input.write_all(recording().as_bytes()).map_err(broken)?;
    Ok(vec![Box::new(case)])
}

pub fn by_original() -> ExitCode {
    match original::replay::replay(stdin(), stdout()) {
        Ok(()) => ExitCode::SUCCESS,
        Err(_) => ExitCode::FAILURE,
    }
}

/// Receipts, one in ten late by up to fifty; a heartbeat after each eight, a gap after each hundred.
fn recording() -> String {
    let mut random = Random::new(7);
    let mut late = Vec::new();
    let mut lines = String::new();
    let mut say = |kind: u8, first: i64, second: i64| lines += &format!("{kind:02X}{first:016X}{second:016X}\n");
    let mut number = 0;
    for line in 0..LINES as i64 {
        match line % 100 {
            99 => {
                say(2, number + 1, number + 5);
                number += 4;
            }
            rest if rest % 8 == 7 => say(3, number.max(100) - 99, number),
            rest if rest % 10 == 0 && late.len() > 5 => say(1, late.remove(0), line),
            _ => {
                number += 1;
                if random.once_in(10) {
                    late.push(number);
                    number += 1;
                }
                say(1, number, line);
            }
        }
    }
    lines
}

/// The files of a run, gone with it.
struct Folder(PathBuf);

impl Folder {
    fn input(&self) -> PathBuf {
        self.0.join("input")
    }

    fn output(&self, side: &str) -> PathBuf {
        self.0.join(side)
    }
}

impl Drop for Folder {
    fn drop(&mut self) {
        let _ = std::fs::remove_dir_all(&self.0);
    }
}

struct Replay {
    original: PathBuf,
    port: PathBuf,
    folder: Folder,
}

impl Replay {
    /// The length of what the program wrote.
    fn run(&self, program: &Path, side: &str, words: &[&str]) -> u64 {
        let broken = "the replay's files are there";
        let input = File::open(self.folder.input()).expect(broken);
        let output = File::create(self.folder.output(side)).expect(broken);
        let mut command = Command::new(program);
        let ended = command.args(words).stdin(input).stdout(output).status();
        assert!(ended.is_ok_and(|status| status.success()), "{side} ended otherwise");
        std::fs::metadata(self.folder.output(side)).expect(broken).len()
    }
}

impl Case for Replay {
    fn name(&self) -> &str {
        NAME
    }

    fn calls(&self) -> usize {
        LINES
    }

    fn original(&mut self) -> u64 {
        self.run(&self.original, "original", &[BY_ORIGINAL])
    }

    fn port(&mut self) -> u64 {
        self.run(&self.port, "port", &[])
    }

    fn agree(&self) -> bool {
        let wrote = |side| std::fs::read(self.folder.output(side)).unwrap_or_default();
        let port = wrote("port");
        port.iter().filter(|byte| **byte == b'\n').count() == LINES && port == wrote("original")
    }
}
