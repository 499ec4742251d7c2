//! Files of replay lines, for the port's replay program and the oracle's.

use std::io::{Read, Write};
use std::path::PathBuf;
use std::process::{Command, Stdio};

use crate::checker::{Checker, Stopped};
use crate::side::{Line, Side};
use protocol::Random;

/// The file of a script. Whether the last line keeps its line feed is a matter of its bytes, so that the script says
/// it all.
fn file(script: &[Line]) -> Vec<u8> {
    let mut bytes = script.join(&b'\n');
    let sum: u32 = script
        .last()
        .map_or(0, |line| line.iter().map(|byte| u32::from(*byte)).sum());
    if sum % 2 == 0 {
        bytes.push(b'\n');
    }
    bytes
}

/// One answer a line; a line without its answer is an error.
fn answers(output: &[u8], many: usize) -> Vec<String> {
    let text = String::from_utf8_lossy(output);
    let mut lines: Vec<String> = text.split_terminator('\n').map(str::to_string).collect();
    if lines.len() > many {
        lines.truncate(many);
        lines[many - 1].push_str(" and lines too many");
    }
    lines.resize(many, "err no answer".to_string());
    lines
}

/// The oracle's replay, in this process.
pub struct OracleReplay;

impl Side for OracleReplay {
    fn run(&mut self, script: &[Line]) -> Vec<String> {
        let mut output = Vec::new();
        match original::replay::replay(file(script).as_slice(), &mut output) {
            Ok(()) => answers(&output, script.len()),
            Err(error) => vec![format!("err {error}"); script.len()],
        }
    }
}

/// The port's program, started anew for each file.
pub struct ReplayProgram(PathBuf);

impl ReplayProgram {
    pub fn new(path: PathBuf) -> Self {
        Self(path)
    }

    fn output(&self, input: Vec<u8>) -> std::io::Result<Vec<u8>> {
        let mut child = Command::new(&self.0)
            .stdin(Stdio::piped())
            .stdout(Stdio::piped())
            .spawn()?;
        let (pipe, answers) = (child.stdin.take(), child.stdout.take());
        let feeder = std::thread::spawn(move || pipe.map(|mut pipe| pipe.write_all(&input)));
        let mut output = Vec::new();
        if let Some(mut answers) = answers {
            answers.read_to_end(&mut output)?;
        }
        let fed = feeder.join();
        let ended = child.wait()?;
        match fed {
            Ok(Some(Ok(()))) if ended.success() => Ok(output),
            _ => Err(std::io::Error::other("the program ended early")),
        }
    }
}

impl Side for ReplayProgram {
    fn run(&mut self, script: &[Line]) -> Vec<String> {
        match self.output(file(script)) {
            Ok(output) => answers(&output, script.len()),
            Err(error) => vec![format!("err {error}"); script.len()],
        }
    }
}

pub fn run(checker: &mut Checker, random: &mut Random, size: usize) -> Result<(), Stopped> {
    while checker.compared() < size {
        checker.case(&any_file(random))?;
    }
    Ok(())
}

fn any_file(random: &mut Random) -> Vec<Line> {
    let mut high = 1;
    let damage = random.pick(&[3, 20, 1000]);
    let lines = random.between(1, 400);
    (0..lines).map(|_| any_line(random, &mut high, damage)).collect()
}

fn any_line(random: &mut Random, high: &mut i64, damage: u64) -> Line {
    let near = |random: &mut Random, high: i64| match random.below(40) {
        0 => random.pick(&[i64::MIN, -1, 0, 1, i64::MAX - 1, i64::MAX]),
        1 => random.of_any_length() as i64,
        2..=9 => high.saturating_sub(random.between(0, 300)),
        _ => high.saturating_add(random.between(-3, 3)),
    };
    let first = near(random, *high);
    let (kind, second) = match random.below(20) {
        0..=11 => (1, random.of_any_length() as i64),
        12..=14 => (2, first.saturating_add(random.between(-1, 300))),
        15..=18 => (3, first.saturating_add(random.between(-2, 300))),
        _ => (random.pick(&[0, 1, 2, 3, 4, 255]), near(random, *high)),
    };
    if kind == 1 && first > *high && first - *high < 1000 {
        *high = first;
    }
    let text = format!("{kind:02x}{first:016x}{second:016x}");
    let cased: String = match random.below(3) {
        0 => text,
        1 => text.to_uppercase(),
        _ => text
            .chars()
            .map(|digit| {
                if random.once_in(2) {
                    digit.to_ascii_uppercase()
                } else {
                    digit
                }
            })
            .collect(),
    };
    let mut line = cased.into_bytes();
    if random.once_in(damage) {
        spoil(random, &mut line);
    }
    line
}

/// Damages a line, without making two of it.
fn spoil(random: &mut Random, line: &mut Line) {
    match random.below(7) {
        0 => line.clear(),
        1 => line.truncate(random.index(line.len())),
        2 => line.push(random.pick(b"0 \rg")),
        3 => line.insert(0, b' '),
        4 => line.extend(vec![b'0'; random.index(5000)]),
        _ => {
            let at = random.index(line.len());
            line[at] = random.bits() as u8;
        }
    }
    line.retain(|byte| *byte != b'\n');
}
