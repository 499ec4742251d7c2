//! Runs scripts on both sides, compares every answer, and shrinks the first script that shows a difference.

use std::fmt;
use std::time::{Duration, Instant};

use crate::model;
use crate::side::{Line, Side, ENDED};
use crate::tally::{grouped, Count, Tally};

/// From this size on a part runs its exhaustive scripts too.
pub const EXHAUSTIVE: usize = 100_000;

/// Why a run ended early.
#[derive(Debug)]
pub enum Stopped {
    Different {
        script: Vec<Line>,
        port: String,
        expected: String,
    },
    Broken(String),
}

impl fmt::Display for Stopped {
    fn fmt(&self, out: &mut fmt::Formatter<'_>) -> fmt::Result {
        match self {
            Self::Broken(why) => write!(out, "{why}"),
            Self::Different { script, port, expected } => {
                writeln!(out, "a difference, after")?;
                for line in script {
                    writeln!(out, "    {}", String::from_utf8_lossy(line))?;
                }
                writeln!(out, "  port      {port}")?;
                write!(out, "  expected  {expected}")
            }
        }
    }
}

/// What one line shows.
enum Verdict {
    Same,
    /// The original panicked: the chain ends, and the port answered by the document where the model says how.
    Outside,
    /// Neither side takes the line for a command.
    NoCommand,
    Different(String),
}

fn judge(script: &[Line], at: usize, port: &str, oracle: &str) -> Verdict {
    // Only the oracle itself, on the port's side, panics too.
    if oracle == "err panic" && port != oracle {
        let before = at.checked_sub(1).map(|before| script[before].as_slice());
        return match model::answer(&script[at], before) {
            Some(expected) if expected != port => Verdict::Different(expected),
            None if port.starts_with("err ") => Verdict::Different("no error".to_string()),
            _ => Verdict::Outside,
        };
    }
    match port == oracle {
        true if oracle == "err panic" => Verdict::Outside,
        true if oracle.starts_with("err ") => Verdict::NoCommand,
        true => Verdict::Same,
        false => Verdict::Different(oracle.to_string()),
    }
}

pub struct Checker {
    name: String,
    port: Box<dyn Side>,
    oracle: Box<dyn Side>,
    pub tally: Tally,
    /// From the first script on.
    start: Instant,
    shown: Instant,
}

impl Checker {
    pub fn new(name: &str, port: Box<dyn Side>, oracle: Box<dyn Side>) -> Self {
        Self {
            name: name.to_string(),
            port,
            oracle,
            tally: Tally::default(),
            start: Instant::now(),
            shown: Instant::now(),
        }
    }

    /// Runs a script that stands for itself: what it needs it sets up.
    pub fn case(&mut self, script: &[Line]) -> Result<(), Stopped> {
        if self.tally.of(Count::Cases) == 0 {
            self.start = Instant::now();
        }
        let port = self.port.run(script);
        let oracle = self.oracle.run(script);
        self.progress();
        self.tally.add(Count::Cases, 1);
        if port.iter().chain(&oracle).any(|answer| answer == ENDED) {
            return Err(Stopped::Broken(format!(
                "a program ended in this script:\n{}",
                text(script)
            )));
        }
        for (at, line) in script.iter().enumerate() {
            match judge(script, at, &port[at], &oracle[at]) {
                Verdict::Same => self.tally.line(line, &port[at]),
                Verdict::Outside => {
                    self.tally.line(line, &port[at]);
                    self.tally.add(Count::Panics, 1);
                    return Ok(());
                }
                Verdict::NoCommand => {
                    let line = String::from_utf8_lossy(line);
                    return Err(Stopped::Broken(format!("no command: {line} ({})", port[at])));
                }
                Verdict::Different(_) => return Err(self.shrink(script[..=at].to_vec())),
            }
        }
        Ok(())
    }

    /// Each line for itself.
    pub fn lines(&mut self, lines: &[Line]) -> Result<(), Stopped> {
        lines.chunks(1).try_for_each(|line| self.case(line))
    }

    /// The first difference of a script on fresh objects: where, and both answers.
    fn difference(&mut self, script: &[Line]) -> Option<(usize, String, String)> {
        let ends = [b"px.end x".to_vec(), b"asm.end x".to_vec()];
        self.port.run(&ends);
        self.oracle.run(&ends);
        let port = self.port.run(script);
        let oracle = self.oracle.run(script);
        for at in 0..script.len() {
            match judge(script, at, &port[at], &oracle[at]) {
                Verdict::Different(expected) => return Some((at, port[at].clone(), expected)),
                Verdict::Outside => return None,
                _ => {}
            }
        }
        None
    }

    /// Leaves lines out, by halves, then one by one, as long as a difference stays.
    fn shrink(&mut self, mut script: Vec<Line>) -> Stopped {
        let Some(mut shown) = self.difference(&script) else {
            return Stopped::Broken(format!("a difference that does not come again:\n{}", text(&script)));
        };
        let mut size = script.len().div_ceil(2);
        loop {
            let mut left_out = false;
            let mut at = 0;
            while at < script.len() {
                let end = (at + size).min(script.len());
                let shorter = [&script[..at], &script[end..]].concat();
                match self.difference(&shorter) {
                    Some(difference) => {
                        script = shorter[..=difference.0].to_vec();
                        shown = difference;
                        left_out = true;
                    }
                    None => at += size,
                }
            }
            if size == 1 && !left_out {
                break;
            }
            size = size.div_ceil(2);
        }
        let (_, port, expected) = shown;
        Stopped::Different { script, port, expected }
    }

    /// How many answers were compared.
    pub fn compared(&self) -> usize {
        self.tally.of(Count::Answers)
    }

    fn progress(&mut self) {
        if self.shown.elapsed() > Duration::from_secs(5) {
            self.shown = Instant::now();
            let a_second = self.compared() as f64 / self.start.elapsed().as_secs_f64();
            eprintln!(
                "{}: {} compared, {} a second",
                self.name,
                grouped(self.compared()),
                grouped(a_second as usize)
            );
        }
    }

    /// Says that the part is done.
    pub fn close(&self) {
        eprintln!(
            "{}: {} compared in {} s, 0 differences",
            self.name,
            grouped(self.compared()),
            self.start.elapsed().as_secs()
        );
    }
}

fn text(script: &[Line]) -> String {
    String::from_utf8_lossy(&script.join(&b'\n')).into_owned()
}
