//! The two sides of a comparison: each answers a script, line by line.

use std::io::{BufRead, BufReader, BufWriter, Result, Write};
use std::process::{Child, ChildStdout, Command, Stdio};
use std::sync::mpsc::{channel, Sender};

use protocol::{answer, Commands};

/// A line without its line feed.
pub type Line = Vec<u8>;

/// The answer of a program that is no longer there.
pub const ENDED: &str = "err the program has ended";

pub trait Side {
    /// One answer a line.
    fn run(&mut self, script: &[Line]) -> Vec<String>;
}

/// Called in this process.
pub struct InProcess<P>(pub P);

impl<P: Commands> Side for InProcess<P> {
    fn run(&mut self, script: &[Line]) -> Vec<String> {
        script.iter().map(|line| answer(&mut self.0, line)).collect()
    }
}

/// A program that speaks the protocol. Lines go to it from a thread of their own, so that neither side waits for the
/// other with a full pipe.
pub struct Program {
    child: Child,
    lines: Sender<Vec<u8>>,
    answers: BufReader<ChildStdout>,
}

impl Program {
    pub fn start(path: &str) -> Result<Self> {
        let mut command = Command::new(path);
        let mut child = command
            .arg("--batch")
            .stdin(Stdio::piped())
            .stdout(Stdio::piped())
            .spawn()?;
        let (Some(input), Some(output)) = (child.stdin.take(), child.stdout.take()) else {
            return Err(std::io::Error::other("the program has no pipes"));
        };
        let (lines, received) = channel::<Vec<u8>>();
        std::thread::spawn(move || {
            let mut input = BufWriter::new(input);
            for block in received {
                if input.write_all(&block).and_then(|()| input.flush()).is_err() {
                    return;
                }
            }
        });
        Ok(Self {
            child,
            lines,
            answers: BufReader::new(output),
        })
    }
}

impl Side for Program {
    fn run(&mut self, script: &[Line]) -> Vec<String> {
        let mut block = script.join(&b'\n');
        block.push(b'\n');
        // Where the program has ended, the answers below say so.
        let _ = self.lines.send(block);
        let mut answer = |_| {
            let mut line = String::new();
            match self.answers.read_line(&mut line) {
                Ok(length) if length > 0 => line.trim_end_matches('\n').to_string(),
                _ => ENDED.to_string(),
            }
        };
        (0..script.len()).map(&mut answer).collect()
    }
}

impl Drop for Program {
    fn drop(&mut self) {
        let _ = self.child.kill();
        let _ = self.child.wait();
    }
}
