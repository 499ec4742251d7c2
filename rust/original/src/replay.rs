//! Document 01's replay lines over the original's proxy, as a Rust program would do them: no string is made on the way.

use std::io::{self, BufRead, BufReader, BufWriter, Read, Write};

use protocol::{Proxy, Reply, Stop};

use crate::Oracle;

const DIGITS: usize = 34;
const ROOM: usize = 256;

fn digit(byte: u8) -> Option<u8> {
    match byte {
        b'0'..=b'9' => Some(byte - b'0'),
        b'a'..=b'f' => Some(byte - b'a' + 10),
        b'A'..=b'F' => Some(byte - b'A' + 10),
        _ => None,
    }
}

/// The frame's bytes, where the line has as many digits and nothing else.
fn bytes(line: &[u8]) -> Option<[u8; DIGITS / 2]> {
    let line: &[u8; DIGITS] = line.try_into().ok()?;
    let mut bytes = [0; DIGITS / 2];
    for (byte, pair) in bytes.iter_mut().zip(line.chunks_exact(2)) {
        *byte = digit(pair[0])? << 4 | digit(pair[1])?;
    }
    Some(bytes)
}

/// A frame's kind and two numbers; none where the line does not read, or for any other kind.
fn frame(line: &[u8]) -> Option<(u8, i64, i64)> {
    let bytes = bytes(line)?;
    let number = |at: usize| bytes[at..].first_chunk::<8>().map(|eight| i64::from_be_bytes(*eight));
    match bytes[0] {
        kind @ 1..=3 => Some((kind, number(1)?, number(9)?)),
        _ => None,
    }
}

/// Answers one line.
fn answer(oracle: &mut Oracle, line: &[u8], output: &mut impl Write) -> io::Result<()> {
    let Some((kind, first, second)) = frame(line) else {
        return writeln!(output, "0 1 {}", base(oracle)?);
    };
    let reply = match kind {
        1 => oracle.px_recv(first, second as u64).map(|_| None),
        2 => oracle.px_range(first, second).map(|_| None),
        _ => oracle.px_miss(first, second, Some(ROOM)).map(Some),
    };
    let (refusal, list) = match reply {
        Ok(list) => (0, list),
        Err(Stop::Refused(number)) => (number, None),
        Err(stop) => return Err(failed(stop)),
    };
    write!(output, "{kind} {refusal} {}", base(oracle)?)?;
    if let Some(numbers) = list {
        write!(output, " {}", numbers.len())?;
        numbers.iter().try_for_each(|number| write!(output, " {number}"))?;
    }
    writeln!(output)
}

fn base(oracle: &mut Oracle) -> io::Result<i64> {
    let base: Reply<i64> = oracle.base();
    base.map_err(failed)
}

fn failed(stop: Stop) -> io::Error {
    io::Error::other(format!("{stop:?}"))
}

/// Replays the input's lines; a line that could not be answered at all is an error of the oracle itself.
pub fn replay(input: impl Read, output: impl Write) -> io::Result<()> {
    let mut oracle = Oracle::new();
    let mut input = BufReader::with_capacity(1 << 16, input);
    let mut output = BufWriter::with_capacity(1 << 16, output);
    let mut line = Vec::new();
    oracle.px_new().map_err(failed)?;
    while input.read_until(b'\n', &mut line)? > 0 {
        if line.last() == Some(&b'\n') {
            line.pop();
        }
        answer(&mut oracle, &line, &mut output)?;
        line.clear();
    }
    output.flush()
}

#[cfg(test)]
mod tests {
    #[test]
    fn the_documents_example() {
        let lines = "010000000000000001000000000000000A\n\
                     010000000000000003000000000000000B\n\
                     0300000000000000010000000000000004\n\
                     0200000000000000020000000000000003\n\
                     0300000000000000010000000000000004";
        let mut output = Vec::new();
        super::replay(lines.as_bytes(), &mut output).unwrap();
        let expected = "1 0 2\n1 0 2\n3 0 2 2 2 4\n2 0 4\n3 0 4 1 4\n";
        assert_eq!(String::from_utf8(output).unwrap(), expected);
    }

    #[test]
    fn lines_that_do_not_read() {
        let long = "0".repeat(35);
        let bad = ["", "01", &long[..34], &long, "01000000000000000000000000000000+0", "é"];
        let lines = bad.map(|line| format!("{line}\n")).concat();
        let mut output = Vec::new();
        super::replay(lines.as_bytes(), &mut output).unwrap();
        assert_eq!(String::from_utf8(output).unwrap(), "0 1 1\n".repeat(bad.len()));
    }
}
