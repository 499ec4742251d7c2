//! The loop of a program that speaks the protocol.

use std::io::{self, BufRead, BufReader, BufWriter, Read, Write};

use crate::answer::answer;
use crate::commands::Commands;

/// A longer line gets an error and is otherwise passed over, so that no line can use up the memory.
pub const LONGEST_LINE: u64 = 1 << 25;

/// Answers every line of the input. Each answer is flushed; in a batch, only where no more input has been read yet.
pub fn serve<P: Commands>(side: &mut P, input: impl Read, output: impl Write, batch: bool) -> io::Result<()> {
    let mut input = BufReader::with_capacity(1 << 16, input);
    let mut output = BufWriter::with_capacity(1 << 16, output);
    let mut line = Vec::new();
    loop {
        line.clear();
        if input.by_ref().take(LONGEST_LINE).read_until(b'\n', &mut line)? == 0 {
            return output.flush();
        }
        if line.last() == Some(&b'\n') {
            line.pop();
            writeln!(output, "{}", answer(side, &line))?;
        } else if (line.len() as u64) < LONGEST_LINE {
            writeln!(output, "{}", answer(side, &line))?;
        } else {
            input.skip_until(b'\n')?;
            writeln!(output, "err a line too long")?;
        }
        if !batch || input.buffer().is_empty() {
            output.flush()?;
        }
    }
}

#[cfg(test)]
mod tests {
    use super::*;
    use crate::commands::{Assembler, Numbers, Proxy, Sets};

    /// Has no call at all: a line that reads gets `err not here yet`.
    struct Nothing;

    impl Numbers for Nothing {}
    impl Sets for Nothing {}
    impl Proxy for Nothing {}
    impl Assembler for Nothing {}

    fn served(input: &[u8]) -> Vec<String> {
        let mut output = Vec::new();
        serve(&mut Nothing, input, &mut output, false).unwrap();
        let text = String::from_utf8(output).unwrap();
        text.lines().map(str::to_string).collect()
    }

    #[test]
    fn well_formed_lines_reach_their_command() {
        let lines = "num.write seq big -9223372036854775808
num.write frag little 4294967295 room=0
num.read seq big -
num.read frag little aAfF0123
set.read seq big 00
set.write frag big 1 2 FfFf,0 room=3
set.walk seq down -1 4294967295 -
set.len frag 0 0 00000000,1,2,3,4,5,6,7
set.make seq 1 -
set.make frag 1 3,2,1
px.new A
px.recv any-name 1 18446744073709551615
px.irr A 1
px.range A 2 1
px.upto A -1
px.ign A 1
px.stat A 1
px.miss A 1 2 room=1048576
px.ack A
px.setack A -2147483648
px.dump A
px.end A
asm.new A 65535 besteffort 4294967295
asm.frag A 0 1 2 3 4 5 - area=0
asm.clean A 1
asm.missing A 1 room=1
asm.has A 1
asm.view A 1 18446744073709551615
asm.places A
asm.last A
asm.dump A
asm.bytes A 0 0
asm.end A";
        for (line, said) in lines.lines().zip(served(lines.as_bytes())) {
            assert_eq!(said, "err not here yet", "{line}");
        }
    }

    #[test]
    fn malformed_lines_get_an_error_and_no_more() {
        let lines: &[&[u8]] = &[
            b"",
            b" ",
            b"num",
            b"num.",
            b"num.write",
            b"NUM.WRITE seq big 1",
            b" num.write seq big 1",
            b"num.write seq big 1 ",
            b"num.write  seq big 1",
            b"num.write seq big 1 2",
            b"num.write seq big 1\r",
            b"num.write seq big +1",
            b"num.write seq big -",
            b"num.write seq big 0x1",
            b"num.write seq big 9223372036854775808",
            b"num.write seq big 99999999999999999999999999999999999999999999999999",
            b"num.write frag big -1",
            b"num.write frag big 4294967296",
            b"num.write byte big 1",
            b"num.write seq middle 1",
            b"num.write seq big 1 room=-1",
            b"num.write seq big 1 room=1048577",
            b"num.write seq big 1 room=18446744073709551616",
            b"num.write seq big 1 area=1",
            b"num.read seq big 0",
            b"num.read seq big 0g",
            b"num.read seq big 00-",
            b"num.read seq big \xff\xfe",
            b"set.len seq 1 4294967296 0",
            b"set.len seq 1 1 000000000",
            b"set.len seq 1 1 1,2,3,4,5,6,7,8,9",
            b"set.len seq 1 1 1,,2",
            b"set.len seq 1 1 ,",
            b"set.make seq 1 1,",
            b"set.make seq 1 1;2",
            b"set.make frag 1 1,4294967296",
            b"set.walk seq sideways 1 1 0",
            b"px.recv A 1 -1",
            b"px.recv A 1 18446744073709551616",
            b"px.setack A 2147483648",
            b"px.new",
            b"px.new A B",
            b"asm.new A 65536 reliable 1",
            b"asm.new A 1 perhaps 1",
            b"asm.frag A 0 1 2 3 4 65536 -",
            b"asm.frag A 0 1 2 3 4 5",
            b"asm.frag A 0 1 2 3 4 5 - area=16777217",
            b"asm.bytes A -1 0",
            b"\0",
            b"\xc3\x28 \xff",
        ];
        for line in lines {
            let said = served(&[line, b"\npx.new A".as_slice()].concat());
            assert_eq!(said.len(), 2, "{line:?}");
            assert!(
                said[0].starts_with("err ") && said[0] != "err not here yet",
                "{line:?}: {}",
                said[0]
            );
            assert_eq!(said[1], "err not here yet");
        }
    }

    #[test]
    fn every_line_is_answered() {
        assert_eq!(served(b"").len(), 0);
        assert_eq!(served(b"\n").len(), 1);
        assert_eq!(served(b"\n\nx").len(), 3);
        let mut long = vec![b'0'; LONGEST_LINE as usize + 9];
        long.extend(b"\npx.new A\n");
        assert_eq!(served(&long), ["err a line too long", "err not here yet"]);
    }
}
