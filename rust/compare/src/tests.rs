//! Hidden faults must be found, and shrunk to the script that they need.

use original::Oracle;
use protocol::answer;

use crate::checker::{Checker, Stopped};
use crate::side::{InProcess, Line, Side};
use crate::{assembler, numbers, proxy, sets};
use protocol::Random;

/// The oracle with a fault: what it says is changed by what was said before.
struct Faulty<F>(Oracle, F);

impl<F: FnMut(&str, String) -> String> Side for Faulty<F> {
    fn run(&mut self, script: &[Line]) -> Vec<String> {
        let one = |line: &Line| (self.1)(&String::from_utf8_lossy(line), answer(&mut self.0, line));
        script.iter().map(one).collect()
    }
}

type Run = fn(&mut Checker, &mut Random, usize) -> Result<(), Stopped>;

fn found(run: Run, cases: usize, fault: impl FnMut(&str, String) -> String + 'static) -> Vec<String> {
    let oracle = Box::new(InProcess(Oracle::new()));
    let mut checker = Checker::new("test", Box::new(Faulty(Oracle::new(), fault)), oracle);
    match run(&mut checker, &mut Random::new(5), cases) {
        Err(Stopped::Different { script, .. }) => {
            let text = |line: &Line| String::from_utf8_lossy(line).into_owned();
            script.iter().map(text).collect()
        }
        other => panic!("not found: {other:?}"),
    }
}

#[test]
fn no_fault_no_difference() {
    for run in [numbers::run, sets::run, proxy::run, assembler::run] {
        let oracle = || Box::new(InProcess(Oracle::new()));
        let mut checker = Checker::new("test", oracle(), oracle());
        run(&mut checker, &mut Random::new(5), 3000).unwrap();
        assert!(checker.compared() >= 3000);
    }
}

#[test]
fn one_line_suffices_for_a_number() {
    let script = found(numbers::run, 10_000, |line, said| {
        match line.starts_with("num.read seq little") && said.len() > 20 {
            true => said + "0",
            false => said,
        }
    });
    assert_eq!(script.len(), 1);
}

#[test]
fn one_line_suffices_for_a_set() {
    let script = found(sets::run, 10_000, |line, said| {
        match line.starts_with("set.walk frag down") && said.starts_with("ok 256 ") {
            true => "ref 2".to_string(),
            false => said,
        }
    });
    assert_eq!(script.len(), 1);
}

/// A refused range that spoils the next answer: set-up, the range, the question.
#[test]
fn three_lines_for_a_spoilt_proxy() {
    let mut spoilt = false;
    let script = found(proxy::run, 100_000, move |line, said| {
        spoilt &= !line.starts_with("px.new") && !line.starts_with("px.end");
        spoilt |= line.starts_with("px.range") && said == "ref 5";
        match spoilt && line.starts_with("px.ign") {
            true => "ok 2".to_string(),
            false => said,
        }
    });
    assert_eq!(script.len(), 3, "{script:?}");
    assert!(script[1].starts_with("px.range"), "{script:?}");
}

/// A drop that is not told needs 129 in assembly: set-up and as many fragments.
#[test]
fn all_lines_for_a_full_assembler() {
    let script = found(assembler::run, 50_000, |line, said| {
        let words: Vec<&str> = said.split(' ').collect();
        match (line.starts_with("asm.frag"), &words[..]) {
            (true, ["ok", "-", "-", "-", number, open]) if *number != "-" => format!("ok - - - - {open}"),
            _ => said,
        }
    });
    assert_eq!(script.len(), 130);
}
