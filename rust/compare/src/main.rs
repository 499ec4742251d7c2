//! Compares the port with the oracle, call by call, over seeded scripts. The first difference ends the run, shrunk to
//! the smallest script that still shows it.

mod assembler;
mod checker;
mod model;
mod numbers;
mod proxy;
mod replay;
mod sets;
mod side;
mod small_assemblers;
mod small_proxies;
mod small_states;
mod tally;
#[cfg(test)]
mod tests;

use std::process::ExitCode;

use checker::{Checker, Stopped};
use protocol::{replay_program, Random};
use side::{InProcess, Program, Side};
use tally::{grouped, table, Count, Tally};

const USAGE: &str = "usage: compare num|sets|proxy|asm|replay|all [--seed S] [--size N]
               [--programs CALLS ORACLE] [--replay PROGRAM] [--self]
    --seed       of the scripts: 1 where none is named
    --size       how many answers of random scripts to compare in each part: 1,000,000 where none is named;
                 fewer than 100,000 leave out the long exhaustive parts
    --programs   feeds the two programs instead of calling both in this process
    --replay     the port's replay program: target/bin/replay where none is named
    --self       the oracle against itself, to try the generators";

const PARTS: [&str; 5] = ["num", "sets", "proxy", "asm", "replay"];
const SIZE: usize = 1_000_000;

/// What the command line asks for.
struct Asked {
    parts: Vec<&'static str>,
    seed: u64,
    size: usize,
    programs: Option<(String, String)>,
    replay: Option<String>,
    itself: bool,
}

fn asked(mut words: impl Iterator<Item = String>) -> Option<Asked> {
    let named = words.next()?;
    let parts: Vec<&str> = PARTS
        .into_iter()
        .filter(|part| named == "all" || named == *part)
        .collect();
    let mut asked = Asked {
        parts,
        seed: 1,
        size: SIZE,
        programs: None,
        replay: None,
        itself: false,
    };
    while let Some(word) = words.next() {
        match word.as_str() {
            "--seed" => asked.seed = words.next()?.parse().ok()?,
            "--size" => asked.size = words.next()?.parse().ok()?,
            "--programs" => asked.programs = Some((words.next()?, words.next()?)),
            "--replay" => asked.replay = Some(words.next()?),
            "--self" => asked.itself = true,
            _ => return None,
        }
    }
    (!asked.parts.is_empty()).then_some(asked)
}

type Sides = (Box<dyn Side>, Box<dyn Side>);

/// The port's side and the oracle's.
fn sides(asked: &Asked, part: &str) -> Result<Sides, String> {
    if part == "replay" {
        let oracle = Box::new(replay::OracleReplay);
        return Ok(match &asked.replay {
            None if asked.itself => (Box::new(replay::OracleReplay), oracle),
            None => (Box::new(replay::ReplayProgram::new(replay_program()?)), oracle),
            Some(program) => (Box::new(replay::ReplayProgram::new(program.into())), oracle),
        });
    }
    let start = |program: &str| Program::start(program).map_err(|error| format!("{program}: {error}"));
    let oracle = || Box::new(InProcess(original::Oracle::new()));
    Ok(match &asked.programs {
        Some((calls, oracle)) => (Box::new(start(calls)?), Box::new(start(oracle)?)),
        None if asked.itself => (oracle(), oracle()),
        None => (Box::new(InProcess(port::Port::new())), oracle()),
    })
}

/// Runs one part.
fn run(checker: &mut Checker, part: &str, seed: u64, size: usize) -> Result<(), Stopped> {
    let run = match part {
        "num" => numbers::run,
        "sets" => sets::run,
        "proxy" => proxy::run,
        "asm" => assembler::run,
        _ => replay::run,
    };
    run(checker, &mut Random::new(seed), size)
}

/// What each part met; in words where it ended early.
fn compared(asked: &Asked) -> Result<Vec<(&'static str, Tally)>, String> {
    let mut checkers = Vec::new();
    // A side that is missing is told before the work begins.
    for part in &asked.parts {
        let (port, oracle) = sides(asked, part).map_err(|why| format!("{part}: {why}"))?;
        checkers.push((*part, Checker::new(part, port, oracle)));
    }
    let mut met = Vec::new();
    for (part, mut checker) in checkers {
        run(&mut checker, part, asked.seed, asked.size).map_err(|stopped| format!("{part}: {stopped}"))?;
        checker.close();
        met.push((part, checker.tally));
    }
    Ok(met)
}

fn main() -> ExitCode {
    let Some(asked) = asked(std::env::args().skip(1)) else {
        eprintln!("{USAGE}");
        return ExitCode::FAILURE;
    };
    let met = match compared(&asked) {
        Ok(met) => met,
        Err(why) => {
            println!("{why}");
            return ExitCode::FAILURE;
        }
    };
    let sum = |count| grouped(met.iter().map(|(_, tally)| tally.of(count)).sum());
    println!("{}", table(&met));
    println!();
    println!(
        "seed {}: {} cases, {} answers compared, 0 differences",
        asked.seed,
        sum(Count::Cases),
        sum(Count::Answers)
    );
    ExitCode::SUCCESS
}
