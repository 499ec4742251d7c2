//! Times the port, through its Rust front, beside the three original files: one process, the same inputs, both
//! optimised at level 3 without overflow checks, in interleaved rounds.
//!
//! Buffers are not cleared first: outputs, the area and both records are used again from call to call, as a receiver
//! would. What either side answers is used, and a sum of it compared after each round.
//!
//! What favours the original: its clock stands still and its log is empty; the `BTreeSet` that it makes a set from is
//! there already; its members are not listed but used as they come; its set is written to a vector that has grown.
//! What favours the port: a finished block is shown in the area, not handed over; in the row "copied out" the port
//! copies it too. Replay lines are timed as processes: the port's program, and this one, which replays by the original.

mod fragments;
mod proxy;
mod replay;
mod rounds;
mod sets;
mod system;

use std::process::ExitCode;
use std::time::Duration;

use rounds::{Case, Plan};

const QUICK: Plan = Plan {
    rounds: 61,
    each: Duration::from_millis(2),
};
const FULL: Plan = Plan {
    rounds: 401,
    each: Duration::from_millis(2),
};

fn main() -> ExitCode {
    system::keep_the_heap();
    let arguments: Vec<String> = std::env::args().skip(1).collect();
    let words: Vec<&str> = arguments.iter().map(String::as_str).collect();
    let (plan, part) = match words[..] {
        [] => (FULL, ""),
        ["--quick"] => (QUICK, ""),
        ["--quick", part] => (QUICK, part),
        [replay::BY_ORIGINAL] => return replay::by_original(),
        [part] if !part.starts_with('-') => (FULL, part),
        _ => {
            eprintln!("usage: bench [--quick] [PART OF A ROW'S NAME]");
            return ExitCode::FAILURE;
        }
    };
    let mut cases: Vec<Box<dyn Case>> = Vec::new();
    cases.extend(proxy::cases());
    cases.extend(fragments::cases());
    cases.extend(sets::cases());
    match replay::cases() {
        Ok(more) => cases.extend(more),
        Err(why) => {
            eprintln!("{}: {why}", replay::NAME);
            return ExitCode::FAILURE;
        }
    }
    cases.retain(|case| case.name().contains(part));
    let rows = rounds::run(plan, &mut cases);
    println!(
        "The port beside the three Rust files: {} interleaved rounds, both at level 3 without overflow checks.",
        plan.rounds
    );
    println!("Buffers were not cleared first: they are used again, as a receiver would. Every result is used.");
    println!();
    rounds::print(&rows);
    ExitCode::SUCCESS
}
