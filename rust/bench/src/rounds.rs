//! Interleaved rounds: each goes through all rows, and in each row one side follows the other at once, taking turns at
//! being first, so that a slow spell of the machine meets both.

use std::hint::black_box;
use std::time::Duration;

use crate::system::worked;

/// One row: the same work done by either side.
pub trait Case {
    fn name(&self) -> &str;

    /// How many calls a pass makes.
    fn calls(&self) -> usize;

    /// One pass over the inputs: a sum of what was answered.
    fn original(&mut self) -> u64;

    /// The same pass by the port: the same sum.
    fn port(&mut self) -> u64;

    /// Both sides hold the same; asked between rounds, outside the time.
    fn agree(&self) -> bool {
        true
    }
}

#[derive(Clone, Copy)]
pub struct Plan {
    /// Odd, so that there is a middle one.
    pub rounds: usize,
    /// About how long either side works in a round of a row.
    pub each: Duration,
}

/// Nanoseconds a call, one entry a round.
pub struct Row {
    name: String,
    passes: usize,
    original: Vec<f64>,
    port: Vec<f64>,
}

pub fn run(plan: Plan, cases: &mut [Box<dyn Case>]) -> Vec<Row> {
    let mut rows: Vec<Row> = cases.iter_mut().map(|case| start(plan, case.as_mut())).collect();
    for round in 0..plan.rounds {
        for (case, row) in cases.iter_mut().zip(&mut rows) {
            deeper(round % FRAMES, &mut || one_round(case.as_mut(), row, round % 2 == 0));
        }
    }
    rows
}

/// Frames that are together longer than a page.
const FRAMES: usize = 64;

/// Works so many frames further down: a value that lies across the end of a page is slow, and should be so in a few
/// rounds at most, not in all rounds of one run.
#[inline(never)]
fn deeper(frames: usize, work: &mut dyn FnMut()) {
    let frame = black_box([0u64; 8]);
    match frames {
        0 => work(),
        _ => deeper(frames - 1, work),
    }
    black_box(&frame);
}

/// Finds how many passes fill the time, by the slower side.
fn start(plan: Plan, case: &mut dyn Case) -> Row {
    let mut passes = 1;
    loop {
        let (original, _) = timed(passes, || case.original());
        let (port, _) = timed(passes, || case.port());
        let slower = original.max(port).max(1.0);
        let each = plan.each.as_nanos() as f64;
        if slower * 4.0 > each {
            let passes = (passes as f64 * each / slower).ceil() as usize;
            return Row {
                name: case.name().to_string(),
                passes: passes.max(1),
                original: Vec::new(),
                port: Vec::new(),
            };
        }
        passes *= 2;
    }
}

fn one_round(case: &mut dyn Case, row: &mut Row, original_first: bool) {
    let passes = row.passes;
    let (original, port);
    if original_first {
        original = timed(passes, || case.original());
        port = timed(passes, || case.port());
    } else {
        port = timed(passes, || case.port());
        original = timed(passes, || case.original());
    }
    assert_eq!(original.1, port.1, "{}: the two sides answered otherwise", row.name);
    assert!(case.agree(), "{}: the two sides hold other things", row.name);
    let calls = (passes * case.calls()) as f64;
    row.original.push(original.0 / calls);
    row.port.push(port.0 / calls);
}

/// Nanoseconds, and the sum of the passes' sums.
fn timed(passes: usize, mut pass: impl FnMut() -> u64) -> (f64, u64) {
    let mut sum = 0u64;
    let from = worked();
    for _ in 0..passes {
        sum = sum.wrapping_mul(31).wrapping_add(black_box(pass()));
    }
    (worked() - from, sum)
}

/// In rising order.
fn sorted(values: impl Iterator<Item = f64>) -> Vec<f64> {
    let mut values: Vec<f64> = values.collect();
    values.sort_by(f64::total_cmp);
    values
}

/// The value with so many hundredths of the others below it.
fn at(values: &[f64], hundredths: usize) -> f64 {
    values[(values.len() - 1) * hundredths / 100]
}

/// The table, in markdown.
pub fn print(rows: &[Row]) {
    const TITLES: [&str; 6] = [
        "row",
        "Rust, ns",
        "port, ns",
        "Rust / port",
        "middle half",
        "all rounds",
    ];
    let wide = rows.iter().map(|row| row.name.chars().count()).fold(3, usize::max);
    let [name, original, port, ratio, half, all] = TITLES;
    println!("| {name:wide$} | {original:>8} | {port:>8} | {ratio:>11} | {half:>14} | {all:>14} |");
    println!(
        "|{:-<w$}|{:->10}|{:->10}|{:->13}|{:->16}|{:->16}|",
        "",
        ":",
        ":",
        ":",
        ":",
        ":",
        w = wide + 2
    );
    for row in rows {
        let original = at(&sorted(row.original.iter().copied()), 50);
        let port = at(&sorted(row.port.iter().copied()), 50);
        let ratios = sorted(
            row.original
                .iter()
                .zip(&row.port)
                .map(|(original, port)| original / port),
        );
        let between = |low, high| format!("{:.2} to {:.2}", at(&ratios, low), at(&ratios, high));
        let (middle, half, all) = (at(&ratios, 50), between(25, 75), between(0, 100));
        println!(
            "| {:wide$} | {original:8.1} | {port:8.1} | {middle:11.2} | {half:>14} | {all:>14} |",
            row.name
        );
    }
}
