//! The writer proxy, exhaustively: every state over the numbers -1 to 6, and all pairs of calls from full tables.

use crate::checker::{Checker, Stopped};
use crate::side::Line;
use crate::small_states::{every_state, shown};
use crate::tally::Count;

const NUMBERS: std::ops::RangeInclusive<i64> = -1..=6;
const TIMES: [u64; 2] = [3, 4];

fn line(text: String) -> Line {
    text.into_bytes()
}

/// Every call that changes a proxy, over the small numbers.
fn changes() -> Vec<Line> {
    let mut lines = Vec::new();
    for number in NUMBERS {
        lines.extend(TIMES.map(|time| line(format!("px.recv A {number} {time}"))));
        lines.push(line(format!("px.irr A {number}")));
        lines.push(line(format!("px.upto A {number}")));
        lines.extend(NUMBERS.map(|until| line(format!("px.range A {number} {until}"))));
    }
    lines
}

/// Every question, over the small numbers.
fn questions() -> Vec<Line> {
    let mut lines = vec![line("px.dump A".to_string())];
    for number in NUMBERS {
        lines.push(line(format!("px.ign A {number}")));
        lines.push(line(format!("px.stat A {number}")));
        lines.extend(NUMBERS.map(|end| line(format!("px.miss A {number} {end}"))));
    }
    lines
}

/// Every state that calls over the small numbers can reach; from each every call and every question.
pub fn every_proxy(checker: &mut Checker) -> Result<(), Stopped> {
    let shows = [line("px.dump A".to_string())];
    let new = line("px.new A".to_string());
    let states = every_state(checker, new, &changes(), &questions(), &shows)?;
    checker.tally.add(Count::SmallProxies, states);
    Ok(())
}

/// Tables of 255 and 256 tracked numbers: whole, with gaps, and at the type's end.
fn tables() -> Vec<Vec<Line>> {
    let receipts = |from: i64, many: i64, stride: i64| {
        let one = move |i| line(format!("px.recv A {} {i}", from + i * stride));
        (0..many).map(one).collect::<Vec<Line>>()
    };
    let top = i64::MAX - 600;
    let upto = vec![line(format!("px.upto A {top}"))];
    let tables = [
        receipts(2, 256, 1),
        receipts(2, 255, 1),
        receipts(3, 256, 2),
        vec![line("px.range A 2 258".to_string())],
        [vec![line("px.range A 5 133".to_string())], receipts(200, 128, 3)].concat(),
        [upto, receipts(top + 88, 256, 2)].concat(),
    ];
    let new = line("px.new A".to_string());
    tables
        .into_iter()
        .map(|table| [vec![new.clone()], table].concat())
        .collect()
}

/// Calls aimed at a table's base, its ends and its middle.
fn calls_at(table: &[Line]) -> Vec<Line> {
    let dump = shown(table, &[line("px.dump A".to_string())]);
    let mut words = dump[0].split(' ').skip(1);
    let base: i64 = words.next().and_then(|word| word.parse().ok()).unwrap_or(1);
    let number = |word: &str| word.split(':').next().and_then(|number| number.parse().ok());
    let tracked: Vec<i64> = words.skip(2).filter_map(number).collect();
    let (first, last) = (tracked[0], tracked[tracked.len() - 1]);
    let middle = tracked[tracked.len() / 2];
    let around = [(base, -1..=1), (first, -1..=1), (middle, 0..=1), (last, -1..=2)];
    let mut near: Vec<i64> = Vec::new();
    for (number, steps) in around {
        near.extend(steps.map(|step: i64| number.saturating_add(step)));
    }
    near.sort();
    near.dedup();
    let mut lines = Vec::new();
    for number in &near {
        lines.push(line(format!("px.recv A {number} 9")));
        lines.push(line(format!("px.irr A {number}")));
    }
    for (from, step) in [(base, 0), (base, 1), (first, 1), (middle, 0), (last, 0), (last, 1)] {
        let from: i64 = from.saturating_add(step);
        for (until, step) in [(first, 0), (first, 2), (middle, 0), (last, 1), (last, 3), (from, 256)] {
            let until: i64 = until.saturating_add(step);
            lines.push(line(format!("px.range A {from} {until}")));
        }
    }
    lines
}

/// From each full table every two calls, one after the other.
pub fn full_tables(checker: &mut Checker) -> Result<(), Stopped> {
    for table in tables() {
        let calls = calls_at(&table);
        for first in &calls {
            for second in &calls {
                let dump = line("px.dump A".to_string());
                let pair = [first.clone(), second.clone(), dump];
                checker.case(&[table.as_slice(), &pair].concat())?;
                checker.tally.add(Count::FullTablePairs, 1);
            }
        }
    }
    Ok(())
}
