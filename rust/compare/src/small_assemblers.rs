//! The fragment assembler, exhaustively: every state of two samples of two or three fragments.

use crate::checker::{Checker, Stopped};
use crate::side::Line;
use crate::small_states::every_state;
use crate::tally::Count;

const NUMBERS: [i64; 2] = [1, 2];
const DATA_SIZES: [i64; 2] = [2, 3];
const TIMES: [u64; 2] = [3, 4];

fn lines(texts: Vec<String>) -> Vec<Line> {
    texts.into_iter().map(String::into_bytes).collect()
}

/// Every fragment call over the small numbers, runs out of bounds among them; every cleaning.
fn changes() -> Vec<Line> {
    let mut texts = Vec::new();
    for (number, data_size) in NUMBERS.into_iter().flat_map(|n| DATA_SIZES.map(|d| (n, d))) {
        for (start, count) in (0..=4).flat_map(|k| (0..=3).map(move |n| (k, n))) {
            for time in TIMES {
                let payload = &format!("{number}a{number}b{number}c{number}d")[2 * start..];
                let payload = if payload.is_empty() { "-" } else { payload };
                texts.push(format!(
                    "asm.frag A {time} {number} 1 {data_size} {start} {count} {payload}"
                ));
            }
        }
    }
    texts.extend([3, 4, 5].map(|cutoff| format!("asm.clean A {cutoff}")));
    texts.push("asm.clean A 5 room=1".to_string());
    lines(texts)
}

fn questions() -> Vec<Line> {
    let mut texts = vec!["asm.dump A".to_string(), "asm.places A".to_string()];
    for number in 0..=3 {
        texts.push(format!("asm.has A {number}"));
        texts.push(format!("asm.missing A {number}"));
        texts.extend((0..=2).map(|room| format!("asm.missing A {number} room={room}")));
    }
    texts.push("asm.bytes A 0 387".to_string());
    lines(texts)
}

/// Every state that those calls can reach, in either mode; from each every call and every question.
pub fn every_assembler(checker: &mut Checker) -> Result<(), Stopped> {
    let shows = lines(vec!["asm.dump A".to_string(), "asm.places A".to_string()]);
    for mode in ["reliable", "besteffort"] {
        let new = format!("asm.new A 1 {mode} 3").into_bytes();
        let states = every_state(checker, new, &changes(), &questions(), &shows)?;
        checker.tally.add(Count::SmallAssemblers, states);
    }
    Ok(())
}
