//! Every state that a few small calls can reach.

use std::collections::{HashSet, VecDeque};

use original::Oracle;
use protocol::answer;

use crate::checker::{Checker, Stopped};
use crate::side::Line;

/// What the oracle shows after a script.
pub fn shown(script: &[Line], shows: &[Line]) -> Vec<String> {
    let mut oracle = Oracle::new();
    for line in script {
        answer(&mut oracle, line);
    }
    shows.iter().map(|line| answer(&mut oracle, line)).collect()
}

/// From each state that the changes can reach, every question and every change; two states are the same where the same
/// is shown. How many there are.
pub fn every_state(
    checker: &mut Checker,
    new: Line,
    changes: &[Line],
    questions: &[Line],
    shows: &[Line],
) -> Result<usize, Stopped> {
    let start = vec![new];
    let mut seen = HashSet::from([shown(&start, shows)]);
    let mut open = VecDeque::from([start]);
    while let Some(script) = open.pop_front() {
        checker.case(&[&script, questions].concat())?;
        for change in changes {
            let next = [script.as_slice(), std::slice::from_ref(change)].concat();
            checker.case(&[&next, shows].concat())?;
            if seen.insert(shown(&next, shows)) {
                open.push_back(next);
            }
        }
    }
    Ok(seen.len())
}
