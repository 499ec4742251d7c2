//! The protocol over the original. Refusals that the original lacks are given here by document 01's table, in its
//! order, and the original is then not called.

mod assembler;
mod numbers;
mod proxy;
mod sets;

use protocol::{Reply, Stop};

/// Holds one proxy and one assembler; a panic leaves neither in use.
#[derive(Default)]
pub struct Oracle {
    proxy: Option<proxy::Held>,
    assembler: Option<assembler::Held>,
}

impl Oracle {
    pub fn new() -> Self {
        Self::default()
    }
}

fn refuse<T>(number: u32) -> Reply<T> {
    Err(Stop::Refused(number))
}

/// Row 3: the lent output is shorter than the answer.
fn within(room: protocol::Room, length: usize) -> Reply<()> {
    match room {
        Some(room) if room < length => refuse(3),
        _ => Ok(()),
    }
}

/// Row 4: a number that received, one irrelevant and fragment do not take.
fn check_number(number: i64) -> Reply<()> {
    if number < 1 || number == i64::MAX {
        refuse(4)
    } else {
        Ok(())
    }
}
