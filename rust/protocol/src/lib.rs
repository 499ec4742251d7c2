//! The call protocol, shared by every program that speaks it: what can be asked (`commands`), how a line is read
//! (`tokens`), how it is answered (`answer`), and the loop from input to output (`serve`). Beside it what the programs
//! that compare and time share: seeded numbers (`random`), and where the port's replay program is (`replay_program`).

mod answer;
mod commands;
mod random;
mod replay_program;
mod serve;
mod tokens;

pub use answer::answer;
pub use commands::*;
pub use random::Random;
pub use replay_program::replay_program;
pub use serve::{serve, LONGEST_LINE};
pub use tokens::{hex, unhex};

/// What every lent entry holds before a call.
pub const UNTOUCHED: u8 = 90;
/// The most that a command may lend: entries of a list.
pub const MOST_ROOM: usize = 1 << 20;
/// The most that a command may lend: bytes of an area.
pub const MOST_AREA: usize = 1 << 24;

/// What a lent area holds at byte `i` before the first call.
pub fn area_byte(i: usize) -> u8 {
    ((7 * (i % 256) + 3) % 256) as u8
}

/// An area as a command lends it: never shorter than it was, new bytes hold what an area holds at first.
pub fn grow_area(area: &mut Vec<u8>, length: usize) {
    area.extend((area.len()..length).map(area_byte));
}
