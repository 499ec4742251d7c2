//! The oracle: the three original files, taken in unchanged, behind the call protocol.
//! What they import from their own crate is stood in for by `dds`, `discovery`, `messages`, `rtps` and `structure`.

/// Stands in for the original's macro of checked operators, which nothing here calls.
macro_rules! checked_impl {
    ($($any:tt)*) => {};
}

mod dds;
mod discovery;
mod messages;
mod rtps;
mod structure;

mod caught;
mod plain;
pub mod replay;
mod spoken;

pub use plain::*;
pub use spoken::Oracle;
