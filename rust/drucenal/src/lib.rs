//! A receiver core for RTPS that cannot lie about what it received: number sets, writer proxy and fragment assembler
//! of a proved static library, under the names of the crate that they were ported from (rustdds 0.15.1).
//!
//! Every call is safe. What the library asks of a record, that it comes from set-up and calls, holds because the
//! records are private here. A refused call changes nothing and says why by [`Refused`].
//!
//! ```
//! use drucenal::{ByteOrder, RtpsWriterProxy, SequenceNumberSet};
//!
//! let mut proxy = RtpsWriterProxy::new();
//! proxy.received_changes_add(1, 10)?;
//! proxy.received_changes_add(3, 11)?;
//! assert_eq!(proxy.all_ackable_before(), 2);
//!
//! // A heartbeat says that 1 to 4 are there: ask for what is missing.
//! let mut missing = [0; 256];
//! let many = proxy.missing_seqnums(1, 4, &mut missing)?;
//! assert_eq!(missing[..many], [2, 4]);
//! let asked = SequenceNumberSet::from_base_and_set(2, &missing[..many])?;
//! let mut bytes = [0; 44];
//! assert_eq!(asked.write(ByteOrder::Little, &mut bytes)?, 16);
//! # Ok::<(), drucenal::Refused>(())
//! ```

#![deny(missing_docs, unsafe_code)]

/// The receiver's page, whose code is tested with this crate's.
#[cfg(doctest)]
#[doc = include_str!("../../../docs/RECEIVER.md")]
struct Receiver;

pub mod ffi;
mod fragment_assembler;
mod numbers;
mod record;
mod sets;
mod writer_proxy;

pub use fragment_assembler::{DataFrag, FragmentAssembler, InAssembly, Outcome, PLACES};
pub use numbers::{ByteOrder, FragmentNumber, SequenceNumber};
pub use sets::{FragmentNumberSet, Members, NumberSet, SequenceNumberSet, MOST_MEMBERS};
pub use writer_proxy::{ChangeStatus, ForcedStep, RtpsWriterProxy};

/// A call was refused, with the number of document 01's table (the constants below); it changed nothing.
#[derive(Debug, Clone, Copy, PartialEq, Eq, Hash)]
pub struct Refused(pub u32);

impl Refused {
    /// Set bytes end early.
    pub const ENDS_EARLY: Self = Self(1);
    /// A set's bit count is above 256.
    pub const BIT_COUNT: Self = Self(2);
    /// The lent output is shorter than the answer.
    pub const ROOM: Self = Self(3);
    /// A number below 1 or equal to 2^63 - 1; heartbeat end 2^63 - 1; a member past its type in a set walked.
    pub const NUMBER: Self = Self(4);
    /// A range whose start is above its end.
    pub const RANGE: Self = Self(5);
    /// The fragment's size differs from the assembler's.
    pub const FRAGMENT_SIZE: Self = Self(6);
    /// Opening, the sample is shorter than a fragment.
    pub const SHORT_SAMPLE: Self = Self(7);
    /// Opening, the sample is longer than a place.
    pub const LONG_SAMPLE: Self = Self(8);
    /// Opening, the sample has more than 256 fragments.
    pub const MANY_FRAGMENTS: Self = Self(9);
    /// A run of no fragments.
    pub const EMPTY_RUN: Self = Self(10);
    /// A run that starts at fragment 0.
    pub const START: Self = Self(11);
    /// A run past the sample's last fragment.
    pub const PAST_THE_END: Self = Self(12);
    /// The area is shorter than 129 places.
    pub const AREA: Self = Self(13);
    /// Setting up: the fragment size is 0, or the place size is 0 or above 65,536.
    pub const SET_UP: Self = Self(14);
    /// A list that does not rise strictly.
    pub const NOT_RISING: Self = Self(15);
}

impl std::fmt::Display for Refused {
    fn fmt(&self, out: &mut std::fmt::Formatter<'_>) -> std::fmt::Result {
        let why = match *self {
            Self::ENDS_EARLY => "set bytes end early",
            Self::BIT_COUNT => "bit count above 256",
            Self::ROOM => "lent output shorter than the answer",
            Self::NUMBER => "number out of range",
            Self::RANGE => "range the wrong way round",
            Self::FRAGMENT_SIZE => "fragment's size differs",
            Self::SHORT_SAMPLE => "sample shorter than a fragment",
            Self::LONG_SAMPLE => "sample longer than a place",
            Self::MANY_FRAGMENTS => "more than 256 fragments",
            Self::EMPTY_RUN => "run of 0 fragments",
            Self::START => "run starts at 0",
            Self::PAST_THE_END => "run past the sample's last fragment",
            Self::AREA => "area shorter than 129 places",
            Self::SET_UP => "sizes that are not set up",
            Self::NOT_RISING => "list not strictly rising",
            Self(_) => "no number of the table",
        };
        write!(out, "refused with {}: {why}", self.0)
    }
}

impl std::error::Error for Refused {}

/// The library's answer: 0, or the refusal's number.
#[inline]
fn accepted(answer: u32) -> Result<(), Refused> {
    match answer {
        0 => Ok(()),
        number => Err(Refused(number)),
    }
}
