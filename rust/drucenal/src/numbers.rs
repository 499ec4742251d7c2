//! Numbers on the wire, in either byte order.

use crate::ffi::Number;
use crate::{accepted, Refused};

/// Which byte of a word comes first.
#[derive(Debug, Clone, Copy, PartialEq, Eq, Hash)]
pub enum ByteOrder {
    /// The most significant.
    Big,
    /// The least significant.
    Little,
}

impl ByteOrder {
    #[inline]
    pub(crate) fn is_big(self) -> bool {
        self == Self::Big
    }
}

/// A signed 64-bit number: eight bytes, the high word first, each word in the stream's byte order.
///
/// ```
/// use drucenal::{ByteOrder, SequenceNumber};
///
/// let mut bytes = [0; 8];
/// SequenceNumber(1).write(ByteOrder::Little, &mut bytes)?;
/// assert_eq!(bytes, [0, 0, 0, 0, 1, 0, 0, 0]);
/// assert_eq!(SequenceNumber::read(ByteOrder::Little, &bytes), Ok(SequenceNumber(1)));
/// # Ok::<(), drucenal::Refused>(())
/// ```
#[derive(Debug, Clone, Copy, PartialEq, Eq, PartialOrd, Ord, Hash)]
pub struct SequenceNumber(pub i64);

/// An unsigned 32-bit number: four bytes.
#[derive(Debug, Clone, Copy, PartialEq, Eq, PartialOrd, Ord, Hash)]
pub struct FragmentNumber(pub u32);

impl SequenceNumber {
    /// From the first eight bytes. Refusal 1 where there are fewer.
    #[inline]
    pub fn read(order: ByteOrder, bytes: &[u8]) -> Result<Self, Refused> {
        read(order, bytes).map(Self)
    }

    /// To the first eight bytes. Refusal 3 where there are fewer.
    #[inline]
    pub fn write(self, order: ByteOrder, out: &mut [u8]) -> Result<(), Refused> {
        accepted(i64::write_number(order.is_big(), self.0, out))
    }
}

impl FragmentNumber {
    /// From the first four bytes. Refusal 1 where there are fewer.
    #[inline]
    pub fn read(order: ByteOrder, bytes: &[u8]) -> Result<Self, Refused> {
        read(order, bytes).map(Self)
    }

    /// To the first four bytes. Refusal 3 where there are fewer.
    #[inline]
    pub fn write(self, order: ByteOrder, out: &mut [u8]) -> Result<(), Refused> {
        accepted(u32::write_number(order.is_big(), self.0, out))
    }
}

#[inline]
fn read<N: Number>(order: ByteOrder, bytes: &[u8]) -> Result<N, Refused> {
    let mut number = N::ZERO;
    accepted(N::read_number(order.is_big(), bytes, &mut number))?;
    Ok(number)
}

impl From<i64> for SequenceNumber {
    #[inline]
    fn from(number: i64) -> Self {
        Self(number)
    }
}

impl From<SequenceNumber> for i64 {
    #[inline]
    fn from(number: SequenceNumber) -> Self {
        number.0
    }
}

impl From<u32> for FragmentNumber {
    #[inline]
    fn from(number: u32) -> Self {
        Self(number)
    }
}

impl From<FragmentNumber> for u32 {
    #[inline]
    fn from(number: FragmentNumber) -> Self {
        number.0
    }
}
