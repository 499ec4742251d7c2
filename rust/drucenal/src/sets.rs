//! Number sets: bit i, from the most significant bit of word 0, stands for base + i.

use std::iter::FusedIterator;

use crate::ffi::Number;
use crate::{accepted, ByteOrder, Refused};

/// The most members that a set has.
pub const MOST_MEMBERS: usize = 256;

/// A set of numbers of type N (`i64` or `u32`), by value. Any parts may be put together: each call asks for what it
/// needs and refuses the rest.
///
/// ```
/// use drucenal::SequenceNumberSet;
///
/// let set = SequenceNumberSet::from_base_and_set(1234, &[1236, 1237])?;
/// assert_eq!((set.base(), set.count, set.words[0]), (1234, 4, 0x3000_0000));
/// assert_eq!(set.iter()?.collect::<Vec<i64>>(), [1236, 1237]);
/// # Ok::<(), drucenal::Refused>(())
/// ```
#[derive(Debug, Clone, Copy, PartialEq, Eq, Hash)]
pub struct NumberSet<N> {
    /// The number that bit 0 stands for.
    pub base: N,
    /// How many bits: at most 256 in a set that is written, walked or measured.
    pub count: u32,
    /// The bits. Words past the count are not looked at.
    pub words: [u32; 8],
}

/// A set of sequence numbers.
pub type SequenceNumberSet = NumberSet<i64>;

/// A set of fragment numbers.
pub type FragmentNumberSet = NumberSet<u32>;

impl<N: Number> NumberSet<N> {
    /// So many bits from this base on, with no member.
    #[inline]
    pub fn new(base: N, count: u32) -> Self {
        Self {
            base,
            count,
            words: [0; 8],
        }
    }

    /// The empty set at this base.
    #[inline]
    pub fn new_empty(base: N) -> Self {
        Self::new(base, 0)
    }

    /// The number that bit 0 stands for.
    #[inline]
    pub fn base(&self) -> N {
        self.base
    }

    /// From the first bytes: the set, and how many bytes were taken. Refusals 1 and 2.
    #[inline]
    pub fn read(order: ByteOrder, bytes: &[u8]) -> Result<(Self, usize), Refused> {
        let (mut base, mut count, mut words, mut taken) = (N::ZERO, 0, [0; 8], 0);
        match N::read_set(order.is_big(), bytes, &mut base, &mut count, &mut words, &mut taken) {
            0 => Ok((Self { base, count, words }, taken)),
            number => Err(Refused(number)),
        }
    }

    /// The same over this set, which a refused call leaves as it is: how many bytes were taken. Nothing is copied.
    #[inline]
    pub fn read_over(&mut self, order: ByteOrder, bytes: &[u8]) -> Result<usize, Refused> {
        let mut taken = 0;
        let (base, count, words) = (&mut self.base, &mut self.count, &mut self.words);
        accepted(N::read_set(order.is_big(), bytes, base, count, words, &mut taken))?;
        Ok(taken)
    }

    /// To the first bytes: how many were written. Refusals 2 and 3.
    #[inline]
    pub fn write(&self, order: ByteOrder, out: &mut [u8]) -> Result<usize, Refused> {
        let mut wrote = 0;
        accepted(N::write_set(
            order.is_big(),
            self.base,
            self.count,
            &self.words,
            out,
            &mut wrote,
        ))?;
        Ok(wrote)
    }

    /// The set of a strictly rising list, as far as 256 numbers reach. Refusal 15.
    ///
    /// A base above the list's first number becomes that number; a base below 1 then gives the empty set at 1.
    #[inline]
    pub fn from_base_and_set(base: N, list: &[N]) -> Result<Self, Refused> {
        let (mut low, mut count, mut words) = (N::ZERO, 0, [0; 8]);
        match N::make_set(base, list, &mut low, &mut count, &mut words) {
            0 => Ok(Self {
                base: low,
                count,
                words,
            }),
            number => Err(Refused(number)),
        }
    }

    /// The same over this set, which a refused call leaves as it is. Nothing is copied.
    #[inline]
    pub fn make_over(&mut self, base: N, list: &[N]) -> Result<(), Refused> {
        accepted(N::make_set(
            base,
            list,
            &mut self.base,
            &mut self.count,
            &mut self.words,
        ))
    }

    /// The members, rising, to the list's first entries: how many. Refusals 2, 4 and 3.
    #[inline]
    pub fn walk(&self, out: &mut [N]) -> Result<usize, Refused> {
        self.walked(true, out)
    }

    /// The members, falling, to the list's first entries: how many. Refusals 2, 4 and 3.
    #[inline]
    pub fn walk_back(&self, out: &mut [N]) -> Result<usize, Refused> {
        self.walked(false, out)
    }

    #[inline]
    fn walked(&self, rising: bool, out: &mut [N]) -> Result<usize, Refused> {
        let mut listed = 0;
        accepted(N::walk_set(
            rising,
            self.base,
            self.count,
            &self.words,
            out,
            &mut listed,
        ))?;
        Ok(listed)
    }

    /// The members, from both ends, in a list of their own. Refusals 2 and 4.
    #[inline]
    pub fn iter(&self) -> Result<Members<N>, Refused> {
        let mut list = [N::ZERO; MOST_MEMBERS];
        let until = self.walk(&mut list)?;
        Ok(Members { list, from: 0, until })
    }

    /// Whether there is no member. Refusals 2 and 4.
    #[inline]
    pub fn is_empty(&self) -> Result<bool, Refused> {
        // A member would need room.
        match self.walk(&mut []) {
            Err(Refused::ROOM) => Ok(false),
            walked => walked.map(|_| true),
        }
    }

    /// How many bytes the set has on the wire. Refusal 2.
    #[inline]
    pub fn len_serialized(&self) -> Result<usize, Refused> {
        let mut length = 0;
        accepted(N::measure_set(self.count, &mut length))?;
        Ok(length)
    }
}

/// The members of a set, rising; from the other end they fall.
#[derive(Debug, Clone)]
pub struct Members<N> {
    list: [N; MOST_MEMBERS],
    from: usize,
    until: usize,
}

impl<N: Number> Members<N> {
    /// Those that are left, rising.
    #[inline]
    pub fn as_slice(&self) -> &[N] {
        &self.list[self.from..self.until]
    }
}

impl<N: Number> Iterator for Members<N> {
    type Item = N;

    #[inline]
    fn next(&mut self) -> Option<N> {
        let number = *self.as_slice().first()?;
        self.from += 1;
        Some(number)
    }

    #[inline]
    fn size_hint(&self) -> (usize, Option<usize>) {
        let left = self.until - self.from;
        (left, Some(left))
    }
}

impl<N: Number> DoubleEndedIterator for Members<N> {
    #[inline]
    fn next_back(&mut self) -> Option<N> {
        let number = *self.as_slice().last()?;
        self.until -= 1;
        Some(number)
    }
}

impl<N: Number> ExactSizeIterator for Members<N> {}

impl<N: Number> FusedIterator for Members<N> {}
