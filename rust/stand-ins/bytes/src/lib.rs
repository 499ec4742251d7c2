//! Stands in for `bytes`: a vector that can be changed, then frozen and shared. As in the crate itself freezing copies
//! nothing, and a clone or a slice is another holder of the same bytes.

use std::ops::{Bound, Deref, RangeBounds};
use std::sync::Arc;

/// Part of shared bytes.
#[derive(Debug, Clone)]
pub struct Bytes {
    shared: Arc<Vec<u8>>,
    from: usize,
    length: usize,
}

impl Bytes {
    /// A part of these, shared with them.
    pub fn slice(&self, range: impl RangeBounds<usize>) -> Self {
        let from = match range.start_bound() {
            Bound::Included(from) => *from,
            Bound::Excluded(before) => before + 1,
            Bound::Unbounded => 0,
        };
        let until = match range.end_bound() {
            Bound::Included(last) => last + 1,
            Bound::Excluded(until) => *until,
            Bound::Unbounded => self.length,
        };
        assert!(from <= until && until <= self.length, "a range out of bounds");
        Self {
            shared: self.shared.clone(),
            from: self.from + from,
            length: until - from,
        }
    }
}

impl From<Vec<u8>> for Bytes {
    fn from(bytes: Vec<u8>) -> Self {
        Self {
            from: 0,
            length: bytes.len(),
            shared: Arc::new(bytes),
        }
    }
}

impl Deref for Bytes {
    type Target = [u8];
    #[inline]
    fn deref(&self) -> &[u8] {
        &self.shared[self.from..self.from + self.length]
    }
}

pub struct BytesMut(Vec<u8>);

impl BytesMut {
    pub fn with_capacity(length: usize) -> Self {
        Self(Vec::with_capacity(length))
    }

    pub fn resize(&mut self, length: usize, byte: u8) {
        self.0.resize(length, byte);
    }

    pub fn freeze(self) -> Bytes {
        self.0.into()
    }
}

impl Deref for BytesMut {
    type Target = [u8];
    #[inline]
    fn deref(&self) -> &[u8] {
        &self.0
    }
}

impl AsMut<[u8]> for BytesMut {
    #[inline]
    fn as_mut(&mut self) -> &mut [u8] {
        &mut self.0
    }
}

#[cfg(test)]
mod tests {
    use super::*;

    #[test]
    fn frozen_bytes_are_shared() {
        let mut changing = BytesMut::with_capacity(8);
        changing.resize(8, 1);
        changing.as_mut()[5] = 7;
        let start = changing.as_ptr();
        let frozen = changing.freeze();
        let part = frozen.slice(4..).slice(1..=2);
        assert_eq!(part[..], [7, 1]);
        assert_eq!(frozen.as_ptr(), start);
        assert_eq!(part.as_ptr() as usize, start as usize + 5);
        assert_eq!(frozen.clone().len(), 8);
    }
}
