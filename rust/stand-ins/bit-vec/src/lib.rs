//! Stands in for `bit-vec`: a fixed row of bits, in words of 32 as the crate itself has them.

pub struct BitVec {
    words: Vec<u32>,
    length: usize,
}

impl BitVec {
    pub fn from_elem(length: usize, bit: bool) -> Self {
        let word = if bit { u32::MAX } else { 0 };
        Self {
            words: vec![word; length.div_ceil(32)],
            length,
        }
    }

    #[inline]
    pub fn set(&mut self, place: usize, bit: bool) {
        assert!(place < self.length, "a bit out of bounds");
        let mask = 1 << (place % 32);
        if bit {
            self.words[place / 32] |= mask;
        } else {
            self.words[place / 32] &= !mask;
        }
    }

    #[inline]
    pub fn get(&self, place: usize) -> Option<bool> {
        (place < self.length).then(|| self.words[place / 32] >> (place % 32) & 1 == 1)
    }

    #[inline]
    pub fn all(&self) -> bool {
        let (whole, rest) = (self.length / 32, self.length % 32);
        let last = rest == 0 || self.words[whole] | u32::MAX << rest == u32::MAX;
        last && self.words[..whole].iter().all(|word| *word == u32::MAX)
    }
}

#[cfg(test)]
mod tests {
    use super::*;

    #[test]
    fn all_when_the_last_is_set() {
        for length in [1, 31, 32, 33, 64, 100] {
            let mut bits = BitVec::from_elem(length, false);
            for place in 0..length {
                assert!(!bits.all());
                assert_eq!(bits.get(place), Some(false));
                bits.set(place, true);
                assert_eq!(bits.get(place), Some(true));
            }
            assert!(bits.all() && BitVec::from_elem(length, true).all());
            assert_eq!(bits.get(length), None);
            bits.set(length / 2, false);
            assert!(!bits.all());
        }
    }
}
