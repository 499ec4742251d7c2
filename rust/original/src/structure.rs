//! The original's numbers and sets, and stand-ins for the rest of its `structure`.

#[allow(dead_code, unused_imports)]
pub mod sequence_number {
    include!(concat!(env!("RUSTDDS_FOUND"), "/src/structure/sequence_number.rs"));

    impl<N> NumberSet<N>
    where
        N: Clone + Debug + Hash + PartialEq + Eq + NumOps + From<i64>,
        i64: From<N>,
    {
        /// A set of these parts, the words of the count alone.
        pub fn of_parts(base: i64, count: u32, words: &[u32; 8]) -> Self {
            let length = (count.div_ceil(32) as usize).min(words.len());
            Self {
                bitmap_base: N::from(base),
                num_bits: count,
                bitmap: words[..length].to_vec(),
            }
        }

        /// Base, count and words; words past the count are zero.
        pub fn parts(&self) -> (i64, u32, [u32; 8]) {
            let mut words = [0; 8];
            words[..self.bitmap.len()].copy_from_slice(&self.bitmap);
            (i64::from(self.bitmap_base.clone()), self.num_bits, words)
        }
    }
}

pub mod cache_change {
    pub enum ChangeKind {
        NotAliveDisposed,
    }
}

pub mod guid {
    #[derive(Debug, Clone, Copy)]
    pub struct EntityId;

    impl EntityId {
        pub const UNKNOWN: Self = Self;
    }

    #[derive(Debug, Clone, Copy)]
    pub struct GUID;
}

pub mod locator {
    #[derive(Debug, Clone)]
    pub struct Locator;
}

/// A time is what the command passed in.
pub mod time {
    use std::cell::Cell;

    thread_local! {
        static NOW: Cell<u64> = const { Cell::new(0) };
    }

    #[derive(Debug, Clone, Copy, PartialEq, Eq, PartialOrd, Ord)]
    pub struct Timestamp(pub u64);

    impl Timestamp {
        pub const INVALID: Self = Self(0);

        pub fn now() -> Self {
            Self(NOW.get())
        }

        /// From here on it is this time.
        pub fn set_now(time: u64) {
            NOW.set(time);
        }
    }
}
