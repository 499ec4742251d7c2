//! Stands in for `enumflags2`: a set of flags that is always empty, since the caller keeps the key flag.

use std::marker::PhantomData;

pub struct BitFlags<T>(PhantomData<T>);

impl<T> BitFlags<T> {
    pub fn empty() -> Self {
        Self(PhantomData)
    }

    pub fn contains(&self, _flag: T) -> bool {
        false
    }
}
