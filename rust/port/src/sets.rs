//! Number sets of either width.

use drucenal::ffi::Number;
use drucenal::{FragmentNumberSet, NumberSet, Refused, SequenceNumberSet, MOST_MEMBERS};
use protocol::{Reply, Room, Set, Sets, Width};

use crate::lent::{before, lend, refused};
use crate::numbers::{narrow, order};
use crate::Port;

/// The longest set on the wire.
const LONGEST: usize = 8 + 4 + 32;

fn sequence(set: &Set) -> SequenceNumberSet {
    NumberSet {
        base: set.base,
        count: set.count,
        words: set.words,
    }
}

fn fragment(set: &Set) -> Reply<FragmentNumberSet> {
    Ok(NumberSet {
        base: narrow(set.base)?,
        count: set.count,
        words: set.words,
    })
}

fn shown<N: Into<i64>>(set: NumberSet<N>) -> Set {
    Set {
        base: set.base.into(),
        count: set.count,
        words: set.words,
    }
}

/// A width as this side of the protocol needs it.
trait Wide: Number + From<u8> + Into<i64> + PartialEq {}

impl Wide for i64 {}
impl Wide for u32 {}

/// The set that a refused call leaves as it was.
fn untouched<N: Wide>() -> NumberSet<N> {
    NumberSet {
        base: before(),
        count: before(),
        words: [before(); 8],
    }
}

fn read<N: Wide>(big: bool, bytes: &[u8]) -> Reply<(Set, usize)> {
    match NumberSet::<N>::read(order(big), bytes) {
        Ok((set, taken)) => Ok((shown(set), taken)),
        Err(number) => refused(number, || {
            let (mut set, mut taken) = (untouched::<N>(), before());
            let (base, count, words) = (&mut set.base, &mut set.count, &mut set.words);
            let answer = N::read_set(big, bytes, base, count, words, &mut taken);
            (answer, set == untouched() && taken == before::<usize>())
        }),
    }
}

fn write<N: Wide>(big: bool, set: NumberSet<N>, room: Room) -> Reply<Vec<u8>> {
    let call = |set: &mut NumberSet<N>, out: &mut [u8]| set.write(order(big), out);
    lend(&mut { set }, room, LONGEST, call, |set, out, wrote| {
        N::write_set(big, set.base, set.count, &set.words, out, wrote)
    })
}

fn walk<N: Wide>(rising: bool, set: NumberSet<N>, room: Room) -> Reply<Vec<i64>> {
    let call = |set: &mut NumberSet<N>, out: &mut [N]| match rising {
        true => set.walk(out),
        false => set.walk_back(out),
    };
    let members = lend(&mut { set }, room, MOST_MEMBERS, call, |set, out, listed| {
        N::walk_set(rising, set.base, set.count, &set.words, out, listed)
    })?;
    Ok(members.into_iter().map(N::into).collect())
}

fn measure<N: Wide>(set: NumberSet<N>) -> Reply<usize> {
    set.len_serialized().or_else(|number: Refused| {
        refused(number, || {
            let mut length = before();
            let answer = N::measure_set(set.count, &mut length);
            (answer, length == before::<usize>())
        })
    })
}

fn make<N: Wide>(base: N, list: &[N]) -> Reply<Set> {
    match NumberSet::from_base_and_set(base, list) {
        Ok(set) => Ok(shown(set)),
        Err(number) => refused(number, || {
            let mut set = untouched::<N>();
            let (low, count, words) = (&mut set.base, &mut set.count, &mut set.words);
            let answer = N::make_set(base, list, low, count, words);
            (answer, set == untouched())
        }),
    }
}

impl Sets for Port {
    fn set_read(&mut self, width: Width, big: bool, bytes: &[u8]) -> Reply<(Set, usize)> {
        match width {
            Width::Sequence => read::<i64>(big, bytes),
            Width::Fragment => read::<u32>(big, bytes),
        }
    }

    fn set_write(&mut self, width: Width, big: bool, set: &Set, room: Room) -> Reply<Vec<u8>> {
        match width {
            Width::Sequence => write(big, sequence(set), room),
            Width::Fragment => write(big, fragment(set)?, room),
        }
    }

    fn set_walk(&mut self, width: Width, rising: bool, set: &Set, room: Room) -> Reply<Vec<i64>> {
        match width {
            Width::Sequence => walk(rising, sequence(set), room),
            Width::Fragment => walk(rising, fragment(set)?, room),
        }
    }

    fn set_len(&mut self, width: Width, set: &Set) -> Reply<usize> {
        match width {
            Width::Sequence => measure(sequence(set)),
            Width::Fragment => measure(fragment(set)?),
        }
    }

    fn set_make(&mut self, width: Width, base: i64, list: &[i64]) -> Reply<Set> {
        match width {
            Width::Sequence => make(base, list),
            Width::Fragment => {
                let list: Vec<u32> = list.iter().map(|number| narrow(*number)).collect::<Reply<_>>()?;
                make(narrow(base)?, &list)
            }
        }
    }
}
