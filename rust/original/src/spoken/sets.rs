//! Number sets, by the original's `NumberSet` of either width.

use std::collections::BTreeSet;
use std::fmt::Debug;
use std::hash::Hash;

use num_traits::NumOps;
use protocol::{Reply, Room, Set, Sets, Width};
use speedy::{Endianness, Readable, Writable};

use super::numbers::{read, write};
use super::{refuse, within, Oracle};
use crate::caught::caught;
use crate::structure::sequence_number::{FragmentNumber, NumberSet, SequenceNumber};

/// What the original asks of a number, with the last number of its type.
trait Number:
    Copy + Debug + Hash + Ord + NumOps + From<i64> + for<'a> Readable<'a, Endianness> + Writable<Endianness>
where
    i64: From<Self>,
{
    const LAST: i64;
}

impl Number for SequenceNumber {
    const LAST: i64 = i64::MAX;
}

impl Number for FragmentNumber {
    const LAST: i64 = u32::MAX as i64;
}

fn parts<N: Number>(set: &NumberSet<N>) -> Set
where
    i64: From<N>,
{
    let (base, count, words) = set.parts();
    Set { base, count, words }
}

/// The set as the original holds it. Refusal 2: the original asks for the count only when it reads.
fn held<N: Number>(set: &Set) -> Reply<NumberSet<N>>
where
    i64: From<N>,
{
    if set.count > 256 {
        return refuse(2);
    }
    Ok(NumberSet::of_parts(set.base, set.count, &set.words))
}

/// Row 4: a member past the last number of its type, where the original would overflow.
fn members_fit(set: &Set, last: i64) -> Reply<()> {
    let set_bit = |i: &u32| set.words[(i / 32) as usize] << (i % 32) >> 31 == 1;
    match (0..set.count).rev().find(set_bit) {
        Some(i) if i64::from(i) > last.saturating_sub(set.base) => refuse(4),
        _ => Ok(()),
    }
}

fn walk<N: Number>(rising: bool, set: &Set, room: Room) -> Reply<Vec<i64>>
where
    i64: From<N>,
{
    let held = held::<N>(set)?;
    members_fit(set, N::LAST)?;
    let members: Vec<i64> = caught(|| {
        if rising {
            held.iter().map(i64::from).collect()
        } else {
            held.iter().rev().map(i64::from).collect()
        }
    })?;
    within(room, members.len())?;
    Ok(members)
}

fn make<N: Number>(base: i64, list: &[i64]) -> Reply<Set>
where
    i64: From<N>,
{
    if !list.windows(2).all(|pair| pair[0] < pair[1]) {
        return refuse(15);
    }
    let list: BTreeSet<N> = list.iter().map(|number| N::from(*number)).collect();
    caught(|| parts(&NumberSet::from_base_and_set(N::from(base), &list)))
}

impl Sets for Oracle {
    fn set_read(&mut self, width: Width, big: bool, bytes: &[u8]) -> Reply<(Set, usize)> {
        fn go<N: Number>(big: bool, bytes: &[u8]) -> Reply<(Set, usize)>
        where
            i64: From<N>,
        {
            read::<NumberSet<N>>(big, bytes).map(|(set, taken)| (parts(&set), taken))
        }
        match width {
            Width::Sequence => go::<SequenceNumber>(big, bytes),
            Width::Fragment => go::<FragmentNumber>(big, bytes),
        }
    }

    fn set_write(&mut self, width: Width, big: bool, set: &Set, room: Room) -> Reply<Vec<u8>> {
        match width {
            Width::Sequence => write(big, &held::<SequenceNumber>(set)?, room),
            Width::Fragment => write(big, &held::<FragmentNumber>(set)?, room),
        }
    }

    fn set_walk(&mut self, width: Width, rising: bool, set: &Set, room: Room) -> Reply<Vec<i64>> {
        match width {
            Width::Sequence => walk::<SequenceNumber>(rising, set, room),
            Width::Fragment => walk::<FragmentNumber>(rising, set, room),
        }
    }

    fn set_len(&mut self, width: Width, set: &Set) -> Reply<usize> {
        Ok(match width {
            Width::Sequence => held::<SequenceNumber>(set)?.len_serialized(),
            Width::Fragment => held::<FragmentNumber>(set)?.len_serialized(),
        })
    }

    fn set_make(&mut self, width: Width, base: i64, list: &[i64]) -> Reply<Set> {
        match width {
            Width::Sequence => make::<SequenceNumber>(base, list),
            Width::Fragment => make::<FragmentNumber>(base, list),
        }
    }
}
