//! Sequence number sets that reach over 256 numbers, little-endian on the wire.

use std::collections::BTreeSet;
use std::hint::black_box;

use drucenal::ByteOrder;
use original::SequenceNumber;
use speedy::{Endianness, Readable, SliceReader, VecWriter, Writable};

use crate::rounds::Case;
use protocol::Random;

const SETS: usize = 64;
const SPAN: usize = 256;
/// Base, count and eight words.
const LENGTH: usize = 44;

pub fn cases() -> Vec<Box<dyn Case>> {
    let both = |dense: &'static str, sparse: &'static str, original: Pass, port: Pass| -> [Box<dyn Case>; 2] {
        [
            // Seven numbers in eight.
            Box::new(Row::new(dense, 224, original, port)),
            Box::new(Row::new(sparse, 8, original, port)),
        ]
    };
    let rows = [
        both("set read, dense", "set read, sparse", read, port_read),
        both("set write, dense", "set write, sparse", write, port_write),
        both("set made, dense", "set made, sparse", make, port_make),
        both("set walked up, dense", "set walked up, sparse", walk, port_walk),
    ];
    rows.into_iter().flatten().collect()
}

/// One set in all its forms.
struct Input {
    base: i64,
    list: Vec<i64>,
    tree: BTreeSet<SequenceNumber>,
    original: original::SequenceNumberSet,
    port: drucenal::SequenceNumberSet,
    bytes: Vec<u8>,
}

/// What is lent from call to call.
struct Lent {
    set: drucenal::SequenceNumberSet,
    writer: VecWriter<Endianness>,
    bytes: [u8; LENGTH],
    list: [i64; SPAN],
}

type Pass = fn(&[Input], &mut Lent) -> u64;

struct Row {
    name: &'static str,
    inputs: Vec<Input>,
    lent: Lent,
    original: Pass,
    port: Pass,
}

impl Row {
    fn new(name: &'static str, members: usize, original: Pass, port: Pass) -> Self {
        let mut random = Random::new(members as u64);
        Self {
            name,
            inputs: (0..SETS).map(|_| Input::new(&mut random, members)).collect(),
            lent: Lent {
                set: drucenal::SequenceNumberSet::new_empty(1),
                writer: VecWriter::new(Endianness::LittleEndian),
                bytes: [0; LENGTH],
                list: [0; SPAN],
            },
            original,
            port,
        }
    }
}

impl Input {
    /// So many members, the two ends of the span among them.
    fn new(random: &mut Random, members: usize) -> Self {
        let base = 1 + random.below(1 << 40) as i64;
        let end = base + SPAN as i64 - 1;
        let mut list = BTreeSet::from([base, end]);
        while list.len() < members {
            list.insert(base + random.below(SPAN as u64) as i64);
        }
        let tree: BTreeSet<SequenceNumber> = list.iter().map(|number| SequenceNumber::from(*number)).collect();
        let list: Vec<i64> = list.into_iter().collect();
        let original = original::SequenceNumberSet::from_base_and_set(base.into(), &tree);
        let port = drucenal::SequenceNumberSet::from_base_and_set(base, &list).expect("the list rises");
        assert_eq!(original.parts(), (port.base, port.count, port.words));
        let mut writer = VecWriter::new(Endianness::LittleEndian);
        original.write_to(&mut writer).expect("a vector takes all");
        Self {
            base,
            list,
            tree,
            original,
            port,
            bytes: writer.bytes,
        }
    }
}

impl Case for Row {
    fn name(&self) -> &str {
        self.name
    }

    fn calls(&self) -> usize {
        self.inputs.len()
    }

    fn original(&mut self) -> u64 {
        (self.original)(&self.inputs, &mut self.lent)
    }

    fn port(&mut self) -> u64 {
        (self.port)(&self.inputs, &mut self.lent)
    }
}

fn read(inputs: &[Input], _: &mut Lent) -> u64 {
    let mut sum = 0;
    for input in inputs {
        let mut reader = SliceReader::new(Endianness::LittleEndian, black_box(&input.bytes[..]));
        let set = black_box(original::SequenceNumberSet::read_from(&mut reader));
        sum += reader.taken + usize::from(set.is_ok());
    }
    sum as u64
}

fn port_read(inputs: &[Input], lent: &mut Lent) -> u64 {
    let mut sum = 0;
    for input in inputs {
        let read = lent.set.read_over(ByteOrder::Little, black_box(&input.bytes[..]));
        black_box(&lent.set);
        sum += read.map_or(0, |taken| taken + 1);
    }
    sum as u64
}

fn write(inputs: &[Input], lent: &mut Lent) -> u64 {
    let mut sum = 0;
    for input in inputs {
        lent.writer.bytes.clear();
        let _ = black_box(black_box(&input.original).write_to(&mut lent.writer));
        let wrote = black_box(&lent.writer.bytes[..]);
        sum += wrote.len() + usize::from(wrote[LENGTH - 1]);
    }
    sum as u64
}

fn port_write(inputs: &[Input], lent: &mut Lent) -> u64 {
    let mut sum = 0;
    for input in inputs {
        let wrote = black_box(&input.port).write(ByteOrder::Little, &mut lent.bytes);
        let wrote = black_box(&lent.bytes[..wrote.unwrap_or(0)]);
        sum += wrote.len() + usize::from(wrote[LENGTH - 1]);
    }
    sum as u64
}

fn make(inputs: &[Input], _: &mut Lent) -> u64 {
    let mut sum = 0;
    for input in inputs {
        let set = original::SequenceNumberSet::from_base_and_set(black_box(input.base).into(), black_box(&input.tree));
        sum += i64::from(black_box(set).base());
    }
    sum as u64
}

fn port_make(inputs: &[Input], lent: &mut Lent) -> u64 {
    let mut sum = 0;
    for input in inputs {
        let made = lent.set.make_over(black_box(input.base), black_box(&input.list));
        sum += made.map_or(0, |()| black_box(&lent.set).base);
    }
    sum as u64
}

/// Goes over the members as they come: the original needs no list.
fn walk(inputs: &[Input], _: &mut Lent) -> u64 {
    let members = |input| black_box::<&Input>(input).original.iter().map(i64::from).sum::<i64>();
    inputs.iter().map(members).sum::<i64>() as u64
}

/// Lists the members, then goes over the list.
fn port_walk(inputs: &[Input], lent: &mut Lent) -> u64 {
    let mut sum = 0;
    for input in inputs {
        let listed = black_box(&input.port).walk(&mut lent.list);
        sum += lent.list[..listed.unwrap_or(0)].iter().sum::<i64>();
    }
    sum as u64
}
