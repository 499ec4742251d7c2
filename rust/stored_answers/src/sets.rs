//! Number sets: read, written, walked both ways, measured and made.

use crate::recorder::{Kind, Recorder, Set};
use protocol::Random;

/// Counts at the edges of the words and of the limit.
const COUNTS: [u32; 17] = [
    0,
    1,
    2,
    31,
    32,
    33,
    63,
    64,
    65,
    128,
    224,
    225,
    254,
    255,
    256,
    257,
    u32::MAX,
];

fn set_at(base: i64, count: u32, words: [u32; 8]) -> Set {
    Set { base, count, words }
}

/// The first bit of the first word and the last bit of the last; all; none; every other; those at the words' ends.
fn patterns(random: &mut Random) -> Vec<[u32; 8]> {
    let mut ends = [0; 8];
    (ends[0], ends[7]) = (0x8000_0000, 1);
    let any = [0; 8].map(|_: u32| random.bits() as u32);
    vec![[0; 8], [u32::MAX; 8], ends, [0x5555_5555; 8], [0x8000_0001; 8], any]
}

/// How many members: the set bits below the count.
fn members(set: &Set) -> usize {
    let is_set = |i: &u32| set.words[(i / 32) as usize] << (i % 32) >> 31 == 1;
    (0..set.count.min(256)).filter(is_set).count()
}

fn length(kind: Kind, count: u32) -> usize {
    kind.size() + 4 + 4 * (count.min(256).div_ceil(32) as usize)
}

/// A set as bytes, with so many words, whatever its count says.
fn wire(kind: Kind, big: bool, set: &Set, words: usize) -> Vec<u8> {
    let number = |word: u32| if big { word.to_be_bytes() } else { word.to_le_bytes() };
    let mut bytes = Vec::new();
    if kind == Kind::Sequence {
        bytes.extend(number((set.base >> 32) as u32));
    }
    bytes.extend(number(set.base as u32));
    bytes.extend(number(set.count));
    bytes.extend(set.words[..words].iter().flat_map(|word| number(*word)));
    bytes
}

fn read(recorder: &mut Recorder, random: &mut Random) {
    for kind in Kind::BOTH {
        for big in [true, false] {
            for count in COUNTS {
                let words = [0; 8].map(|_: u32| random.bits() as u32);
                let set = set_at(random.bits() as u32 as i64, count, words);
                let exact = length(kind, count);
                let bytes = wire(kind, big, &set, 8);
                let head = kind.size() + 4;
                // Short by one, exact, with bytes after it; of the words, only the first byte; base or count cut off.
                for length in [exact - 1, exact, exact + 1, head + 1, head, head - 1] {
                    let input: Vec<u8> = bytes.iter().copied().chain([7; 4]).take(length).collect();
                    recorder.read_set(kind, big, &input);
                }
            }
            let bytes = wire(kind, big, &set_at(1, 3, [0xA000_0000; 8]), 1);
            for length in 0..=bytes.len() {
                recorder.read_set(kind, big, &bytes[..length]);
            }
            for base in [0, 1, 4_294_967_295] {
                recorder.read_set(kind, big, &wire(kind, big, &set_at(base, 4, [0x3000_0000; 8]), 1));
            }
            if kind == Kind::Sequence {
                for base in [i64::MIN, -1, 4_294_967_298, i64::MAX] {
                    recorder.read_set(kind, big, &wire(kind, big, &set_at(base, 4, [0x3000_0000; 8]), 1));
                }
            }
        }
    }
}

fn write(recorder: &mut Recorder, random: &mut Random) {
    for kind in Kind::BOTH {
        for count in COUNTS {
            let words = [0; 8].map(|_: u32| random.bits() as u32);
            let set = set_at(1234, count, words);
            let exact = length(kind, count);
            for big in [true, false] {
                for room in [exact - 1, exact, exact + 2] {
                    recorder.write_set(kind, big, &set, room);
                }
            }
            // 2 before 3.
            recorder.write_set(kind, true, &set, 0);
            recorder.measure_set(kind, &set);
        }
        for base in [0, 1, kind.last() - 1, kind.last()] {
            recorder.write_set(kind, true, &set_at(base, 33, [0x8000_0001; 8]), 30);
            recorder.write_set(kind, false, &set_at(base, 33, [0x8000_0001; 8]), 30);
        }
    }
    for base in [i64::MIN, -1, -4_294_967_296, 4_294_967_298] {
        recorder.write_set(Kind::Sequence, true, &set_at(base, 1, [0x8000_0000; 8]), 16);
        recorder.write_set(Kind::Sequence, false, &set_at(base, 1, [0x8000_0000; 8]), 16);
    }
}

fn walk(recorder: &mut Recorder, random: &mut Random) {
    for kind in Kind::BOTH {
        for count in COUNTS {
            // The long ones by a few patterns only: they are what fills the files.
            let many = if count > 100 { 3 } else { 5 };
            for words in patterns(random).into_iter().rev().take(many) {
                let set = set_at(100, count, words);
                let room = members(&set);
                recorder.walk_set(kind, true, &set, room + 1);
                recorder.walk_set(kind, false, &set, room);
                if room > 0 {
                    recorder.walk_set(kind, random.below(2) == 0, &set, room - 1);
                }
            }
        }
    }
}

/// A member at the last number of its type, one past it, and what is asked first: 2, 4, 3.
fn walk_at_the_end(recorder: &mut Recorder) {
    for kind in Kind::BOTH {
        for i in [0, 31, 32, 255] {
            let mut words = [0; 8];
            words[i as usize / 32] = 0x8000_0000 >> (i % 32);
            for up in [true, false] {
                let fits = kind.last() - i;
                for base in [fits - 1, fits, fits.saturating_add(1).min(kind.last())] {
                    for (count, room) in [(256, 1), (i as u32 + 1, 2), (i as u32, 1), (256, 0), (257, 0)] {
                        recorder.walk_set(kind, up, &set_at(base, count, words), room);
                    }
                }
            }
        }
    }
    for base in [i64::MIN, -300, -1, 0] {
        for up in [true, false] {
            recorder.walk_set(Kind::Sequence, up, &set_at(base, 40, [0x8000_0001; 8]), 4);
        }
    }
}

/// A rising list from a first number, by steps.
fn rising(first: i64, steps: &[i64]) -> Vec<i64> {
    let mut list = vec![first];
    for step in steps {
        list.push(list[list.len() - 1] + step);
    }
    list
}

fn make(recorder: &mut Recorder, random: &mut Random) {
    for kind in Kind::BOTH {
        for (base, list) in [
            (1, vec![1, 3]),
            (1234, vec![1236, 1237]),
            (1, vec![1, 256]),
            (1, vec![1, 257]),
            (5, vec![0]),
            (5, vec![1]),
            (0, vec![5]),
            (0, vec![1, 300]),
            (2, vec![1]),
            (1, vec![2]),
            (7, vec![7]),
            (9, vec![7, 8, 9, 10]),
        ] {
            recorder.make_set(kind, base, &list);
        }
        for base in [0, 1, 2, kind.last() - 1, kind.last()] {
            recorder.make_set(kind, base, &[]);
        }
        // Last - base around 256, with the base below the first, at it and above it.
        for width in [253, 254, 255, 256, 257, 1000] {
            for (base, first) in [(10, 10), (10, 12), (40, 10)] {
                let last = base.min(first) + width;
                for list in [vec![first, last], vec![first, first + 31, last - 1, last], vec![last]] {
                    recorder.make_set(kind, base, &list);
                }
            }
        }
        // Not strictly rising: at the front, in the middle, at the end; and where the answer would be empty.
        for list in [
            vec![2, 2],
            vec![2, 1],
            vec![1, 2, 2, 3],
            vec![1, 5, 3, 7],
            vec![1, 2, 3, 3],
            vec![1, 2, 3, 2],
            vec![0, 0],
            vec![1, 300, 299],
        ] {
            recorder.make_set(kind, 1, &list);
            recorder.make_set(kind, 0, &list);
        }
        // All 256, one more, and the ends of the type.
        recorder.make_set(kind, 1, &rising(1, &[1; 255]));
        recorder.make_set(kind, 1, &rising(1, &[1; 256]));
        recorder.make_set(kind, 3, &rising(1, &[1; 256]));
        for end in [kind.last() - 300, kind.last() - 2, kind.last() - 1, kind.last()] {
            recorder.make_set(kind, end, &[end]);
            recorder.make_set(kind, end - 10, &[end - 1, end]);
            recorder.make_set(kind, end - 255, &[end]);
            recorder.make_set(kind, 1, &[end - 1, end]);
        }
        for _ in 0..60 {
            let first = random.below(600) as i64;
            let many = random.below(12);
            let wide = random.pick(&[2, 30, 60]);
            let steps: Vec<i64> = (0..many).map(|_| 1 + random.below(wide) as i64).collect();
            let base = random.below(700) as i64;
            recorder.make_set(kind, base, &rising(first, &steps));
        }
    }
    for base in [i64::MIN, -5, -1, 0, 1] {
        for list in [vec![], vec![-5], vec![-1, 0, 1], vec![0, 1], vec![1, 2], vec![-300, 1]] {
            recorder.make_set(Kind::Sequence, base, &list);
        }
    }
    recorder.make_set(Kind::Sequence, 1, &[i64::MIN, i64::MAX]);
    recorder.make_set(Kind::Sequence, 4_294_967_290, &[4_294_967_296, 4_294_967_298]);
}

pub fn record(recorder: &mut Recorder) {
    let mut random = Random::new(2);
    read(recorder, &mut random);
    write(recorder, &mut random);
    walk(recorder, &mut random);
    walk_at_the_end(recorder);
    make(recorder, &mut random);
}
