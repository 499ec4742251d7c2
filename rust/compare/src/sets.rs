//! Scripts of number sets: each written, read back whole and damaged, walked, measured, and made from a list.

use protocol::hex;

use crate::checker::{Checker, Stopped, EXHAUSTIVE};
use crate::side::Line;
use protocol::Random;

const ORDERS: [&str; 2] = ["big", "little"];
/// The longest set on the wire.
const LONGEST: usize = 8 + 4 + 32;

/// One width: its word in the protocol, and its first and last number.
#[derive(Clone, Copy)]
struct Width {
    name: &'static str,
    first: i128,
    last: i128,
}

const WIDTHS: [Width; 2] = [
    Width {
        name: "seq",
        first: i64::MIN as i128,
        last: i64::MAX as i128,
    },
    Width {
        name: "frag",
        first: 0,
        last: u32::MAX as i128,
    },
];

impl Width {
    fn holds(&self, number: i128) -> bool {
        self.first <= number && number <= self.last
    }

    fn of_any_length(&self, random: &mut Random) -> i128 {
        match self.name {
            "seq" => i128::from(random.of_any_length() as i64),
            _ => i128::from(random.of_any_length() as u32),
        }
    }
}

#[derive(Clone)]
struct Set {
    base: i128,
    count: u32,
    words: [u32; 8],
}

impl Set {
    /// As a command names it.
    fn text(&self) -> String {
        let words = self.words.map(|word| format!("{word:x}")).join(",");
        format!("{} {} {words}", self.base, self.count)
    }

    /// As it stands on the wire, whatever the count says.
    fn bytes(&self, width: &Width, big: bool) -> Vec<u8> {
        let mut quads = vec![self.base as u32, self.count];
        if width.name == "seq" {
            quads.insert(0, (self.base >> 32) as u32);
        }
        let words = (self.count.div_ceil(32) as usize).min(8);
        quads.extend(&self.words[..words]);
        let bytes = |quad: u32| if big { quad.to_be_bytes() } else { quad.to_le_bytes() };
        quads.into_iter().flat_map(bytes).collect()
    }

    /// How many members it has.
    fn members(&self) -> usize {
        let bit = |i: &u32| self.words[(i / 32) as usize] << (i % 32) >> 31 == 1;
        (0..self.count.min(256)).filter(bit).count()
    }
}

pub fn run(checker: &mut Checker, random: &mut Random, size: usize) -> Result<(), Stopped> {
    if size >= EXHAUSTIVE {
        short_inputs(checker)?;
        every_cut(checker, random)?;
        every_small_walk(checker)?;
        every_small_list(checker)?;
    }
    let before = checker.compared();
    while checker.compared() < before + size {
        let width = random.pick(&WIDTHS);
        let set = any_set(random, &width);
        checker.lines(&about(random, &width, &set))?;
    }
    Ok(())
}

/// All inputs of up to two bytes.
fn short_inputs(checker: &mut Checker) -> Result<(), Stopped> {
    let one = (0..=255u8).map(|byte| vec![byte]);
    let two = (0..=u16::MAX).map(|both| both.to_be_bytes().to_vec());
    for bytes in one.chain(two).chain([Vec::new()]) {
        for width in WIDTHS {
            for order in ORDERS {
                let line = format!("set.read {} {order} {}", width.name, hex(&bytes));
                checker.lines(&[line.into_bytes()])?;
            }
        }
    }
    Ok(())
}

/// Every count up to 260, with its bytes cut at every length.
fn every_cut(checker: &mut Checker, random: &mut Random) -> Result<(), Stopped> {
    for width in WIDTHS {
        for count in 0..=260 {
            for order in ORDERS {
                let set = Set {
                    count,
                    ..any_set(random, &width)
                };
                let mut bytes = set.bytes(&width, order == "big");
                bytes.push(random.bits() as u8);
                for length in 0..=bytes.len() {
                    let line = format!("set.read {} {order} {}", width.name, hex(&bytes[..length]));
                    checker.lines(&[line.into_bytes()])?;
                }
                for room in 0..=LONGEST + 1 {
                    let line = format!("set.write {} {order} {} room={room}", width.name, set.text());
                    checker.lines(&[line.into_bytes()])?;
                }
            }
        }
    }
    Ok(())
}

/// Every set of up to nine bits, with its unused bits all clear and all set, at bases around 0 and the ends of the type.
fn every_small_walk(checker: &mut Checker) -> Result<(), Stopped> {
    for width in WIDTHS {
        let bases = [0, width.first, width.last].map(|base| base - 9..=base + 2);
        for base in bases.into_iter().flatten().filter(|base| width.holds(*base)) {
            for (count, bits) in (0..=9).flat_map(|count| (0..1u32 << count).map(move |bits| (count, bits))) {
                for unused in [0, u32::MAX >> count] {
                    let mut words = [0; 8];
                    words[0] = ((u64::from(bits) << 32 >> count) as u32) | unused;
                    let set = Set { base, count, words };
                    for way in ["up", "down"] {
                        let line = format!("set.walk {} {way} {}", width.name, set.text());
                        checker.lines(&[line.into_bytes()])?;
                    }
                }
            }
        }
    }
    Ok(())
}

/// Every list of up to four numbers below 4, rising or not, and every rising list of numbers spread over 300.
fn every_small_list(checker: &mut Checker) -> Result<(), Stopped> {
    for width in WIDTHS {
        let low = width.first.max(-1);
        let mut lists: Vec<Vec<i128>> = vec![Vec::new()];
        for length in 0..4 {
            let longer = |list: &Vec<i128>| -> Vec<Vec<i128>> {
                (low..4).map(|number| [list.as_slice(), &[number]].concat()).collect()
            };
            let of_length = lists.iter().filter(|list| list.len() == length).flat_map(longer);
            let of_length: Vec<Vec<i128>> = of_length.collect();
            lists.extend(of_length);
        }
        const SPREAD: [i128; 9] = [1, 2, 32, 33, 64, 255, 256, 257, 300];
        for subset in 0..512u32 {
            lists.push((0..9).filter(|i| subset >> i & 1 == 1).map(|i| SPREAD[i]).collect());
        }
        for list in &lists {
            for base in low..4 {
                checker.lines(&[make(&width, base, list)])?;
            }
        }
    }
    Ok(())
}

fn make(width: &Width, base: i128, list: &[i128]) -> Line {
    let list = match list {
        [] => "-".to_string(),
        _ => list.iter().map(i128::to_string).collect::<Vec<_>>().join(","),
    };
    format!("set.make {} {base} {list}", width.name).into_bytes()
}

fn any_base(random: &mut Random, width: &Width) -> i128 {
    let step = i128::from(random.between(-3, 3));
    let far = i128::from(random.between(-300, 300));
    let base = match random.below(6) {
        0 => step,
        1 => width.last + step,
        2 => width.last - 256 + step,
        3 => width.last + far,
        4 => width.first + far,
        _ => width.of_any_length(random),
    };
    base.clamp(width.first, width.last)
}

fn any_set(random: &mut Random, width: &Width) -> Set {
    let count = match random.below(4) {
        0 => random.pick(&[0, 1, 31, 32, 33, 63, 64, 65, 254, 255, 256, 257, 258, u32::MAX]),
        1 => random.of_any_length() as u32,
        _ => random.below(257) as u32,
    };
    let kind = random.below(5);
    let words = std::array::from_fn(|_| match kind {
        0 => u32::MAX,
        1 => 0,
        2 => random.bits() as u32 & random.bits() as u32 & random.bits() as u32,
        3 => 1 << random.below(32),
        _ => random.bits() as u32,
    });
    let base = any_base(random, width);
    Set { base, count, words }
}

/// What is asked about one set.
fn about(random: &mut Random, width: &Width, set: &Set) -> Vec<Line> {
    let name = width.name;
    let order = random.pick(&ORDERS);
    let bytes = set.bytes(width, order == "big");
    let damaged = damage(random, &bytes);
    let text = set.text();
    let write_room = match random.below(4) {
        0 => format!(" room={}", random.index(LONGEST + 2)),
        1 => format!(" room={}", bytes.len()),
        2 => format!(" room={}", bytes.len() - 1),
        _ => String::new(),
    };
    let members = set.members();
    let walk_room = match random.below(4) {
        0 => format!(" room={}", members + random.index(4)),
        1 => format!(" room={members}"),
        2 => format!(" room={}", members.saturating_sub(1)),
        _ => String::new(),
    };
    let way = random.pick(&["up", "down"]);
    let lines = [
        format!("set.write {name} {order} {text}{write_room}"),
        format!("set.read {name} {order} {}", hex(&bytes)),
        format!("set.read {name} {order} {}", hex(&damaged)),
        format!("set.walk {name} up {text}"),
        format!("set.walk {name} down {text}"),
        format!("set.walk {name} {way} {text}{walk_room}"),
        format!("set.len {name} {text}"),
    ];
    let mut lines: Vec<Line> = lines.into_iter().map(String::into_bytes).collect();
    lines.push(any_make(random, width));
    lines
}

/// A copy with bytes changed, cut or added.
fn damage(random: &mut Random, bytes: &[u8]) -> Vec<u8> {
    let mut damaged = bytes.to_vec();
    for _ in 0..=random.below(2) {
        match random.below(3) {
            0 => damaged.truncate(random.index(damaged.len() + 1)),
            1 => {
                let more = random.index(5);
                damaged.extend(random.bytes(more));
            }
            _ => {
                if !damaged.is_empty() {
                    let at = random.index(damaged.len());
                    damaged[at] ^= 1 << random.below(8);
                }
            }
        }
    }
    damaged
}

/// A list that rises from somewhere near the base, now and then with a step back.
fn any_make(random: &mut Random, width: &Width) -> Line {
    let base = any_base(random, width);
    let mut number = match random.below(8) {
        0 => any_base(random, width),
        1 => base - i128::from(random.between(1, 10)),
        _ => base + i128::from(random.between(0, 10)),
    };
    let stride = random.pick(&[1, 2, 10, 60, 300]);
    let backwards = random.once_in(8);
    let mut list = Vec::new();
    for _ in 0..random.below(12) {
        if width.holds(number) {
            list.push(number);
        }
        let back = backwards && random.once_in(3);
        number += if back {
            -i128::from(random.between(0, 2))
        } else {
            i128::from(random.between(1, stride))
        };
    }
    if random.once_in(6) && list.last().is_none_or(|last| *last < width.last) {
        list.push(width.last);
    }
    make(width, base, &list)
}
