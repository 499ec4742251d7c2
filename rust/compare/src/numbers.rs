//! Scripts of numbers on the wire.

use protocol::hex;

use crate::checker::{Checker, Stopped};
use crate::side::Line;
use protocol::Random;

const ORDERS: [&str; 2] = ["big", "little"];
/// Every length of input and every room up to this one.
const LONGEST: usize = 12;

pub fn run(checker: &mut Checker, random: &mut Random, size: usize) -> Result<(), Stopped> {
    checker.lines(&edges(random))?;
    let before = checker.compared();
    while checker.compared() < before + size {
        checker.lines(&[any(random)])?;
    }
    Ok(())
}

fn values(width: &str) -> Vec<i64> {
    let around = match width {
        "seq" => vec![0, i64::MIN + 3, i64::MAX - 3, 1 << 31, 1 << 32, -1 << 31, -1 << 32],
        _ => vec![3, (1 << 31) - 1, i64::from(u32::MAX) - 3],
    };
    around.iter().flat_map(|value| value - 3..=value + 3).collect()
}

/// All orders, rooms and lengths over the values around the edges.
fn edges(random: &mut Random) -> Vec<Line> {
    let mut lines = Vec::new();
    for width in ["seq", "frag"] {
        for order in ORDERS {
            for value in values(width) {
                let start = format!("num.write {width} {order} {value}");
                lines.push(start.clone().into_bytes());
                lines.extend((0..=LONGEST).map(|room| format!("{start} room={room}").into_bytes()));
            }
            for length in 0..=LONGEST {
                for byte in [0, 1, 127, 128, 255] {
                    let mut bytes = vec![byte; length];
                    lines.push(format!("num.read {width} {order} {}", hex(&bytes)).into_bytes());
                    if let Some(any) = bytes.get_mut(random.index(length.max(1))) {
                        *any = random.bits() as u8;
                        lines.push(format!("num.read {width} {order} {}", hex(&bytes)).into_bytes());
                    }
                }
            }
        }
    }
    lines
}

fn any(random: &mut Random) -> Line {
    let width = random.pick(&["seq", "frag"]);
    let order = random.pick(&ORDERS);
    if random.once_in(2) {
        let length = random.index(LONGEST + 1);
        let bytes = hex(&random.bytes(length));
        return format!("num.read {width} {order} {bytes}").into_bytes();
    }
    let value = match (width, random.once_in(2)) {
        ("seq", true) => (random.of_any_length() as i64).to_string(),
        ("seq", false) => (random.of_any_length() as i64).wrapping_neg().to_string(),
        _ => (random.of_any_length() as u32).to_string(),
    };
    let room = match random.once_in(4) {
        true => format!(" room={}", random.index(LONGEST + 1)),
        false => String::new(),
    };
    format!("num.write {width} {order} {value}{room}").into_bytes()
}
