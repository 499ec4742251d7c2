//! One number, written and read: both kinds, both orders, every length around enough.

use crate::recorder::{Kind, Recorder};
use protocol::Random;

/// Numbers at the edges of their bytes, of their words and of their type.
fn edges(kind: Kind) -> Vec<i64> {
    let shared = [
        0,
        1,
        2,
        255,
        256,
        65_535,
        65_536,
        2_147_483_647,
        2_147_483_648,
        4_294_967_294,
        4_294_967_295,
    ];
    let wide = [
        4_294_967_296,
        4_294_967_297,
        4_294_967_298,
        0x0102_0304_0506_0708,
        i64::MAX - 1,
        i64::MAX,
        i64::MIN,
        i64::MIN + 1,
        -1,
        -2,
        -256,
        -4_294_967_295,
        -4_294_967_296,
        -4_294_967_297,
    ];
    match kind {
        Kind::Sequence => [&shared[..], &wide].concat(),
        Kind::Fragment => shared.to_vec(),
    }
}

pub fn record(recorder: &mut Recorder) {
    let mut random = Random::new(1);
    for kind in Kind::BOTH {
        for big in [true, false] {
            for number in edges(kind) {
                recorder.write_number(kind, big, number, kind.size());
            }
            for room in 0..kind.size() + 3 {
                recorder.write_number(kind, big, 0x0102_0304, room);
            }
            for length in 0..kind.size() + 3 {
                let bytes = random.bytes(length);
                recorder.read_number(kind, big, &bytes);
            }
            for (first, rest) in [(0, 0), (255, 255), (127, 255), (128, 0), (0, 1), (1, 0), (255, 254)] {
                let mut bytes = vec![rest; kind.size()];
                bytes[0] = first;
                recorder.read_number(kind, big, &bytes);
                bytes.reverse();
                recorder.read_number(kind, big, &bytes);
            }
            for _ in 0..10 {
                let bytes = random.bytes(kind.size());
                recorder.read_number(kind, big, &bytes);
            }
        }
    }
}
