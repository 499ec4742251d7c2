//! Blocks put together: runs and their payloads, places used again, evictions, cleaning, the view, and seeded chains.

use crate::fragments::sound;
use crate::recorder::{Fragment, Recorder, PLACES};
use protocol::Random;

/// A later fragment's data size, an earlier time, marks set twice, payloads short and long, old bytes in a place.
fn runs(recorder: &mut Recorder) {
    recorder.assembler_new(4, true, 16);
    let f = |start, count, payload: &[u8]| Fragment {
        start,
        count,
        payload: payload.to_vec(),
        ..sound(16)
    };
    recorder.fragment(&f(2, 1, b"efgh"));
    recorder.fragment(&Fragment {
        data_size: 0,
        time: 50,
        ..f(2, 1, b"EFGHx")
    });
    recorder.fragment(&Fragment {
        data_size: u32::MAX,
        time: 0,
        ..f(3, 1, b"ij")
    });
    recorder.missing_fragments(1, 2);
    recorder.fragment(&Fragment {
        data_size: 3,
        time: u64::MAX,
        ..f(1, 2, b"abcdef")
    });
    recorder.view(0, 10);
    recorder.has(1);
    // The place again: zeros, and nothing old; whole with no bytes at all, or with too many.
    for (count, payload) in [
        (3, &b""[..]),
        (3, b"x"),
        (3, b"0123456789abcdefgh"),
        (2, b"0123456789"),
        (1, b"01234"),
    ] {
        recorder.fragment(&Fragment {
            number: 2,
            ..f(1, count, payload)
        });
        recorder.view(0, 16);
        recorder.fragment(&Fragment {
            number: 2,
            ..f(3, 1, b"yz!!")
        });
        recorder.view(0, 16);
    }
    // Lowest free place: 1, 2, 3 open, 2 returned, 4 opened, then 5.
    recorder.assembler_new(4, false, 12);
    let g = |number, start| Fragment {
        number,
        start,
        ..sound(12)
    };
    for number in [30, 20, 10] {
        recorder.fragment(&g(number, 1));
    }
    recorder.fragment(&Fragment {
        count: 2,
        payload: b"efghij".to_vec(),
        ..g(20, 2)
    });
    recorder.view(1, 10);
    for number in [40, 50, 1, i64::MAX - 1] {
        recorder.fragment(&g(number, 3));
        recorder.missing_fragments(number, 3);
    }
    for number in [i64::MIN, -1, 0, 1, 2, 10, 20, 30, i64::MAX - 1, i64::MAX] {
        recorder.has(number);
        recorder.missing_fragments(number, 2);
        recorder.missing_fragments(number, 1);
    }
    recorder.in_assembly();
}

/// Where the view's part ends at the area's end, one past it, and far past what a product holds.
fn views(recorder: &mut Recorder) {
    recorder.assembler_new(4, true, 8);
    recorder.fragment(&Fragment {
        data_size: 8,
        count: 2,
        payload: b"abcdefgh".to_vec(),
        ..sound(8)
    });
    for (place, length) in [
        (0, 0),
        (0, 1),
        (0, 8),
        (0, 9),
        (1, 8),
        (0, 20),
        (127, 16),
        (127, 17),
        (128, 7),
        (128, 8),
        (128, 9),
        (129, 0),
        (129, 1),
        (130, 0),
        (0, 1033),
        (0, u64::MAX),
        (1, u64::MAX - 7),
        (128, u64::MAX - 1023),
        (1 << 61, 0),
        (1 << 61, 8),
        (u64::MAX, 0),
        (u64::MAX, u64::MAX),
        (2_305_843_009_213_693_952, 4),
    ] {
        recorder.view(place, length);
    }
}

/// The numbers opened, each with the first of its two fragments.
fn open_all(recorder: &mut Recorder, numbers: impl Iterator<Item = i64>) {
    for number in numbers {
        let payload = vec![number as u8, 1, 2, 3];
        recorder.fragment(&Fragment {
            number,
            data_size: 8,
            payload,
            time: number as u64,
            ..sound(8)
        });
    }
}

/// 128 in assembly and one more: unfinished or whole, above, among and below them, in both modes.
fn evictions(recorder: &mut Recorder) {
    for reliable in [true, false] {
        recorder.assembler_new(4, reliable, 8);
        open_all(recorder, (1..=128).map(|i| 2 * i));
        let one = |number, count| Fragment {
            number,
            count,
            data_size: 8,
            payload: b"stuvwxyz".to_vec(),
            ..sound(8)
        };
        // Whole in one run: returned from the last place, none dropped.
        recorder.fragment(&one(259, 2));
        recorder.view(128, 8);
        // Above all, below all, among them; the dropped one opened again; one that is open.
        for number in [260, 1, 101, 260, 2, 256, 254, 4, 103] {
            recorder.fragment(&one(number, 1));
            recorder.has(number);
            recorder.in_assembly();
        }
        // Finished with 128 in assembly: its place is free, and the next opened takes it.
        recorder.fragment(&Fragment {
            start: 2,
            ..one(100, 1)
        });
        recorder.fragment(&one(102, 1));
        recorder.fragment(&one(301, 1));
        recorder.fragment(&one(300, 1));
        recorder.fragment(&one(300, 2));
        for number in [1, 2, 4, 100, 101, 254, 256, 260, 300, 301] {
            recorder.has(number);
            recorder.missing_fragments(number, 2);
        }
        recorder.clean(0, 0);
        recorder.clean(u64::MAX, 127);
        recorder.clean(10, 5);
        recorder.clean(u64::MAX, 130);
        recorder.in_assembly();
        recorder.fragment(&one(5, 1));
    }
    // As document 01 says it: 1 to 128, then 129.
    for reliable in [true, false] {
        recorder.assembler_new(4, reliable, 8);
        open_all(recorder, 1..=128);
        for count in [2, 1] {
            let payload = b"12345678".to_vec();
            recorder.fragment(&Fragment {
                number: 129,
                count,
                data_size: 8,
                payload,
                ..sound(8)
            });
        }
        recorder.has(1);
        recorder.has(128);
        recorder.has(129);
        recorder.clean(128, 130);
    }
}

/// Below the cutoff, at it and above it; rooms one short, exact and longer; numbers rising whatever their places.
fn cleaning(recorder: &mut Recorder) {
    for room in [0, 2, 3, 6] {
        for cutoff in [0, 9, 10, 11, 20, 21, 30, 31, u64::MAX] {
            recorder.assembler_new(4, true, 12);
            for (number, time) in [(7, 20), (3, 10), (9, 9), (1, 30), (5, u64::MAX)] {
                recorder.fragment(&Fragment {
                    number,
                    time,
                    ..sound(12)
                });
            }
            recorder.clean(cutoff, room);
            recorder.in_assembly();
            if cutoff == 21 {
                // Freed places are used again, the lowest first.
                recorder.fragment(&Fragment {
                    number: 8,
                    time: 1,
                    start: 2,
                    ..sound(12)
                });
                recorder.fragment(&Fragment {
                    number: 2,
                    time: 2,
                    start: 2,
                    ..sound(12)
                });
                recorder.clean(2, room);
                recorder.clean(3, room);
                recorder.clean(3, room);
            }
        }
    }
}

/// Fragments of a few numbers in any order, some out of shape, with times that go on and at times back.
fn chain(recorder: &mut Recorder, random: &mut Random, calls: usize, f: u16, p: u32, numbers: u64) {
    let reliable = random.below(2) == 0;
    recorder.assembler_new(f, reliable, p);
    let data_size = |number: i64| u32::from(f) + (number as u32 * 7) % (p - u32::from(f) + 1);
    let mut time = 1000;
    for _ in 0..calls {
        time += random.below(5);
        let number = 1 + random.below(numbers) as i64;
        let size = data_size(number);
        let fragments = u64::from(size.div_ceil(u32::from(f)));
        let start = 1 + random.below(fragments) as u32;
        let count = 1 + random.below(fragments.min(4)) as u16;
        let length = usize::from(count) * usize::from(f);
        let length = random.pick(&[length, length, length, length / 2, length + 3]);
        match random.below(12) {
            0 => recorder.clean(time - random.below(30), 12),
            1 => recorder.missing_fragments(number, random.below(8) as usize),
            2 => recorder.has(number),
            3 => recorder.view(random.below(4), u64::from(p)),
            _ => {
                recorder.fragment(&Fragment {
                    area: PLACES * p as usize + random.below(3) as usize,
                    time: time - random.pick(&[0, 0, 0, 9]),
                    number,
                    fragment_size: f,
                    data_size: size,
                    start,
                    count,
                    payload: random.bytes(length),
                });
            }
        }
    }
    recorder.in_assembly();
}

pub fn record(recorder: &mut Recorder) {
    runs(recorder);
    views(recorder);
    cleaning(recorder);
    evictions(recorder);
    let mut random = Random::new(4);
    for (f, p, numbers) in [
        (1, 5, 6),
        (4, 20, 8),
        (3, 64, 5),
        (7, 100, 12),
        (16, 40, 20),
        (64, 300, 4),
        (1, 256, 3),
    ] {
        chain(recorder, &mut random, 70, f, p, numbers);
    }
}
