//! The writer proxy: refusals at their edges, known values, the cap, queries after each, and seeded chains.

use crate::recorder::Recorder;
use protocol::Random;

/// Numbers at which a call turns from refused to accepted, and their neighbours.
const ENDS: [i64; 8] = [i64::MIN, -1, 0, 1, 2, i64::MAX - 2, i64::MAX - 1, i64::MAX];

/// What a proxy shows of some numbers, and its last number and base.
fn ask(recorder: &mut Recorder, numbers: &[i64]) {
    for number in numbers {
        recorder.ignore(*number);
        recorder.status(*number);
    }
    recorder.last_received();
    recorder.base();
}

fn set_up(recorder: &mut Recorder) {
    recorder.proxy_new();
    ask(recorder, &ENDS);
    for room in [0, 1, 774, 775, 776, 900] {
        recorder.proxy_new_on(room);
    }
}

/// 4 and 5, one below, at, and one above; each on a proxy that tracks something, which a refusal leaves.
fn refusals(recorder: &mut Recorder) {
    let start = |recorder: &mut Recorder| {
        recorder.proxy_new();
        recorder.received(3, 70);
        recorder.irrelevant(5);
    };
    for number in ENDS {
        start(recorder);
        recorder.received(number, 71);
        ask(recorder, &[number]);
        start(recorder);
        recorder.irrelevant(number);
        ask(recorder, &[number]);
        start(recorder);
        recorder.up_to(number);
        ask(recorder, &[3, 5, number]);
    }
    for a in [i64::MIN, -1, 0, 1, 2, 3, 4, 5, 6, 100, i64::MAX] {
        for b in [a.saturating_sub(1), a, a.saturating_add(1), a.saturating_add(4)] {
            start(recorder);
            recorder.range(a, b);
        }
    }
    for (a, b) in [
        (i64::MAX, i64::MIN),
        (i64::MIN, i64::MAX),
        (5, 1),
        (1, i64::MAX),
        (2, 1 << 62),
    ] {
        start(recorder);
        recorder.range(a, b);
        ask(recorder, &[1, 2, 3, 5, b]);
    }
}

/// 4, then 3; rooms one short, exact and longer.
fn missing(recorder: &mut Recorder) {
    recorder.proxy_new();
    for number in [1, 3, 6, 7, 40] {
        recorder.received(number, 10 + number as u64);
    }
    recorder.irrelevant(9);
    for end in [i64::MAX - 1, i64::MAX] {
        for start in [i64::MIN, 1, i64::MAX - 2, i64::MAX - 1, i64::MAX] {
            for room in [0, 1, 2, 300] {
                recorder.missing(start, end, room);
            }
        }
    }
    for start in [i64::MIN, -1, 0, 1, 2, 3, 4, 10, 40, 41] {
        for (end, room) in [
            (i64::MIN, 0),
            (-1, 1),
            (0, 1),
            (1, 0),
            (2, 1),
            (3, 1),
            (4, 2),
            (8, 4),
            (10, 9),
            (42, 40),
        ] {
            recorder.missing(start, end, room);
        }
    }
    // From 2 to 42 are 41 numbers, 5 of them tracked.
    for room in [35, 36, 37] {
        recorder.missing(1, 42, room);
    }
    for (start, end) in [(1, 256), (1, 264), (4, 260), (300, 560)] {
        for room in [250, 251, 252, 256, 257, 258, 260, 261, 262] {
            recorder.missing(start, end, room);
        }
    }
}

/// Document 01's P9 to P11, its replay example, and what stands beside them.
fn known_values(recorder: &mut Recorder) {
    recorder.proxy_new();
    recorder.range(10, 12);
    recorder.range(0, 10);
    ask(recorder, &[9, 10, 11, 12]);
    recorder.proxy_new();
    recorder.range(2, 1002);
    ask(recorder, &[1, 2, 745, 746, 1001, 1002]);
    recorder.proxy_new();
    for number in 2..=258 {
        recorder.received(number, 1000 + number as u64);
    }
    ask(recorder, &[1, 2, 3, 4, 258, 259]);
    recorder.received(3, 5);
    ask(recorder, &[3, 4, 258, 259]);
    recorder.proxy_new();
    recorder.received(1, 10);
    recorder.received(3, 11);
    recorder.missing(1, 4, 256);
    recorder.range(2, 3);
    recorder.missing(1, 4, 256);
}

/// What is put over what; the last number and its time; the base moving on.
fn steps(recorder: &mut Recorder) {
    recorder.proxy_new();
    for (number, time) in [(5, 50), (5, 40), (4, 60), (6, 1), (6, u64::MAX), (2, 0)] {
        recorder.received(number, time);
        ask(recorder, &[number]);
    }
    recorder.irrelevant(5);
    ask(recorder, &[5]);
    recorder.received(5, 77);
    recorder.irrelevant(3);
    ask(recorder, &[3, 5]);
    recorder.received(1, 78);
    ask(recorder, &[0, 1, 2, 6, 7]);
    recorder.irrelevant(6);
    recorder.received(6, 79);
    recorder.received(2, 80);
    ask(recorder, &[2, 6, 7]);
    recorder.received(9, 81);
    recorder.irrelevant(7);
    ask(recorder, &[7, 8, 9]);
    recorder.irrelevant(8);
    ask(recorder, &[8, 9, 10]);
    // A range over tracked numbers above the base, up to it, at it, past it.
    for number in [12, 13, 15, 20] {
        recorder.received(number, 90 + number as u64);
    }
    recorder.range(12, 14);
    ask(recorder, &[12, 13, 14, 15]);
    recorder.range(9, 10);
    recorder.range(10, 10);
    recorder.range(8, 11);
    ask(recorder, &[10, 11, 12]);
    recorder.up_to(11);
    recorder.up_to(12);
    ask(recorder, &[13, 14, 15]);
    recorder.up_to(14);
    recorder.up_to(15);
    ask(recorder, &[16, 17, 20]);
    recorder.range(0, 1 << 62);
    ask(recorder, &[20, (1 << 62) - 1, 1 << 62]);
    recorder.received(5, 3);
    recorder.range((1 << 62) + 5, (1 << 62) + 7);
    recorder.up_to(i64::MAX);
    ask(recorder, &[i64::MAX - 1, i64::MAX]);
    recorder.received(i64::MAX - 1, 4);
    recorder.missing(1, i64::MAX - 1, 3);
}

/// So many tracked above the base, by one of the calls.
fn fill(recorder: &mut Recorder, many: i64, by: u64) {
    recorder.proxy_new();
    match by {
        1 => recorder.range(10, 10 + many),
        _ => {
            recorder.range(10, 10 + many - 4);
            (0..4).for_each(|i| recorder.irrelevant(1000 + 3 * i));
        }
    }
}

/// 255, 256 and 257 tracked, and each call that can bring one more.
fn cap(recorder: &mut Recorder) {
    for by in [1, 2] {
        for many in [255, 256, 257] {
            for call in 0..5 {
                fill(recorder, many, by);
                match call {
                    0 => recorder.received(2000, 7),
                    1 => recorder.irrelevant(2000),
                    2 => recorder.range(2000, 2001),
                    3 => recorder.received(3, 8),
                    _ => recorder.received(1, 9),
                }
                recorder.received(2002, 9);
                ask(recorder, &[10, 12]);
            }
        }
    }
    // Numbers with gaps, forced one after the other; then the base received, so that it moves on.
    recorder.proxy_new();
    recorder.range(40, 40 + 248);
    for i in 0..12 {
        recorder.received(10 + 2 * i, i as u64);
    }
    ask(recorder, &[10, 16, 17, 18]);
    recorder.received(500, 5);
    recorder.irrelevant(502);
    let base = recorder.ack_base();
    recorder.received(base, 6);
    recorder.irrelevant(base + 2);
    recorder.irrelevant(base + 1);
    ask(recorder, &[base, base + 1, base + 2, base + 3]);
    for many in [255, 256, 257, 511, 512, 513, 1000, 4096] {
        recorder.proxy_new();
        recorder.received(2, 1);
        recorder.received(50, 2);
        recorder.range(3, 3 + many);
        recorder.missing(1, 2 + many, 8);
        ask(recorder, &[2, 3, 50, 3 + many - 257, 3 + many - 256, 3 + many - 1]);
        recorder.received(3 + many + 1, 3);
        recorder.irrelevant(3 + many + 2);
    }
    for (a, b) in [
        (2, 1 << 62),
        (2, i64::MAX),
        (i64::MAX - 300, i64::MAX),
        (i64::MAX - 256, i64::MAX),
    ] {
        recorder.proxy_new();
        recorder.received(7, 6);
        recorder.range(a, b);
        ask(recorder, &[7, b - 257, b - 256, b - 1, b]);
        recorder.missing(1, b - 1, 2);
        recorder.received(i64::MAX - 1, 7);
    }
}

fn count(recorder: &mut Recorder) {
    for count in [0, 1, 2, -1, -2, 1000, i32::MAX - 1, i32::MAX, i32::MIN, i32::MIN + 1] {
        recorder.count(count);
    }
}

/// A chain of calls: the numbers near the base mostly, at times far from it.
fn chain(recorder: &mut Recorder, random: &mut Random, calls: usize, wide: u64) {
    recorder.proxy_new();
    for _ in 0..calls {
        let base = recorder.ack_base();
        let number = base.saturating_add(random.below(wide) as i64 - (wide / 8) as i64);
        match random.below(16) {
            0..=5 => recorder.received(number, random.below(1000)),
            6 | 7 => recorder.irrelevant(number),
            8 | 9 => recorder.range(number, number.saturating_add(random.below(wide / 2) as i64)),
            10 => recorder.up_to(base.saturating_add(random.below(4) as i64 - 1)),
            11 => recorder.status(number),
            12 => recorder.ignore(number),
            13 => recorder.last_received(),
            _ => recorder.missing(number, number.saturating_add(random.below(12) as i64), 14),
        }
    }
    let tracked = recorder.tracked();
    ask(recorder, &tracked[..tracked.len().min(6)]);
}

pub fn record(recorder: &mut Recorder) {
    set_up(recorder);
    refusals(recorder);
    missing(recorder);
    known_values(recorder);
    steps(recorder);
    cap(recorder);
    count(recorder);
    let mut random = Random::new(3);
    for wide in [8, 12, 16, 40, 80, 300, 2000] {
        chain(recorder, &mut random, 60, wide);
    }
}
