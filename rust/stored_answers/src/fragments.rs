//! The assembler's set-up and fragment calls: every refusal at its edge, and which is asked first.

use crate::recorder::{Fragment, Recorder, PLACES};

const F: u16 = 4;

/// A fragment that an assembler with fragment size 4 and this place size takes: the first of three.
pub fn sound(place_size: usize) -> Fragment {
    Fragment {
        area: PLACES * place_size,
        time: 100,
        number: 1,
        fragment_size: F,
        data_size: 10,
        start: 1,
        count: 1,
        payload: b"abcd".to_vec(),
    }
}

fn set_up(recorder: &mut Recorder) {
    for (f, p) in [
        (1, 1),
        (4, 16),
        (0, 16),
        (4, 0),
        (0, 0),
        (1, 65_536),
        (1, 65_537),
        (65_535, 65_535),
        (65_535, 65_536),
        (0, 65_537),
        (4, u32::MAX),
        (4, 1),
    ] {
        for reliable in [true, false] {
            recorder.assembler_new(f, reliable, p);
        }
        for words in [0, 905, 906, 907, 920] {
            recorder.assembler_new_on(words, f, words % 2 == 0, p);
        }
        recorder.in_assembly();
    }
    // A refused set-up leaves the record in use.
    recorder.assembler_new(4, true, 16);
    recorder.fragment(&sound(16));
    for (f, p) in [(0, 16), (4, 0), (4, 65_537)] {
        recorder.assembler_new(f, false, p);
        recorder.has(1);
    }
}

/// What breaks a row of the table, by the row's number.
fn broken(row: u32, mut f: Fragment) -> Fragment {
    match row {
        13 => f.area -= 1,
        4 => f.number = 0,
        6 => f.fragment_size += 1,
        7 => f.data_size = u32::from(F) - 1,
        8 => f.data_size = 2049,
        9 => f.data_size = 1025,
        10 => f.count = 0,
        11 => f.start = 0,
        12 => f.start = 4,
        _ => panic!("no row {row}"),
    }
    f
}

const ROWS: [u32; 9] = [13, 4, 6, 7, 8, 9, 10, 11, 12];

/// Each row alone and each two together, where the sample would be opened and where it is open.
fn order(recorder: &mut Recorder) {
    for open in [false, true] {
        recorder.assembler_new(F, true, 2048);
        if open {
            recorder.fragment(&sound(2048));
        }
        for (i, row) in ROWS.into_iter().enumerate() {
            recorder.fragment(&broken(
                row,
                Fragment {
                    start: 2,
                    ..sound(2048)
                },
            ));
            for other in &ROWS[i + 1..] {
                recorder.fragment(&broken(row, broken(*other, sound(2048))));
            }
        }
        recorder.in_assembly();
    }
}

/// Below, at and above each edge.
fn edges(recorder: &mut Recorder) {
    let one = |recorder: &mut Recorder, change: &dyn Fn(&mut Fragment)| {
        let mut f = sound(16);
        recorder.assembler_new(F, true, 16);
        change(&mut f);
        recorder.fragment(&f);
        recorder.missing_fragments(f.number, 4);
    };
    for area in [0, 1, PLACES * 16 - 1, PLACES * 16, PLACES * 16 + 1] {
        one(recorder, &|f| f.area = area);
    }
    for number in [i64::MIN, -1, 0, 1, 2, i64::MAX - 2, i64::MAX - 1, i64::MAX] {
        one(recorder, &|f| f.number = number);
    }
    for size in [0, 1, 3, 4, 5, 65_535] {
        one(recorder, &|f| f.fragment_size = size);
    }
    for data_size in [0, 1, 3, 4, 5, 7, 8, 9, 15, 16, 17, u32::MAX] {
        one(recorder, &|f| f.data_size = data_size);
    }
    for count in [0, 1, 2, 3, 4, 65_535] {
        one(recorder, &|f| f.count = count);
    }
    for start in [0, 1, 2, 3, 4, 5, u32::MAX] {
        one(recorder, &|f| f.start = start);
    }
    for (start, count) in [
        (1, 3),
        (1, 4),
        (2, 2),
        (2, 3),
        (3, 1),
        (3, 2),
        (4, 0),
        (0, 3),
        (u32::MAX, 65_535),
    ] {
        one(recorder, &|f| (f.start, f.count) = (start, count));
    }
    for length in 0..14 {
        one(recorder, &|f| (f.count, f.payload) = (2, vec![0xEE; length]));
        one(recorder, &|f| {
            (f.start, f.count, f.payload) = (2, 2, vec![0xDD; length])
        });
    }
}

/// P7 and P8, and a place of 65,536 with too little lent.
fn known_values(recorder: &mut Recorder) {
    for data_size in [10, 4] {
        recorder.assembler_new(F, true, 2048);
        recorder.fragment(&Fragment {
            data_size,
            ..sound(2048)
        });
        recorder.missing_fragments(1, 5);
    }
    for data_size in [1023, 1024, 1025, 2048, 2049, 3, 4] {
        recorder.assembler_new(F, true, 2048);
        recorder.fragment(&Fragment {
            data_size,
            ..sound(2048)
        });
        recorder.missing_fragments(1, 256);
        recorder.missing_fragments(1, 254);
        recorder.fragment(&Fragment {
            data_size,
            start: 256,
            ..sound(2048)
        });
        recorder.fragment(&Fragment {
            data_size,
            start: 257,
            ..sound(2048)
        });
    }
    // All of 1,024 bytes in two runs, the later one first.
    recorder.assembler_new(F, false, 2048);
    let block: Vec<u8> = (0..1024u32).map(|i| (i * i / 3 + 11) as u8).collect();
    let whole = Fragment {
        data_size: 1024,
        ..sound(2048)
    };
    recorder.fragment(&Fragment {
        start: 129,
        count: 128,
        payload: block[512..].to_vec(),
        ..whole.clone()
    });
    recorder.missing_fragments(1, 130);
    recorder.fragment(&Fragment {
        start: 1,
        count: 128,
        payload: block[..512].to_vec(),
        ..whole
    });
    recorder.view(0, 1024);
    // More than 256 fragments would be needed only from 257 on: 2,048 bytes by 8 are 256.
    recorder.assembler_new(8, true, 2048);
    for data_size in [2047, 2048] {
        recorder.fragment(&Fragment {
            number: 2,
            fragment_size: 8,
            data_size,
            ..sound(2048)
        });
        recorder.missing_fragments(2, 255);
    }
    recorder.assembler_new(65_535, true, 65_536);
    for area in [0, 264_192] {
        recorder.fragment(&Fragment {
            area,
            fragment_size: 65_535,
            data_size: 65_536,
            ..sound(1)
        });
    }
}

pub fn record(recorder: &mut Recorder) {
    set_up(recorder);
    order(recorder);
    edges(recorder);
    known_values(recorder);
}
