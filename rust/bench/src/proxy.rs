//! The writer proxy: receipts, missing lists, the ignore query.

use std::hint::black_box;

use crate::rounds::Case;
use protocol::Random;

const RECEIPTS: i64 = 1_000;
const QUERIES: usize = 1_024;
const LISTS: usize = 64;
const SPAN: i64 = 256;

pub fn cases() -> Vec<Box<dyn Case>> {
    let in_order = Receipts::new("receipts in order", 1, 0);
    let late = Receipts::new("receipts, one in ten late by a hundred", 110, 100);
    // About 250 are tracked all the time.
    let near = Receipts::new("receipts, a table held near 256", 290, 280);
    // Number 1 never comes: each receipt forces a step.
    let full = Receipts::new("receipts, a table held at 256", 2, 0);
    let half = Missing::new("missing list over 256, one in two missing", 2);
    let few = Missing::new("missing list over 256, one in sixteen missing", 16);
    vec![
        Box::new(in_order),
        Box::new(late),
        Box::new(near),
        Box::new(full),
        Box::new(half),
        Box::new(few),
        Box::new(Ignore::new()),
    ]
}

struct Both {
    original: original::RtpsWriterProxy,
    port: drucenal::RtpsWriterProxy,
}

impl Both {
    fn new() -> Self {
        Self {
            original: original::RtpsWriterProxy::new(),
            port: drucenal::RtpsWriterProxy::new(),
        }
    }

    fn receive(&mut self, numbers: impl Iterator<Item = i64>) {
        for number in numbers {
            self.original.received_changes_add(number.into(), time(number));
            self.port
                .received_changes_add(number, number as u64)
                .expect("the number is accepted");
        }
    }

    fn agree(&self) -> bool {
        i64::from(self.original.all_ackable_before()) as u64 == self.port.all_ackable_before()
            && self.original.tracked().eq(self.port.tracked())
    }
}

/// A number comes at the time of the same value.
fn time(number: i64) -> original::Timestamp {
    original::Timestamp(number as u64)
}

/// Receipts whose numbers go on rising, pass by pass.
struct Receipts {
    name: &'static str,
    both: Both,
    offsets: Vec<i64>,
    original_from: i64,
    port_from: i64,
}

impl Receipts {
    /// Each number that ten divides comes so many receipts later than its turn.
    fn new(name: &'static str, from: i64, late: i64) -> Self {
        let mut both = Both::new();
        if late > 0 {
            both.receive((1..from).filter(|number| number % 10 != 0));
        }
        let offset = |i: i64| if i % 10 == 0 { i - late } else { i };
        Self {
            name,
            both,
            offsets: (0..RECEIPTS).map(offset).collect(),
            original_from: from,
            port_from: from,
        }
    }
}

impl Case for Receipts {
    fn name(&self) -> &str {
        self.name
    }

    fn calls(&self) -> usize {
        self.offsets.len()
    }

    fn original(&mut self) -> u64 {
        let from = self.original_from;
        self.original_from += RECEIPTS;
        for offset in &self.offsets {
            let number = black_box(from + offset);
            self.both.original.received_changes_add(number.into(), time(number));
        }
        i64::from(self.both.original.all_ackable_before()) as u64
    }

    fn port(&mut self) -> u64 {
        let from = self.port_from;
        self.port_from += RECEIPTS;
        for offset in &self.offsets {
            let number = black_box(from + offset);
            let _ = black_box(self.both.port.received_changes_add(number, number as u64));
        }
        self.both.port.all_ackable_before()
    }

    fn agree(&self) -> bool {
        self.both.agree()
    }
}

/// Missing lists of a heartbeat from 1 to 256, where each so-manieth number is missing.
struct Missing {
    name: &'static str,
    both: Both,
    lent: [i64; SPAN as usize],
}

impl Missing {
    fn new(name: &'static str, each: i64) -> Self {
        let mut both = Both::new();
        both.receive((1..=SPAN).filter(|number| number % each != 1));
        Self {
            name,
            both,
            lent: [0; SPAN as usize],
        }
    }
}

impl Case for Missing {
    fn name(&self) -> &str {
        self.name
    }

    fn calls(&self) -> usize {
        LISTS
    }

    fn original(&mut self) -> u64 {
        let mut sum = 0;
        for _ in 0..LISTS {
            let (first, last) = black_box((1, SPAN));
            let missing = self.both.original.missing_seqnums(first.into(), last.into());
            sum += missing.iter().map(|number| i64::from(*number)).sum::<i64>();
        }
        sum as u64
    }

    fn port(&mut self) -> u64 {
        let mut sum = 0;
        for _ in 0..LISTS {
            let (first, last) = black_box((1, SPAN));
            let listed = self.both.port.missing_seqnums(first, last, &mut self.lent);
            let missing = &self.lent[..listed.expect("the list has room")];
            sum += missing.iter().sum::<i64>();
        }
        sum as u64
    }

    fn agree(&self) -> bool {
        self.both.agree()
    }
}

/// Queries of numbers below the base, tracked, and neither, in no order; 256 are tracked.
struct Ignore {
    both: Both,
    numbers: Vec<i64>,
}

impl Ignore {
    fn new() -> Self {
        let mut both = Both::new();
        both.receive(1..=100);
        both.receive((0..256).map(|i| 102 + 2 * i));
        let mut random = Random::new(1);
        Self {
            both,
            numbers: (0..QUERIES).map(|_| 1 + random.below(700) as i64).collect(),
        }
    }
}

impl Case for Ignore {
    fn name(&self) -> &str {
        "ignore query, 256 tracked"
    }

    fn calls(&self) -> usize {
        self.numbers.len()
    }

    fn original(&mut self) -> u64 {
        let ignored = |number: &&i64| self.both.original.should_ignore_change(black_box(**number).into());
        self.numbers.iter().filter(ignored).count() as u64
    }

    fn port(&mut self) -> u64 {
        let ignored = |number: &&i64| self.both.port.should_ignore_change(black_box(**number));
        self.numbers.iter().filter(ignored).count() as u64
    }

    fn agree(&self) -> bool {
        self.both.agree()
    }
}
