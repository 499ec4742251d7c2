//! Scripts of the writer proxy: random chains biased to the base, the table's ends and the cap.

use original::Oracle;
use protocol::{answer, Proxy, ProxyLook};

use crate::checker::{Checker, Stopped, EXHAUSTIVE};
use crate::side::Line;
use crate::small_proxies;
use protocol::Random;

/// The longest range of the stated domain.
const LONGEST_RANGE: i64 = 4096;

pub fn run(checker: &mut Checker, random: &mut Random, size: usize) -> Result<(), Stopped> {
    if size >= EXHAUSTIVE {
        small_proxies::every_proxy(checker)?;
        small_proxies::full_tables(checker)?;
    }
    let before = checker.compared();
    while checker.compared() < before + size {
        checker.case(&chain(random))?;
    }
    Ok(())
}

/// A chain in the making: the oracle goes along, so that calls can be aimed at the state.
struct Chain {
    scout: Oracle,
    look: ProxyLook,
    script: Vec<Line>,
}

impl Chain {
    fn new() -> Self {
        let mut chain = Self {
            scout: Oracle::new(),
            look: ProxyLook {
                base: 1,
                last: 0,
                last_time: None,
                tracked: Vec::new(),
            },
            script: Vec::new(),
        };
        chain.say("px.new A".to_string());
        chain
    }

    fn say(&mut self, line: String) {
        answer(&mut self.scout, line.as_bytes());
        self.script.push(line.into_bytes());
        if let Ok(look) = self.scout.px_look() {
            self.look = look;
        }
    }

    /// A number near something that matters.
    fn number(&self, random: &mut Random) -> i64 {
        let base = self.look.base as i64;
        let first = self.look.tracked.first().map_or(base, |entry| entry.0);
        let last = self.look.tracked.last().map_or(base, |entry| entry.0);
        let some = match self.look.tracked.len() {
            0 => base,
            many => self.look.tracked[random.index(many)].0,
        };
        let near = random.between(-2, 3);
        match random.below(40) {
            0..=9 => base.saturating_add(near),
            10..=13 => base,
            14..=17 => first.saturating_add(near),
            18..=25 => last.saturating_add(near),
            26..=31 => some.saturating_add(near),
            32..=37 => base.saturating_add(random.between(0, 600)),
            38 => random.pick(&[i64::MIN, -1, 0, 1, i64::MAX - 2, i64::MAX - 1, i64::MAX]),
            _ => last.saturating_add(random.between(1, 2000)),
        }
    }

    fn time(&self, random: &mut Random) -> u64 {
        match random.below(10) {
            0 => random.pick(&[0, u64::MAX, u64::MAX - 1, 1 << 63]),
            1 => random.of_any_length(),
            _ => random.below(100),
        }
    }

    fn range(&self, random: &mut Random) -> (i64, i64) {
        let from = self.number(random);
        let length = match random.below(20) {
            0 => random.between(-5, 0),
            1..=9 => random.between(0, 6),
            10..=14 => random.between(0, 300),
            15..=17 => random.between(0, LONGEST_RANGE),
            18 => return (from, self.number(random).min(from.saturating_add(LONGEST_RANGE))),
            _ if random.once_in(8) => return (from, from.saturating_add(LONGEST_RANGE + random.between(1, 1 << 40))),
            _ => 256 + random.between(-2, 2),
        };
        (from, from.saturating_add(length))
    }

    fn missing(&mut self, random: &mut Random) -> String {
        let start = self.number(random);
        let end = match random.below(12) {
            0 => i64::MAX - random.between(0, 1),
            1..=5 => self.number(random),
            _ => start.saturating_add(random.between(-2, 300)),
        };
        let exact = self.scout.px_miss(start, end, Some(2000)).map_or(0, |list| list.len());
        let wide = i128::from(end) - i128::from(start.max(self.look.base as i64)) > 3000;
        let room = match random.below(5) {
            0 => Some(exact.saturating_sub(1)),
            1 => Some(exact),
            2 => Some(exact + random.index(5)),
            3 => Some(256),
            _ if wide => Some(random.index(300)),
            _ => None,
        };
        let room = room.map_or(String::new(), |room| format!(" room={room}"));
        format!("px.miss A {start} {end}{room}")
    }

    fn step(&mut self, random: &mut Random, still: bool) {
        let weight = random.below(100);
        let line = match weight {
            0..=44 => format!("px.recv A {} {}", self.number(random), self.time(random)),
            45..=59 => format!("px.irr A {}", self.number(random)),
            60..=69 if !still => {
                let (from, until_before) = self.range(random);
                format!("px.range A {from} {until_before}")
            }
            70..=73 if !still => format!("px.upto A {}", self.number(random)),
            60..=77 => format!("px.ign A {}", self.number(random)),
            78..=83 => format!("px.stat A {}", self.number(random)),
            84..=94 => self.missing(random),
            95..=96 => "px.ack A".to_string(),
            97 => format!("px.setack A {}", random.pick(&[-1, 0, 7, i32::MIN, i32::MAX - 40])),
            _ => "px.dump A".to_string(),
        };
        self.say(line);
    }

    /// Comes near the cap: tracked numbers above the base, whole or with gaps.
    fn fill(&mut self, random: &mut Random) {
        let from = (self.look.base as i64).saturating_add(random.between(1, 3));
        let stride = random.pick(&[1, 1, 2, 3]);
        let many = random.between(250, 258);
        if stride == 1 && random.once_in(2) {
            let until = from.saturating_add(many);
            self.say(format!("px.range A {from} {until}"));
            return;
        }
        for i in 0..many {
            let number = from.saturating_add(i * stride);
            let time = self.time(random);
            match random.once_in(5) {
                true => self.say(format!("px.irr A {number}")),
                false => self.say(format!("px.recv A {number} {time}")),
            }
        }
    }
}

fn chain(random: &mut Random) -> Vec<Line> {
    let mut chain = Chain::new();
    match random.below(6) {
        0 => chain.say(format!("px.upto A {}", i64::MAX - random.between(0, 3000))),
        1 => chain.say(format!("px.upto A {}", random.of_any_length() as i64 >> 1)),
        _ => {}
    }
    // Some chains keep off ranges, which empty the table.
    let still = random.once_in(2);
    if random.once_in(2) {
        chain.fill(random);
    }
    for _ in 0..random.between(50, 600) {
        chain.step(random, still);
    }
    chain.say("px.dump A".to_string());
    // The original panics here: the chain's last question.
    chain.say(format!("px.setack A {}", i32::MAX));
    chain.say("px.ack A".to_string());
    chain.script
}
