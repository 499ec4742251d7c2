//! Scripts of the assembler: chains of fragments, runs, evictions, cleanings, reopened places, and every refusal.

use original::Oracle;
use protocol::{answer, hex, Assembler};

use crate::checker::{Checker, Stopped, EXHAUSTIVE};
use crate::side::Line;
use crate::small_assemblers;
use protocol::Random;

const PLACES: i64 = 129;
const MOST_FRAGMENTS: i64 = 256;
const LARGEST_PLACE: i64 = 65_536;

pub fn run(checker: &mut Checker, random: &mut Random, size: usize) -> Result<(), Stopped> {
    checker.lines(&set_ups())?;
    every_refusal(checker)?;
    if size >= EXHAUSTIVE {
        small_assemblers::every_assembler(checker)?;
    }
    let before = checker.compared();
    while checker.compared() < before + size {
        checker.case(&chain(random))?;
    }
    Ok(())
}

fn set_ups() -> Vec<Line> {
    let mut lines = Vec::new();
    for fragment_size in [0, 1, 2, 1024, 65_534, 65_535] {
        for place_size in [0, 1, 2, 65_535, 65_536, 65_537, u32::MAX] {
            for mode in ["reliable", "besteffort"] {
                lines.push(format!("asm.new A {fragment_size} {mode} {place_size}").into_bytes());
            }
        }
    }
    lines
}

/// Every combination of good and bad arguments, where one sample is open and where none is.
fn every_refusal(checker: &mut Checker) -> Result<(), Stopped> {
    for (unit, place_size) in [(4, 2), (4, 8), (4, 1030), (1, 300)] {
        let new = format!("asm.new A {unit} reliable {place_size}").into_bytes();
        let first = format!("asm.frag A 7 5 {unit} {} 1 1 -", 2 * unit).into_bytes();
        let whole = PLACES * place_size;
        let data_sizes = [unit - 1, unit, 2 * unit, place_size + 1, 256 * unit, 256 * unit + 1];
        for (number, data_size) in [0, 5, 6, i64::MAX].into_iter().flat_map(|n| data_sizes.map(|d| (n, d))) {
            for (size, area) in [
                (unit, whole),
                (unit + 1, whole),
                (unit, whole - 1),
                (unit + 1, whole - 1),
            ] {
                for (start, count) in [0, 1, 2, 3].into_iter().flat_map(|k| [0, 1, 2, 257].map(|n| (k, n))) {
                    let arguments = format!("{number} {size} {data_size} {start} {count} 0102030405 area={area}");
                    let fragment = format!("asm.frag A 8 {arguments}").into_bytes();
                    checker.case(&[new.clone(), first.clone(), fragment, b"asm.dump A".to_vec()])?;
                }
            }
        }
    }
    Ok(())
}

/// A chain in the making: the oracle goes along, so that fragments can be aimed at what is in assembly.
struct Chain {
    scout: Oracle,
    script: Vec<Line>,
    unit: i64,
    place_size: i64,
    /// Large samples: whole dumps are rare.
    large: bool,
    now: i64,
    highest: i64,
}

impl Chain {
    fn say(&mut self, line: String) -> String {
        let said = answer(&mut self.scout, line.as_bytes());
        self.script.push(line.into_bytes());
        said
    }

    fn open(&mut self) -> Vec<i64> {
        let places = self.scout.asm_places().unwrap_or_default();
        places.into_iter().map(|(number, _)| number).collect()
    }

    fn some_open(&mut self, random: &mut Random) -> Option<i64> {
        let open = self.open();
        match open.len() {
            0 => None,
            many => Some(match random.below(6) {
                0 => open[0],
                1 => open[many - 1],
                _ => open[random.index(many)],
            }),
        }
    }

    /// A number to open: mostly above all others, now and then below or between.
    fn fresh(&mut self, random: &mut Random) -> i64 {
        match random.below(30) {
            0 => random.pick(&[i64::MIN, -1, 0, 1, i64::MAX - 1, i64::MAX]),
            1..=4 => random.between(1, self.highest.max(1)),
            5 => self
                .some_open(random)
                .unwrap_or(1)
                .saturating_add(random.between(-2, 2)),
            _ => {
                self.highest += random.between(1, 3);
                self.highest
            }
        }
    }

    fn data_size(&self, random: &mut Random) -> i64 {
        let near = random.between(-1, 1);
        let size = match random.below(16) {
            0 => self.unit + near,
            1 => 2 * self.unit + near,
            2 => MOST_FRAGMENTS * self.unit + near,
            3 => self.place_size + near,
            4 => random.between(0, self.unit),
            5..=8 => random.between(self.unit, (8 * self.unit).min(self.place_size).max(self.unit)),
            _ => random.between(self.unit, self.place_size.max(self.unit)),
        };
        size.clamp(0, i64::from(u32::MAX))
    }

    fn time(&mut self, random: &mut Random) -> u64 {
        self.now += random.between(0, 2);
        match random.below(40) {
            0 => random.pick(&[0, u64::MAX, 1 << 63]),
            1..=3 => random.between(0, self.now) as u64,
            _ => self.now as u64,
        }
    }

    /// Start and length of a run: mostly at a missing fragment.
    fn run(&self, random: &mut Random, missing: &[u32], fragments: i64) -> (i64, i64) {
        let start = match missing.len() {
            many if many > 0 && !random.once_in(8) => i64::from(missing[random.index(many)]),
            _ => random.between(1, fragments.max(1)),
        };
        let left = fragments - start + 1;
        let count = match random.below(12) {
            0 => left,
            1..=3 => random.between(1, left.max(1)),
            _ => 1,
        };
        match random.below(60) {
            0 => (start, 0),
            1 => (0, count),
            2 => (start, left + 1),
            3 => (fragments + 1, 1),
            4 => (i64::from(u32::MAX), random.pick(&[1, 2, 65_535])),
            _ => (start, count.clamp(0, 65_535)),
        }
    }

    fn payload(&self, random: &mut Random, run: i64, left: i64) -> Vec<u8> {
        let whole = run.min(left).clamp(0, 2 * LARGEST_PLACE);
        let length = match random.below(12) {
            0 => 0,
            1 => random.between(0, whole),
            2 => whole - 1,
            3 => whole + random.between(1, self.unit.min(64)),
            4 => run.clamp(0, 2 * LARGEST_PLACE),
            _ => whole,
        };
        random.bytes(length.max(0) as usize)
    }

    fn fragment(&mut self, random: &mut Random, number: i64, data_size: i64) {
        let missing = self.scout.asm_missing(number, None).unwrap_or_default();
        let fragments = match self.scout.asm_has(number) {
            Ok(true) => missing.last().map_or(1, |last| i64::from(*last) + random.between(0, 1)),
            _ => (data_size + self.unit - 1) / self.unit,
        };
        let (start, count) = self.run(random, &missing, fragments);
        let payload = self.payload(random, count * self.unit, data_size - (start - 1) * self.unit);
        let size = match random.below(60) {
            0 => random.pick(&[0, self.unit - 1, (self.unit + 1).min(65_535)]),
            _ => self.unit,
        };
        let area = match random.below(60) {
            0 => format!(" area={}", PLACES * self.place_size - 1),
            1 => format!(" area={}", PLACES * self.place_size),
            2 if self.place_size < 4096 => format!(" area={}", PLACES * self.place_size + 5),
            3 => format!(" area={}", random.between(0, PLACES * self.place_size)),
            _ => String::new(),
        };
        let (time, payload) = (self.time(random), hex(&payload));
        self.say(format!(
            "asm.frag A {time} {number} {size} {data_size} {start} {count} {payload}{area}"
        ));
    }

    /// A fragment of a sample in assembly, or one that opens another.
    fn any_fragment(&mut self, random: &mut Random, crowded: bool) {
        let known = match crowded && random.once_in(2) {
            true => None,
            false => self.some_open(random).filter(|_| !random.once_in(4)),
        };
        let number = match known {
            Some(number) => number,
            None => self.fresh(random),
        };
        let data_size = self.data_size(random);
        self.fragment(random, number, data_size);
    }

    /// Comes near 129 in assembly: samples of more than one fragment, each with its first.
    fn fill(&mut self, random: &mut Random) {
        let data_size = random.between(self.unit + 1, self.place_size.min(MOST_FRAGMENTS * self.unit));
        for _ in 0..random.between(120, 130) {
            self.highest += random.between(1, 3);
            let (time, payload) = (self.time(random), hex(&random.bytes(self.unit as usize)));
            let (number, unit) = (self.highest, self.unit);
            self.say(format!("asm.frag A {time} {number} {unit} {data_size} 1 1 {payload}"));
        }
    }

    fn room(&self, random: &mut Random, exact: usize) -> String {
        match random.below(4) {
            0 => format!(" room={}", exact.saturating_sub(1)),
            1 => format!(" room={exact}"),
            2 => format!(" room={}", exact + random.index(5)),
            _ => String::new(),
        }
    }

    fn clean(&mut self, random: &mut Random) {
        let cutoff = match random.below(8) {
            0 => random.pick(&[0, 1, u64::MAX]),
            1 => self.now as u64 + 1,
            _ => random.between(self.now / 2, self.now) as u64,
        };
        let dump = self.scout.asm_dump().unwrap_or_default();
        let exact = dump.iter().filter(|open| open.time < cutoff).count();
        let room = self.room(random, exact);
        self.say(format!("asm.clean A {cutoff}{room}"));
    }

    fn question(&mut self, random: &mut Random) {
        let number = self
            .some_open(random)
            .unwrap_or(1)
            .saturating_add(random.between(-1, 1));
        let any_place = random.pick(&[0, 1, 127, 128, 129, 130, usize::MAX as u64]);
        let line = match random.below(7) {
            0 | 1 => {
                let exact = self.scout.asm_missing(number, None).map_or(0, |list| list.len());
                format!("asm.missing A {number}{}", self.room(random, exact))
            }
            2 => format!("asm.has A {number}"),
            3 => format!(
                "asm.view A {any_place} {}",
                random.pick(&[0, 1, self.place_size, self.place_size + 1])
            ),
            4 => format!(
                "asm.view A {} {}",
                random.below(131),
                random.pick(&[1, usize::MAX as i128])
            ),
            5 => "asm.last A".to_string(),
            _ => "asm.places A".to_string(),
        };
        self.say(line);
    }

    /// All that is in assembly and the area's bytes.
    fn whole(&mut self) {
        self.say("asm.dump A".to_string());
        self.say("asm.places A".to_string());
        let length = PLACES * self.place_size;
        self.say(format!("asm.bytes A 0 {length}"));
    }

    fn step(&mut self, random: &mut Random, crowded: bool) {
        match random.below(200) {
            0..=3 if !crowded => self.clean(random),
            0 => self.clean(random),
            4..=23 => self.question(random),
            24 if !self.large || random.once_in(10) => self.whole(),
            _ => self.any_fragment(random, crowded),
        }
    }
}

fn chain(random: &mut Random) -> Vec<Line> {
    let large = random.once_in(60);
    let unit = match large {
        true => random.pick(&[256, 257, 1024, 4096, 40_000, 65_535]),
        false => random.pick(&[1, 1, 2, 3, 4, 4, 5, 7, 8, 16, 31]),
    };
    let place_size = match random.below(6) {
        0 => unit + random.between(-1, 1),
        1 => 2 * unit + random.between(-1, 1),
        2 if random.once_in(4) => random.between(1, unit),
        2 if large || unit < 9 => MOST_FRAGMENTS * unit + random.between(-1, 9),
        _ => random.between(unit, 12 * unit),
    };
    let place_size = place_size.clamp(1, LARGEST_PLACE);
    let mode = random.pick(&["reliable", "besteffort"]);
    let mut chain = Chain {
        scout: Oracle::new(),
        script: Vec::new(),
        unit,
        place_size,
        large,
        now: 10,
        highest: random.pick(&[0, 1000, i64::MAX - 2000]),
    };
    chain.say(format!("asm.new A {unit} {mode} {place_size}"));
    // A crowded chain stays near 129 in assembly.
    let crowded = !large && place_size > unit && random.once_in(2);
    if crowded {
        chain.fill(random);
    }
    let steps = if large { 60 } else { random.between(50, 900) };
    for _ in 0..steps {
        chain.step(random, crowded);
    }
    chain.whole();
    chain.script
}
