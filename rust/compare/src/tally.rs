//! What a run met, counted from its lines and answers; the closing table.

use std::collections::{BTreeMap, BTreeSet};
use std::fmt::Write;

/// What is counted, in the order of the table.
#[derive(Debug, Clone, Copy, PartialEq, Eq, PartialOrd, Ord)]
pub enum Count {
    Cases,
    Answers,
    /// By its place in the list of commands.
    Command(usize),
    Refused(u32),
    ForcedSteps,
    Returned,
    Evictions,
    OwnEvictions,
    Cleanings,
    Cleaned,
    SmallProxies,
    FullTablePairs,
    SmallAssemblers,
    Panics,
    IrrelevantAtCap,
    LongRanges,
}

impl Count {
    fn name(self) -> String {
        let name = match self {
            Self::Cases => "cases",
            Self::Answers => "answers compared",
            Self::Command(at) => COMMANDS.get(at).unwrap_or(&REPLAY_LINE),
            Self::Refused(number) => return format!("refused with {number}"),
            Self::ForcedSteps => "forced steps",
            Self::Returned => "samples returned",
            Self::Evictions => "evictions",
            Self::OwnEvictions => "evictions of the sample just opened",
            Self::Cleanings => "cleanings that dropped something",
            Self::Cleaned => "samples cleaned",
            Self::SmallProxies => "all proxies over the numbers -1 to 6",
            Self::FullTablePairs => "all pairs of calls at a full table",
            Self::SmallAssemblers => "all assemblers of two samples of up to three fragments",
            Self::Panics => "outside: the original panics",
            Self::IrrelevantAtCap => "outside: one irrelevant at 256 tracked",
            Self::LongRanges => "outside: ranges above 4,096 numbers",
        };
        name.to_string()
    }
}

/// Every command of the protocol; a replay line has no name.
const COMMANDS: [&str; 30] = [
    "num.write",
    "num.read",
    "set.read",
    "set.write",
    "set.walk",
    "set.len",
    "set.make",
    "px.new",
    "px.recv",
    "px.irr",
    "px.range",
    "px.upto",
    "px.ign",
    "px.stat",
    "px.miss",
    "px.ack",
    "px.setack",
    "px.dump",
    "px.end",
    "asm.new",
    "asm.frag",
    "asm.clean",
    "asm.missing",
    "asm.has",
    "asm.view",
    "asm.places",
    "asm.last",
    "asm.dump",
    "asm.bytes",
    "asm.end",
];
const REPLAY_LINE: &str = "replay line";

#[derive(Default, Clone)]
pub struct Tally {
    counts: BTreeMap<Count, usize>,
    /// How many the proxy tracks, as it last said.
    tracked: String,
}

impl Tally {
    pub fn of(&self, count: Count) -> usize {
        self.counts.get(&count).copied().unwrap_or(0)
    }

    pub fn add(&mut self, count: Count, times: usize) {
        if times > 0 {
            *self.counts.entry(count).or_default() += times;
        }
    }

    pub fn add_all(&mut self, other: &Self) {
        for (count, times) in &other.counts {
            self.add(*count, *times);
        }
    }

    /// Counts one compared line and what the port said of it.
    pub fn line(&mut self, line: &[u8], answer: &str) {
        self.add(Count::Answers, 1);
        let text = String::from_utf8_lossy(line);
        let words: Vec<&str> = text.split(' ').collect();
        let said: Vec<&str> = answer.split(' ').collect();
        let command = COMMANDS.into_iter().position(|name| name == words[0]);
        self.add(Count::Command(command.unwrap_or(COMMANDS.len())), 1);
        // A replay answer has its refusal, or 0, in second place too.
        let refusal = said.get(1).filter(|_| said[0] == "ref" || command.is_none());
        if let Some(number @ 1..) = refusal.and_then(|word| word.parse().ok()) {
            self.add(Count::Refused(number), 1);
        }
        if said[0] == "ok" {
            self.accepted(&words, &said);
        }
    }

    fn accepted(&mut self, words: &[&str], said: &[&str]) {
        match (words[0], said) {
            ("px.recv" | "px.irr" | "px.range" | "px.upto", [_, _, tracked, .., forced]) => {
                let full = words[0] == "px.irr" && self.tracked == "256";
                self.add(Count::ForcedSteps, usize::from(*forced != "-"));
                self.add(Count::IrrelevantAtCap, usize::from(full));
                self.add(Count::LongRanges, usize::from(long_range(words)));
                self.tracked = tracked.to_string();
            }
            ("px.new", _) => self.tracked.clear(),
            ("asm.frag", [_, number, _, _, dropped, _]) => {
                let own = words.get(3) == Some(dropped);
                self.add(Count::Returned, usize::from(*number != "-"));
                self.add(Count::Evictions, usize::from(*dropped != "-"));
                self.add(Count::OwnEvictions, usize::from(own));
            }
            ("asm.clean", [_, many, ..]) => {
                self.add(Count::Cleanings, usize::from(*many != "0"));
                self.add(Count::Cleaned, many.parse().unwrap_or(0));
            }
            _ => {}
        }
    }
}

fn long_range(words: &[&str]) -> bool {
    let number = |at: usize| words.get(at).and_then(|word| word.parse::<i128>().ok());
    match (words[0], number(2), number(3)) {
        ("px.range", Some(from), Some(until_before)) => until_before - from > 4096,
        _ => false,
    }
}

/// The closing table: a column for each part, and one for all of them.
pub fn table(parts: &[(&str, Tally)]) -> String {
    let mut all = Tally::default();
    parts.iter().for_each(|(_, tally)| all.add_all(tally));
    let mut columns: Vec<(&str, &Tally)> = parts.iter().map(|(name, tally)| (*name, tally)).collect();
    if columns.len() > 1 {
        columns.push(("all", &all));
    }
    let mut text = "|  |".to_string();
    columns.iter().for_each(|(name, _)| _ = write!(text, " {name} |"));
    text += "\n|---|";
    columns.iter().for_each(|_| text += "--:|");
    let refusals = (1..=15).map(Count::Refused);
    let rows: BTreeSet<Count> = all.counts.keys().copied().chain(refusals).collect();
    for row in rows {
        _ = write!(text, "\n| {} |", row.name());
        columns
            .iter()
            .for_each(|(_, tally)| _ = write!(text, " {} |", grouped(tally.of(row))));
    }
    text
}

/// With a comma after each three digits.
pub fn grouped(number: usize) -> String {
    let digits = number.to_string();
    let mut text = String::new();
    for (at, digit) in digits.chars().enumerate() {
        if at > 0 && (digits.len() - at) % 3 == 0 {
            text.push(',');
        }
        text.push(digit);
    }
    text
}

#[cfg(test)]
mod tests {
    use super::*;

    #[test]
    fn counts_what_the_answers_say() {
        let mut tally = Tally::default();
        tally.line(b"px.recv A 300 7", "ok 45 256 300 7 99 44,45");
        tally.line(b"px.irr A 301", "ok 46 256 300 7 99 45,46");
        tally.line(b"px.recv A 0 7", "ref 4");
        tally.line(b"asm.frag A 0 129 4 8 1 1 -", "ok - - - 129 128");
        tally.line(b"asm.clean A 9", "ok 2 1 5");
        tally.line(b"asm.clean A 9", "ok 0");
        tally.line(b"zz", "0 1 44");
        let counts = [
            (Count::Answers, 7),
            (Count::ForcedSteps, 2),
            (Count::IrrelevantAtCap, 1),
            (Count::Refused(4), 1),
            (Count::Refused(1), 1),
            (Count::Evictions, 1),
            (Count::OwnEvictions, 1),
            (Count::Cleanings, 1),
            (Count::Cleaned, 2),
            (Count::Command(COMMANDS.len()), 1),
        ];
        for (count, times) in counts {
            assert_eq!(tally.of(count), times, "{count:?}");
        }
        let table = table(&[("proxy", tally.clone()), ("asm", tally)]);
        assert!(table.starts_with("|  | proxy | asm | all |\n|---|--:|--:|--:|\n"));
        assert!(table.contains("| forced steps | 2 | 2 | 4 |"));
        assert!(table.contains("| refused with 15 | 0 | 0 | 0 |"));
    }

    #[test]
    fn groups_of_three() {
        assert_eq!([0, 999, 1000, 1234567].map(grouped), ["0", "999", "1,000", "1,234,567"]);
    }
}
