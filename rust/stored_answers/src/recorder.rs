//! Calls put to the oracle in the call protocol, and stored with their answers. Every word is hexadecimal, two's
//! complement where the type is signed. The oracle lends nothing: what a lent output holds after a call is document
//! 01's rule over the answer.

use std::fmt::Write;

use original::Oracle;
use protocol::{area_byte, hex, unhex, UNTOUCHED};

use crate::layout::{self, bytes_digest, words_digest};

/// Which numbers: the first digit of a call's code.
#[derive(Clone, Copy, PartialEq)]
pub enum Kind {
    Sequence = 1,
    Fragment = 2,
}

impl Kind {
    pub const BOTH: [Self; 2] = [Self::Sequence, Self::Fragment];

    fn name(self) -> &'static str {
        match self {
            Self::Sequence => "seq",
            Self::Fragment => "frag",
        }
    }

    /// How many bytes a number takes.
    pub fn size(self) -> usize {
        match self {
            Self::Sequence => 8,
            Self::Fragment => 4,
        }
    }

    pub fn last(self) -> i64 {
        match self {
            Self::Sequence => i64::MAX,
            Self::Fragment => i64::from(u32::MAX),
        }
    }
}

#[derive(Clone)]
pub struct Set {
    pub base: i64,
    pub count: u32,
    pub words: [u32; 8],
}

/// A fragment call; `area`: how many bytes are lent.
#[derive(Clone)]
pub struct Fragment {
    pub area: usize,
    pub time: u64,
    pub number: i64,
    pub fragment_size: u16,
    pub data_size: u32,
    pub start: u32,
    pub count: u16,
    pub payload: Vec<u8>,
}

/// What the oracle says: the tokens after `ok`, or a refusal number.
enum Said {
    Accepted(Vec<String>),
    Refused(u64),
}

use Said::{Accepted, Refused};

#[derive(Default)]
pub struct Recorder {
    oracle: Oracle,
    calls: String,
    answers: String,
    many: usize,
    left_out: usize,
    /// Fragment size, whether reliable, place size.
    assembler: (u16, bool, u32),
}

/// Places of the area.
pub const PLACES: usize = 129;

fn order_name(big: bool) -> &'static str {
    if big {
        "big"
    } else {
        "little"
    }
}

/// A decimal token, of either sign.
fn word(token: &str) -> u64 {
    match token.parse::<i128>() {
        Ok(value) => value as u64,
        Err(_) => panic!("no number: {token}"),
    }
}

fn words(tokens: &[String]) -> Vec<u64> {
    tokens.iter().map(|token| word(token)).collect()
}

fn bytes(token: &str) -> Vec<u64> {
    match unhex(token.as_bytes()) {
        Ok(bytes) => bytes.into_iter().map(u64::from).collect(),
        Err(_) => panic!("no bytes: {token}"),
    }
}

fn words32(token: &str) -> Vec<u64> {
    token
        .split(',')
        .map(|word| u64::from_str_radix(word, 16).expect("a word"))
        .collect()
}

fn set_token(set: &Set) -> String {
    let words = set.words.map(|word| format!("{word:x}")).join(",");
    format!("{} {} {words}", set.base, set.count)
}

fn set_words(set: &Set) -> Vec<u64> {
    let head = [set.base as u64, u64::from(set.count)];
    head.into_iter().chain(set.words.map(u64::from)).collect()
}

/// 0, how many bytes were taken, base, count and words, of `ok base count words ..`.
fn told_set(taken: u64, tokens: &[String]) -> Vec<u64> {
    let head = [0, taken, word(&tokens[0]), word(&tokens[1])];
    [head.to_vec(), words32(&tokens[2])].concat()
}

/// A refusal, and the port's fixed rest: nothing taken, the empty set at 0.
fn no_set(number: u64) -> Vec<u64> {
    [vec![number], vec![0; 11]].concat()
}

/// A lent output of so many entries after a call that wrote these from its front.
fn lent(room: usize, written: &[u64]) -> Vec<u64> {
    let mut entries = vec![u64::from(UNTOUCHED); room];
    entries[..written.len()].copy_from_slice(written);
    entries
}

/// A refusal and the untouched output, or 0, how many were written, and the output.
fn listed(said: &Said, room: usize, written: impl Fn(&[String]) -> Vec<u64>) -> Vec<u64> {
    match said {
        Refused(number) => [vec![*number], lent(room, &[])].concat(),
        Accepted(tokens) => {
            let entries = written(tokens);
            [vec![0, entries.len() as u64], lent(room, &entries)].concat()
        }
    }
}

/// The tokens of `ok n m1 .. mn`, without n.
fn members(tokens: &[String]) -> Vec<u64> {
    words(&tokens[1..])
}

fn said(oracle: &mut Oracle, line: &str) -> Option<Said> {
    let answer = protocol::answer(oracle, line.as_bytes());
    let mut tokens = answer.split(' ').map(str::to_string);
    match tokens.next().as_deref() {
        Some("ok") => Some(Accepted(tokens.collect())),
        Some("ref") => Some(Refused(word(&tokens.next().unwrap_or_default()))),
        _ if answer == "err panic" => None,
        _ => panic!("{line}: {answer}"),
    }
}

impl Recorder {
    pub fn new() -> Self {
        Self::default()
    }

    pub fn calls(&self) -> &str {
        &self.calls
    }

    pub fn answers(&self) -> &str {
        &self.answers
    }

    pub fn many(&self) -> usize {
        self.many
    }

    pub fn left_out(&self) -> usize {
        self.left_out
    }

    fn store(&mut self, code: u64, call: &[u64], answer: &[u64]) {
        let line = |text: &mut String, first: u64, rest: &[u64]| {
            let _ = write!(text, "{first:x}");
            for word in rest {
                let _ = write!(text, " {word:x}");
            }
            text.push('\n');
        };
        line(&mut self.calls, code, call);
        line(&mut self.answers, answer[0], &answer[1..]);
        self.many += 1;
    }

    /// A call that leaves no state: none where the original panics, and the call is left out.
    fn try_ask(&mut self, line: &str) -> Option<Said> {
        let said = said(&mut self.oracle, line);
        self.left_out += usize::from(said.is_none());
        said
    }

    fn ask(&mut self, line: &str) -> Said {
        match said(&mut self.oracle, line) {
            Some(said) => said,
            None => panic!("{line}: the original panics"),
        }
    }

    /// The tokens of a call that is never refused.
    fn tokens(&mut self, line: &str) -> Vec<String> {
        match self.ask(line) {
            Accepted(tokens) => tokens,
            Refused(number) => panic!("{line}: refused {number}"),
        }
    }

    // Numbers and sets.

    pub fn write_number(&mut self, kind: Kind, big: bool, number: i64, room: usize) {
        let order = order_name(big);
        let line = format!("num.write {} {order} {number} room={room}", kind.name());
        if let Some(said) = self.try_ask(&line) {
            let answer = listed(&said, room, |tokens| bytes(&tokens[0]));
            self.store(
                kind as u64 * 16,
                &[u64::from(!big), room as u64, number as u64],
                &answer,
            );
        }
    }

    pub fn read_number(&mut self, kind: Kind, big: bool, input: &[u8]) {
        let line = format!("num.read {} {} {}", kind.name(), order_name(big), hex(input));
        let answer = match self.try_ask(&line) {
            None => return,
            Some(Refused(number)) => vec![number],
            Some(Accepted(tokens)) => vec![0, word(&tokens[0])],
        };
        self.store(kind as u64 * 16 + 1, &with_bytes(&[u64::from(!big)], input), &answer);
    }

    pub fn read_set(&mut self, kind: Kind, big: bool, input: &[u8]) {
        let line = format!("set.read {} {} {}", kind.name(), order_name(big), hex(input));
        let answer = match self.try_ask(&line) {
            None => return,
            Some(Refused(number)) => no_set(number),
            Some(Accepted(tokens)) => told_set(word(&tokens[3]), &tokens),
        };
        self.store(kind as u64 * 16 + 2, &with_bytes(&[u64::from(!big)], input), &answer);
    }

    pub fn write_set(&mut self, kind: Kind, big: bool, set: &Set, room: usize) {
        let order = order_name(big);
        let line = format!("set.write {} {order} {} room={room}", kind.name(), set_token(set));
        if let Some(said) = self.try_ask(&line) {
            let answer = listed(&said, room, |tokens| bytes(&tokens[0]));
            let call = [vec![u64::from(!big), room as u64], set_words(set)].concat();
            self.store(kind as u64 * 16 + 3, &call, &answer);
        }
    }

    pub fn walk_set(&mut self, kind: Kind, up: bool, set: &Set, room: usize) {
        let way = if up { "up" } else { "down" };
        let line = format!("set.walk {} {way} {} room={room}", kind.name(), set_token(set));
        if let Some(said) = self.try_ask(&line) {
            let answer = listed(&said, room, members);
            let call = [vec![u64::from(up), room as u64], set_words(set)].concat();
            self.store(kind as u64 * 16 + 4, &call, &answer);
        }
    }

    pub fn measure_set(&mut self, kind: Kind, set: &Set) {
        let line = format!("set.len {} {}", kind.name(), set_token(set));
        let answer = match self.try_ask(&line) {
            None => return,
            Some(Refused(number)) => vec![number],
            Some(Accepted(tokens)) => vec![0, word(&tokens[0])],
        };
        self.store(kind as u64 * 16 + 5, &set_words(set), &answer);
    }

    pub fn make_set(&mut self, kind: Kind, base: i64, list: &[i64]) {
        let members: Vec<String> = list.iter().map(i64::to_string).collect();
        let members = if list.is_empty() {
            "-".to_string()
        } else {
            members.join(",")
        };
        let line = format!("set.make {} {base} {members}", kind.name());
        let answer = match self.try_ask(&line) {
            None => return,
            Some(Refused(number)) => no_set(number),
            Some(Accepted(tokens)) => told_set(0, &tokens),
        };
        let call: Vec<u64> = [base].iter().chain(list).map(|number| *number as u64).collect();
        self.store(kind as u64 * 16 + 6, &call, &answer);
    }

    // The assembler.

    fn area_length(&self) -> usize {
        PLACES * self.assembler.2 as usize
    }

    fn new_line(fragment_size: u16, reliable: bool, place_size: u32) -> String {
        let mode = if reliable { "reliable" } else { "besteffort" };
        format!("asm.new A {fragment_size} {mode} {place_size}")
    }

    pub fn assembler_new(&mut self, fragment_size: u16, reliable: bool, place_size: u32) {
        let refusal = match self.ask(&Self::new_line(fragment_size, reliable, place_size)) {
            Refused(number) => number,
            Accepted(_) => {
                self.assembler = (fragment_size, reliable, place_size);
                0
            }
        };
        let call = [u64::from(fragment_size), u64::from(reliable), u64::from(place_size)];
        let digest = self.assembler_digest();
        self.store(0x30, &call, &[refusal, digest]);
    }

    /// Set-up on so many words that hold 90 each, not on the record in use. Row 3 is document 01's: the oracle lends none.
    pub fn assembler_new_on(&mut self, room: usize, fragment_size: u16, reliable: bool, place_size: u32) {
        let mut oracle = Oracle::new();
        let fresh = layout::Assembler {
            fragment_size: u64::from(fragment_size),
            reliable,
            place_size: u64::from(place_size),
            samples: Vec::new(),
        };
        let said = said(&mut oracle, &Self::new_line(fragment_size, reliable, place_size));
        let (refusal, written) = match said {
            Some(Refused(number)) => (number, Vec::new()),
            Some(Accepted(_)) if room < layout::ASSEMBLER_WORDS => (3, Vec::new()),
            Some(Accepted(_)) => (0, fresh.words()),
            None => panic!("the original panics at set-up"),
        };
        let call = [room as u64, fresh.fragment_size, u64::from(reliable), fresh.place_size];
        self.store(0x31, &call, &[refusal, words_digest(&lent(room, &written))]);
    }

    /// The record's digest, from what is in assembly.
    fn assembler_digest(&mut self) -> u64 {
        let (fragment_size, reliable, place_size) = self.assembler;
        let places = self.tokens("asm.places A");
        let dump = self.tokens("asm.dump A");
        let samples = places.iter().zip(&dump).map(|(place, sample)| {
            let place = place.split(':').next_back().unwrap_or_default();
            let fields: Vec<&str> = sample.split(':').collect();
            layout::Sample {
                number: word(fields[0]),
                place: word(place) as usize,
                size: word(fields[1]),
                fragments: word(fields[2]),
                time: word(fields[3]),
                missing: fields[4].split('.').map(word).collect(),
            }
        });
        let assembler = layout::Assembler {
            fragment_size: u64::from(fragment_size),
            reliable,
            place_size: u64::from(place_size),
            samples: samples.collect(),
        };
        words_digest(&assembler.words())
    }

    /// The digest of the area's first bytes; those past the oracle's area are still as they were at first.
    fn area_digest(&mut self, length: usize) -> u64 {
        let known = length.min(self.area_length());
        let token = self.tokens(&format!("asm.bytes A 0 {known}")).remove(0);
        let mut area = unhex(token.as_bytes()).unwrap_or_default();
        area.extend((known..length).map(area_byte));
        bytes_digest(&area)
    }

    /// Whether it was accepted.
    pub fn fragment(&mut self, f: &Fragment) -> bool {
        let line = format!(
            "asm.frag A {} {} {} {} {} {} {} area={}",
            f.time,
            f.number,
            f.fragment_size,
            f.data_size,
            f.start,
            f.count,
            hex(&f.payload),
            f.area
        );
        let (head, shown) = match self.ask(&line) {
            Refused(number) => (vec![number], Vec::new()),
            Accepted(tokens) if tokens[0] != "-" => {
                let last = words(&self.tokens("asm.last A"));
                assert_eq!(last[0], word(&tokens[0]));
                assert_eq!(last[2], word(&tokens[1]));
                ([vec![0, 1], last].concat(), bytes(&tokens[2]))
            }
            Accepted(tokens) if tokens[3] != "-" => (vec![0, 2, word(&tokens[3])], Vec::new()),
            Accepted(_) => (vec![0, 0], Vec::new()),
        };
        let accepted = head[0] == 0;
        let open = self.tokens("asm.places A").len() as u64;
        let digests = vec![open, self.assembler_digest(), self.area_digest(f.area)];
        let call = [
            f.area as u64,
            f.time,
            f.number as u64,
            u64::from(f.fragment_size),
            u64::from(f.data_size),
            u64::from(f.start),
            u64::from(f.count),
        ];
        self.store(0x32, &with_bytes(&call, &f.payload), &[head, digests, shown].concat());
        accepted
    }

    pub fn view(&mut self, place: u64, length: u64) {
        let token = self.tokens(&format!("asm.view A {place} {length}")).remove(0);
        let shown = bytes(&token);
        let call = [self.area_length() as u64, place, length];
        self.store(0x33, &call, &[vec![shown.len() as u64], shown].concat());
    }

    pub fn clean(&mut self, cutoff: u64, room: usize) {
        let said = self.ask(&format!("asm.clean A {cutoff} room={room}"));
        let mut answer = listed(&said, room, members);
        let head = if answer[0] == 0 { 2 } else { 1 };
        answer.insert(head, self.assembler_digest());
        self.store(0x34, &[cutoff, room as u64], &answer);
    }

    pub fn missing_fragments(&mut self, number: i64, room: usize) {
        let said = self.ask(&format!("asm.missing A {number} room={room}"));
        self.store(0x35, &[number as u64, room as u64], &listed(&said, room, members));
    }

    pub fn has(&mut self, number: i64) {
        let tokens = self.tokens(&format!("asm.has A {number}"));
        self.store(0x36, &[number as u64], &words(&tokens));
    }

    pub fn in_assembly(&mut self) {
        let open = self.tokens("asm.places A").len() as u64;
        self.store(0x37, &[], &[open]);
    }

    // The proxy.

    fn look(&mut self) -> layout::Proxy {
        let tokens = self.tokens("px.dump A");
        let tracked = tokens[3..].iter().map(|entry| match entry.split_once(':') {
            Some((number, "x")) => (word(number), None),
            Some((number, time)) => (word(number), Some(word(time))),
            None => panic!("no entry: {entry}"),
        });
        layout::Proxy {
            base: word(&tokens[0]),
            last: word(&tokens[1]),
            last_time: if tokens[2] == "-" { 0 } else { word(&tokens[2]) },
            tracked: tracked.collect(),
        }
    }

    pub fn proxy_new(&mut self) {
        self.tokens("px.new A");
        let digest = words_digest(&self.look().words());
        self.store(0x40, &[], &[0, digest]);
    }

    /// Set-up on so many words that hold 90 each, not on the record in use. Row 3 is document 01's: the oracle lends none.
    pub fn proxy_new_on(&mut self, room: usize) {
        let fresh = layout::Proxy {
            base: 1,
            last: 0,
            last_time: 0,
            tracked: Vec::new(),
        };
        let enough = room >= layout::PROXY_WORDS;
        let written = if enough { fresh.words() } else { Vec::new() };
        let refusal = if enough { 0 } else { 3 };
        self.store(0x41, &[room as u64], &[refusal, words_digest(&lent(room, &written))]);
    }

    fn change(&mut self, code: u64, call: &[u64], line: &str) {
        let head = match self.ask(line) {
            Refused(number) => vec![number],
            Accepted(tokens) => match tokens[5].split_once(',') {
                Some((old, new)) => vec![0, 1, word(old), word(new)],
                None => vec![0, 0],
            },
        };
        let look = self.look();
        let state = vec![look.base, words_digest(&look.words())];
        self.store(code, call, &[head, state].concat());
    }

    pub fn received(&mut self, number: i64, time: u64) {
        self.change(0x42, &[number as u64, time], &format!("px.recv A {number} {time}"));
    }

    pub fn irrelevant(&mut self, number: i64) {
        self.change(0x43, &[number as u64], &format!("px.irr A {number}"));
    }

    pub fn range(&mut self, from: i64, until: i64) {
        self.change(
            0x44,
            &[from as u64, until as u64],
            &format!("px.range A {from} {until}"),
        );
    }

    pub fn up_to(&mut self, smallest: i64) {
        self.change(0x45, &[smallest as u64], &format!("px.upto A {smallest}"));
    }

    pub fn ignore(&mut self, number: i64) {
        let tokens = self.tokens(&format!("px.ign A {number}"));
        self.store(0x46, &[number as u64], &words(&tokens));
    }

    pub fn status(&mut self, number: i64) {
        let tokens = self.tokens(&format!("px.stat A {number}"));
        let answer = match tokens[0].as_str() {
            "untracked" => vec![0],
            "not-available" => vec![1],
            _ => vec![2, word(&tokens[1])],
        };
        self.store(0x47, &[number as u64], &answer);
    }

    pub fn last_received(&mut self) {
        let tokens = self.tokens("px.dump A");
        let answer = match tokens[2].as_str() {
            "-" => vec![0],
            time => vec![word(&tokens[1]), word(time)],
        };
        self.store(0x48, &[], &answer);
    }

    pub fn base(&mut self) {
        let base = self.look().base;
        self.store(0x49, &[], &[base]);
    }

    pub fn missing(&mut self, start: i64, end: i64, room: usize) {
        let said = self.ask(&format!("px.miss A {start} {end} room={room}"));
        let call = [start as u64, end as u64, room as u64];
        self.store(0x4a, &call, &listed(&said, room, members));
    }

    pub fn tracked(&mut self) -> Vec<i64> {
        self.look().tracked.iter().map(|(number, _)| *number as i64).collect()
    }

    pub fn ack_base(&mut self) -> i64 {
        self.look().base as i64
    }

    /// A count handed out and the one after it, for each of the port's two forms. At 2,147,483,647 the original overflows,
    /// and the answer is document 01's.
    pub fn count(&mut self, count: i32) {
        let mut oracle = Oracle::new();
        let lines = [
            "px.new A".to_string(),
            format!("px.setack A {count}"),
            "px.ack A".to_string(),
        ];
        let answer = match lines.iter().map(|line| said(&mut oracle, line)).last() {
            Some(Some(Accepted(tokens))) => words(&tokens),
            _ if count == i32::MAX => vec![count as u64, i64::from(i32::MIN) as u64],
            _ => panic!("no count after {count}"),
        };
        self.store(0x50, &[i64::from(count) as u64], &answer.repeat(2));
    }
}

fn with_bytes(call: &[u64], input: &[u8]) -> Vec<u64> {
    call.iter()
        .copied()
        .chain(input.iter().map(|byte| u64::from(*byte)))
        .collect()
}
