//! What a program must be able to do to speak the protocol: one method a command. A method that is not written
//! answers `err not here yet`.

/// No answer: refused with document 01's number, or an error in words.
#[derive(Debug, Clone, PartialEq, Eq)]
pub enum Stop {
    Refused(u32),
    Error(String),
}

pub type Reply<T> = Result<T, Stop>;

/// An error in words.
pub fn error<T>(words: &str) -> Reply<T> {
    Err(Stop::Error(words.to_string()))
}

fn not_here<T>() -> Reply<T> {
    error("not here yet")
}

/// Which numbers: sequence numbers (i64) or fragment numbers (u32); both travel as i64.
#[derive(Debug, Clone, Copy, PartialEq, Eq)]
pub enum Width {
    Sequence,
    Fragment,
}

#[derive(Debug, Clone, PartialEq, Eq)]
pub struct Set {
    pub base: i64,
    pub count: u32,
    pub words: [u32; 8],
}

/// The length of a lent list or of lent bytes; none: enough.
pub type Room = Option<usize>;

#[allow(unused_variables)]
pub trait Numbers {
    fn num_write(&mut self, width: Width, big: bool, number: i64, room: Room) -> Reply<Vec<u8>> {
        not_here()
    }
    fn num_read(&mut self, width: Width, big: bool, bytes: &[u8]) -> Reply<i64> {
        not_here()
    }
}

#[allow(unused_variables)]
pub trait Sets {
    /// The set, and how many bytes were taken.
    fn set_read(&mut self, width: Width, big: bool, bytes: &[u8]) -> Reply<(Set, usize)> {
        not_here()
    }
    fn set_write(&mut self, width: Width, big: bool, set: &Set, room: Room) -> Reply<Vec<u8>> {
        not_here()
    }
    fn set_walk(&mut self, width: Width, rising: bool, set: &Set, room: Room) -> Reply<Vec<i64>> {
        not_here()
    }
    fn set_len(&mut self, width: Width, set: &Set) -> Reply<usize> {
        not_here()
    }
    fn set_make(&mut self, width: Width, base: i64, list: &[i64]) -> Reply<Set> {
        not_here()
    }
}

/// A forced step: the base before and after.
pub type Forced = Option<(u64, u64)>;

/// What a proxy tracks of a number.
#[derive(Debug, Clone, Copy, PartialEq, Eq)]
pub enum Status {
    Untracked,
    NotAvailable,
    Received(u64),
}

/// A proxy as its answers show it; tracked numbers rising, with their time where received.
#[derive(Debug, Clone, PartialEq, Eq)]
pub struct ProxyLook {
    pub base: u64,
    pub last: u64,
    pub last_time: Option<u64>,
    pub tracked: Vec<(i64, Option<u64>)>,
}

#[allow(unused_variables)]
pub trait Proxy {
    fn px_new(&mut self) -> Reply<()> {
        not_here()
    }
    fn px_recv(&mut self, number: i64, time: u64) -> Reply<Forced> {
        not_here()
    }
    fn px_irr(&mut self, number: i64) -> Reply<Forced> {
        not_here()
    }
    fn px_range(&mut self, from: i64, until_before: i64) -> Reply<Forced> {
        not_here()
    }
    fn px_upto(&mut self, smallest: i64) -> Reply<Forced> {
        not_here()
    }
    fn px_look(&mut self) -> Reply<ProxyLook> {
        not_here()
    }
    fn px_ign(&mut self, number: i64) -> Reply<bool> {
        not_here()
    }
    fn px_stat(&mut self, number: i64) -> Reply<Status> {
        not_here()
    }
    fn px_miss(&mut self, start: i64, end: i64, room: Room) -> Reply<Vec<i64>> {
        not_here()
    }
    /// The count handed out, and the count after.
    fn px_ack(&mut self) -> Reply<(i32, i32)> {
        not_here()
    }
    fn px_setack(&mut self, count: i32) -> Reply<()> {
        not_here()
    }
    fn px_end(&mut self) -> Reply<()> {
        not_here()
    }
}

/// The arguments of the fragment call.
#[derive(Debug, Clone, PartialEq, Eq)]
pub struct Fragment {
    pub time: u64,
    pub number: i64,
    pub fragment_size: u16,
    pub data_size: u32,
    pub start: u32,
    pub count: u16,
    pub payload: Vec<u8>,
}

/// A returned sample: its number, its length as reported, its bytes as shown.
#[derive(Debug, Clone, PartialEq, Eq)]
pub struct Returned {
    pub number: i64,
    pub length: usize,
    pub bytes: Vec<u8>,
}

/// What an accepted fragment brought about; `open`: how many are in assembly after it.
#[derive(Debug, Clone, PartialEq, Eq)]
pub struct Happened {
    pub returned: Option<Returned>,
    pub dropped: Option<i64>,
    pub open: usize,
}

/// A sample in assembly.
#[derive(Debug, Clone, PartialEq, Eq)]
pub struct Open {
    pub number: i64,
    pub fragments: usize,
    pub time: u64,
    pub missing: Vec<u32>,
    pub bytes: Vec<u8>,
}

#[allow(unused_variables)]
pub trait Assembler {
    fn asm_new(&mut self, fragment_size: u16, reliable: bool, place_size: u32) -> Reply<()> {
        not_here()
    }
    fn asm_frag(&mut self, fragment: &Fragment, area: Room) -> Reply<Happened> {
        not_here()
    }
    fn asm_clean(&mut self, cutoff: u64, room: Room) -> Reply<Vec<i64>> {
        not_here()
    }
    fn asm_missing(&mut self, number: i64, room: Room) -> Reply<Vec<u32>> {
        not_here()
    }
    fn asm_has(&mut self, number: i64) -> Reply<bool> {
        not_here()
    }
    fn asm_view(&mut self, place: usize, length: usize) -> Reply<Vec<u8>> {
        not_here()
    }
    /// Number and place, rising by number.
    fn asm_places(&mut self) -> Reply<Vec<(i64, usize)>> {
        not_here()
    }
    /// Number, place and length of the last returned.
    fn asm_last(&mut self) -> Reply<Option<(i64, usize, usize)>> {
        not_here()
    }
    /// What is in assembly, rising by number.
    fn asm_dump(&mut self) -> Reply<Vec<Open>> {
        not_here()
    }
    /// The area as it stands.
    fn asm_area(&mut self) -> Reply<&[u8]> {
        not_here()
    }
    fn asm_end(&mut self) -> Reply<()> {
        not_here()
    }
}

/// The whole of the protocol.
pub trait Commands: Numbers + Sets + Proxy + Assembler {}

impl<T: Numbers + Sets + Proxy + Assembler> Commands for T {}
