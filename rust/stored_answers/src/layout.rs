//! The records as the port lays them out, made from what the oracle shows, and the digest that stands for them.
//! The layouts are those of crates/proxy_record and of crates/fragment_assembler's specs/Words.antt.

const MODULUS: u64 = 4_294_967_291;
const FACTOR: u64 = 1_000_003;

fn mix(digest: u64, value: u64) -> u64 {
    (digest * FACTOR + value % MODULUS) % MODULUS
}

/// Bytes, the first counting most.
pub fn bytes_digest(bytes: &[u8]) -> u64 {
    bytes.iter().fold(1, |digest, byte| mix(digest, u64::from(*byte)))
}

/// Words, each as its upper and its lower half.
pub fn words_digest(words: &[u64]) -> u64 {
    words
        .iter()
        .fold(1, |digest, word| mix(mix(digest, word >> 32), word & 0xFFFF_FFFF))
}

pub const PROXY_WORDS: usize = 775;
const SLOTS: usize = 257;

pub struct Proxy {
    pub base: u64,
    pub last: u64,
    pub last_time: u64,
    /// Number, and time where received; rising.
    pub tracked: Vec<(u64, Option<u64>)>,
}

impl Proxy {
    pub fn words(&self) -> Vec<u64> {
        let mut words = vec![0; PROXY_WORDS];
        words[..4].copy_from_slice(&[self.base, self.tracked.len() as u64, self.last, self.last_time]);
        for (i, (number, time)) in self.tracked.iter().enumerate() {
            words[4 + i] = *number;
            words[4 + SLOTS + i] = u64::from(time.is_some());
            words[4 + 2 * SLOTS + i] = time.unwrap_or(0);
        }
        words
    }
}

pub const ASSEMBLER_WORDS: usize = 906;
const ROW: usize = 7;

pub struct Assembler {
    pub fragment_size: u64,
    pub reliable: bool,
    pub place_size: u64,
    pub samples: Vec<Sample>,
}

pub struct Sample {
    pub number: u64,
    pub place: usize,
    pub size: u64,
    pub fragments: u64,
    pub time: u64,
    /// Rising, numbered from 1.
    pub missing: Vec<u64>,
}

impl Assembler {
    pub fn words(&self) -> Vec<u64> {
        let mut words = vec![0; ASSEMBLER_WORDS];
        words[..3].copy_from_slice(&[self.fragment_size, self.place_size, u64::from(self.reliable)]);
        for sample in &self.samples {
            let row = &mut words[3 + ROW * sample.place..][..ROW];
            row[..3].copy_from_slice(&[sample.number, sample.size, sample.time]);
            for j in (0..sample.fragments).filter(|j| !sample.missing.contains(&(j + 1))) {
                row[3 + j as usize / 64] |= 1 << (j % 64);
            }
        }
        words
    }
}
