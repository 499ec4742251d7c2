//! A line's tokens, read one after the other; anything out of shape is an error in words and nothing more.

use crate::commands::{error, Reply, Room, Set, Stop, Width};

pub struct Tokens<'a> {
    left: Option<&'a [u8]>,
}

impl<'a> Tokens<'a> {
    pub fn new(line: &'a [u8]) -> Self {
        Self { left: Some(line) }
    }

    pub fn word(&mut self) -> Reply<&'a [u8]> {
        let Some(left) = self.left else {
            return error("a token is missing");
        };
        let (word, rest) = match left.iter().position(|byte| *byte == b' ') {
            Some(space) => (&left[..space], Some(&left[space + 1..])),
            None => (left, None),
        };
        if word.is_empty() {
            return error("an empty token");
        }
        self.left = rest;
        Ok(word)
    }

    pub fn end(&self) -> Reply<()> {
        match self.left {
            None => Ok(()),
            Some(_) => error("a token too many"),
        }
    }

    /// The name of a proxy or an assembler: a program holds one of each.
    pub fn name(&mut self) -> Reply<()> {
        self.word().map(|_| ())
    }

    pub fn number<T: TryFrom<i128>>(&mut self) -> Reply<T> {
        decimal(self.word()?)
    }

    pub fn number_of(&mut self, width: Width) -> Reply<i64> {
        number_of(width, self.word()?)
    }

    pub fn width(&mut self) -> Reply<Width> {
        self.one_of(b"seq", Width::Sequence, b"frag", Width::Fragment)
    }

    /// Whether the order is big.
    pub fn order(&mut self) -> Reply<bool> {
        self.one_of(b"big", true, b"little", false)
    }

    pub fn one_of<T>(&mut self, this: &[u8], yes: T, that: &[u8], no: T) -> Reply<T> {
        match self.word()? {
            word if word == this => Ok(yes),
            word if word == that => Ok(no),
            _ => error("an unknown word"),
        }
    }

    pub fn bytes(&mut self) -> Reply<Vec<u8>> {
        unhex(self.word()?)
    }

    /// Base, count and words; words left out are zero.
    pub fn set(&mut self, width: Width) -> Reply<Set> {
        let base = self.number_of(width)?;
        let count = self.number()?;
        let mut words = [0; 8];
        let given = self.word()?;
        if given != b"-" {
            for (i, digits) in given.split(|byte| *byte == b',').enumerate() {
                match words.get_mut(i) {
                    Some(word) => *word = hex_word(digits)?,
                    None => return error("more than eight words"),
                }
            }
        }
        Ok(Set { base, count, words })
    }

    pub fn list(&mut self, width: Width) -> Reply<Vec<i64>> {
        match self.word()? {
            b"-" => Ok(Vec::new()),
            word => word
                .split(|byte| *byte == b',')
                .map(|digits| number_of(width, digits))
                .collect(),
        }
    }

    /// `NAME=N` as the last token, where there is one; N at most `most`.
    pub fn last(&mut self, name: &str, most: usize) -> Reply<Room> {
        if self.left.is_none() {
            return Ok(None);
        }
        let digits = self.word()?.strip_prefix(name.as_bytes());
        let Some(digits) = digits.and_then(|rest| rest.strip_prefix(b"=")) else {
            return error("an unknown word");
        };
        match decimal::<usize>(digits)? {
            length if length <= most => Ok(Some(length)),
            _ => error("more than can be lent"),
        }
    }
}

fn bad_number<E>(_: E) -> Stop {
    Stop::Error("a number out of shape".to_string())
}

fn decimal<T: TryFrom<i128>>(word: &[u8]) -> Reply<T> {
    let digits = word.strip_prefix(b"-").unwrap_or(word);
    if digits.is_empty() || !digits.iter().all(u8::is_ascii_digit) {
        return error("a number out of shape");
    }
    let text = std::str::from_utf8(word).map_err(bad_number)?;
    let value: i128 = text.parse().map_err(bad_number)?;
    T::try_from(value).map_err(bad_number)
}

fn number_of(width: Width, word: &[u8]) -> Reply<i64> {
    match width {
        Width::Sequence => decimal(word),
        Width::Fragment => decimal::<u32>(word).map(i64::from),
    }
}

fn digit(byte: u8) -> Reply<u8> {
    match (byte as char).to_digit(16) {
        Some(value) => Ok(value as u8),
        None => error("a hexadecimal digit out of shape"),
    }
}

fn hex_word(digits: &[u8]) -> Reply<u32> {
    if digits.is_empty() || digits.len() > 8 {
        return error("a word out of shape");
    }
    let mut word = 0;
    for byte in digits {
        word = word << 4 | u32::from(digit(*byte)?);
    }
    Ok(word)
}

/// Bytes from hexadecimal of either case; `-` for none.
pub fn unhex(word: &[u8]) -> Reply<Vec<u8>> {
    if word == b"-" {
        return Ok(Vec::new());
    }
    if word.len() % 2 != 0 {
        return error("an odd number of hexadecimal digits");
    }
    word.chunks(2)
        .map(|pair| Ok(digit(pair[0])? << 4 | digit(pair[1])?))
        .collect()
}

/// Bytes as hexadecimal of lower case; `-` for none.
pub fn hex(bytes: &[u8]) -> String {
    const DIGITS: &[u8; 16] = b"0123456789abcdef";
    if bytes.is_empty() {
        return "-".to_string();
    }
    let mut text = String::with_capacity(2 * bytes.len());
    for byte in bytes {
        text.push(DIGITS[usize::from(byte >> 4)] as char);
        text.push(DIGITS[usize::from(byte & 15)] as char);
    }
    text
}
