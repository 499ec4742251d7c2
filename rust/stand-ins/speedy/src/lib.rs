//! Stands in for `speedy`: values read from a slice and written to a vector, in either byte order.

extern crate self as speedy;

use std::fmt::Display;

pub use derives::{Readable, Writable};

#[derive(Debug, Clone, Copy, PartialEq, Eq)]
pub enum Endianness {
    LittleEndian,
    BigEndian,
}

/// Why reading stopped: the bytes ended, or the value's own check failed.
#[derive(Debug, PartialEq, Eq)]
pub enum Error {
    EndOfInput,
    Custom(String),
}

impl Error {
    pub fn custom(message: impl Display) -> Self {
        Self::Custom(message.to_string())
    }
}

pub trait Context {
    type Error: From<Error>;
    fn endianness(&self) -> Endianness;
}

impl Context for Endianness {
    type Error = Error;
    fn endianness(&self) -> Endianness {
        *self
    }
}

pub trait Reader<'a, C: Context> {
    /// Four bytes, put in little-endian order.
    fn read_four(&mut self) -> Result<[u8; 4], C::Error>;

    fn read_value<T: Readable<'a, C>>(&mut self) -> Result<T, C::Error>
    where
        Self: Sized,
    {
        T::read_from(self)
    }
}

pub trait Writer<C: Context> {
    /// Four bytes that come in little-endian order.
    fn write_four(&mut self, bytes: [u8; 4]) -> Result<(), C::Error>;

    fn write_u32(&mut self, value: u32) -> Result<(), C::Error> {
        self.write_four(value.to_le_bytes())
    }

    fn write_i32(&mut self, value: i32) -> Result<(), C::Error> {
        self.write_four(value.to_le_bytes())
    }

    fn write_value<T: Writable<C>>(&mut self, value: &T) -> Result<(), C::Error> {
        value.write_to(self)
    }
}

pub trait Readable<'a, C: Context>: Sized {
    fn read_from<R: Reader<'a, C>>(reader: &mut R) -> Result<Self, C::Error>;

    fn minimum_bytes_needed() -> usize {
        0
    }
}

pub trait Writable<C: Context> {
    fn write_to<T: ?Sized + Writer<C>>(&self, writer: &mut T) -> Result<(), C::Error>;
}

impl<'a, C: Context> Readable<'a, C> for u32 {
    fn read_from<R: Reader<'a, C>>(reader: &mut R) -> Result<Self, C::Error> {
        reader.read_four().map(u32::from_le_bytes)
    }
}

impl<'a, C: Context> Readable<'a, C> for i32 {
    fn read_from<R: Reader<'a, C>>(reader: &mut R) -> Result<Self, C::Error> {
        reader.read_four().map(i32::from_le_bytes)
    }
}

impl<C: Context> Writable<C> for u32 {
    fn write_to<T: ?Sized + Writer<C>>(&self, writer: &mut T) -> Result<(), C::Error> {
        writer.write_u32(*self)
    }
}

fn ordered(endianness: Endianness, mut bytes: [u8; 4]) -> [u8; 4] {
    if endianness == Endianness::BigEndian {
        bytes.reverse();
    }
    bytes
}

/// Reads a slice from its start; `taken` says how far it came.
pub struct SliceReader<'a, C> {
    context: C,
    bytes: &'a [u8],
    pub taken: usize,
}

impl<'a, C> SliceReader<'a, C> {
    pub fn new(context: C, bytes: &'a [u8]) -> Self {
        Self {
            context,
            bytes,
            taken: 0,
        }
    }
}

impl<'a, C: Context> Reader<'a, C> for SliceReader<'a, C> {
    fn read_four(&mut self) -> Result<[u8; 4], C::Error> {
        let left = &self.bytes[self.taken..];
        let Some(four) = left.first_chunk::<4>() else {
            return Err(Error::EndOfInput.into());
        };
        self.taken += 4;
        Ok(ordered(self.context.endianness(), *four))
    }
}

/// Writes to the end of a vector.
pub struct VecWriter<C> {
    context: C,
    pub bytes: Vec<u8>,
}

impl<C> VecWriter<C> {
    pub fn new(context: C) -> Self {
        Self {
            context,
            bytes: Vec::new(),
        }
    }
}

impl<C: Context> Writer<C> for VecWriter<C> {
    fn write_four(&mut self, bytes: [u8; 4]) -> Result<(), C::Error> {
        let bytes = ordered(self.context.endianness(), bytes);
        self.bytes.extend_from_slice(&bytes);
        Ok(())
    }
}

#[cfg(test)]
mod tests {
    use super::*;

    #[derive(Debug, PartialEq, Readable, Writable)]
    pub struct Number(u32);

    #[test]
    fn derived_reading_and_writing_take_the_field() {
        for (order, first) in [(Endianness::BigEndian, 1), (Endianness::LittleEndian, 4)] {
            let mut writer = VecWriter::new(order);
            writer.write_value(&Number(0x0102_0304)).unwrap();
            assert_eq!(writer.bytes[0], first);
            let mut reader = SliceReader::new(order, &writer.bytes);
            assert_eq!(reader.read_value(), Ok(Number(0x0102_0304)));
            assert_eq!(reader.read_value::<Number>(), Err(Error::EndOfInput));
            assert_eq!(reader.taken, 4);
        }
    }
}
