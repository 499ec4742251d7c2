//! Numbers on the wire, by the original's reading and writing.

use protocol::{Numbers, Reply, Room, Width};
use speedy::{Endianness, Error, Readable, SliceReader, VecWriter, Writable};

use super::{refuse, within, Oracle};
use crate::structure::sequence_number::{FragmentNumber, SequenceNumber};

pub fn order(big: bool) -> Endianness {
    if big {
        Endianness::BigEndian
    } else {
        Endianness::LittleEndian
    }
}

/// The value, and how many bytes were taken; the original decides between refusals 1 and 2.
pub fn read<T>(big: bool, bytes: &[u8]) -> Reply<(T, usize)>
where
    T: for<'a> Readable<'a, Endianness>,
{
    let mut reader = SliceReader::new(order(big), bytes);
    match T::read_from(&mut reader) {
        Ok(value) => Ok((value, reader.taken)),
        Err(Error::EndOfInput) => refuse(1),
        Err(Error::Custom(_)) => refuse(2),
    }
}

pub fn write<T: Writable<Endianness>>(big: bool, value: &T, room: Room) -> Reply<Vec<u8>> {
    let mut writer = VecWriter::new(order(big));
    match value.write_to(&mut writer) {
        Ok(()) => within(room, writer.bytes.len()).map(|()| writer.bytes),
        Err(_) => protocol::error("the original did not write"),
    }
}

impl Numbers for Oracle {
    fn num_write(&mut self, width: Width, big: bool, number: i64, room: Room) -> Reply<Vec<u8>> {
        match width {
            Width::Sequence => write(big, &SequenceNumber::from(number), room),
            Width::Fragment => write(big, &FragmentNumber::from(number), room),
        }
    }

    fn num_read(&mut self, width: Width, big: bool, bytes: &[u8]) -> Reply<i64> {
        match width {
            Width::Sequence => read::<SequenceNumber>(big, bytes).map(|(n, _)| n.into()),
            Width::Fragment => read::<FragmentNumber>(big, bytes).map(|(n, _)| n.into()),
        }
    }
}
