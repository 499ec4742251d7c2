//! Numbers on the wire.

use drucenal::ffi::Number;
use drucenal::{ByteOrder, FragmentNumber, Refused, SequenceNumber};
use protocol::{error, Numbers, Reply, Room, Width};

use crate::lent::{before, lend, refused};
use crate::Port;

pub fn order(big: bool) -> ByteOrder {
    if big {
        ByteOrder::Big
    } else {
        ByteOrder::Little
    }
}

/// A fragment number, which travels as i64.
pub fn narrow(number: i64) -> Reply<u32> {
    match u32::try_from(number) {
        Ok(number) => Ok(number),
        Err(_) => error("no fragment number"),
    }
}

fn write<N: Number>(
    big: bool,
    number: N,
    room: Room,
    call: impl FnOnce(&mut [u8]) -> Result<(), Refused>,
) -> Reply<Vec<u8>> {
    let call = |_: &mut (), out: &mut [u8]| call(out).map(|()| N::LENGTH);
    lend(&mut (), room, N::LENGTH, call, |_, out, _| {
        N::write_number(big, number, out)
    })
}

fn read<N: Number + From<u8> + Into<i64> + PartialEq>(
    big: bool,
    bytes: &[u8],
    number: Result<N, Refused>,
) -> Reply<i64> {
    number.map(N::into).or_else(|number| {
        refused(number, || {
            let mut number = before::<N>();
            let answer = N::read_number(big, bytes, &mut number);
            (answer, number == before())
        })
    })
}

impl Numbers for Port {
    fn num_write(&mut self, width: Width, big: bool, number: i64, room: Room) -> Reply<Vec<u8>> {
        match width {
            Width::Sequence => write(big, number, room, |out| SequenceNumber(number).write(order(big), out)),
            Width::Fragment => {
                let number = narrow(number)?;
                write(big, number, room, |out| FragmentNumber(number).write(order(big), out))
            }
        }
    }

    fn num_read(&mut self, width: Width, big: bool, bytes: &[u8]) -> Reply<i64> {
        let order = order(big);
        match width {
            Width::Sequence => read(big, bytes, SequenceNumber::read(order, bytes).map(i64::from)),
            Width::Fragment => read(big, bytes, FragmentNumber::read(order, bytes).map(u32::from)),
        }
    }
}
