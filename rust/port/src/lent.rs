//! Lent outputs, and whether a call left alone what it must.

use drucenal::Refused;
use protocol::{error, Reply, Room, Stop, UNTOUCHED};

/// Past an answer that fits, so many entries more are lent where the command names no room.
const MARGIN: usize = 4;

/// What every number behind a reference holds before a call.
pub fn before<T: From<u8>>() -> T {
    T::from(UNTOUCHED)
}

/// Why a call stopped. `again` makes the refused call once more, as the library exports it: what it answered, and
/// whether the numbers behind its references were kept.
pub fn refused<T>(Refused(number): Refused, again: impl FnOnce() -> (u32, bool)) -> Reply<T> {
    match again() {
        (_, false) => error("touched"),
        (same, true) if same == number => Err(Stop::Refused(number)),
        (other, true) => error(&format!("refused with {number}, then {other}")),
    }
}

/// What a call says of its lent list: the answer's entries alone, `err touched` if it changed any other.
/// `enough` is the room that every answer fits; `exported` is the same call with the number behind a reference that
/// says how long the answer is.
pub fn lend<O: ?Sized, T>(
    on: &mut O,
    room: Room,
    enough: usize,
    call: impl FnOnce(&mut O, &mut [T]) -> Result<usize, Refused>,
    exported: impl FnOnce(&mut O, &mut [T], &mut usize) -> u32,
) -> Reply<Vec<T>>
where
    T: Copy + PartialEq + From<u8>,
{
    let mut out = vec![before::<T>(); room.unwrap_or(enough + MARGIN)];
    let untouched = |rest: &[T]| rest.iter().all(|entry| *entry == before());
    let answer = match call(on, &mut out) {
        Ok(answer) => answer,
        Err(number) => {
            return refused(number, || {
                let first = untouched(&out);
                let mut listed = before();
                let number = exported(on, &mut out, &mut listed);
                (number, first && untouched(&out) && listed == before::<usize>())
            })
        }
    };
    let Some(rest) = out.get(answer..) else {
        return error("an answer longer than its room");
    };
    if !untouched(rest) {
        return error("touched");
    }
    out.truncate(answer);
    Ok(out)
}

#[cfg(test)]
mod tests {
    use super::*;

    type Call = fn(&mut (), &mut [u8]) -> Result<usize, Refused>;
    type Exported = fn(&mut (), &mut [u8], &mut usize) -> u32;

    fn lent(room: usize, call: Call, exported: Exported) -> Reply<Vec<u8>> {
        lend(&mut (), Some(room), 0, call, exported)
    }

    #[test]
    fn only_the_answer_may_change() {
        let two: Call = |_, out| {
            out[..2].fill(7);
            Ok(2)
        };
        assert_eq!(lent(2, two, |_, _, _| 0), Ok(vec![7, 7]));
        assert_eq!(lend(&mut (), None, 2, two, |_, _, _| 0), Ok(vec![7, 7]));
        let three: Call = |_, out| {
            out[..3].fill(7);
            Ok(2)
        };
        assert_eq!(lent(3, three, |_, _, _| 0), error("touched"));
        assert_eq!(
            lent(0, |_, _| Ok(1), |_, _, _| 0),
            error("an answer longer than its room")
        );
    }

    #[test]
    fn a_refused_call_leaves_all() {
        let refuses: Call = |_, _| Err(Refused(3));
        assert_eq!(lent(1, refuses, |_, _, _| 3), Err(Stop::Refused(3)));
        assert_eq!(lent(1, refuses, |_, _, _| 4), error("refused with 3, then 4"));
        assert_eq!(lent(1, refuses, |_, _, _| 0), error("refused with 3, then 0"));
        let writes: Call = |_, out| {
            out[0] = 7;
            Err(Refused(3))
        };
        assert_eq!(lent(1, writes, |_, _, _| 3), error("touched"));
        let lists: Exported = |_, out, _| {
            out[0] = 7;
            3
        };
        assert_eq!(lent(1, refuses, lists), error("touched"));
        let counts: Exported = |_, _, listed| {
            *listed = 0;
            3
        };
        assert_eq!(lent(1, refuses, counts), error("touched"));
    }
}
