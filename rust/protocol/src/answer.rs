//! One command line in, one answer line out.

use std::fmt::{Display, Write};

use crate::commands::{error, Commands, Forced, Fragment, Happened, Open, ProxyLook, Reply, Status, Stop};
use crate::tokens::{hex, Tokens};
use crate::{Set, MOST_AREA, MOST_ROOM};

/// Answers one line (without its line feed), whatever bytes it has.
pub fn answer<P: Commands + ?Sized>(side: &mut P, line: &[u8]) -> String {
    match command(side, line) {
        Ok(said) => said.0,
        Err(Stop::Refused(number)) => format!("ref {number}"),
        Err(Stop::Error(words)) => format!("err {words}"),
    }
}

fn command<P: Commands + ?Sized>(side: &mut P, line: &[u8]) -> Reply<Said> {
    let mut tokens = Tokens::new(line);
    let t = &mut tokens;
    match t.word()? {
        name if name.starts_with(b"num.") => numbers(side, name, t),
        name if name.starts_with(b"set.") => sets(side, name, t),
        name if name.starts_with(b"px.") => proxy(side, name, t),
        name if name.starts_with(b"asm.") => assembler(side, name, t),
        _ => no_command(),
    }
}

fn no_command<T>() -> Reply<T> {
    error("no command")
}

fn numbers<P: Commands + ?Sized>(side: &mut P, name: &[u8], t: &mut Tokens) -> Reply<Said> {
    match name {
        // The protocol lends a written number enough; a room may be named here too, to see refusal 3.
        b"num.write" => {
            let (width, big) = (t.width()?, t.order()?);
            let number = t.number_of(width)?;
            let room = t.last("room", MOST_ROOM)?;
            t.end()?;
            Ok(ok().and(hex(&side.num_write(width, big, number, room)?)))
        }
        b"num.read" => {
            let (width, big, bytes) = (t.width()?, t.order()?, t.bytes()?);
            t.end()?;
            Ok(ok().and(side.num_read(width, big, &bytes)?))
        }
        _ => no_command(),
    }
}

fn sets<P: Commands + ?Sized>(side: &mut P, name: &[u8], t: &mut Tokens) -> Reply<Said> {
    match name {
        b"set.read" => {
            let (width, big, bytes) = (t.width()?, t.order()?, t.bytes()?);
            t.end()?;
            let (set, taken) = side.set_read(width, big, &bytes)?;
            Ok(ok().set(&set).and(taken))
        }
        b"set.write" => {
            let (width, big) = (t.width()?, t.order()?);
            let set = t.set(width)?;
            let room = t.last("room", MOST_ROOM)?;
            t.end()?;
            Ok(ok().and(hex(&side.set_write(width, big, &set, room)?)))
        }
        b"set.walk" => {
            let width = t.width()?;
            let rising = t.one_of(b"up", true, b"down", false)?;
            let set = t.set(width)?;
            let room = t.last("room", MOST_ROOM)?;
            t.end()?;
            Ok(ok().list(&side.set_walk(width, rising, &set, room)?))
        }
        b"set.len" => {
            let width = t.width()?;
            let set = t.set(width)?;
            t.end()?;
            Ok(ok().and(side.set_len(width, &set)?))
        }
        b"set.make" => {
            let width = t.width()?;
            let (base, list) = (t.number_of(width)?, t.list(width)?);
            t.end()?;
            Ok(ok().set(&side.set_make(width, base, &list)?))
        }
        _ => no_command(),
    }
}

fn proxy<P: Commands + ?Sized>(side: &mut P, name: &[u8], t: &mut Tokens) -> Reply<Said> {
    t.name()?;
    match name {
        b"px.new" => done(t, || side.px_new()),
        b"px.recv" => {
            let (number, time) = (t.number()?, t.number()?);
            t.end()?;
            let forced = side.px_recv(number, time)?;
            changed(side, forced)
        }
        b"px.irr" => {
            let number = t.number()?;
            t.end()?;
            let forced = side.px_irr(number)?;
            changed(side, forced)
        }
        b"px.range" => {
            let (from, until_before) = (t.number()?, t.number()?);
            t.end()?;
            let forced = side.px_range(from, until_before)?;
            changed(side, forced)
        }
        b"px.upto" => {
            let smallest = t.number()?;
            t.end()?;
            let forced = side.px_upto(smallest)?;
            changed(side, forced)
        }
        b"px.ign" => {
            let number = t.number()?;
            t.end()?;
            Ok(ok().and(u8::from(side.px_ign(number)?)))
        }
        b"px.stat" => {
            let number = t.number()?;
            t.end()?;
            Ok(match side.px_stat(number)? {
                Status::Untracked => ok().and("untracked"),
                Status::NotAvailable => ok().and("not-available"),
                Status::Received(time) => ok().and("received").and(time),
            })
        }
        b"px.miss" => {
            let (start, end) = (t.number()?, t.number()?);
            let room = t.last("room", MOST_ROOM)?;
            t.end()?;
            Ok(ok().list(&side.px_miss(start, end, room)?))
        }
        b"px.ack" => {
            t.end()?;
            let (handed_out, after) = side.px_ack()?;
            Ok(ok().and(handed_out).and(after))
        }
        b"px.setack" => {
            let count = t.number()?;
            done(t, || side.px_setack(count))
        }
        b"px.dump" => {
            t.end()?;
            Ok(dumped(&side.px_look()?))
        }
        b"px.end" => done(t, || side.px_end()),
        _ => no_command(),
    }
}

fn assembler<P: Commands + ?Sized>(side: &mut P, name: &[u8], t: &mut Tokens) -> Reply<Said> {
    t.name()?;
    match name {
        b"asm.new" => {
            let fragment_size = t.number()?;
            let reliable = t.one_of(b"reliable", true, b"besteffort", false)?;
            let place_size = t.number()?;
            done(t, || side.asm_new(fragment_size, reliable, place_size))
        }
        b"asm.frag" => {
            let fragment = Fragment {
                time: t.number()?,
                number: t.number()?,
                fragment_size: t.number()?,
                data_size: t.number()?,
                start: t.number()?,
                count: t.number()?,
                payload: t.bytes()?,
            };
            let area = t.last("area", MOST_AREA)?;
            t.end()?;
            Ok(happened(&side.asm_frag(&fragment, area)?))
        }
        b"asm.clean" => {
            let cutoff = t.number()?;
            let room = t.last("room", MOST_ROOM)?;
            t.end()?;
            Ok(ok().list(&side.asm_clean(cutoff, room)?))
        }
        b"asm.missing" => {
            let number = t.number()?;
            let room = t.last("room", MOST_ROOM)?;
            t.end()?;
            Ok(ok().list(&side.asm_missing(number, room)?))
        }
        b"asm.has" => {
            let number = t.number()?;
            t.end()?;
            Ok(ok().and(u8::from(side.asm_has(number)?)))
        }
        b"asm.view" => {
            let (place, length) = (t.number()?, t.number()?);
            t.end()?;
            Ok(ok().and(hex(&side.asm_view(place, length)?)))
        }
        b"asm.places" => {
            t.end()?;
            let places = side.asm_places()?;
            let one = |said: Said, (number, place)| said.and(format_args!("{number}:{place}"));
            Ok(places.into_iter().fold(ok(), one))
        }
        b"asm.last" => {
            t.end()?;
            Ok(match side.asm_last()? {
                Some((number, place, length)) => ok().and(number).and(place).and(length),
                None => ok().and("-"),
            })
        }
        b"asm.dump" => {
            t.end()?;
            Ok(side.asm_dump()?.iter().fold(ok(), in_assembly))
        }
        b"asm.bytes" => {
            let (from, length): (usize, usize) = (t.number()?, t.number()?);
            t.end()?;
            let area = side.asm_area()?;
            let until = from.checked_add(length);
            match until.and_then(|until| area.get(from..until)) {
                Some(bytes) => Ok(ok().and(hex(bytes))),
                None => error("past the area's end"),
            }
        }
        b"asm.end" => done(t, || side.asm_end()),
        _ => no_command(),
    }
}

/// An answer line in the making.
struct Said(String);

fn ok() -> Said {
    Said("ok".to_string())
}

impl Said {
    fn and(mut self, value: impl Display) -> Self {
        let _ = write!(self.0, " {value}");
        self
    }

    fn list(self, values: &[impl Display]) -> Self {
        let counted = self.and(values.len());
        values.iter().fold(counted, |said, value| said.and(value))
    }

    fn set(self, set: &Set) -> Self {
        let words = set.words.map(|word| format!("{word:08x}")).join(",");
        self.and(set.base).and(set.count).and(words)
    }

    fn or_dash(self, value: Option<impl Display>) -> Self {
        match value {
            Some(value) => self.and(value),
            None => self.and("-"),
        }
    }
}

fn done(t: &Tokens, call: impl FnOnce() -> Reply<()>) -> Reply<Said> {
    t.end()?;
    call()?;
    Ok(ok())
}

/// The answer to a call that changes the proxy: its state in short, and the forced step.
fn changed<P: Commands + ?Sized>(side: &mut P, forced: Forced) -> Reply<Said> {
    let look = side.px_look()?;
    let mut sum = 0u64;
    for (number, time) in &look.tracked {
        let what = match time {
            Some(time) => time.wrapping_mul(7919).wrapping_add(1),
            None => 5,
        };
        let number = (*number as u64).wrapping_mul(1_000_003);
        sum = sum.wrapping_add(number).wrapping_add(what);
    }
    let said = ok().and(look.base).and(look.tracked.len()).and(look.last);
    let said = said.or_dash(look.last_time).and(sum);
    Ok(match forced {
        Some((old, new)) => said.and(format_args!("{old},{new}")),
        None => said.and("-"),
    })
}

fn dumped(look: &ProxyLook) -> Said {
    let said = ok().and(look.base).and(look.last).or_dash(look.last_time);
    look.tracked.iter().fold(said, |said, (number, time)| match time {
        Some(time) => said.and(format_args!("{number}:{time}")),
        None => said.and(format_args!("{number}:x")),
    })
}

fn happened(happened: &Happened) -> Said {
    let said = match &happened.returned {
        Some(sample) => ok().and(sample.number).and(sample.length).and(hex(&sample.bytes)),
        None => ok().and("- - -"),
    };
    said.or_dash(happened.dropped).and(happened.open)
}

fn in_assembly(said: Said, open: &Open) -> Said {
    let missing: Vec<String> = open.missing.iter().map(u32::to_string).collect();
    said.and(format_args!(
        "{}:{}:{}:{}:{}:{}",
        open.number,
        open.bytes.len(),
        open.fragments,
        open.time,
        missing.join("."),
        hex(&open.bytes)
    ))
}
