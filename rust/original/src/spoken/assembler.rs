//! The assembler, by the original's calls. The original keeps each sample in a buffer of its own: which place of
//! the lent area a sample has, and what the area holds, is modelled here by document 01 and is not the original's.

use std::collections::BTreeMap;

use enumflags2::BitFlags;
use protocol::{error, grow_area, Assembler, Fragment, Happened, Open, Reply, Returned, Room, Stop};

use super::{check_number, refuse, within, Oracle};
use crate::caught::caught;
use crate::messages::submessages::submessages::DataFrag;
use crate::rtps::fragment_assembler::FragmentAssembler;
use crate::structure::{sequence_number::FragmentNumber, sequence_number::SequenceNumber, time::Timestamp};

const PLACES: usize = 129;
const MOST_FRAGMENTS: u32 = 256;
const LARGEST_PLACE: u32 = 65_536;

pub struct Held {
    original: FragmentAssembler,
    fragment_size: u16,
    reliable: bool,
    place_size: u32,
    area: Area,
    last: Option<(i64, usize, usize)>,
}

/// The model of document 01's area: which sample has which place, and every byte.
struct Area {
    place_size: usize,
    places: BTreeMap<i64, usize>,
    bytes: Vec<u8>,
}

impl Area {
    /// Opening: the lowest free place, its first bytes zero.
    fn open(&mut self, number: i64, data_size: usize) -> usize {
        let taken: Vec<usize> = self.places.values().copied().collect();
        let place = (0..PLACES).find(|place| !taken.contains(place)).unwrap_or(PLACES);
        self.places.insert(number, place);
        let from = place * self.place_size;
        self.bytes[from..from + data_size].fill(0);
        place
    }

    /// A run: as much of the payload as the run, the payload and the sample have.
    fn copy(&mut self, place: usize, data_size: usize, unit: usize, fragment: &Fragment) {
        let offset = (fragment.start as usize - 1) * unit;
        let run = usize::from(fragment.count) * unit;
        let length = run.min(fragment.payload.len()).min(data_size - offset);
        let from = place * self.place_size + offset;
        self.bytes[from..from + length].copy_from_slice(&fragment.payload[..length]);
    }
}

impl Held {
    fn new(fragment_size: u16, reliable: bool, place_size: u32) -> Self {
        let mut bytes = Vec::new();
        grow_area(&mut bytes, PLACES * place_size as usize);
        Self {
            original: FragmentAssembler::new(fragment_size, reliable),
            fragment_size,
            reliable,
            place_size,
            area: Area {
                place_size: place_size as usize,
                places: BTreeMap::new(),
                bytes,
            },
            last: None,
        }
    }

    /// Document 01's table for the fragment call, in its order.
    fn check(&self, fragment: &Fragment, area: usize) -> Reply<()> {
        if area < PLACES * self.place_size as usize {
            return refuse(13);
        }
        check_number(fragment.number)?;
        if fragment.fragment_size != self.fragment_size {
            return refuse(6);
        }
        let open = self.original.fragments_of(fragment.number.into());
        let fragments = match open {
            Some(fragments) => fragments as u64,
            None => self.check_opening(fragment)?,
        };
        if fragment.count == 0 {
            return refuse(10);
        }
        if fragment.start == 0 {
            return refuse(11);
        }
        if u64::from(fragment.start) - 1 + u64::from(fragment.count) > fragments {
            return refuse(12);
        }
        Ok(())
    }

    /// How many fragments a sample opened by this one has.
    fn check_opening(&self, fragment: &Fragment) -> Reply<u64> {
        let unit = u32::from(self.fragment_size);
        if unit > fragment.data_size {
            return refuse(7);
        }
        if fragment.data_size > self.place_size {
            return refuse(8);
        }
        let fragments = fragment.data_size.div_ceil(unit);
        if fragments > MOST_FRAGMENTS {
            return refuse(9);
        }
        Ok(u64::from(fragments))
    }

    /// The original refuses by rows 7, 10, 11 and 12 too: asked on an assembler of its own where the sample would be
    /// opened, since it keeps an empty buffer then.
    fn confirm(&mut self, number: u32, fragment: &Fragment) -> Reply<()> {
        let sequence_number = SequenceNumber::from(fragment.number);
        let mut fresh = FragmentAssembler::new(self.fragment_size, self.reliable);
        let open = self.original.is_partially_received(sequence_number);
        let asked = if open { &mut self.original } else { &mut fresh };
        let before = missing(asked, fragment.number);
        let returned = ask(asked, fragment)?;
        let after = missing(asked, fragment.number);
        let nothing_done = match (number, open) {
            (7, _) => !asked.is_partially_received(sequence_number),
            (_, true) => before == after,
            (_, false) => Some(after.len()) == asked.fragments_of(sequence_number),
        };
        if returned.is_some() || !nothing_done {
            return error("the original did not refuse");
        }
        Ok(())
    }

    fn fragment(&mut self, fragment: &Fragment, area: Room) -> Reply<Happened> {
        let area = area.unwrap_or(self.area.bytes.len());
        grow_area(&mut self.area.bytes, area);
        if let Err(stop) = self.check(fragment, area) {
            if let Stop::Refused(number @ (7 | 10 | 11 | 12)) = stop {
                self.confirm(number, fragment)?;
            }
            return Err(stop);
        }
        let before = self.original.in_assembly();
        let sample = fragment.number;
        let opening = !self.area.places.contains_key(&sample);
        let returned = ask(&mut self.original, fragment)?;
        let place = self.follow(fragment, &returned);
        if let Some(bytes) = returned {
            self.area.places.remove(&sample);
            self.last = Some((sample, place, bytes.len()));
            return Ok(self.happened(Some((sample, bytes)), None));
        }
        let dropped = if opening && self.original.in_assembly() == before {
            self.dropped()
        } else {
            None
        };
        Ok(self.happened(None, dropped))
    }

    /// The model's part of an accepted fragment: the place of the sample.
    fn follow(&mut self, fragment: &Fragment, returned: &Option<Vec<u8>>) -> usize {
        let number = fragment.number;
        let place = match self.area.places.get(&number) {
            Some(place) => *place,
            None => self.area.open(number, fragment.data_size as usize),
        };
        let data_size = match returned {
            Some(bytes) => bytes.len(),
            None => self.size_of(number).unwrap_or(fragment.data_size as usize),
        };
        let unit = usize::from(self.fragment_size);
        self.area.copy(place, data_size, unit, fragment);
        place
    }

    fn size_of(&self, number: i64) -> Option<usize> {
        self.original
            .kept()
            .find(|kept| kept.number == number)
            .map(|kept| kept.bytes.len())
    }

    /// The number that the original no longer keeps.
    fn dropped(&mut self) -> Option<i64> {
        let original = &self.original;
        let gone = |number: &&i64| !original.is_partially_received(SequenceNumber::from(**number));
        let number = self.area.places.keys().find(gone).copied();
        if let Some(number) = number {
            self.area.places.remove(&number);
        }
        number
    }

    fn happened(&self, returned: Option<(i64, Vec<u8>)>, dropped: Option<i64>) -> Happened {
        Happened {
            returned: returned.map(|(number, bytes)| Returned {
                number,
                length: bytes.len(),
                bytes,
            }),
            dropped,
            open: self.original.in_assembly(),
        }
    }

    fn clean(&mut self, cutoff: u64, room: Room) -> Reply<Vec<i64>> {
        let expired = self.original.kept().filter(|kept| kept.time < cutoff).count();
        within(room, expired)?;
        caught(|| self.original.garbage_collect_before(Timestamp(cutoff)))?;
        let mut gone = Vec::new();
        while let Some(number) = self.dropped() {
            gone.push(number);
        }
        Ok(gone)
    }
}

/// The original's fragment call: the bytes of a finished sample.
fn ask(original: &mut FragmentAssembler, fragment: &Fragment) -> Reply<Option<Vec<u8>>> {
    Timestamp::set_now(fragment.time);
    let datafrag = DataFrag {
        writer_sn: fragment.number.into(),
        fragment_starting_num: FragmentNumber::from(fragment.start),
        fragments_in_submessage: fragment.count,
        data_size: fragment.data_size,
        fragment_size: fragment.fragment_size,
        serialized_payload: fragment.payload.clone().into(),
    };
    let sample = caught(|| original.new_datafrag(&datafrag, BitFlags::empty()))?;
    Ok(sample.map(|data| data.0 .0.to_vec()))
}

fn missing(original: &FragmentAssembler, number: i64) -> Vec<u32> {
    original.missing_frags_for(number.into()).map(u32::from).collect()
}

impl Oracle {
    fn assembling(&mut self) -> Reply<&mut Held> {
        match &mut self.assembler {
            Some(held) => Ok(held),
            None => error("no assembler"),
        }
    }
}

impl Assembler for Oracle {
    fn asm_new(&mut self, fragment_size: u16, reliable: bool, place_size: u32) -> Reply<()> {
        if fragment_size == 0 || place_size == 0 || place_size > LARGEST_PLACE {
            return refuse(14);
        }
        self.assembler = Some(Held::new(fragment_size, reliable, place_size));
        Ok(())
    }

    fn asm_frag(&mut self, fragment: &Fragment, area: Room) -> Reply<Happened> {
        let reply = self.assembling()?.fragment(fragment, area);
        if matches!(reply, Err(Stop::Error(_))) {
            self.assembler = None;
        }
        reply
    }

    fn asm_clean(&mut self, cutoff: u64, room: Room) -> Reply<Vec<i64>> {
        self.assembling()?.clean(cutoff, room)
    }

    fn asm_missing(&mut self, number: i64, room: Room) -> Reply<Vec<u32>> {
        let missing = missing(&self.assembling()?.original, number);
        within(room, missing.len())?;
        Ok(missing)
    }

    fn asm_has(&mut self, number: i64) -> Reply<bool> {
        Ok(self.assembling()?.original.is_partially_received(number.into()))
    }

    fn asm_view(&mut self, place: usize, length: usize) -> Reply<Vec<u8>> {
        let area = &self.assembling()?.area;
        let from = place.checked_mul(area.place_size);
        let part = from.and_then(|from| area.bytes.get(from..from.checked_add(length)?));
        Ok(part.unwrap_or_default().to_vec())
    }

    fn asm_places(&mut self) -> Reply<Vec<(i64, usize)>> {
        let places = &self.assembling()?.area.places;
        Ok(places.iter().map(|(number, place)| (*number, *place)).collect())
    }

    fn asm_last(&mut self) -> Reply<Option<(i64, usize, usize)>> {
        Ok(self.assembling()?.last)
    }

    fn asm_dump(&mut self) -> Reply<Vec<Open>> {
        let original = &self.assembling()?.original;
        let open = original.kept().map(|kept| Open {
            number: kept.number,
            fragments: kept.fragments,
            time: kept.time,
            missing: missing(original, kept.number),
            bytes: kept.bytes.to_vec(),
        });
        Ok(open.collect())
    }

    fn asm_area(&mut self) -> Reply<&[u8]> {
        Ok(&self.assembling()?.area.bytes)
    }

    fn asm_end(&mut self) -> Reply<()> {
        self.assembling()?;
        self.assembler = None;
        Ok(())
    }
}
