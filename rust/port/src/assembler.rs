//! The fragment assembler.

use drucenal::ffi::{FragmentAnswer, FragmentCall};
use drucenal::{DataFrag, FragmentAssembler, InAssembly, Outcome, Refused, PLACES};
use protocol::{error, grow_area, Assembler, Fragment, Happened, Open, Reply, Returned, Room, Stop, UNTOUCHED};

use crate::lent::{lend, refused};
use crate::Port;

const MOST_FRAGMENTS: usize = 256;
/// A longer area is not looked at after a refused fragment.
const LOOKED_AT: usize = 1 << 16;

/// What the numbers behind the fragment call's references hold before it.
const ANSWER: FragmentAnswer = FragmentAnswer {
    what: UNTOUCHED as u32,
    of: UNTOUCHED as u64,
    place: UNTOUCHED as usize,
    length: UNTOUCHED as u32,
};

pub struct Held {
    assembler: FragmentAssembler,
    last: Option<(i64, usize, usize)>,
}

impl Port {
    fn held(&mut self) -> Reply<&mut Held> {
        match &mut self.assembler {
            Some(held) => Ok(held),
            None => error("no assembler"),
        }
    }
}

impl Held {
    fn open(&self) -> Vec<InAssembly> {
        let mut open: Vec<InAssembly> = self.assembler.partially_received().collect();
        open.sort_by_key(|sample| sample.number);
        open
    }

    /// By the front, or with only the area's first bytes lent.
    fn call(&mut self, lent: usize, fragment: &FragmentCall) -> Result<Outcome, Refused> {
        if lent < self.assembler.area().len() {
            let mut answer = ANSWER;
            return match self.exported(lent, fragment, &mut answer) {
                0 => Ok(answer.into()),
                number => Err(Refused(number)),
            };
        }
        let datafrag = DataFrag {
            writer_sn: fragment.number,
            fragment_starting_num: fragment.start,
            fragments_in_submessage: fragment.count,
            data_size: fragment.data_size,
            fragment_size: fragment.fragment_size,
            serialized_payload: fragment.payload,
        };
        self.assembler.new_datafrag(fragment.time, &datafrag)
    }

    fn exported(&mut self, lent: usize, fragment: &FragmentCall, answer: &mut FragmentAnswer) -> u32 {
        let (record, area) = self.assembler.parts_mut();
        record.new_datafrag(&mut area[..lent], fragment, answer)
    }

    fn fragment(&mut self, fragment: &Fragment, area: Room) -> Reply<Outcome> {
        let area = area.unwrap_or(self.assembler.area().len());
        grow_area(self.assembler.parts_mut().1, area);
        let before = (area <= LOOKED_AT).then(|| self.assembler.area().to_vec());
        let fragment = FragmentCall {
            time: fragment.time,
            number: fragment.number,
            fragment_size: fragment.fragment_size,
            data_size: fragment.data_size,
            start: fragment.start,
            count: fragment.count,
            payload: &fragment.payload,
        };
        self.call(area, &fragment).or_else(|number| {
            refused(number, || {
                let mut answer = ANSWER;
                let number = self.exported(area, &fragment, &mut answer);
                let kept = before.is_none_or(|before| self.assembler.area() == before);
                (number, kept && answer == ANSWER)
            })
        })
    }

    fn missing(&mut self, number: i64, room: Room) -> Reply<Vec<u32>> {
        lend(
            &mut self.assembler,
            room,
            MOST_FRAGMENTS,
            |assembler, out| assembler.missing_frags_for(number, out),
            |assembler, out, listed| assembler.parts_mut().0.missing_frags_for(number, out, listed),
        )
    }
}

impl Assembler for Port {
    fn asm_new(&mut self, fragment_size: u16, reliable: bool, place_size: u32) -> Reply<()> {
        let set_up = FragmentAssembler::with_area(fragment_size, reliable, place_size, Vec::new());
        let mut assembler = set_up.map_err(|Refused(number)| Stop::Refused(number))?;
        grow_area(assembler.parts_mut().1, PLACES * place_size as usize);
        self.assembler = Some(Held { assembler, last: None });
        Ok(())
    }

    fn asm_frag(&mut self, fragment: &Fragment, area: Room) -> Reply<Happened> {
        let held = self.held()?;
        let outcome = held.fragment(fragment, area)?;
        let mut happened = Happened {
            returned: None,
            dropped: None,
            open: held.assembler.in_assembly(),
        };
        match outcome {
            Outcome::Kept => {}
            Outcome::Dropped { number } => happened.dropped = Some(number as i64),
            Outcome::Returned { number, place, length } => {
                let (number, length) = (number as i64, length as usize);
                held.last = Some((number, place, length));
                let bytes = held.assembler.view(place, length).to_vec();
                happened.returned = Some(Returned { number, length, bytes });
            }
        }
        Ok(happened)
    }

    fn asm_clean(&mut self, cutoff: u64, room: Room) -> Reply<Vec<i64>> {
        lend(
            &mut self.held()?.assembler,
            room,
            PLACES,
            |assembler, out| assembler.garbage_collect_before(cutoff, out),
            |assembler, out, listed| assembler.parts_mut().0.garbage_collect_before(cutoff, out, listed),
        )
    }

    fn asm_missing(&mut self, number: i64, room: Room) -> Reply<Vec<u32>> {
        self.held()?.missing(number, room)
    }

    fn asm_has(&mut self, number: i64) -> Reply<bool> {
        Ok(self.held()?.assembler.is_partially_received(number))
    }

    fn asm_view(&mut self, place: usize, length: usize) -> Reply<Vec<u8>> {
        Ok(self.held()?.assembler.view(place, length).to_vec())
    }

    fn asm_places(&mut self) -> Reply<Vec<(i64, usize)>> {
        let open = self.held()?.open();
        Ok(open.iter().map(|sample| (sample.number, sample.place)).collect())
    }

    fn asm_last(&mut self) -> Reply<Option<(i64, usize, usize)>> {
        Ok(self.held()?.last)
    }

    fn asm_dump(&mut self) -> Reply<Vec<Open>> {
        let held = self.held()?;
        let open = held.open();
        let mut one = |sample: &InAssembly| {
            Ok(Open {
                number: sample.number,
                fragments: sample.fragments as usize,
                time: sample.time,
                missing: held.missing(sample.number, None)?,
                bytes: held.assembler.bytes_of(sample).to_vec(),
            })
        };
        open.iter().map(&mut one).collect()
    }

    fn asm_area(&mut self) -> Reply<&[u8]> {
        Ok(self.held()?.assembler.area())
    }

    fn asm_end(&mut self) -> Reply<()> {
        self.held()?;
        self.assembler = None;
        Ok(())
    }
}
