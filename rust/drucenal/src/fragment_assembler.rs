//! Samples of one writer put together from fragments, in an area of 129 places.

use crate::ffi::{AssemblerRecord, FragmentAnswer, FragmentCall};
use crate::record::assembler::{fragment_size, place_size, taken};
use crate::{accepted, Refused};

/// How many places an area has; one fewer samples stay in assembly.
pub const PLACES: usize = 129;

/// A fragment submessage, as far as the assembler reads it.
#[derive(Debug, Clone, Copy)]
pub struct DataFrag<'a> {
    /// The sample's number.
    pub writer_sn: i64,
    /// The first fragment, from 1.
    pub fragment_starting_num: u32,
    /// How many fragments the payload has.
    pub fragments_in_submessage: u16,
    /// The sample's length; looked at where the fragment opens the sample.
    pub data_size: u32,
    /// The writer's fragment size.
    pub fragment_size: u16,
    /// The fragments' bytes.
    pub serialized_payload: &'a [u8],
}

/// What an accepted fragment brought about.
#[derive(Debug, Clone, Copy, PartialEq, Eq, Hash)]
pub enum Outcome {
    /// The sample waits for more.
    Kept,
    /// The sample is whole: [`FragmentAssembler::view`] shows it until the next fragment.
    Returned {
        /// Its number.
        number: u64,
        /// Where it lies.
        place: usize,
        /// Its length.
        length: u32,
    },
    /// 129 were in assembly: this one was dropped, the highest where reliable, else the lowest.
    Dropped {
        /// Its number.
        number: u64,
    },
}

/// A sample in assembly.
#[derive(Debug, Clone, Copy, PartialEq, Eq, Hash)]
pub struct InAssembly {
    /// Its number.
    pub number: i64,
    /// Where it lies.
    pub place: usize,
    /// Its length.
    pub data_size: u64,
    /// How many fragments it has.
    pub fragments: u64,
    /// The time of its last fragment.
    pub time: u64,
}

/// Assembles the samples of one writer, which has one fragment size. It owns its area: [`PLACES`] places of the place
/// size, the longest sample that it takes.
///
/// ```
/// use drucenal::{DataFrag, FragmentAssembler, Outcome};
///
/// let mut assembler = FragmentAssembler::new(4, true, 1024)?;
/// let fragment = |start, bytes| DataFrag {
///     writer_sn: 1,
///     fragment_starting_num: start,
///     fragments_in_submessage: 1,
///     data_size: 6,
///     fragment_size: 4,
///     serialized_payload: bytes,
/// };
/// assert_eq!(assembler.new_datafrag(10, &fragment(2, b"ef"))?, Outcome::Kept);
/// let Outcome::Returned { place, length, .. } = assembler.new_datafrag(11, &fragment(1, b"abcd"))? else {
///     panic!("the sample is whole");
/// };
/// assert_eq!(assembler.view(place, length as usize), b"abcdef");
/// # Ok::<(), drucenal::Refused>(())
/// ```
#[derive(Clone)]
pub struct FragmentAssembler {
    record: AssemblerRecord,
    area: Vec<u8>,
}

impl FragmentAssembler {
    /// With an area of zeros. Refusal 14.
    pub fn new(fragment_size: u16, reliable: bool, place_size: u32) -> Result<Self, Refused> {
        let mut assembler = Self::with_area(fragment_size, reliable, place_size, Vec::new())?;
        assembler.area = vec![0; PLACES * place_size as usize];
        Ok(assembler)
    }

    /// With this area: any bytes do. Refusal 14; where it is shorter than 129 places, each fragment is refused with 13.
    pub fn with_area(fragment_size: u16, reliable: bool, place_size: u32, area: Vec<u8>) -> Result<Self, Refused> {
        let record = AssemblerRecord::set_up(fragment_size, reliable, place_size).map_err(Refused)?;
        Ok(Self { record, area })
    }

    /// The area as it stands.
    #[inline]
    pub fn area(&self) -> &[u8] {
        &self.area
    }

    /// Record and area, for the library's calls as they are.
    #[inline]
    pub fn parts_mut(&mut self) -> (&mut AssemblerRecord, &mut Vec<u8>) {
        (&mut self.record, &mut self.area)
    }

    /// A fragment came at this time. Refusals 13, 4, 6, 7, 8, 9, 10, 11, 12.
    #[inline]
    pub fn new_datafrag(&mut self, time: u64, datafrag: &DataFrag) -> Result<Outcome, Refused> {
        let call = FragmentCall {
            time,
            number: datafrag.writer_sn,
            fragment_size: datafrag.fragment_size,
            data_size: datafrag.data_size,
            start: datafrag.fragment_starting_num,
            count: datafrag.fragments_in_submessage,
            payload: datafrag.serialized_payload,
        };
        let mut answer = FragmentAnswer {
            what: 0,
            of: 0,
            place: 0,
            length: 0,
        };
        accepted(self.record.new_datafrag(&mut self.area, &call, &mut answer))?;
        Ok(answer.into())
    }

    /// A part of the area, by place and length: a returned sample, until the next fragment. Empty where it would pass
    /// the area's end.
    #[inline]
    pub fn view(&self, place: usize, length: usize) -> &[u8] {
        let mut start = 0;
        let shown = self.record.view(&self.area, place, length, &mut start);
        &self.area[start..start + shown]
    }

    /// Drops what was last changed before this time, and lists it, rising: how many, 128 at most. Refusal 3.
    #[inline]
    pub fn garbage_collect_before(&mut self, expire_before: u64, out: &mut [i64]) -> Result<usize, Refused> {
        let mut listed = 0;
        accepted(self.record.garbage_collect_before(expire_before, out, &mut listed))?;
        Ok(listed)
    }

    /// The missing fragments of a sample, numbered from 1, rising: how many, none where it is not in assembly.
    /// Refusal 3.
    #[inline]
    pub fn missing_frags_for(&self, number: i64, out: &mut [u32]) -> Result<usize, Refused> {
        let mut listed = 0;
        accepted(self.record.missing_frags_for(number, out, &mut listed))?;
        Ok(listed)
    }

    /// Whether the number is in assembly.
    #[inline]
    pub fn is_partially_received(&self, number: i64) -> bool {
        self.record.is_partially_received(number)
    }

    /// How many numbers are in assembly: 128 at most.
    #[inline]
    pub fn in_assembly(&self) -> usize {
        self.record.in_assembly()
    }

    /// What is in assembly, by place.
    pub fn partially_received(&self) -> impl Iterator<Item = InAssembly> + '_ {
        let unit = fragment_size(&self.record).max(1);
        taken(&self.record).map(move |(place, number, data_size, time)| InAssembly {
            number,
            place,
            data_size,
            fragments: data_size.div_ceil(unit),
            time,
        })
    }

    /// The bytes of a sample in assembly: those of missing fragments are zero.
    pub fn bytes_of(&self, sample: &InAssembly) -> &[u8] {
        self.view(sample.place, sample.data_size as usize)
    }
}

impl From<FragmentAnswer> for Outcome {
    #[inline]
    fn from(answer: FragmentAnswer) -> Self {
        match answer.what {
            0 => Self::Kept,
            1 => Self::Returned {
                number: answer.of,
                place: answer.place,
                length: answer.length,
            },
            _ => Self::Dropped { number: answer.of },
        }
    }
}

impl std::fmt::Debug for FragmentAssembler {
    fn fmt(&self, out: &mut std::fmt::Formatter<'_>) -> std::fmt::Result {
        out.debug_struct("FragmentAssembler")
            .field("fragment_size", &fragment_size(&self.record))
            .field("place_size", &place_size(&self.record))
            .field("in_assembly", &self.in_assembly())
            .finish()
    }
}
