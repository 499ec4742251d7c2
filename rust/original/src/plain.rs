//! The original's own types and calls, for a caller that times them. Two of the types are private to the original's
//! crate and stand wrapped here.

use enumflags2::BitFlags;

use crate::rtps::{fragment_assembler, rtps_writer_proxy};
use crate::structure::guid::{EntityId, GUID};

pub use crate::dds::ddsdata::DDSData;
pub use crate::messages::submessages::submessages::DataFrag;
pub use crate::structure::sequence_number::{FragmentNumber, SequenceNumber, SequenceNumberSet};
pub use crate::structure::time::Timestamp;

pub struct RtpsWriterProxy(rtps_writer_proxy::RtpsWriterProxy);

impl RtpsWriterProxy {
    #[allow(clippy::new_without_default)]
    pub fn new() -> Self {
        let (unicast, multicast) = (Vec::new(), Vec::new());
        Self(rtps_writer_proxy::RtpsWriterProxy::new(
            GUID,
            unicast,
            multicast,
            EntityId::UNKNOWN,
        ))
    }

    #[inline]
    pub fn received_changes_add(&mut self, number: SequenceNumber, time: Timestamp) {
        self.0.received_changes_add(number, time);
    }

    #[inline]
    pub fn all_ackable_before(&self) -> SequenceNumber {
        self.0.all_ackable_before()
    }

    #[inline]
    pub fn should_ignore_change(&self, number: SequenceNumber) -> bool {
        self.0.should_ignore_change(number)
    }

    #[inline]
    pub fn missing_seqnums(&self, first: SequenceNumber, last: SequenceNumber) -> Vec<SequenceNumber> {
        self.0.missing_seqnums(first, last)
    }

    pub fn tracked(&self) -> impl Iterator<Item = (i64, Option<u64>)> + '_ {
        self.0.tracked()
    }
}

pub struct FragmentAssembler(fragment_assembler::FragmentAssembler);

impl FragmentAssembler {
    pub fn new(fragment_size: u16, reliable: bool) -> Self {
        Self(fragment_assembler::FragmentAssembler::new(fragment_size, reliable))
    }

    #[inline]
    pub fn new_datafrag(&mut self, datafrag: &DataFrag) -> Option<DDSData> {
        self.0.new_datafrag(datafrag, BitFlags::empty())
    }

    pub fn in_assembly(&self) -> usize {
        self.0.in_assembly()
    }
}
