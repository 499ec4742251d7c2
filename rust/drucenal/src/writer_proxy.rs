//! What came from one writer, what is missing, and what may be acknowledged.

use crate::ffi::{next_ack_nack_sequence_number, ProxyRecord};
use crate::record::proxy::tracked;
use crate::{accepted, Refused};

/// More than 256 numbers would have been tracked: the lowest were given up, and the base was forced on. What did not come below
/// the new base will be acknowledged, and is no longer missing.
#[derive(Debug, Clone, Copy, PartialEq, Eq, Hash)]
pub struct ForcedStep {
    /// The base before.
    pub old: u64,
    /// The base after.
    pub new: u64,
}

/// What a proxy tracks of a number.
#[derive(Debug, Clone, Copy, PartialEq, Eq, Hash)]
pub enum ChangeStatus {
    /// Nothing.
    Untracked,
    /// It will not come.
    NotAvailable,
    /// It came, at this time.
    Received(u64),
}

/// The reader's side of one writer: the ack base, the numbers tracked above it, and the last received number. A time
/// is any 64 bits of the caller's.
///
/// At most 256 numbers are tracked. A call that would track more gives up the lowest: it acknowledges what did not come,
/// and reports it as a [`ForcedStep`].
///
/// ```
/// use drucenal::{ChangeStatus, ForcedStep, RtpsWriterProxy};
///
/// let mut proxy = RtpsWriterProxy::new();
/// for number in 2..=257 {
///     assert_eq!(proxy.received_changes_add(number, 7), Ok(None));
/// }
/// assert_eq!(proxy.all_ackable_before(), 1);
/// // One more than 256: 1 and 2 are given up, and the call says so.
/// assert_eq!(proxy.received_changes_add(258, 8), Ok(Some(ForcedStep { old: 1, new: 3 })));
/// assert_eq!(proxy.change_status(3), ChangeStatus::Received(7));
/// ```
#[derive(Clone, Default)]
pub struct RtpsWriterProxy {
    record: ProxyRecord,
    /// The count that the next acknack is given.
    pub sent_ack_nack_count: i32,
}

impl RtpsWriterProxy {
    /// Nothing came yet: the base is 1.
    #[inline]
    pub fn new() -> Self {
        Self::default()
    }

    /// The record, for the library's calls as they are.
    #[inline]
    pub fn record(&self) -> &ProxyRecord {
        &self.record
    }

    /// The record, for the library's calls as they are.
    #[inline]
    pub fn record_mut(&mut self) -> &mut ProxyRecord {
        &mut self.record
    }

    /// One call that changes the record: the forced step, if there was one.
    #[inline]
    fn change(
        &mut self,
        call: impl FnOnce(&mut ProxyRecord, &mut u64, &mut u64) -> u32,
    ) -> Result<Option<ForcedStep>, Refused> {
        let (mut old, mut new) = (0, 0);
        accepted(call(&mut self.record, &mut old, &mut new))?;
        // A base is never 0: both are, where there was no step.
        Ok((new != 0).then_some(ForcedStep { old, new }))
    }

    /// DATA with this number came at this time. Refusal 4.
    #[inline]
    pub fn received_changes_add(&mut self, number: i64, time: u64) -> Result<Option<ForcedStep>, Refused> {
        self.change(|record, old, new| record.received_changes_add(number, time, old, new))
    }

    /// One number is not available. Refusal 4.
    #[inline]
    pub fn set_irrelevant_change(&mut self, number: i64) -> Result<Option<ForcedStep>, Refused> {
        self.change(|record, old, new| record.set_irrelevant_change(number, old, new))
    }

    /// No number of the range is available. Refusal 5.
    #[inline]
    pub fn irrelevant_changes_range(&mut self, from: i64, until_before: i64) -> Result<Option<ForcedStep>, Refused> {
        self.change(|record, old, new| record.irrelevant_changes_range(from, until_before, old, new))
    }

    /// No number below this one is available. Refusal 5.
    #[inline]
    pub fn irrelevant_changes_up_to(&mut self, smallest: i64) -> Result<Option<ForcedStep>, Refused> {
        self.change(|record, old, new| record.irrelevant_changes_up_to(smallest, old, new))
    }

    /// The ack base: everything below it may be acknowledged. Each number there came, is not available, or was given up
    /// by a [`ForcedStep`], which the call that made it reported.
    #[inline]
    pub fn all_ackable_before(&self) -> u64 {
        self.record.all_ackable_before()
    }

    /// Whether the number is below the base or tracked: it came, is not available, or was given up.
    #[inline]
    pub fn should_ignore_change(&self, number: i64) -> bool {
        self.record.should_ignore_change(number)
    }

    /// What is tracked of a number: nothing is, below the base.
    #[inline]
    pub fn change_status(&self, number: i64) -> ChangeStatus {
        let mut time = 0;
        match self.record.change_status(number, &mut time) {
            0 => ChangeStatus::Untracked,
            1 => ChangeStatus::NotAvailable,
            _ => ChangeStatus::Received(time),
        }
    }

    /// The highest number received, and its time; none where none was.
    #[inline]
    pub fn last_received(&self) -> Option<(u64, u64)> {
        let mut time = 0;
        match self.record.last_received(&mut time) {
            0 => None,
            number => Some((number, time)),
        }
    }

    /// The time of the highest number received.
    #[inline]
    pub fn last_change_timestamp(&self) -> Option<u64> {
        self.last_received().map(|(_, time)| time)
    }

    /// What is missing of a heartbeat's numbers, rising, to the list's first entries: how many. Refusals 4 and 3.
    ///
    /// At most 256 numbers are tracked, so a list of 512 has room for the missing ones of any 512 numbers, and among
    /// those from the base on there are the 256 that an acknack can ask for.
    #[inline]
    pub fn missing_seqnums(&self, start: i64, end: i64, out: &mut [i64]) -> Result<usize, Refused> {
        let mut listed = 0;
        accepted(self.record.missing_seqnums(start, end, out, &mut listed))?;
        Ok(listed)
    }

    /// The count for an acknack; after 2,147,483,647 comes -2,147,483,648.
    #[inline]
    pub fn next_ack_nack_sequence_number(&mut self) -> i32 {
        next_ack_nack_sequence_number(&mut self.sent_ack_nack_count)
    }

    /// The tracked numbers, rising, with their time where received.
    pub fn tracked(&self) -> impl Iterator<Item = (i64, Option<u64>)> + '_ {
        tracked(&self.record)
    }
}

impl std::fmt::Debug for RtpsWriterProxy {
    fn fmt(&self, out: &mut std::fmt::Formatter<'_>) -> std::fmt::Result {
        out.debug_struct("RtpsWriterProxy")
            .field("all_ackable_before", &self.all_ackable_before())
            .field("last_received", &self.last_received())
            .field("tracked", &self.tracked().count())
            .field("sent_ack_nack_count", &self.sent_ack_nack_count)
            .finish()
    }
}
