//! The writer proxy, by the original's calls.

use protocol::{error, Forced, Proxy, ProxyLook, Reply, Room, Status, MOST_ROOM};

use super::{check_number, refuse, within, Oracle};
use crate::caught::caught;
use crate::rtps::rtps_writer_proxy::RtpsWriterProxy;
use crate::structure::guid::{EntityId, GUID};
use crate::structure::{sequence_number::SequenceNumber, time::Timestamp};

/// The most numbers of a range that the original is asked to walk: those of the stated domain.
const LONGEST_RANGE: i64 = 4096;
/// Of a longer range only the last 256 can stay tracked, and the one before them sets the base.
const RANGE_END: i64 = 512;

pub struct Held(RtpsWriterProxy);

impl Held {
    fn base(&self) -> i64 {
        self.0.all_ackable_before().into()
    }

    /// One call that changes the proxy. The base moves only by a forced step where the call does not reach it.
    fn change(&mut self, reaches_base: bool, call: impl FnOnce(&mut RtpsWriterProxy)) -> Reply<Forced> {
        let old = self.base();
        caught(|| call(&mut self.0))?;
        let new = self.base();
        let forced = !reaches_base && old != new;
        Ok(forced.then_some((old as u64, new as u64)))
    }

    fn range(&mut self, from: i64, until_before: i64) -> Reply<Forced> {
        let reaches_base = from <= self.base();
        // Outside the stated domain the original would walk every number; document 01's answer is that of the end.
        let long = !reaches_base && until_before.saturating_sub(from) > LONGEST_RANGE;
        let from = if long { until_before - RANGE_END } else { from };
        let forced = self.change(reaches_base, |proxy| {
            proxy.irrelevant_changes_range(from.into(), until_before.into());
        })?;
        // The original returns from such a range in silence.
        if from > until_before {
            return refuse(5);
        }
        Ok(forced)
    }

    fn missing(&self, start: i64, end: i64, room: Room) -> Reply<Vec<i64>> {
        if end == i64::MAX {
            return refuse(4);
        }
        let room = room.unwrap_or(MOST_ROOM);
        let width = i128::from(end) - i128::from(start.max(self.base())) + 1;
        // At least this many are missing: no need to walk them.
        if width - self.0.many_tracked() as i128 > room as i128 {
            return refuse(3);
        }
        let missing = caught(|| self.0.missing_seqnums(start.into(), end.into()))?;
        within(Some(room), missing.len())?;
        Ok(missing.into_iter().map(i64::from).collect())
    }
}

impl Oracle {
    fn held(&mut self) -> Reply<&mut Held> {
        match &mut self.proxy {
            Some(held) => Ok(held),
            None => error("no proxy"),
        }
    }

    /// The ack base.
    pub fn base(&mut self) -> Reply<i64> {
        Ok(self.held()?.base())
    }

    /// A call of the proxy; after a panic it is gone.
    fn on_proxy<T>(&mut self, call: impl FnOnce(&mut Held) -> Reply<T>) -> Reply<T> {
        let reply = call(self.held()?);
        if matches!(reply, Err(protocol::Stop::Error(_))) {
            self.proxy = None;
        }
        reply
    }
}

impl Proxy for Oracle {
    fn px_new(&mut self) -> Reply<()> {
        let proxy = RtpsWriterProxy::new(GUID, Vec::new(), Vec::new(), EntityId::UNKNOWN);
        self.proxy = Some(Held(proxy));
        Ok(())
    }

    fn px_recv(&mut self, number: i64, time: u64) -> Reply<Forced> {
        self.on_proxy(|held| {
            check_number(number)?;
            held.change(number == held.base(), |proxy| {
                proxy.received_changes_add(number.into(), Timestamp(time));
            })
        })
    }

    fn px_irr(&mut self, number: i64) -> Reply<Forced> {
        self.on_proxy(|held| {
            check_number(number)?;
            held.change(number == held.base(), |proxy| {
                proxy.set_irrelevant_change(number.into());
                proxy.cap();
            })
        })
    }

    fn px_range(&mut self, from: i64, until_before: i64) -> Reply<Forced> {
        self.on_proxy(|held| held.range(from, until_before))
    }

    fn px_upto(&mut self, smallest: i64) -> Reply<Forced> {
        self.on_proxy(|held| {
            let forced = held.change(true, |proxy| {
                proxy.irrelevant_changes_up_to(smallest.into());
            })?;
            if smallest < 0 {
                return refuse(5);
            }
            Ok(forced)
        })
    }

    fn px_look(&mut self) -> Reply<ProxyLook> {
        let held = self.held()?;
        Ok(ProxyLook {
            base: held.base() as u64,
            last: held.0.last_received() as u64,
            last_time: held.0.last_change_timestamp().map(|time| time.0),
            tracked: held.0.tracked().collect(),
        })
    }

    fn px_ign(&mut self, number: i64) -> Reply<bool> {
        let held = self.held()?;
        Ok(held.0.should_ignore_change(number.into()))
    }

    fn px_stat(&mut self, number: i64) -> Reply<Status> {
        let held = self.held()?;
        Ok(match held.0.status(SequenceNumber::from(number)) {
            None => Status::Untracked,
            Some(None) => Status::NotAvailable,
            Some(Some(time)) => Status::Received(time),
        })
    }

    fn px_miss(&mut self, start: i64, end: i64, room: Room) -> Reply<Vec<i64>> {
        self.on_proxy(|held| held.missing(start, end, room))
    }

    fn px_ack(&mut self) -> Reply<(i32, i32)> {
        self.on_proxy(|held| {
            let handed_out = caught(|| held.0.next_ack_nack_sequence_number())?;
            Ok((handed_out, held.0.sent_ack_nack_count))
        })
    }

    fn px_setack(&mut self, count: i32) -> Reply<()> {
        self.held()?.0.sent_ack_nack_count = count;
        Ok(())
    }

    fn px_end(&mut self) -> Reply<()> {
        self.held()?;
        self.proxy = None;
        Ok(())
    }
}
