//! The writer proxy.

use drucenal::ffi::ProxyRecord;
use drucenal::{ChangeStatus, ForcedStep, Refused, RtpsWriterProxy};
use protocol::{error, Forced, Proxy, ProxyLook, Reply, Room, Status, MOST_ROOM};

use crate::lent::{before, lend, refused};
use crate::Port;

impl Port {
    fn proxy(&mut self) -> Reply<&mut RtpsWriterProxy> {
        match &mut self.proxy {
            Some(proxy) => Ok(proxy),
            None => error("no proxy"),
        }
    }

    /// A call that changes the record, by the front and as it is exported.
    fn change(
        &mut self,
        call: impl FnOnce(&mut RtpsWriterProxy) -> Result<Option<ForcedStep>, Refused>,
        exported: impl FnOnce(&mut ProxyRecord, &mut u64, &mut u64) -> u32,
    ) -> Reply<Forced> {
        let proxy = self.proxy()?;
        match call(proxy) {
            Ok(step) => Ok(step.map(|step| (step.old, step.new))),
            Err(number) => refused(number, || {
                let (mut old, mut new) = (before(), before());
                let answer = exported(proxy.record_mut(), &mut old, &mut new);
                (answer, old == before::<u64>() && new == before::<u64>())
            }),
        }
    }
}

/// Room for every number of the heartbeat that can be missing, as far as rooms go.
fn enough(proxy: &RtpsWriterProxy, start: i64, end: i64) -> usize {
    let from = i128::from(start).max(i128::from(proxy.all_ackable_before()));
    (i128::from(end) - from + 1).clamp(0, MOST_ROOM as i128) as usize
}

impl Proxy for Port {
    fn px_new(&mut self) -> Reply<()> {
        self.proxy = Some(RtpsWriterProxy::new());
        Ok(())
    }

    fn px_recv(&mut self, number: i64, time: u64) -> Reply<Forced> {
        self.change(
            |proxy| proxy.received_changes_add(number, time),
            |record, old, new| record.received_changes_add(number, time, old, new),
        )
    }

    fn px_irr(&mut self, number: i64) -> Reply<Forced> {
        self.change(
            |proxy| proxy.set_irrelevant_change(number),
            |record, old, new| record.set_irrelevant_change(number, old, new),
        )
    }

    fn px_range(&mut self, from: i64, until_before: i64) -> Reply<Forced> {
        self.change(
            |proxy| proxy.irrelevant_changes_range(from, until_before),
            |record, old, new| record.irrelevant_changes_range(from, until_before, old, new),
        )
    }

    fn px_upto(&mut self, smallest: i64) -> Reply<Forced> {
        self.change(
            |proxy| proxy.irrelevant_changes_up_to(smallest),
            |record, old, new| record.irrelevant_changes_up_to(smallest, old, new),
        )
    }

    fn px_look(&mut self) -> Reply<ProxyLook> {
        let proxy = self.proxy()?;
        let mut time = before();
        let last = proxy.last_received();
        // The time is written only where there is one.
        if proxy.record().last_received(&mut time) == 0 && time != before::<u64>() {
            return error("touched");
        }
        Ok(ProxyLook {
            base: proxy.all_ackable_before(),
            last: last.map_or(0, |(number, _)| number),
            last_time: proxy.last_change_timestamp(),
            tracked: proxy.tracked().collect(),
        })
    }

    fn px_ign(&mut self, number: i64) -> Reply<bool> {
        Ok(self.proxy()?.should_ignore_change(number))
    }

    fn px_stat(&mut self, number: i64) -> Reply<Status> {
        let proxy = self.proxy()?;
        let mut time = before();
        // The time is written only where the number was received.
        if proxy.record().change_status(number, &mut time) != 2 && time != before::<u64>() {
            return error("touched");
        }
        Ok(match proxy.change_status(number) {
            ChangeStatus::Untracked => Status::Untracked,
            ChangeStatus::NotAvailable => Status::NotAvailable,
            ChangeStatus::Received(time) => Status::Received(time),
        })
    }

    fn px_miss(&mut self, start: i64, end: i64, room: Room) -> Reply<Vec<i64>> {
        let proxy = self.proxy()?;
        let enough = enough(proxy, start, end);
        lend(
            proxy,
            room,
            enough,
            |proxy, out| proxy.missing_seqnums(start, end, out),
            |proxy, out, listed| proxy.record().missing_seqnums(start, end, out, listed),
        )
    }

    fn px_ack(&mut self) -> Reply<(i32, i32)> {
        let proxy = self.proxy()?;
        let handed_out = proxy.next_ack_nack_sequence_number();
        Ok((handed_out, proxy.sent_ack_nack_count))
    }

    fn px_setack(&mut self, count: i32) -> Reply<()> {
        self.proxy()?.sent_ack_nack_count = count;
        Ok(())
    }

    fn px_end(&mut self) -> Reply<()> {
        self.proxy()?;
        self.proxy = None;
        Ok(())
    }
}
