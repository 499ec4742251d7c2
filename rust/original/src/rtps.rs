//! The original's assembler and writer proxy, each in a module with what must see its private fields.

pub mod constant {
    /// The cap of document 01; the original's value is not in its text.
    pub const MAX_TRACKED_CHANGES_PER_WRITER: usize = 256;
}

#[allow(dead_code)]
pub mod fragment_assembler {
    include!(concat!(env!("RUSTDDS_FOUND"), "/src/rtps/fragment_assembler.rs"));

    /// A sample in assembly, as the original holds it.
    pub struct Kept<'a> {
        pub number: i64,
        pub fragments: usize,
        pub time: u64,
        pub bytes: &'a [u8],
    }

    impl FragmentAssembler {
        pub fn kept(&self) -> impl Iterator<Item = Kept<'_>> {
            self.assembly_buffers.iter().map(|(number, buffer)| Kept {
                number: i64::from(*number),
                fragments: buffer.fragment_count,
                time: buffer.modified_time.0,
                bytes: &buffer.buffer_bytes,
            })
        }

        pub fn in_assembly(&self) -> usize {
            self.assembly_buffers.len()
        }

        pub fn fragments_of(&self, number: SequenceNumber) -> Option<usize> {
            let buffer = self.assembly_buffers.get(&number)?;
            Some(buffer.fragment_count)
        }
    }
}

#[allow(dead_code)]
pub mod rtps_writer_proxy {
    include!(concat!(env!("RUSTDDS_FOUND"), "/src/rtps/rtps_writer_proxy.rs"));

    impl RtpsWriterProxy {
        pub fn tracked(&self) -> impl Iterator<Item = (i64, Option<u64>)> + '_ {
            let one =
                |(number, time): (&SequenceNumber, &Option<Timestamp>)| (i64::from(*number), time.map(|time| time.0));
            self.changes.iter().map(one)
        }

        pub fn many_tracked(&self) -> usize {
            self.changes.len()
        }

        pub fn last_received(&self) -> i64 {
            self.last_received_sequence_number.into()
        }

        pub fn status(&self, number: SequenceNumber) -> Option<Option<u64>> {
            let time = self.changes.get(&number)?;
            Some(time.map(|time| time.0))
        }

        /// The original's own cap, where document 01 adds it.
        pub fn cap(&mut self) {
            self.enforce_change_map_cap();
        }
    }
}
