//! Stand-ins for the original's `discovery`: the fields that the writer proxy reads.

pub mod sedp_messages {
    use crate::structure::{guid::GUID, locator::Locator};

    pub struct WriterProxy {
        pub remote_writer_guid: GUID,
        pub unicast_locator_list: Vec<Locator>,
        pub multicast_locator_list: Vec<Locator>,
    }

    pub struct DiscoveredWriterData {
        pub writer_proxy: WriterProxy,
    }
}
