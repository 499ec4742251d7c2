//! Stand-ins for the original's `dds`: a finished sample is its bytes.

pub mod ddsdata {
    use crate::messages::submessages::elements::serialized_payload::SerializedPayload;
    use crate::structure::cache_change::ChangeKind;

    pub struct DDSData(pub SerializedPayload);

    impl DDSData {
        pub fn new(payload: SerializedPayload) -> Self {
            Self(payload)
        }

        pub fn new_disposed_by_key(_kind: ChangeKind, key: SerializedPayload) -> Self {
            Self(key)
        }
    }
}
