//! Stand-ins for the original's `messages`: the fragment submessage, and a payload of raw bytes.

pub mod submessages {
    pub mod elements {
        pub mod serialized_payload {
            use bytes::Bytes;

            pub struct SerializedPayload(pub Bytes);

            impl SerializedPayload {
                pub fn from_bytes(bytes: &Bytes) -> std::io::Result<Self> {
                    Ok(Self(bytes.clone()))
                }
            }
        }
    }

    #[allow(clippy::module_inception)]
    pub mod submessages {
        use bytes::Bytes;

        use crate::structure::sequence_number::{FragmentNumber, SequenceNumber};

        #[allow(non_camel_case_types)]
        pub enum DATAFRAG_Flags {
            Key,
        }

        /// The fields that the assembler reads, under the original's names.
        pub struct DataFrag {
            pub writer_sn: SequenceNumber,
            pub fragment_starting_num: FragmentNumber,
            pub fragments_in_submessage: u16,
            pub data_size: u32,
            pub fragment_size: u16,
            pub serialized_payload: Bytes,
        }

        impl DataFrag {
            /// As in the original's data_frag.rs.
            pub fn total_number_of_fragments(&self) -> FragmentNumber {
                let frag_size = self.fragment_size as u32;
                if frag_size < 1 {
                    FragmentNumber::INVALID
                } else {
                    FragmentNumber::new(self.data_size.div_ceil(frag_size))
                }
            }
        }
    }
}
