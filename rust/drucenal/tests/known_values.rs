//! Document 01's known values at the edges, by the front.

use drucenal::{
    ByteOrder, DataFrag, ForcedStep, FragmentAssembler, Outcome, Refused, RtpsWriterProxy, SequenceNumber,
    SequenceNumberSet,
};

fn made(base: i64, list: &[i64]) -> (i64, u32, [u32; 8]) {
    let set = SequenceNumberSet::from_base_and_set(base, list).unwrap();
    (set.base, set.count, set.words)
}

fn opening(number: i64, fragment_size: u16, data_size: u32, count: u16) -> DataFrag<'static> {
    DataFrag {
        writer_sn: number,
        fragment_starting_num: 1,
        fragments_in_submessage: count,
        data_size,
        fragment_size,
        serialized_payload: &[],
    }
}

#[test]
fn p1_p2_numbers_little_endian() {
    let mut bytes = [9; 8];
    SequenceNumber(1).write(ByteOrder::Little, &mut bytes).unwrap();
    assert_eq!(bytes, [0, 0, 0, 0, 1, 0, 0, 0]);
    SequenceNumber(4_294_967_298)
        .write(ByteOrder::Little, &mut bytes)
        .unwrap();
    assert_eq!(bytes, [1, 0, 0, 0, 2, 0, 0, 0]);
    assert_eq!(
        SequenceNumber::read(ByteOrder::Little, &bytes),
        Ok(SequenceNumber(4_294_967_298))
    );
}

#[test]
fn p3_to_p6_sets_made() {
    assert_eq!(made(1, &[1, 3]), (1, 3, [0xA000_0000, 0, 0, 0, 0, 0, 0, 0]));
    assert_eq!(made(1234, &[1236, 1237]), (1234, 4, [0x3000_0000, 0, 0, 0, 0, 0, 0, 0]));
    assert_eq!(made(1, &[1, 256]), (1, 256, [0x8000_0000, 0, 0, 0, 0, 0, 0, 1]));
    assert_eq!(made(1, &[1, 257]), (1, 256, [0x8000_0000, 0, 0, 0, 0, 0, 0, 0]));
    assert_eq!(made(5, &[0]), (1, 0, [0; 8]));
}

#[test]
fn p7_p8_fragment_counts() {
    let mut assembler = FragmentAssembler::new(4, true, 2048).unwrap();
    for (number, data_size, fragments) in [(1, 10, 3), (3, 1024, 256)] {
        let outcome = assembler.new_datafrag(0, &opening(number, 4, data_size, 1));
        assert_eq!(outcome, Ok(Outcome::Kept));
        let mut missing = [0; 256];
        assert_eq!(assembler.missing_frags_for(number, &mut missing), Ok(fragments - 1));
    }
    // One fragment: returned at once.
    let whole = assembler.new_datafrag(0, &opening(2, 4, 4, 1));
    assert!(matches!(
        whole,
        Ok(Outcome::Returned {
            number: 2,
            length: 4,
            ..
        })
    ));
    for (data_size, number) in [(1025, 9), (3, 7)] {
        let refused = assembler.new_datafrag(0, &opening(4, 4, data_size, 1));
        assert_eq!(refused, Err(Refused(number)));
    }
}

#[test]
fn p9_to_p11_the_proxy() {
    let mut proxy = RtpsWriterProxy::new();
    assert_eq!(proxy.irrelevant_changes_range(10, 12), Ok(None));
    assert_eq!(proxy.irrelevant_changes_range(0, 10), Ok(None));
    assert_eq!(proxy.all_ackable_before(), 12);

    let mut proxy = RtpsWriterProxy::new();
    let step = proxy.irrelevant_changes_range(2, 1002);
    assert_eq!(step, Ok(Some(ForcedStep { old: 1, new: 746 })));
    assert_eq!(proxy.all_ackable_before(), 746);
    assert!(proxy.tracked().eq((746..=1001).map(|number| (number, None))));

    let mut proxy = RtpsWriterProxy::new();
    for number in 2..=257 {
        assert_eq!(proxy.received_changes_add(number, 5), Ok(None));
    }
    let step = proxy.received_changes_add(258, 6);
    assert_eq!(step, Ok(Some(ForcedStep { old: 1, new: 3 })));
    assert_eq!(proxy.tracked().next(), Some((3, Some(5))));
}

#[test]
fn counts_of_256_and_257() {
    let mut bytes = [0; 48];
    bytes[8..12].copy_from_slice(&256u32.to_le_bytes());
    let (set, taken) = SequenceNumberSet::read(ByteOrder::Little, &bytes).unwrap();
    assert_eq!((set.count, taken), (256, 44));
    bytes[8..12].copy_from_slice(&257u32.to_le_bytes());
    assert_eq!(
        SequenceNumberSet::read(ByteOrder::Little, &bytes),
        Err(Refused::BIT_COUNT)
    );
}

/// 128 in assembly, and one more: by mode, and where the one more is whole.
#[test]
fn the_129th() {
    for (reliable, dropped) in [(true, 129), (false, 1)] {
        let mut assembler = FragmentAssembler::new(4, reliable, 8).unwrap();
        for number in 1..=128 {
            assert_eq!(assembler.new_datafrag(0, &opening(number, 4, 8, 1)), Ok(Outcome::Kept));
        }
        let whole = assembler.new_datafrag(0, &opening(129, 4, 8, 2));
        assert_eq!(
            whole,
            Ok(Outcome::Returned {
                number: 129,
                place: 128,
                length: 8
            })
        );
        assert_eq!(assembler.in_assembly(), 128);
        let outcome = assembler.new_datafrag(0, &opening(129, 4, 8, 1));
        assert_eq!(outcome, Ok(Outcome::Dropped { number: dropped }));
        assert_eq!(assembler.in_assembly(), 128);
        assert!(!assembler.is_partially_received(dropped as i64));
    }
}

#[test]
fn the_acknack_count_wraps() {
    let mut proxy = RtpsWriterProxy::new();
    assert_eq!(proxy.next_ack_nack_sequence_number(), 0);
    assert_eq!(proxy.next_ack_nack_sequence_number(), 1);
    proxy.sent_ack_nack_count = i32::MAX;
    assert_eq!(proxy.next_ack_nack_sequence_number(), i32::MAX);
    assert_eq!(proxy.next_ack_nack_sequence_number(), i32::MIN);
}
