//! Numbers and number sets: every call of both widths, with every refusal.

use drucenal::{ByteOrder, FragmentNumber, FragmentNumberSet, NumberSet, Refused, SequenceNumber, SequenceNumberSet};

const ORDERS: [ByteOrder; 2] = [ByteOrder::Big, ByteOrder::Little];

#[test]
fn numbers_of_both_widths() {
    for order in ORDERS {
        let mut bytes = [90; 10];
        for number in [i64::MIN, -1, 0, 1, 1 << 32, i64::MAX] {
            SequenceNumber::from(number).write(order, &mut bytes).unwrap();
            let read = SequenceNumber::read(order, &bytes);
            assert_eq!(read.map(i64::from), Ok(number));
        }
        for number in [0, 1, 0x0102_0304, u32::MAX] {
            FragmentNumber::from(number).write(order, &mut bytes).unwrap();
            let read = FragmentNumber::read(order, &bytes);
            assert_eq!(read.map(u32::from), Ok(number));
        }
        assert_eq!(bytes[8..], [90, 90]);
        assert_eq!(SequenceNumber::read(order, &[0; 7]), Err(Refused::ENDS_EARLY));
        assert_eq!(FragmentNumber::read(order, &[0; 3]), Err(Refused::ENDS_EARLY));
        let mut short = [90; 7];
        assert_eq!(SequenceNumber(1).write(order, &mut short), Err(Refused::ROOM));
        assert_eq!(FragmentNumber(1).write(order, &mut short[..3]), Err(Refused::ROOM));
        assert_eq!(short, [90; 7]);
    }
}

#[test]
fn written_and_read_back() {
    for order in ORDERS {
        for count in [0, 1, 31, 32, 33, 255, 256] {
            let words = std::array::from_fn(|i| 0x9000_0001 + i as u32);
            let set = SequenceNumberSet { base: -5, count, words };
            let mut bytes = [90; 50];
            let wrote = set.write(order, &mut bytes).unwrap();
            assert_eq!(Ok(wrote), set.len_serialized());
            assert_eq!(wrote, 12 + 4 * count.div_ceil(32) as usize);
            assert_eq!(bytes[wrote], 90);
            let (read, taken) = SequenceNumberSet::read(order, &bytes).unwrap();
            // Words past the count are zero after reading.
            let kept = count.div_ceil(32) as usize;
            assert_eq!((read.base, read.count, taken), (-5, count, wrote));
            assert_eq!(read.words[..kept], words[..kept]);
            assert_eq!(read.words[kept..], [0; 8][kept..]);
            assert_eq!(
                SequenceNumberSet::read(order, &bytes[..wrote - 1]),
                Err(Refused::ENDS_EARLY)
            );
            assert_eq!(set.write(order, &mut bytes[..wrote - 1]), Err(Refused::ROOM));
        }
    }
    let set = FragmentNumberSet {
        base: 7,
        count: 33,
        words: [1; 8],
    };
    let mut bytes = [0; 16];
    assert_eq!(set.write(ByteOrder::Big, &mut bytes), Ok(16));
    assert_eq!(bytes, [0, 0, 0, 7, 0, 0, 0, 33, 0, 0, 0, 1, 0, 0, 0, 1]);
    let words = [1, 1, 0, 0, 0, 0, 0, 0];
    assert_eq!(
        FragmentNumberSet::read(ByteOrder::Big, &bytes),
        Ok((NumberSet { words, ..set }, 16))
    );
}

#[test]
fn over_a_set() {
    let mut set = FragmentNumberSet::new(9, 9);
    assert_eq!(set.read_over(ByteOrder::Big, &[0; 7]), Err(Refused::ENDS_EARLY));
    assert_eq!(set.make_over(1, &[2, 2]), Err(Refused::NOT_RISING));
    assert_eq!(set, FragmentNumberSet::new(9, 9));
    assert_eq!(set.make_over(5, &[5, 6]), Ok(()));
    assert_eq!(Ok(set), FragmentNumberSet::from_base_and_set(5, &[5, 6]));
    let mut bytes = [0; 12];
    set.write(ByteOrder::Big, &mut bytes).unwrap();
    let mut other = FragmentNumberSet {
        base: 7,
        count: 256,
        words: [7; 8],
    };
    assert_eq!(other.read_over(ByteOrder::Big, &bytes), Ok(12));
    assert_eq!(other, set);
}

#[test]
fn more_than_256_bits() {
    let set = SequenceNumberSet::new(1, 257);
    let mut bytes = [90; 60];
    assert_eq!(set.write(ByteOrder::Big, &mut bytes), Err(Refused::BIT_COUNT));
    assert_eq!(bytes, [90; 60]);
    assert_eq!(set.len_serialized(), Err(Refused::BIT_COUNT));
    assert_eq!(set.walk(&mut [0; 300]), Err(Refused::BIT_COUNT));
    assert_eq!(set.is_empty(), Err(Refused::BIT_COUNT));
    assert!(set.iter().is_err());
}

#[test]
fn members_both_ways() {
    let list: Vec<u32> = (0..64).map(|i| 10 + 4 * i).collect();
    let set = FragmentNumberSet::from_base_and_set(10, &list).unwrap();
    assert_eq!((set.base(), set.count), (10, 253));
    let mut out = [90; 66];
    assert_eq!(set.walk(&mut out), Ok(64));
    assert_eq!(out[..64], list);
    assert_eq!(out[64..], [90, 90]);
    assert_eq!(set.walk_back(&mut out), Ok(64));
    assert!(out[..64].iter().eq(list.iter().rev()));
    assert_eq!(set.walk(&mut [0; 63]), Err(Refused::ROOM));
    assert_eq!(set.is_empty(), Ok(false));

    let mut members = set.iter().unwrap();
    assert_eq!(
        (members.len(), members.next(), members.next_back()),
        (64, Some(10), Some(262))
    );
    assert_eq!(members.as_slice(), &list[1..63]);
    assert!(members.eq(list[1..63].iter().copied()));
    assert!(set.iter().unwrap().rev().eq(list.iter().rev().copied()));
}

#[test]
fn no_members() {
    for set in [SequenceNumberSet::new_empty(3), SequenceNumberSet::new(3, 200)] {
        assert_eq!((set.base(), set.is_empty()), (3, Ok(true)));
        assert_eq!(set.walk(&mut []), Ok(0));
        assert_eq!(set.iter().unwrap().next(), None);
        assert_eq!(set.iter().unwrap().next_back(), None);
    }
}

#[test]
fn a_member_past_its_type() {
    let mut set = FragmentNumberSet {
        base: u32::MAX,
        count: 2,
        words: [0x8000_0000; 8],
    };
    assert_eq!(set.walk(&mut [0; 2]), Ok(1));
    set.words[0] = 0x4000_0000;
    assert_eq!(set.walk(&mut [0; 2]), Err(Refused::NUMBER));
    assert_eq!(set.walk_back(&mut []), Err(Refused::NUMBER));
    assert_eq!(set.is_empty(), Err(Refused::NUMBER));
}

#[test]
fn lists_that_do_not_rise() {
    for list in [[1, 1], [2, 1]] {
        assert_eq!(SequenceNumberSet::from_base_and_set(1, &list), Err(Refused::NOT_RISING));
    }
    // An empty list gives the empty set at any base.
    let empty = SequenceNumberSet::from_base_and_set(i64::MIN, &[]).unwrap();
    assert_eq!(empty, SequenceNumberSet::new_empty(i64::MIN));
}

#[test]
fn every_refusal_has_its_words() {
    let words: Vec<String> = (1..=16).map(|number| Refused(number).to_string()).collect();
    assert_eq!(words[0], "refused with 1: set bytes end early");
    assert_eq!(words[14], "refused with 15: list not strictly rising");
    assert_eq!(words[15], "refused with 16: no number of the table");
    let mut kinds = words.clone();
    kinds.sort();
    kinds.dedup();
    assert_eq!(kinds.len(), words.len());
}
