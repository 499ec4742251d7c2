//! The writer proxy: every call, with every refusal.

use drucenal::{ChangeStatus, Refused, RtpsWriterProxy};

fn after(numbers: &[i64]) -> RtpsWriterProxy {
    let mut proxy = RtpsWriterProxy::new();
    for number in numbers {
        proxy.received_changes_add(*number, *number as u64 + 100).unwrap();
    }
    proxy
}

fn state(proxy: &RtpsWriterProxy) -> (u64, Option<(u64, u64)>, Vec<(i64, Option<u64>)>) {
    (
        proxy.all_ackable_before(),
        proxy.last_received(),
        proxy.tracked().collect(),
    )
}

#[test]
fn a_fresh_one() {
    let proxy = RtpsWriterProxy::new();
    assert_eq!(state(&proxy), (1, None, vec![]));
    assert_eq!(proxy.last_change_timestamp(), None);
    assert_eq!(proxy.sent_ack_nack_count, 0);
    assert!(proxy.should_ignore_change(0));
    assert!(!proxy.should_ignore_change(1));
    assert_eq!(proxy.change_status(1), ChangeStatus::Untracked);
}

#[test]
fn receipts_move_the_base() {
    let mut proxy = after(&[1, 3, 4]);
    assert_eq!(state(&proxy), (2, Some((4, 104)), vec![(3, Some(103)), (4, Some(104))]));
    assert_eq!(proxy.received_changes_add(2, 7), Ok(None));
    // A late receipt leaves the last one.
    assert_eq!(state(&proxy), (5, Some((4, 104)), vec![]));
    assert_eq!(proxy.last_change_timestamp(), Some(104));
    // Below the base nothing is tracked, and again the highest number stays.
    assert_eq!(proxy.received_changes_add(1, 9), Ok(None));
    assert_eq!(state(&proxy), (5, Some((4, 104)), vec![]));
}

#[test]
fn irrelevant_numbers() {
    let mut proxy = after(&[3]);
    assert_eq!(proxy.set_irrelevant_change(5), Ok(None));
    assert_eq!(proxy.change_status(5), ChangeStatus::NotAvailable);
    assert_eq!(proxy.change_status(3), ChangeStatus::Received(103));
    assert_eq!(proxy.irrelevant_changes_up_to(3), Ok(None));
    assert_eq!(state(&proxy), (4, Some((3, 103)), vec![(5, None)]));
    assert_eq!(proxy.irrelevant_changes_range(4, 5), Ok(None));
    assert_eq!(state(&proxy), (6, Some((3, 103)), vec![]));
    // An irrelevant range above the base is put over what came.
    proxy.received_changes_add(8, 1).unwrap();
    assert_eq!(proxy.irrelevant_changes_range(8, 9), Ok(None));
    assert_eq!(proxy.change_status(8), ChangeStatus::NotAvailable);
    assert!(proxy.should_ignore_change(8) && proxy.should_ignore_change(5));
    assert!(!proxy.should_ignore_change(6));
}

#[test]
fn missing_numbers() {
    let proxy = after(&[1, 3, 6]);
    let mut out = [90; 6];
    assert_eq!(proxy.missing_seqnums(1, 7, &mut out), Ok(4));
    assert_eq!(out, [2, 4, 5, 7, 90, 90]);
    assert_eq!(proxy.missing_seqnums(4, 5, &mut out), Ok(2));
    assert_eq!(proxy.missing_seqnums(5, 4, &mut out), Ok(0));
    assert_eq!(proxy.missing_seqnums(-9, 1, &mut out), Ok(0));
    let mut short = [90; 3];
    assert_eq!(proxy.missing_seqnums(1, 7, &mut short), Err(Refused::ROOM));
    assert_eq!(proxy.missing_seqnums(1, i64::MAX, &mut short), Err(Refused::NUMBER));
    assert_eq!(proxy.missing_seqnums(1, i64::MAX - 1, &mut short), Err(Refused::ROOM));
    assert_eq!(short, [90; 3]);
}

/// As document RECEIVER advises: of 512 numbers from the base on, at most 256 are tracked.
#[test]
fn a_list_of_512_is_never_too_short() {
    let mut proxy = RtpsWriterProxy::new();
    for number in 2..=600 {
        proxy.received_changes_add(number, 0).unwrap();
    }
    let base = proxy.all_ackable_before() as i64;
    let mut out = [0; 512];
    assert_eq!(proxy.missing_seqnums(base, base + 511, &mut out), Ok(256));
    assert_eq!(out[0], 601);
}

#[test]
fn refusals_change_nothing() {
    let mut proxy = after(&[1, 3]);
    let before = state(&proxy);
    for number in [i64::MIN, -1, 0, i64::MAX] {
        assert_eq!(proxy.received_changes_add(number, 1), Err(Refused::NUMBER));
        assert_eq!(proxy.set_irrelevant_change(number), Err(Refused::NUMBER));
    }
    assert_eq!(proxy.irrelevant_changes_range(5, 4), Err(Refused::RANGE));
    assert_eq!(proxy.irrelevant_changes_up_to(-1), Err(Refused::RANGE));
    assert_eq!(state(&proxy), before);
    // A copy goes its own way.
    let mut other = proxy.clone();
    other.received_changes_add(2, 1).unwrap();
    assert_eq!(state(&proxy), before);
    assert!(format!("{proxy:?}").starts_with("RtpsWriterProxy { all_ackable_before: 2"));
}

/// The exported calls as they are: the numbers behind references are written where the call is accepted.
#[test]
fn the_record_beneath() {
    let mut proxy = after(&[1]);
    let (mut old, mut new, mut time) = (90, 90, 90);
    assert_eq!(proxy.record_mut().received_changes_add(0, 1, &mut old, &mut new), 4);
    assert_eq!((old, new), (90, 90));
    assert_eq!(proxy.record_mut().received_changes_add(3, 1, &mut old, &mut new), 0);
    assert_eq!((old, new), (0, 0));
    assert_eq!(proxy.record().change_status(2, &mut time), 0);
    assert_eq!(time, 90);
    assert_eq!(proxy.record().last_received(&mut time), 3);
    assert_eq!(time, 1);
}
