//! The fragment assembler: every call, with every refusal.

use drucenal::{DataFrag, FragmentAssembler, Outcome, Refused, PLACES};

fn fragment(number: i64, start: u32, count: u16, payload: &[u8]) -> DataFrag<'_> {
    DataFrag {
        writer_sn: number,
        fragment_starting_num: start,
        fragments_in_submessage: count,
        data_size: 10,
        fragment_size: 4,
        serialized_payload: payload,
    }
}

fn assembler() -> FragmentAssembler {
    FragmentAssembler::with_area(4, true, 16, vec![90; PLACES * 16]).unwrap()
}

#[test]
fn out_of_order_with_a_run() {
    let mut assembler = assembler();
    assert_eq!(assembler.new_datafrag(5, &fragment(7, 3, 1, b"ij")), Ok(Outcome::Kept));
    assert!(assembler.is_partially_received(7) && !assembler.is_partially_received(8));
    let mut missing = [0; 4];
    assert_eq!(assembler.missing_frags_for(7, &mut missing), Ok(2));
    assert_eq!(missing, [1, 2, 0, 0]);
    assert_eq!(assembler.missing_frags_for(8, &mut missing), Ok(0));
    let open: Vec<_> = assembler.partially_received().collect();
    assert_eq!((open[0].number, open[0].place, open[0].data_size), (7, 0, 10));
    assert_eq!((open[0].fragments, open[0].time), (3, 5));
    assert_eq!(assembler.bytes_of(&open[0]), b"\0\0\0\0\0\0\0\0ij");

    let outcome = assembler.new_datafrag(6, &fragment(7, 1, 2, b"abcdefgh more"));
    let whole = Outcome::Returned {
        number: 7,
        place: 0,
        length: 10,
    };
    assert_eq!(outcome, Ok(whole));
    assert_eq!(assembler.view(0, 10), b"abcdefghij");
    assert_eq!(assembler.area()[10..], [90; PLACES * 16 - 10]);
    assert!(!assembler.is_partially_received(7));
}

#[test]
fn a_place_is_used_again() {
    let mut assembler = assembler();
    assembler.new_datafrag(0, &fragment(1, 1, 3, b"abcdefghij")).unwrap();
    assembler.new_datafrag(0, &fragment(2, 3, 1, b"z")).unwrap();
    assert_eq!(assembler.view(0, 16), b"\0\0\0\0\0\0\0\0z\0\x5a\x5a\x5a\x5a\x5a\x5a");
}

#[test]
fn what_passes_the_area_is_empty() {
    let assembler = assembler();
    assert_eq!(assembler.view(128, 16).len(), 16);
    assert_eq!(assembler.view(0, PLACES * 16).len(), PLACES * 16);
    for (place, length) in [
        (128, 17),
        (129, 1),
        (usize::MAX, 1),
        (1, usize::MAX),
        (usize::MAX, usize::MAX),
    ] {
        assert_eq!(assembler.view(place, length), b"", "{place} {length}");
    }
}

#[test]
fn cleaning() {
    let mut assembler = assembler();
    for (number, time) in [(9, 1), (4, 2), (6, 3)] {
        assembler.new_datafrag(time, &fragment(number, 1, 1, b"abcd")).unwrap();
    }
    let mut out = [90; 3];
    assert_eq!(assembler.garbage_collect_before(3, &mut out[..1]), Err(Refused::ROOM));
    assert_eq!(out, [90; 3]);
    assert_eq!(
        (assembler.in_assembly(), assembler.partially_received().count()),
        (3, 3)
    );
    assert_eq!(assembler.garbage_collect_before(3, &mut out), Ok(2));
    assert_eq!(out, [4, 9, 90]);
    assert_eq!(assembler.garbage_collect_before(3, &mut []), Ok(0));
    assert!(assembler.partially_received().map(|open| open.number).eq([6]));
    assert_eq!(assembler.missing_frags_for(6, &mut [0; 1]), Err(Refused::ROOM));
}

#[test]
fn sizes_that_are_not_set_up() {
    for (fragment_size, place_size) in [(0, 1), (1, 0), (1, 65_537), (0, 0)] {
        let refused = FragmentAssembler::new(fragment_size, true, place_size);
        assert_eq!(refused.err(), Some(Refused::SET_UP));
    }
    let largest = FragmentAssembler::new(65_535, false, 65_536).unwrap();
    assert_eq!(largest.area().len(), PLACES * 65_536);
}

#[test]
fn refusals_change_nothing() {
    let mut assembler = assembler();
    assembler.new_datafrag(1, &fragment(5, 2, 1, b"efgh")).unwrap();
    let before = (
        assembler.area().to_vec(),
        assembler.partially_received().collect::<Vec<_>>(),
    );
    let good = fragment(6, 1, 1, b"abcd");
    let with = |number, data_size, start, count| DataFrag {
        writer_sn: number,
        data_size,
        fragment_starting_num: start,
        fragments_in_submessage: count,
        ..good
    };
    let refused = [
        (with(0, 10, 1, 1), 4),
        (with(i64::MAX, 10, 1, 1), 4),
        (
            DataFrag {
                fragment_size: 5,
                ..good
            },
            6,
        ),
        (with(6, 3, 1, 1), 7),
        (with(6, 17, 1, 1), 8),
        (with(6, 10, 1, 0), 10),
        (with(5, 10, 1, 0), 10),
        (with(6, 10, 0, 1), 11),
        (with(6, 10, 3, 2), 12),
        (with(5, 99, 4, 1), 12),
    ];
    for (datafrag, number) in refused {
        assert_eq!(
            assembler.new_datafrag(9, &datafrag),
            Err(Refused(number)),
            "{datafrag:?}"
        );
    }
    let mut many = FragmentAssembler::new(1, true, 300).unwrap();
    let opening = DataFrag {
        data_size: 257,
        fragment_size: 1,
        ..good
    };
    assert_eq!(many.new_datafrag(0, &opening), Err(Refused::MANY_FRAGMENTS));
    let after = (
        assembler.area().to_vec(),
        assembler.partially_received().collect::<Vec<_>>(),
    );
    assert_eq!(before, after);
    assert_eq!(
        format!("{assembler:?}"),
        "FragmentAssembler { fragment_size: 4, place_size: 16, in_assembly: 1 }"
    );
}

#[test]
fn an_area_too_short() {
    let mut short = FragmentAssembler::with_area(4, true, 16, vec![90; PLACES * 16 - 1]).unwrap();
    assert_eq!(short.new_datafrag(0, &fragment(1, 1, 1, b"abcd")), Err(Refused::AREA));
    assert_eq!(short.area(), vec![90; PLACES * 16 - 1]);
    // The record takes the fragment where a longer area is lent.
    let (_, area) = short.parts_mut();
    area.push(90);
    let mut other = short.clone();
    assert_eq!(other.new_datafrag(0, &fragment(1, 1, 1, b"abcd")), Ok(Outcome::Kept));
    assert_eq!(short.in_assembly(), 0);
}
