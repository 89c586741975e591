//! "An older table never misleads about a newer stamp", on random pairs of tables.

mod common;
use common::err;
use common::pairs::{directions, newer, older, Seen};
use reference::random::Random;
use reference::*;

#[test]
fn on_random_pairs() {
    let mut random = Random::new(3);
    let mut seen = Seen::default();
    for _ in 0..20_000 {
        let old = older(&mut random);
        let new = newer(&mut random, &old);
        let steps = steps_back(&new.layout, new.partitions(), new.segments()).unwrap();
        for _ in 0..12 {
            let holds = directions(&mut seen, &mut random, &old, &new);
            assert!(holds || steps);
            if steps {
                seen.note(format!("newer steps back, claim {}", if holds { "holds" } else { "fails" }));
            }
        }
    }
    println!("{:#?}", seen.0);
    for event in [
        "stamp both",
        "stamp 10",
        "stamp 11",
        "stamp neither",
        "print both",
        "print 12",
        "print neither",
        "time-of both",
        "time-of 12",
        "time-of neither",
        "count-at both",
        "count-at 14",
        "count-at neither",
        "exception ok ok",
        "exception ok 16",
        "exception 16 16",
        "newer steps back, claim holds",
        "newer steps back, claim fails",
    ] {
        assert!(seen.0.get(event).copied().unwrap_or(0) >= 20, "too few: {}", event);
    }
}

/// Where the newer's number has one digit more, its print does not fit where the older's does.
#[test]
fn the_exception_at_its_smallest() {
    let layout = common::plain(&[2]);
    let older = Partitions { start: &[0; 9], end: &[1; 9] };
    let newer = Partitions { start: &[0; 10], end: &[1; 10] };
    let mut lent = [0; 3];
    assert_eq!(print_stamp(&layout, newer, 9, &mut lent), err(16));
    assert_eq!(lent, [0; 3]);
    assert_eq!(print_stamp(&layout, older, 9, &mut lent), Ok(3));
    assert_eq!(&lent, b"9/1");
    assert_eq!(common::printed_stamp(&layout, newer, 9).unwrap(), "10/0");
}

/// Without request 2 the newer's print was the shorter one, `2/1`.
#[test]
fn the_exception_with_an_offset() {
    let layout = common::layout(&[10], &[1], 1);
    let older = Partitions { start: &[0], end: &[9] };
    let newer = Partitions { start: &[0, 0], end: &[9, 5] };
    for (partitions, print) in [(older, b"1/10"), (newer, b"2/01")] {
        let mut lent = [0; 4];
        assert_eq!(print_stamp(&layout, partitions, 9, &mut lent[..3]), err(16));
        assert_eq!(lent, [0; 4]);
        assert_eq!(print_stamp(&layout, partitions, 9, &mut lent), Ok(4));
        assert_eq!(&lent, print);
    }
}

#[test]
fn a_newer_that_steps_back() {
    let layout = common::plain(&[3]);
    let older = (Partitions { start: &[0], end: &[1] }, Segments { count: &[0], time: &[0], rate: &[1_000] });
    let newer = (
        Partitions { start: &[0, 0], end: &[1, 1] },
        Segments { count: &[0, 2], time: &[0, 1], rate: &[1_000, 1_000] },
    );
    assert_eq!(steps_back(&layout, older.0, older.1), Ok(false));
    assert_eq!(steps_back(&layout, newer.0, newer.1), Ok(true));
    assert_eq!(count_at(&layout, older.0, older.1, 1), Ok(1));
    assert_eq!(count_at(&layout, newer.0, newer.1, 1), Ok(2));
}

#[test]
fn a_segment_at_the_olders_total_is_too_early() {
    let layout = common::plain(&[3]);
    let partitions = Partitions { start: &[0], end: &[1] };
    let older = Segments { count: &[0], time: &[0], rate: &[1_000] };
    let newer = Segments { count: &[0, 1], time: &[0, 2], rate: &[1_000, 1_000] };
    assert_eq!(steps_back(&layout, partitions, newer), Ok(false));
    assert_eq!(time_of(&layout, partitions, older, 1), Ok(1));
    assert_eq!(time_of(&layout, partitions, newer, 1), Ok(2));
}

/// Table A cut to its first partition and segment, against table A.
#[test]
fn table_a_and_its_cut() {
    let (layout, partitions, segments) = table_a();
    let cut = Partitions { start: &[0], end: &[500] };
    let first = Segments { count: &[0], time: &[-1_000], rate: &[25_000] };
    assert_eq!(steps_back(&layout, cut, first), Ok(false));
    for e in 0..=1_202 {
        let (old, new) = (time_of(&layout, cut, first, e), time_of(&layout, partitions, segments, e));
        assert!(old == new || (old == err(12) && e > 500));
        let (old, new) = (common::printed_stamp(&layout, cut, e), common::printed_stamp(&layout, partitions, e));
        assert!(old == new || (old == err(12) && e > 500) || e == 500);
    }
    for t in -1_010..2_810 {
        let (old, new) = (count_at(&layout, cut, first, t), count_at(&layout, partitions, segments, t));
        assert!(old == new || old == err(14));
    }
    for count in 0..1_000 {
        let text = common::printed_count(&layout, count).unwrap();
        for stamp in [text.clone(), format!("0/{}", text), format!("1/{}", text), format!("2/{}", text)] {
            let (old, new) =
                (read_stamp(&layout, cut, stamp.as_bytes()), read_stamp(&layout, partitions, stamp.as_bytes()));
            assert!(old == new || old == err(10) || old == err(11), "{}", stamp);
        }
    }
}
