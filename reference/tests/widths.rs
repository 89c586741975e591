//! Numbers that trip a careless implementation, and every limit of the tables with one beyond it.

mod common;
use common::*;
use reference::*;

const E15: u64 = 1_000_000_000_000_000;
const E12: u64 = 1_000_000_000_000;

#[test]
fn products_of_moduli() {
    assert_eq!(read_text(&plain(&[1 << 32, 1 << 32]), b"1"), err(1));
    assert_eq!(read_text(&plain(&[1 << 63, 2]), b"1"), err(1));
    assert_eq!(read_text(&plain(&[2, 1 << 63]), b"1"), err(1));
    assert_eq!(read_text(&plain(&[u64::MAX; 10]), b"1"), err(1));
    assert_eq!(read_text(&plain(&[1 << 32, 1 << 32, 0]), b"1"), err(1));
    assert_eq!(read_text(&plain(&[E15]), b"1"), Ok(1));
    assert_eq!(read_text(&plain(&[E15 + 1]), b"1"), err(1));
    assert_eq!(read_text(&plain(&[1_000, E12]), b"1"), Ok(E12));
    assert_eq!(read_text(&plain(&[1_001, E12]), b"1"), err(1));
    assert_eq!(read_text(&plain(&[1, E12]), b"1"), Ok(E12));
    assert_eq!(read_text(&plain(&[1, E12 + 1]), b"1"), err(1));
    assert_eq!(read_text(&plain(&[0]), b"1"), err(1));
    assert_eq!(read_text(&plain(&[5, 0]), b"1"), err(1));
    assert_eq!(read_text(&layout(&[5, 5], &[0, 1_000], 1), b"1"), Ok(5));
    assert_eq!(read_text(&layout(&[5, 5], &[0, 1_001], 1), b"1"), err(1));
    assert_eq!(read_text(&layout(&[5, 5], &[u64::MAX, 0], 1), b"1"), err(1));
    assert_eq!(read_text(&plain(&[1; 10]), b"1.2.3.4.5.6.7.8.9.10"), Ok(55));
}

#[test]
fn limits_of_partitions() {
    let total = |start: &[u64], end: &[u64], e| printed_stamp(&plain(&[1_000]), Partitions { start, end }, e);
    assert_eq!(total(&[0], &[999], 999).unwrap(), "1/999");
    assert_eq!(total(&[0], &[1_000], 0), err_at(2, 0));
    assert_eq!(total(&[0], &[u64::MAX], 0), err_at(2, 0));
    assert_eq!(total(&[5], &[5], 0), err_at(2, 0));
    // An end below its start; the difference would wrap.
    assert_eq!(total(&[6], &[5], 0), err_at(2, 0));
    assert_eq!(total(&[u64::MAX], &[0], 0), err_at(2, 0));
    assert_eq!(total(&[0, 6], &[5, 5], 0), err_at(2, 1));
    // P = 1 has no partition.
    assert_eq!(printed_stamp(&plain(&[1]), Partitions { start: &[0], end: &[0] }, 0), err_at(2, 0));
    let sum = |start: &[u64], end: &[u64], e| printed_stamp(&plain(&[E15]), Partitions { start, end }, e);
    assert_eq!(sum(&[0, 0], &[E15 - 1, 1], E15).unwrap(), "2/000000000000001");
    assert_eq!(sum(&[0, 0], &[E15 - 1, 1], E15 + 1), err(12));
    assert_eq!(sum(&[0, 0], &[E15 - 1, 2], 0), err_at(2, 1));
    // 9,999 lengths, some 10^19 together.
    assert_eq!(sum(&[0; 9_999], &[E15 - 1; 9_999], 0), err_at(2, 1));
}

#[test]
fn limits_of_segments() {
    let wide = plain(&[1_000, E12]);
    let partitions = Partitions { start: &[0], end: &[E15 - 1] };
    let rows =
        |count: &[u64], time: &[i64], rate: &[u64]| time_of(&wide, partitions, Segments { count, time, rate }, E15 - 1);
    // 1,000×MSF is 10^15: the one rate there is.
    assert_eq!(rows(&[0], &[0], &[E15]), Ok(E15 as i64 - 1));
    assert_eq!(rows(&[0], &[0], &[E15 - 1]), err_at(3, 0));
    assert_eq!(rows(&[0], &[0], &[E15 + 1]), err_at(3, 0));
    assert_eq!(rows(&[0], &[-LATEST], &[E15]), Ok(E15 as i64 - 1 - LATEST));
    assert_eq!(rows(&[0], &[-LATEST - 1], &[E15]), err_at(3, 0));
    assert_eq!(rows(&[0], &[i64::MIN], &[E15]), err_at(3, 0));
    assert_eq!(rows(&[E15 - 1], &[LATEST], &[E15]), Ok(LATEST));
    assert_eq!(rows(&[E15 - 1], &[LATEST + 1], &[E15]), err_at(3, 0));
    assert_eq!(rows(&[E15 - 2], &[LATEST], &[E15]), err_at(3, 0));
    assert_eq!(rows(&[0], &[LATEST - (E15 as i64 - 1)], &[E15]), Ok(LATEST));
    assert_eq!(rows(&[0], &[LATEST - (E15 as i64 - 2)], &[E15]), err_at(3, 0));
    assert_eq!(rows(&[E15], &[0], &[E15]), err_at(3, 0));
    assert_eq!(rows(&[0, 0], &[0, 1], &[E15, E15]), err_at(3, 1));
    assert_eq!(rows(&[1, 0], &[0, 1], &[E15, E15]), err_at(3, 1));
    assert_eq!(rows(&[0, 1], &[1, 1], &[E15, E15]), err_at(3, 1));
    assert_eq!(rows(&[0, 1], &[1, 0], &[E15, E15]), err_at(3, 1));
    assert_eq!(rows(&[0, u64::MAX], &[0, 1], &[E15, E15]), err_at(3, 0));
    // The largest quotient before any bound is known: 2^64 × 10^15 / 1,000.
    let narrow = plain(&[E15]);
    let huge = Segments { count: &[0, u64::MAX], time: &[0, 1], rate: &[E15, E15] };
    assert_eq!(time_of(&narrow, partitions, huge, 0), err_at(3, 0));
    let extremes = Segments { count: &[0, 1], time: &[i64::MIN, i64::MAX], rate: &[1_000, 1_000] };
    assert_eq!(time_of(&narrow, partitions, extremes, 0), err_at(3, 0));
}

#[test]
fn rounding_of_a_lines_end() {
    // 3 ticks of 1.5 ns: 4.5, rounded up 5.
    let layout = plain(&[10]);
    let partitions = Partitions { start: &[0], end: &[3] };
    let ends = |time: i64| {
        let segments = Segments { count: &[0], time: &[time], rate: &[1_500] };
        time_of(&layout, partitions, segments, 3)
    };
    assert_eq!([ends(LATEST - 5), ends(LATEST - 4)], [Ok(LATEST), err_at(3, 0)]);
}

#[test]
fn the_widest_times() {
    // T - time of 8×10^18, times 10^15.
    let layout = plain(&[1_000, E12]);
    let partitions = Partitions { start: &[0], end: &[E15 - 1] };
    let segments = Segments { count: &[0], time: &[-LATEST], rate: &[E15] };
    assert_eq!(count_at(&layout, partitions, segments, LATEST), err(14));
    assert_eq!(count_at(&layout, partitions, segments, -LATEST + 999_999_999_999_999), Ok(E15 - 1));
    assert_eq!(count_at(&layout, partitions, segments, i64::MIN), err(14));
    // A tick of 8,000 ns over the whole range.
    let segments = Segments { count: &[0], time: &[-LATEST], rate: &[8_000_000] };
    let layout = plain(&[E15]);
    let partitions = Partitions { start: &[0, 0], end: &[E15 - 1, 1] };
    assert_eq!(time_of(&layout, partitions, segments, E15), Ok(LATEST));
    assert_eq!(count_at(&layout, partitions, segments, LATEST), Ok(E15));
    assert_eq!(count_at(&layout, partitions, segments, LATEST - 1), Ok(E15 - 1));
}

#[test]
fn lent_buffers() {
    let (layout, partitions, _) = table_a();
    for len in 0..9 {
        let mut lent = vec![7u8; len];
        let result = print_stamp(&layout, partitions, 500, &mut lent);
        assert_eq!(result, if len < 6 { err(16) } else { Ok(6) });
        let print = if len < 6 { &b""[..] } else { b"2/20.0" };
        assert_eq!(&lent[..print.len()], print);
        assert!(lent[print.len()..].iter().all(|&byte| byte == 7));
    }
    // 9 and 12 before 16.
    assert_eq!(print_count(&layout, 1_000, &mut []), err(9));
    assert_eq!(print_stamp(&layout, partitions, 1_201, &mut []), err(12));
}

#[test]
fn a_long_print_is_readable() {
    let layout = layout(&[10; 10], &[1_000; 10], 5);
    let start = vec![0; 9_999];
    let end = vec![9_999_999_999; 9_999];
    let partitions = Partitions { start: &start, end: &end };
    let total = 9_999 * 9_999_999_999;
    let stamp = printed_stamp(&layout, partitions, total).unwrap();
    assert_eq!(stamp, format!("9999/{}", ["1009"; 10].join(" ")));
    assert_eq!(read_stamp(&layout, partitions, stamp.as_bytes()), Ok(total));
}
