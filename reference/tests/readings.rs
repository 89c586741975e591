//! The readings 1 to 18 of document 01 (README.md, "Readings").

mod common;
use common::*;
use reference::*;

/// Text and stamp reading refuse the same.
fn refused_by_both(text: &str, refusal: Result<u64, Refusal>) {
    assert_eq!(a_text(text), refusal, "{:?}", text);
    assert_eq!(a_stamp(text), refusal, "{:?}", text);
}

#[test]
fn reading_1_length_and_blanks() {
    let padded = |len: usize| format!("{:>1$}", "12.3", len);
    assert_eq!(a_text(&padded(96)), Ok(123));
    assert_eq!(a_stamp(&padded(96)), Ok(123));
    refused_by_both(&padded(97), err(4));
    refused_by_both(&"x".repeat(97), err(4));
    assert_eq!(a_stamp(&format!("{:>91}/12.3", 1)), Ok(123));
    assert_eq!(a_stamp(&format!("{:>92}/12.3", 1)), err(4));
    for byte in (0..=255u8).filter(|byte| !b"0123456789 .:,-/".contains(byte)) {
        let (layout, partitions, _) = table_a();
        assert_eq!(read_text(&layout, &[b'1', byte, b'2']), err_at(5, 1), "{}", byte);
        assert_eq!(read_stamp(&layout, partitions, &[b'1', byte, b'2']), err_at(5, 1), "{}", byte);
        assert_eq!(read_stamp(&layout, partitions, &[b'1', byte, b'/', b'2']), err_at(5, 1), "{}", byte);
    }
}

#[test]
fn reading_2_a_trailing_mark_opens_a_field() {
    assert_eq!(a_text("12."), Ok(120));
    refused_by_both("12..", err_at(7, 4));
    assert_eq!(read_text(&plain(&[100]), b"5."), err_at(7, 2));
    refused_by_both("..", err_at(7, 2));
    refused_by_both(".", err(6));
}

#[test]
fn reading_3_blanks_around_marks() {
    let three = plain(&[10, 10, 10]);
    assert_eq!(read_text(&three, b" 1 : : 3"), Ok(103));
    assert_eq!(read_text(&three, b"1  2   3 "), Ok(123));
    assert_eq!(read_text(&three, b"1 .2- 3"), Ok(123));
    assert_eq!(read_text(&three, b"1 . 2 3"), Ok(123));
    assert_eq!(read_text(&three, b"1 : : : 3"), err_at(7, 8));
    assert_eq!(read_text(&three, b"1 2 3 4"), err_at(7, 6));
    refused_by_both("  ", err(6));
    refused_by_both(" ", err(6));
}

#[test]
fn reading_4_values_not_lengths() {
    assert_eq!(a_text(&format!("{:0>94}", "12.3")), Ok(123));
    assert_eq!(a_stamp(&format!("{:0>80}/12.3", 1)), Ok(123));
    refused_by_both(&"9".repeat(96), err_at(9, 0));
    // 2^64 + 5, 2^64 × 10 + 5.
    refused_by_both("18446744073709551621", err_at(9, 0));
    refused_by_both("184467440737095516165", err_at(9, 0));
    refused_by_both("1.18446744073709551621", err_at(9, 2));
}

#[test]
fn reading_5_a_first_field_above_its_modulus() {
    assert_eq!(a_text("100.0"), Ok(1_000));
    assert_eq!(a_stamp("100.0"), err(11));
    assert_eq!(a_text("100000000000000.0"), Ok(1_000_000_000_000_000));
    assert_eq!(a_text("100000000000000.1"), err_at(9, 17));
}

#[test]
fn reading_6_the_sums_9_is_last() {
    let offset = layout(&[100, 10], &[0, 1], 1);
    assert_eq!(read_text(&offset, b"999999999999999.0"), err_at(8, 16));
    assert_eq!(read_text(&offset, b"999999999999999.1"), err_at(9, 17));
    assert_eq!(read_text(&offset, b"1000000000001001.0"), err_at(9, 0));
    // Left to right: the first field with a fault decides.
    let both = layout(&[100, 10], &[1, 1], 1);
    assert_eq!(read_text(&both, b"0.1000000000001001"), err_at(8, 0));
    assert_eq!(read_text(&both, b"1000000000001001.0"), err_at(9, 0));
    // The field's limit and the sum's.
    assert_eq!(read_text(&layout(&[100], &[1_000], 1), b"1000000000001000"), Ok(1_000_000_000_000_000));
    assert_eq!(read_text(&layout(&[100], &[999], 1), b"1000000000001000"), err_at(9, 16));
    assert_eq!(read_text(&layout(&[100], &[1_000], 1), b"1000000000001001"), err_at(9, 0));
}

#[test]
fn reading_7_partition_numbers_come_last() {
    assert_eq!(a_stamp("0/"), err(6));
    assert_eq!(a_stamp("0/x"), err_at(5, 2));
    assert_eq!(a_stamp("3/9999999999999999"), err_at(9, 2));
    assert_eq!(a_stamp("0/1.2.3"), err_at(7, 6));
    assert_eq!(a_stamp(&format!("{}/1", "9".repeat(94))), err(10));
    assert_eq!(a_stamp("18446744073709551617/1"), err(10));
    assert_eq!(a_stamp("4294967297/1"), err(10));
    assert_eq!(a_stamp("3/99.9"), err(10));
}

#[test]
fn reading_8_the_front_part() {
    for (stamp, in_stamp, in_text) in [
        ("/5", 0, 0),
        (" /5", 1, 1),
        ("1 2/5", 2, 3),
        ("1.2/5", 1, 3),
        ("1/2/5", 3, 1),
        ("1//5", 2, 1),
        ("//", 0, 0),
        ("/", 0, 0),
        ("-1/5", 0, 2),
        ("+1/5", 0, 0),
    ] {
        assert_eq!(a_stamp(stamp), err_at(5, in_stamp), "{:?}", stamp);
        assert_eq!(a_text(stamp), err_at(5, in_text), "{:?}", stamp);
    }
    assert_eq!(a_stamp("1/"), err(6));
    assert_eq!(a_stamp("1/ "), err(6));
    assert_eq!(a_stamp(" 1 / 5.3"), Ok(53));
    assert_eq!(a_stamp("  02  /  20  1  "), Ok(501));
    assert_eq!(a_text("1/5"), err_at(5, 1));
}

#[test]
fn reading_9_an_end_belongs_to_its_partition() {
    assert_eq!(a_stamp("50.0"), Ok(500));
    assert_eq!(a_stamp("90.0"), Ok(1_200));
    assert_eq!(a_stamp("90.1"), err(11));
    assert_eq!(a_stamp("2/19.9"), err(11));
}

#[test]
fn reading_10_delimiters_and_spare_slots() {
    let (_, partitions, segments) = table_a();
    for delimiter in [0, 6, 7, 128, 255] {
        let bad = layout(&[100, 10], &[0, 0], delimiter);
        assert_eq!(read_text(&bad, b"1"), err(1));
        assert_eq!(read_stamp(&bad, partitions, b"1"), err(1));
        assert_eq!(read_message(&bad, partitions, b"1\x00\x01"), err(1));
        assert_eq!(printed_count(&bad, 1), err(1));
        assert_eq!(printed_stamp(&bad, partitions, 1), err(1));
        assert_eq!(time_of(&bad, partitions, segments, 1), err(1));
        assert_eq!(count_at(&bad, partitions, segments, 1), err(1));
        assert_eq!(steps_back(&bad, partitions, segments), err(1));
    }
    let mut good = table_a().0;
    good.moduli[2..].fill(u64::MAX);
    good.offsets[2..].fill(u64::MAX);
    assert_eq!(read_text(&good, b"12.3"), Ok(123));
    for n in [0, 11, 12, 1 << 32, u64::MAX] {
        assert_eq!(read_text(&Layout { n, ..table_a().0 }, b"1"), err(1));
    }
}

#[test]
fn reading_11_the_tables_each_call_uses() {
    let (layout, partitions, segments) = table_a();
    let none = Partitions { start: &[], end: &[] };
    let empty = Segments { count: &[], time: &[], rate: &[] };
    assert_eq!(read_stamp(&layout, none, b"x"), err_at(2, 0));
    assert_eq!(read_message(&layout, none, b"x\x00\x01"), err_at(2, 0));
    assert_eq!(printed_stamp(&layout, none, 5_000), err_at(2, 0));
    assert_eq!(time_of(&layout, none, empty, 5_000), err_at(2, 0));
    assert_eq!(count_at(&layout, none, empty, i64::MIN), err_at(2, 0));
    assert_eq!(steps_back(&layout, none, segments), err_at(2, 0));
    assert_eq!(time_of(&layout, partitions, empty, 5_000), err_at(3, 0));
    assert_eq!(count_at(&layout, partitions, empty, i64::MIN), err_at(3, 0));
    assert_eq!(steps_back(&layout, partitions, empty), err_at(3, 0));
}

#[test]
fn reading_12_lists_and_lines() {
    let (layout, partitions, _) = table_a();
    for (start, end, shortest) in [(&[0u64, 1][..], &[5u64][..], 1), (&[0], &[5, 6], 1), (&[], &[5], 0), (&[0], &[], 0)]
    {
        assert_eq!(printed_stamp(&layout, Partitions { start, end }, 0), err_at(2, shortest));
    }
    let (start, end) = (vec![0; 10_000], vec![1; 10_000]);
    let most = Partitions { start: &start[1..], end: &end[1..] };
    assert_eq!(printed_stamp(&layout, most, 9_999).unwrap(), "9999/00.1");
    assert_eq!(printed_stamp(&layout, Partitions { start: &start, end: &end }, 0), err_at(2, 10_000));
    let rows = |counts: &[u64], times: &[i64], rates: &[u64]| {
        steps_back(&layout, partitions, Segments { count: counts, time: times, rate: rates })
    };
    assert_eq!(rows(&[0, 1], &[0, 5], &[10_000, 10_000]), Ok(false));
    assert_eq!(rows(&[0], &[0, 5], &[10_000, 10_000]), err_at(3, 1));
    assert_eq!(rows(&[0, 1], &[0], &[10_000, 10_000]), err_at(3, 1));
    assert_eq!(rows(&[0, 1], &[0, 5], &[10_000]), err_at(3, 1));
    // The first line reaches 4×10^18 + 1 at the next row's count, though the next row begins long before.
    let most = 1_000_000_000_000_000;
    let wide = plain(&[most, 1]);
    let long = Partitions { start: &[0], end: &[most - 1] };
    let bounded = |rate| {
        let segments = Segments { count: &[0, 40_000_000], time: &[0, 1], rate: &[rate, 1_000] };
        steps_back(&wide, long, segments)
    };
    assert_eq!(bounded(100_000_000_000_000), Ok(true));
    assert_eq!(bounded(100_000_000_000_001), err_at(3, 0));
}

#[test]
fn reading_12_ten_thousand_segments() {
    let layout = plain(&[100_000]);
    let partitions = Partitions { start: &[0], end: &[99_999] };
    let count: Vec<u64> = (0..10_001).collect();
    let time: Vec<i64> = (0..10_001).collect();
    let rate = vec![1_000; 10_001];
    let first = |rows: usize| Segments { count: &count[..rows], time: &time[..rows], rate: &rate[..rows] };
    assert_eq!(time_of(&layout, partitions, first(10_000), 20_000), Ok(20_000));
    assert_eq!(time_of(&layout, partitions, first(10_001), 20_000), err_at(3, 10_001));
}

#[test]
fn reading_13_a_segment_at_the_total() {
    let (layout, partitions, _) = table_a();
    let at_total = Segments { count: &[1_200], time: &[7], rate: &[10_000] };
    assert_eq!(time_of(&layout, partitions, at_total, 1_200), Ok(7));
    assert_eq!(time_of(&layout, partitions, at_total, 1_199), err(13));
    assert_eq!(time_of(&layout, partitions, at_total, 1_201), err(12));
    assert_eq!(count_at(&layout, partitions, at_total, 7), Ok(1_200));
    assert_eq!(count_at(&layout, partitions, at_total, 8), err(14));
    let above = Segments { count: &[1_201], time: &[7], rate: &[10_000] };
    assert_eq!(time_of(&layout, partitions, above, 1_200), err_at(3, 0));
}

#[test]
fn reading_14_equal_is_no_step_back() {
    let (layout, partitions, _) = table_a();
    let at = |next: i64| {
        let segments = Segments { count: &[0, 601], time: &[0, next], rate: &[25_000, 10_000] };
        steps_back(&layout, partitions, segments)
    };
    // 601 ticks of 2.5 ns are 1,502.5 ns, rounded up 1,503.
    assert_eq!([at(1_502), at(1_503), at(1_504)], [Ok(true), Ok(false), Ok(false)]);
}

#[test]
fn reading_15_times_and_rounding() {
    assert_eq!([a_count(-LATEST), a_count(-LATEST - 1)], [err(13), err(14)]);
    assert_eq!([a_count(LATEST), a_count(LATEST + 1)], [err(14), err(14)]);
    assert_eq!([a_count(i64::MIN), a_count(i64::MAX)], [err(14), err(14)]);
    // Exact rationals, also below zero: 2.5 ns ticks from -1,000.
    assert_eq!([a_time(0), a_time(2), a_time(3)], [Ok(-1_000), Ok(-995), Ok(-992)]);
    assert_eq!([a_count(-996), a_count(-995), a_count(-993)], [Ok(1), Ok(2), Ok(2)]);
}

#[test]
fn reading_16_double_form() {
    let segment = |count, time, rate| DoubleSegment { count, time, rate };
    let most = 1_000_000_000_000_000;
    assert_eq!(forward(segment(0.0, 0.0, 1.0), 1, most), Ok(1e15));
    assert_eq!(forward(segment(0.0, 0.0, 1.0), 1, most + 1), err(15));
    assert_eq!(back(segment(0.0, 0.0, 1.0), 1, 1e300), Ok(1e300));
    assert_eq!(back(segment(1e300, 0.0, 1.0), 1, 5.0), Ok(1e300));
    assert_eq!(forward(segment(-1e300, 0.0, 1.0), 1, 0), Ok(1e300));
    assert_eq!(forward(segment(1e300, 0.0, 1.0), 1, 0), err(15));
    assert_eq!(forward(segment(0.5, 0.0, 1.0), 1, 0), err(15));
    assert_eq!(forward(segment(0.5, 0.0, 1.0), 1, 1), Ok(0.5));
}

#[test]
fn reading_16_every_clause_of_15() {
    let segment = |count, time, rate| DoubleSegment { count, time, rate };
    let good = segment(0.0, 0.0, 1.0);
    assert_eq!(forward(good, 1_000_000_000_000, 0), Ok(0.0));
    assert_eq!(back(good, 1_000_000_000_000, 0.0), Ok(0.0));
    for msf in [0, 1_000_000_000_001, u64::MAX] {
        assert_eq!(forward(good, msf, 0), err(15));
        assert_eq!(back(good, msf, 0.0), err(15));
    }
    for bad in [f64::NAN, f64::INFINITY, f64::NEG_INFINITY] {
        for segment in [segment(bad, 0.0, 1.0), segment(0.0, bad, 1.0), segment(0.0, 0.0, bad)] {
            assert_eq!(forward(segment, 1, 0), err(15));
            assert_eq!(back(segment, 1, 0.0), err(15));
        }
        assert_eq!(back(good, 1, bad), err(15));
    }
    let least = f64::from_bits(1);
    for rate in [0.0, -0.0, -1.0, -least] {
        assert_eq!(forward(segment(0.0, 0.0, rate), 1, 0), err(15));
        assert_eq!(back(segment(0.0, 0.0, rate), 1, 0.0), err(15));
    }
    // rate/MSF zero.
    assert_eq!(forward(segment(0.0, 0.0, least), 1, 3), Ok(3.0 * least));
    assert_eq!(forward(segment(0.0, 0.0, least), 2, 3), err(15));
    assert_eq!(back(segment(0.0, 0.0, least), 2, 0.0), err(15));
    // Before the segment.
    assert_eq!(back(segment(0.0, 5.0, 1.0), 1, 5.0), Ok(0.0));
    assert_eq!(back(segment(0.0, 5.0, 1.0), 1, 4.999), err(15));
    assert_eq!(forward(segment(5.0, 0.0, 1.0), 1, 4), err(15));
    // Result not finite, in each operation.
    assert_eq!(forward(segment(0.0, 0.0, f64::MAX), 1, 2), err(15));
    assert_eq!(forward(segment(0.0, f64::MAX, f64::MAX), 1, 1), err(15));
    assert_eq!(back(segment(0.0, -f64::MAX, 1.0), 1, f64::MAX), err(15));
    assert_eq!(back(segment(0.0, 0.0, 0.5), 1, f64::MAX), err(15));
    assert_eq!(back(segment(f64::MAX, 0.0, 1.0), 1, f64::MAX), err(15));
}

#[test]
fn the_order_of_the_double_operations() {
    let segment = DoubleSegment { count: 0.0, time: 0.0, rate: 0.1 };
    assert_eq!(forward(segment, 3, 3), Ok(0.1f64 / 3.0 * 3.0));
    let (count, rate, given) = (1.0f64, 1.1f64, 8.0f64);
    let exact = forward(DoubleSegment { count, time: 0.3, rate }, 10, 8).unwrap();
    assert_eq!(exact.to_bits(), (0.3 + (rate / 10.0) * (given - count)).to_bits());
    // A zero with a sign goes through as the operations give it.
    let zero = DoubleSegment { count: -0.0, time: 0.0, rate: 1.0 };
    assert_eq!(back(zero, 1, -0.0).unwrap().to_bits(), (-0.0f64).to_bits());
}

#[test]
fn reading_17_messages() {
    for l in [1, 2, 96, 255, 65_535u16] {
        assert_eq!(a_message(&l.to_be_bytes()), err(23), "{}", l);
    }
    assert_eq!(a_message(b"\x00\x00"), err(22));
    assert_eq!(a_message(b""), err(21));
    assert_eq!(a_message(b"5"), err(21));
    assert_eq!(a_message(b"\x00"), err(21));
    assert_eq!(a_message(b"5\x00\x01"), Ok(50));
    assert_eq!(a_message(b"5\x00\x00"), err(22));
    assert_eq!(a_message(b"5\x00\x02"), err(23));
    assert_eq!(a_message(b"5\x01\x01"), err(23));
    let mut long = vec![b' '; 200];
    long.extend_from_slice(b"5\x00\x60");
    assert_eq!(a_message(&long), Ok(50));
    *long.last_mut().unwrap() = 97;
    assert_eq!(a_message(&long), err(23));
    // Before 1 and 2.
    let bad = plain(&[0]);
    let none = Partitions { start: &[], end: &[] };
    assert_eq!(read_message(&bad, none, b"5"), err(21));
    assert_eq!(read_message(&bad, none, b"5\x00\x00"), err(22));
    assert_eq!(read_message(&bad, none, b"5\x00\x02"), err(23));
    assert_eq!(read_message(&bad, none, b"x\x00\x01"), err(1));
    assert_eq!(read_message(&plain(&[9]), none, b"x\x00\x01"), err_at(2, 0));
}

#[test]
fn reading_18_the_stamp_program() {
    assert_eq!(stamp_program(b""), b"");
    assert_eq!(stamp_program(b"\n"), b"refused 6\n");
    assert_eq!(stamp_program(b"\n\n1/0.1"), b"refused 6\nrefused 6\n1 -997\n");
    assert_eq!(stamp_program(b"1/0.1\r\n"), b"refused 5 5\n");
    let mut lines = vec![b'1'; 97];
    lines.extend_from_slice(b"\n1/0.1\n");
    lines.extend_from_slice(&[b' '; 96]);
    assert_eq!(stamp_program(&lines), b"refused 4\n1 -997\nrefused 6\n");
    assert_eq!(stamp_program(&[b'x'; 5_000]), b"refused 4\n");
}
