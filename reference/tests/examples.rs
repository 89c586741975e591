//! "Examples by hand" and the errors that look reasonable.

mod common;
use common::*;
use reference::*;

#[test]
fn text_under_table_a() {
    assert_eq!(a_text("12.3"), Ok(123));
    assert_eq!(a_text("12"), Ok(120));
    assert_eq!(a_text("5.13"), Ok(63));
    assert_eq!(a_text(".5"), err(6));
    assert_eq!(a_text("12.."), err_at(7, 4));
    assert_eq!(a_text(""), err(6));
}

#[test]
fn stamps_under_table_a() {
    assert_eq!(a_stamp("1/50.0"), Ok(500));
    assert_eq!(a_stamp("1/50.1"), err(11));
    assert_eq!(a_stamp("50.1"), Ok(801));
    assert_eq!(a_stamp("30.0"), Ok(300));
    assert_eq!(a_stamp("0/1"), err(10));
    assert_eq!(a_stamp("3/1"), err(10));
    assert_eq!(a_stamp(".5"), err(6));
    assert_eq!(a_stamp("12.."), err_at(7, 4));
    assert_eq!(a_stamp(""), err(6));
}

#[test]
fn prints_under_table_a() {
    assert_eq!(a_print(499).unwrap(), "1/49.9");
    assert_eq!(a_print(500).unwrap(), "2/20.0");
    assert_eq!(a_print(1_200).unwrap(), "2/90.0");
    assert_eq!(a_print(1_201), err(12));
}

#[test]
fn times_under_table_a() {
    assert_eq!([a_time(1), a_time(599), a_time(600)], [Ok(-997), Ok(498), Ok(1_000)]);
    assert_eq!([a_count(-998), a_count(-997), a_count(700)], [Ok(0), Ok(1), Ok(599)]);
    assert_eq!([a_count(1_000), a_count(2_802), a_count(2_803)], [Ok(600), Ok(1_200), err(14)]);
    assert_eq!(a_count(-1_001), err(13));
    let (layout, partitions, segments) = table_a();
    assert_eq!(steps_back(&layout, partitions, segments), Ok(false));
}

#[test]
fn other_layouts() {
    let observer = layout(&[65_536, 60, 800], &[0, 0, 1], 2);
    assert_eq!(read_text(&observer, b"20538:39:768"), Ok(985_855_967));
    assert_eq!(read_text(&observer, b"20538:39:0"), err_at(8, 9));
    let galileo = plain(&[16_777_215, 91, 10, 8]);
    assert_eq!(read_text(&galileo, b"0:0:0:9"), Ok(9));
    assert_eq!(read_text(&galileo, b"0:0:1:1"), Ok(9));
}

#[test]
fn double_form() {
    let segment = DoubleSegment { count: 0.0, time: 100.0, rate: 1.0 };
    assert_eq!(forward(segment, 256, 512), Ok(102.0));
    assert_eq!(back(segment, 256, 102.0), Ok(512.0));
}

#[test]
fn messages() {
    assert_eq!(a_message(b"\x07\xd01/5.3\x00\x05"), Ok(53));
    assert_eq!(a_message(b"\x07\xd01/5.3\x00\x08"), err(23));
    // With L 7 the payload is read too, with L 3 the partition is not.
    assert_eq!(a_message(b"\x07\xd01/5.3\x00\x07"), err_at(5, 0));
    assert_eq!(a_message(b"\x07\xd01/5.3\x00\x03"), Ok(53));
}

#[test]
fn the_exception_of_printing() {
    let (layout, _, _) = table_a();
    let cut = Partitions { start: &[0], end: &[500] };
    assert_eq!(printed_stamp(&layout, cut, 500).unwrap(), "1/50.0");
    assert_eq!(a_print(500).unwrap(), "2/20.0");
}

#[test]
fn the_stamp_program() {
    let whole = b"1 -997\n801 1603\nrefused 11\n".to_vec();
    assert_eq!(stamp_program(b"1/0.1\n50.1\n1/50.1\n"), whole);
    assert_eq!(stamp_program(b"1/0.1\n50.1\n1/50.1"), whole);
}

#[test]
fn errors_that_look_reasonable() {
    // Rounding down both ways.
    assert_eq!(a_time(1), Ok(-997));
    assert_eq!(a_count(a_time(1).unwrap()), Ok(1));
    // The end of a partition is in it.
    assert_eq!(a_stamp("1/50.0"), Ok(500));
    // A missing field is not 0.
    let observer = layout(&[65_536, 60, 800], &[0, 0, 1], 2);
    assert_eq!(read_text(&observer, b"20538:39"), Ok(985_855_200));
    assert_eq!(read_text(&observer, b"20538:39:"), Ok(985_855_200));
    // A gap.
    assert_eq!(a_count(700), Ok(599));
}

#[test]
fn printing_a_count() {
    let (a, _, _) = table_a();
    assert_eq!(printed_count(&a, 7).unwrap(), "00.7");
    assert_eq!(printed_count(&a, 999).unwrap(), "99.9");
    assert_eq!(printed_count(&a, 1_000), err(9));
    for (delimiter, print) in [(1, "03.4"), (2, "03:4"), (3, "03-4"), (4, "03,4"), (5, "03 4")] {
        assert_eq!(printed_count(&layout(&[100, 10], &[0, 0], delimiter), 34).unwrap(), print);
    }
    // Offset 0, width of modulus - 1: a modulus of 1 has one digit, 10 one, 11 two.
    assert_eq!(printed_count(&plain(&[10, 11, 1]), 0).unwrap(), "0.00.0");
    // An offset may need more digits than that.
    assert_eq!(printed_count(&layout(&[10, 10], &[1, 1_000], 1), 99).unwrap(), "10.1009");
    // Request 2: 1 to 100 are shown with three.
    assert_eq!(printed_count(&layout(&[100, 1], &[1, 7], 1), 3).unwrap(), "004.7");
}
