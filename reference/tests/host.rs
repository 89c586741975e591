//! The calls of request 5, over numbers and byte slices, with the readings of README.md "The host's calls".

mod common;

use reference::host::*;

/// Table A's lists as bytes.
fn a() -> [Vec<u8>; LISTS] {
    [
        list(&[100, 10]),
        list(&[0, 0]),
        list(&[0, 200]),
        list(&[500, 900]),
        list(&[0, 600]),
        times(&[-1_000, 1_000]),
        list(&[25_000, 30_000]),
    ]
}

fn list(numbers: &[u64]) -> Vec<u8> {
    numbers.iter().flat_map(|number| number.to_le_bytes()).collect()
}

fn times(numbers: &[i64]) -> Vec<u8> {
    numbers.iter().flat_map(|number| number.to_le_bytes()).collect()
}

fn text(name: Name, text: &[u8]) -> Call {
    Call { name, n: 2, delimiter: 1, lists: a(), given: Given::Text(text.to_vec()) }
}

fn count(name: Name, count: u64, buffer: &[u8]) -> Call {
    Call { name, n: 2, delimiter: 1, lists: a(), given: Given::Count(count, buffer.to_vec()) }
}

fn time(t: i64) -> Call {
    Call { name: Name::CountAt, n: 2, delimiter: 1, lists: a(), given: Given::Time(t) }
}

/// The number that comes back, and the buffer afterwards.
fn made(call: &Call) -> (i64, Vec<u8>) {
    let mut call = call.clone();
    let number = call.make();
    match call.given {
        Given::Count(_, buffer) => (number, buffer),
        _ => (number, vec![]),
    }
}

fn number(call: &Call) -> i64 {
    made(call).0
}

/// One of each, all answered.
fn each() -> [Call; 7] {
    [
        text(Name::ReadText, b"12.3"),
        text(Name::ReadStamp, b"1/5.3"),
        text(Name::ReadMessage, b"\x07\xd01/5.3\x00\x05"),
        count(Name::PrintCount, 123, &[0x77; 6]),
        count(Name::PrintStamp, 500, &[0x77; 7]),
        count(Name::TimeOf, 1, &[0x77; 9]),
        time(-997),
    ]
}

const ANSWERS: [i64; 7] = [123, 53, 53, 4, 6, 0, 1];

#[test]
fn each_call() {
    assert_eq!(each().map(|call| number(&call)), ANSWERS);
    assert_eq!(made(&each()[3]).1, b"12.3\x77\x77");
    assert_eq!(made(&each()[4]).1, b"2/20.0\x77");
    // The functions themselves.
    let lists = a();
    let [moduli, offsets, starts, ends, counts, times, rates] = &lists;
    let layout = LayoutSlices { n: 2, delimiter: 1, moduli, offsets };
    let partitions = PartitionSlices { starts, ends };
    let segments = SegmentSlices { counts, times, rates };
    assert_eq!(read_text(layout, b"5.13"), 63);
    assert_eq!(read_stamp(layout, partitions, b"50.1"), 801);
    assert_eq!(read_message(layout, partitions, b"50.1\x00\x04"), 801);
    assert_eq!(print_count(layout, 123, &mut [0; 4]), 4);
    assert_eq!(print_stamp(layout, partitions, 1_200, &mut [0; 6]), 6);
    let mut buffer = [0; 8];
    assert_eq!(time_of(layout, partitions, segments, 599, &mut buffer), 0);
    assert_eq!(i64::from_le_bytes(buffer), 498);
    assert_eq!(count_at(layout, partitions, segments, 700), 599);
}

#[test]
fn each_refusal_is_its_negative_without_a_place() {
    for (bytes, answer) in [
        (&b"1.2.3"[..], -7),
        (b"1x", -5),
        (b"", -6),
        (b".5", -6),
        (b"1000000000001001", -9),
        (b"999999999999999.0", -9),
        (&[b' '; 97], -4),
    ] {
        assert_eq!(number(&text(Name::ReadText, bytes)), answer);
        assert_eq!(number(&text(Name::ReadStamp, bytes)), answer);
    }
    for (bytes, answer) in
        [(&b"1/50.1"[..], -11), (b"0/1", -10), (b"3/1", -10), (b"1/2/3", -5), (b"95.0", -11), (b"50.0", 500)]
    {
        assert_eq!(number(&text(Name::ReadStamp, bytes)), answer);
    }
    let mut below = text(Name::ReadText, b"1.0");
    below.lists[1] = list(&[0, 1]);
    assert_eq!(number(&below), -8);
    for (message, answer) in
        [(&b"5"[..], -21), (b"5\x00\x00", -22), (b"5\x00\x02", -23), (b"5\x00\x61", -23), (b"x\x00\x01", -5)]
    {
        assert_eq!(number(&text(Name::ReadMessage, message)), answer);
    }
    assert_eq!(number(&count(Name::PrintCount, 1_000, &[0; 9])), -9);
    assert_eq!(number(&count(Name::PrintStamp, 1_201, &[0; 9])), -12);
    assert_eq!(number(&count(Name::TimeOf, 1_201, &[0; 9])), -12);
    for (t, answer) in [(2_802, 1_200), (2_803, -14), (-1_001, -13), (i64::MIN, -14), (i64::MAX, -14)] {
        assert_eq!(number(&time(t)), answer);
    }
    let mut late = count(Name::TimeOf, 4, &[0; 9]);
    late.lists[4] = list(&[5, 600]);
    assert_eq!(number(&late), -13);
    // Rows of tables have places, which do not come back.
    let mut rows = time(0);
    rows.lists[6] = list(&[25_000, 9_999]);
    assert_eq!(number(&rows), -3);
    rows.lists[3] = list(&[500, 1_000]);
    assert_eq!(number(&rows), -2);
}

/// Every length of every list of every call, alone: not in eights is the table's number. Table A has two rows of each, n 2.
#[test]
fn reading_1_as_the_table_it_belongs_to() {
    let tables: [i64; 7] = [1, 1, 2, 2, 3, 3, 3];
    for (call, answer) in each().iter().zip(ANSWERS) {
        for (i, table) in tables.iter().enumerate().take(call.name.lists()) {
            for len in 0..26 {
                let mut other = call.clone();
                other.lists[i].resize(len, 1);
                let good = len == 16 || i < 2 && len == 24;
                assert_eq!(number(&other), if good { answer } else { -table }, "{:?} {} {}", call.name, i, len);
                assert!(good || made(&other).1.iter().all(|&byte| byte == 0x77), "written");
            }
        }
    }
    // "a start slice of 15 bytes with a bad layout is -1, with a good one and any text -2".
    let mut stamp = text(Name::ReadStamp, b"x");
    stamp.lists[2].pop();
    assert_eq!(number(&stamp), -2);
    stamp.given = Given::Text(b"1/5".to_vec());
    assert_eq!(number(&stamp), -2);
    stamp.lists[0] = list(&[100, 0]);
    assert_eq!(number(&stamp), -1);
    // Segments wait for the partitions' rules.
    let mut at = time(0);
    at.lists[5].pop();
    assert_eq!(number(&at), -3);
    at.lists[2] = list(&[0, 900]);
    assert_eq!(number(&at), -2);
    at.delimiter = 6;
    assert_eq!(number(&at), -1);
}

#[test]
fn reading_1_messages_before_any_slice() {
    for (message, answer) in [(&b"5"[..], -21), (b"", -21), (b"\x00\x00", -22), (b"5\x00\x02", -23), (b"5\x00\x01", -1)]
    {
        let mut call = text(Name::ReadMessage, message);
        call.lists = Default::default();
        call.lists[0] = vec![0; 3];
        call.lists[2] = vec![0; 5];
        assert_eq!(number(&call), answer);
        call.lists[0] = list(&[100, 10]);
        call.lists[1] = list(&[0, 0]);
        assert_eq!(number(&call), if answer == -1 { -2 } else { answer });
    }
}

#[test]
fn reading_2_lists_and_n() {
    // Behind the n-th number too.
    let mut call = text(Name::ReadText, b"12.3");
    call.lists[0].push(0);
    assert_eq!(number(&call), -1);
    // Longer than n, and than ten; what stands there is not looked at.
    for longer in [3, 9, 10, 11, 12, 100] {
        let mut call = text(Name::ReadText, b"12.3");
        call.lists[0].resize(8 * longer, 0xff);
        assert_eq!(number(&call), 123);
        call.lists[1].resize(8 * longer + 8, 0xff);
        assert_eq!(number(&call), 123);
    }
    // n is compared with the number of entries.
    for n in [0, 3, 10, 11, 1 << 61, (1 << 61) + 2, (1 << 32) + 2, 256 + 2, 1 << 63, u64::MAX] {
        for mut call in each() {
            call.n = n;
            assert_eq!(number(&call), -1, "{}", n);
        }
    }
    let mut ten = text(Name::ReadText, b"1.0.0.0.0.0.0.0.0.1");
    ten.lists[0] = list(&[2; 11]);
    ten.lists[1] = list(&[0; 11]);
    ten.n = 10;
    assert_eq!(number(&ten), 513);
    ten.n = 11;
    assert_eq!(number(&ten), -1);
    // n 1 of two.
    let one = Call { n: 1, ..text(Name::ReadText, b"12") };
    assert_eq!(number(&one), 12);
}

#[test]
fn reading_3_times() {
    // "A, time of 1 into 9 bytes of 77: 0, 1B FC FF FF FF FF FF FF 77; into 7: -16."
    let long = [0x1b, 0xfc, 0xff, 0xff, 0xff, 0xff, 0xff, 0xff, 0x77];
    assert_eq!(made(&count(Name::TimeOf, 1, &[0x77; 9])), (0, long.to_vec()));
    assert_eq!(made(&count(Name::TimeOf, 1, &[0x77; 8])), (0, long[..8].to_vec()));
    for len in 0..8 {
        assert_eq!(made(&count(Name::TimeOf, 1, &[0x77; 8][..len])), (-16, vec![0x77; len]));
        // 16 is last of all.
        assert_eq!(made(&count(Name::TimeOf, 1_201, &[0x77; 8][..len])), (-12, vec![0x77; len]));
    }
    // Times of either sign, and at both ends.
    for first in [-common::LATEST, -1, 0, 1, common::LATEST] {
        let mut call = count(Name::TimeOf, 1_200, &[0; 8]);
        call.lists[4] = list(&[1_200]);
        call.lists[5] = times(&[first]);
        call.lists[6] = list(&[10_000]);
        assert_eq!(made(&call), (0, first.to_le_bytes().to_vec()));
        call.given = Given::Count(1_199, vec![9; 3]);
        assert_eq!(made(&call), (-13, vec![9; 3]));
        let back = Call { name: Name::CountAt, given: Given::Time(first), ..call };
        assert_eq!(number(&back), 1_200);
    }
    for first in [i64::MIN, -common::LATEST - 1, common::LATEST + 1, i64::MAX] {
        let mut call = time(first);
        assert_eq!(number(&call), -14);
        call.lists[5] = times(&[first, 0]);
        assert_eq!(number(&call), -3);
    }
}

#[test]
fn reading_4_numbers_have_64_bits() {
    for delimiter in (6..300).chain([0, (1 << 16) + 1, (1 << 32) + 1, (1 << 63) + 1, u64::MAX]) {
        for mut call in each() {
            call.delimiter = delimiter;
            assert_eq!(number(&call), -1, "{}", delimiter);
        }
    }
    for (delimiter, print) in (1..).zip([b"12.3", b"12:3", b"12-3", b"12,3", b"12 3"]) {
        let call = Call { delimiter, ..count(Name::PrintCount, 123, &[0; 4]) };
        assert_eq!(made(&call), (4, print.to_vec()));
    }
}

#[test]
fn the_line_protocol() {
    let lines = "time-of 2 1 64000000000000000a00000000000000 00000000000000000000000000000000 \
                 0000000000000000c800000000000000 f4010000000000008403000000000000 \
                 00000000000000005802000000000000 18fcffffffffffffe803000000000000 \
                 a8610000000000003075000000000000 1 7777777777777777\n\
                 # -1: passed over\n\n\
                 read-text 1 1 6400000000000000 0000000000000000 3132\n\
                 read-text 001 01 6400000000000000 . 3132\n\
                 print-count 1 1 6400000000000000 0000000000000000 7 .\n\
                 print-count 1 1 6400000000000000 0000000000000000 7 77777777\n\
                 count-at 1 1 . . . . . . . -9223372036854775808";
    assert_eq!(
        String::from_utf8(answers(lines.as_bytes())).unwrap(),
        "0 1bfcffffffffffff\n12\n-1\n-16 .\n2 30377777\n-1\n"
    );
    for call in each() {
        let mut line = vec![];
        put_call(&mut line, &call);
        line.pop();
        let mut read = parse(&line).unwrap();
        assert_eq!(read.lists[..call.name.lists()], call.lists[..call.name.lists()]);
        assert_eq!(read.make(), number(&call));
    }
}

#[test]
fn bad_lines() {
    for bad in [
        "x",
        " ",
        "read-text",
        "sclk_read_text 1 1 . . .",
        "read_text 1 1 . . .",
        "read-text 1 1 . .",
        "read-text 1 1 . . . .",
        "read-text 1 1 . .  .",
        " read-text 1 1 . . .",
        "read-text 1 1 . . . ",
        "read-text 1 1 . . .\r",
        "read-text -1 1 . . .",
        "read-text 18446744073709551616 1 . . .",
        "read-text 1 18446744073709551617 . . .",
        "read-text 1 1 0 . .",
        "read-text 1 1 0g . .",
        "read-text 1 1 AA . .",
        "read-text 1 1 .. . .",
        "print-count 1 1 . . -1 .",
        "print-count 1 1 . . 5",
        "time-of 1 1 . . . . . . . 5",
        "count-at 1 1 . . . . . . . 9223372036854775808",
        "count-at 1 1 . . . . . . . 5 .",
        "steps-back 1 1 . . . . . . .",
    ] {
        assert_eq!(answers(bad.as_bytes()), b"bad line\n", "{}", bad);
    }
    assert_eq!(answers(b"read-text 1 1 . . .\nx\nread-text 1 1 . . .\n"), b"-1\nbad line\n-1\n");
    assert_eq!(answers(b""), b"");
}
