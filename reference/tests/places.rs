//! Request 3, "Say where" (README.md, "Places").

mod common;
use common::*;
use reference::script::Tables;
use reference::tally::{first_fault, tally};
use reference::*;

const E15: u64 = 1_000_000_000_000_000;

enum Ask<'a> {
    Text(&'a str),
    Stamp(&'a str),
    Message(&'a [u8]),
    Starts(usize),
    Counts(&'a [u64]),
}
use Ask::*;

/// Table A's answer, or of table A with so many equal partitions, or with these counts in its segments.
fn ask(question: &Ask) -> Result<u64, Refusal> {
    let (layout, partitions, _) = table_a();
    match *question {
        Text(text) => a_text(text),
        Stamp(stamp) => a_stamp(stamp),
        Message(message) => a_message(message),
        Starts(rows) => {
            let (start, end) = (vec![0; rows], vec![1; rows]);
            read_stamp(&layout, Partitions { start: &start, end: &end }, b"1")
        }
        Counts(count) => {
            let time: Vec<i64> = (0..count.len() as i64).map(|row| row * 10_000).collect();
            let rate = vec![25_000; count.len()];
            time_of(&layout, partitions, Segments { count, time: &time, rate: &rate }, 0).map(|time| time as u64)
        }
    }
}

/// The readings' examples, by their numbers.
#[test]
fn examples() {
    let mut l_97 = vec![b' '; 99];
    l_97[97..].copy_from_slice(&[0, 97]);
    for (reading, question, refusal) in [
        (1, Stamp("1.2/3"), err_at(5, 1)),
        (1, Stamp("x1/2/"), err_at(5, 0)),
        (1, Stamp("1x2/3"), err_at(5, 1)),
        (2, Stamp("1 2x/5"), err_at(5, 2)),
        (2, Stamp(" /x"), err_at(5, 1)),
        (2, Stamp(" x /5"), err_at(5, 1)),
        (2, Stamp("1/2/3"), err_at(5, 3)),
        (2, Text("1 2/3"), err_at(5, 3)),
        (3, Text("1.2.3"), err_at(7, 4)),
        (3, Text("1.2..5"), err_at(7, 6)),
        (4, Text("1.2. "), err_at(7, 5)),
        (4, Stamp(" 1 / 100000000000001 "), err_at(9, 21)),
        (4, Message(b"\x07\xd01x\x00\x02"), err_at(5, 1)),
        (5, Text("1. 0009999999999999999"), err_at(9, 3)),
        (7, Counts(&[0, u64::MAX]), err_at(3, 0)),
        (7, Counts(&[0, 1_300, 1_400]), err_at(3, 2)),
        (8, Starts(10_000), err_at(2, 10_000)),
        (8, Counts(&[]), err_at(3, 0)),
        (9, Message(b"\x00\x00"), err(22)),
        (9, Message(&l_97), err(23)),
        (9, Message(b"5\x00\x02"), err(23)),
        (9, Message(b"5\x00\x61"), err(23)),
    ] {
        assert_eq!(ask(&question), refusal, "reading {}", reading);
    }
    assert_eq!(stamp_program(b"1.2/3\n1/50.1\n"), b"refused 5 1\nrefused 11\n");
}

/// Kernel text's reading 18.
#[test]
fn coefficients() {
    let front = "KPL/SCLK\n\\begindata\nSCLK_KERNEL_ID=@\nSCLK_DATA_TYPE_7=1\nSCLK01_N_FIELDS_7=2\nSCLK01_MODULI_7=(100 10)\n\
                 SCLK01_OFFSETS_7=(0 0)\nSCLK01_OUTPUT_DELIM_7=1\nSCLK_PARTITION_START_7=(0 200)\nSCLK_PARTITION_END_7=(500 900)\n";
    let values = ["0", "-1E-6", "25E-9", "600", "1E-6", "30E-9", "700", "2E-6", "40E-9"];
    let read = |text: String| {
        read_kernel(
            text.as_bytes(),
            7,
            &mut [0; 2],
            &mut [0; 2],
            &mut [0; 2],
            &mut [0; 2],
            &mut [0; 2],
            &mut [0; 2],
            &mut [0; 2],
        )
        .map(|kernel| kernel.segments)
    };
    let of = |len: usize| read(format!("{}SCLK01_COEFFICIENTS_7=({})\n", front, values[..len].join(" ")));
    assert_eq!([of(1), of(2), of(4), of(5)], [err_at(3, 0), err_at(3, 0), err_at(3, 1), err_at(3, 1)]);
    assert_eq!([of(7), of(8)], [err_at(3, 2), err_at(3, 2)]);
    assert_eq!([of(3), of(6), of(9)], [Ok(1), Ok(2), err(16)]);
    // 1, 16, 18, 19 and 20 have no place.
    let good = format!("{}SCLK01_COEFFICIENTS_7=(0 -1E-6 25E-9 600 1E-6 30E-9)\n", front);
    assert_eq!(read(good.replace("DELIM_7=1", "DELIM_7=6")), err(1));
    assert_eq!(read(good.replace("500 900", "500 1000")), err_at(2, 1));
    assert_eq!(read(good.replace("(0 200)", "0")), err_at(2, 1));
    assert_eq!(read(good.replace("600", "1201")), err_at(3, 1));
    assert_eq!(read(good.replace("KPL", "kpl")), err(18));
    assert_eq!(read(good.replace("TYPE_7=1", "TYPE_7=2")), err(19));
    assert_eq!(read(good.replace("0 200", "0.5 200")), err(20));
}

/// In a stamp with `/` the bytes before the first one are its front part.
#[test]
fn bytes_that_cannot_stand() {
    for (stamp, place) in [
        ("1.2x/5", 1),
        ("1.2x5", 3),
        (".x/5", 0),
        ("1 .2/5", 2),
        ("12 34 5/", 3),
        ("1 2.3/5", 2),
        ("  1  2  /", 5),
        ("/", 0),
        ("/x", 0),
        ("   /", 3),
        ("   //", 3),
        ("1//", 2),
        ("1/ /", 3),
        ("1/x/", 2),
        ("1/2/x", 3),
        ("1/1.2.3x", 7),
        (" 1 / 5.3\t", 8),
        ("\t1/5", 0),
        ("1\t/5", 1),
        ("1\r", 1),
        ("1.2.3.x", 6),
        (".x", 1),
        ("9999999999999999x", 16),
    ] {
        assert_eq!(a_stamp(stamp), err_at(5, place), "{:?}", stamp);
        let message = [&b"/x "[..], stamp.as_bytes(), &[0, stamp.len() as u8]].concat();
        assert_eq!(a_message(&message), err_at(5, place), "{:?}", stamp);
    }
    for (text, place) in [("/", 0), ("1/2", 1), (" / ", 1), ("1.2x/5", 3), ("1.2/x", 3), ("x/", 0), ("1 2 3/4", 5)] {
        assert_eq!(a_text(text), err_at(5, place), "{:?}", text);
    }
    // The last of 96 bytes; with one byte more it is 4.
    let long = ["1".repeat(95), "x".to_string()].concat();
    assert_eq!(a_stamp(&long), err_at(5, 95));
    assert_eq!(a_stamp(&["1", &long].concat()), err(4));
    assert_eq!(a_stamp(&[" ".repeat(95), "/".to_string()].concat()), err_at(5, 95));
}

#[test]
fn surplus_fields() {
    for (text, place) in [
        ("1.2.3.4", 4),
        ("1.2...", 6),
        ("1.2...4", 7),
        ("1 2 3", 4),
        ("1 2   3  4", 6),
        (" 1.2.  003 ", 7),
        ("1.2.3   ", 4),
        ("1.2 .   ", 8),
        ("..", 2),
        (".. 3", 3),
        ("...3", 4),
        ("1.2. . ", 7),
    ] {
        assert_eq!(a_text(text), err_at(7, place), "{:?}", text);
        assert_eq!(a_stamp(&["02 /", text].concat()), err_at(7, 4 + place), "{:?}", text);
    }
    // Behind ten fields the eleventh, however many there are.
    let ten = plain(&[1; 10]);
    for (fields, place) in [(11, 20), (12, 20), (20, 20), (48, 20)] {
        assert_eq!(read_text(&ten, vec!["0"; fields].join(".").as_bytes()), err_at(7, place));
        let empty = ["0.0.0.0.0.0.0.0.0.0.".to_string(), ".0".repeat(fields - 11)].concat();
        assert_eq!(read_text(&ten, empty.as_bytes()), err_at(7, empty.len()));
    }
}

#[test]
fn small_and_large_fields() {
    let offsets = layout(&[100, 10], &[3, 5], 1);
    for (text, refusal) in [
        ("2", err_at(8, 0)),
        ("  002", err_at(8, 2)),
        ("2.4", err_at(8, 0)),
        ("3.4", err_at(8, 2)),
        ("3 4", err_at(8, 2)),
        ("3   04 ", err_at(8, 4)),
        (" 3 . 00004", err_at(8, 5)),
        ("1000000000001001", err_at(9, 0)),
        (" 0001000000000001001", err_at(9, 1)),
        ("3.1000000000001001", err_at(9, 2)),
        ("3 -  1000000000001001 ", err_at(9, 5)),
        ("2.1000000000001001", err_at(8, 0)),
        ("1000000000001001.4", err_at(9, 0)),
        ("999999999999999.4", err_at(8, 16)),
        // The sum.
        ("999999999999999.5", err_at(9, 17)),
        ("  999999999999999.5  ", err_at(9, 21)),
        ("3.1000000000001000", err_at(9, 18)),
        ("100000000000003. 6", err_at(9, 18)),
        ("100000000000003.5", Ok(E15)),
    ] {
        assert_eq!(read_text(&offsets, text.as_bytes()), refusal, "{:?}", text);
        // Behind a front part of four bytes, in a message behind two more.
        let behind = refusal.map_err(|refusal| Refusal { place: refusal.place.map(|at| at + 4), ..refusal });
        if behind.is_err() {
            let stamp = ["1 / ", text].concat();
            let partitions = Partitions { start: &[0], end: &[999] };
            assert_eq!(read_stamp(&offsets, partitions, stamp.as_bytes()), behind, "{:?}", text);
            let message = [&b"1/"[..], stamp.as_bytes(), &[0, stamp.len() as u8]].concat();
            assert_eq!(read_message(&offsets, partitions, &message), behind, "{:?}", text);
        }
    }
}

/// "No place": every other refusal, and 9 of a print.
#[test]
fn refusals_without_a_place() {
    let (layout, partitions, segments) = table_a();
    let none = |refusal: Refusal| assert_eq!(refusal.place, None, "{}", refusal);
    for (stamp, number) in [("", 6), (".5", 6), ("1/", 6), ("0/1", 10), ("3/1", 10), ("1/50.1", 11), ("99.9", 11)] {
        assert_eq!(a_stamp(stamp), err(number));
    }
    none(read_text(&plain(&[0]), b"x").unwrap_err());
    none(a_text(&"x".repeat(97)).unwrap_err());
    assert_eq!(printed_count(&layout, 1_000), err(9));
    assert_eq!(print_count(&layout, 0, &mut []), err(16));
    assert_eq!(print_stamp(&layout, partitions, 1_201, &mut []), err(12));
    assert_eq!([a_time(1_201), a_count(-1_001).map(|_| 0)], [err(12), err(13)]);
    assert_eq!([a_count(2_803), a_count(i64::MAX)], [err(14), err(14)]);
    let late = Segments { count: &segments.count[1..], time: &segments.time[1..], rate: &segments.rate[1..] };
    assert_eq!(time_of(&layout, partitions, late, 0), err(13));
    none(forward(DoubleSegment { count: 0.0, time: 0.0, rate: 0.0 }, 1, 1).unwrap_err());
    none(back(DoubleSegment { count: 0.0, time: 0.0, rate: 1.0 }, 0, 1.0).unwrap_err());
    for (message, number) in [(&b""[..], 21), (b"\x00", 21), (b"\x00\x00", 22), (b"x\x00\x00", 22), (b"\x00\x01", 23)] {
        assert_eq!(a_message(message), err(number));
    }
    assert_eq!([Refusal::at(5, 1).to_string(), Refusal::new(11).to_string()], ["5 1", "11"]);
}

/// The same place from every call that checks partitions, and from every call that checks segments.
#[test]
fn every_call_that_checks_a_table() {
    let (layout, partitions, segments) = table_a();
    let two = Partitions { start: &[0, 0, 7], end: &[5, 5, 7] };
    assert_eq!(read_stamp(&layout, two, b"x"), err_at(2, 2));
    assert_eq!(read_message(&layout, two, b"x\x00\x01"), err_at(2, 2));
    assert_eq!(printed_stamp(&layout, two, 0), err_at(2, 2));
    assert_eq!(time_of(&layout, two, segments, 0), err_at(2, 2));
    assert_eq!(count_at(&layout, two, segments, 0), err_at(2, 2));
    assert_eq!(steps_back(&layout, two, segments), err_at(2, 2));
    let one = Segments { rate: &[25_000, 9_999], ..segments };
    assert_eq!(time_of(&layout, partitions, one, 0), err_at(3, 1));
    assert_eq!(count_at(&layout, partitions, one, 0), err_at(3, 1));
    assert_eq!(steps_back(&layout, partitions, one), err_at(3, 1));
}

/// "Wrong list lengths come first and give the shortest length", whatever the rows hold.
#[test]
fn lengths_of_lists() {
    let (layout, partitions, segments) = table_a();
    for bad in [0, 900] {
        for starts in 0..4 {
            for ends in 0..4 {
                if starts != ends || starts == 0 {
                    let (start, end) = (vec![bad; starts], vec![900; ends]);
                    let lists = Partitions { start: &start, end: &end };
                    assert_eq!(steps_back(&layout, lists, segments), err_at(2, starts.min(ends)));
                }
            }
        }
    }
    for rate in [9_999, 25_000] {
        for lengths in 0..64 {
            let [counts, times, rates] = [lengths % 4, lengths / 4 % 4, lengths / 16];
            if [counts, times] != [rates; 2] || rates == 0 {
                let (count, rate): (Vec<u64>, _) = ((0..counts as u64).collect(), vec![rate; rates]);
                let time: Vec<i64> = (0..times as i64).collect();
                let lists = Segments { count: &count, time: &time, rate: &rate };
                assert_eq!(steps_back(&layout, partitions, lists), err_at(3, counts.min(times).min(rates)));
            }
        }
    }
    // Too long, and unequal besides.
    let list = vec![0; 10_003];
    for (starts, ends) in [(10_000, 10_000), (10_003, 10_003), (10_003, 10_001), (9_999, 10_000), (10_000, 9_998)] {
        let lists = Partitions { start: &list[..starts], end: &list[..ends] };
        assert_eq!(steps_back(&layout, lists, segments), err_at(2, starts.min(ends)));
    }
    let times = vec![0; 10_003];
    for (lengths, shortest) in [
        ([10_001, 10_001, 10_001], 10_001),
        ([10_003, 10_003, 10_003], 10_003),
        ([10_003, 10_002, 10_001], 10_001),
        ([10_001, 9_000, 10_002], 9_000),
        ([10_000, 10_000, 10_001], 10_000),
    ] {
        let lists = Segments { count: &list[..lengths[0]], time: &times[..lengths[1]], rate: &list[..lengths[2]] };
        assert_eq!(steps_back(&layout, partitions, lists), err_at(3, shortest));
    }
}

/// Every number of digits of a choice.
fn choices<T: Copy>(from: &[T], rows: u32) -> impl Iterator<Item = Vec<T>> + '_ {
    let each = from.len();
    (0..each.pow(rows)).map(move |number| (0..rows).map(|row| from[number / each.pow(row) % each]).collect())
}

/// The place that the tally finds by going through rule after rule.
fn found(tables: &Tables) -> Result<(), Refusal> {
    let label = first_fault(tables);
    let mut numbers = label.split(": ").next().unwrap().split(' ');
    match (numbers.next().unwrap(), numbers.next()) {
        ("ok", None) => Ok(()),
        (number, place) => {
            Err(Refusal { number: number.parse().unwrap(), place: place.map(|place| place.parse().unwrap()) })
        }
    }
}

/// All partitions of up to four rows with starts and ends out of a few: rows that are bad, rows that pass the limit.
#[test]
fn first_rows_of_partitions() {
    let mut places = [0; 5];
    let rows = [(0, 5), (5, 5), (6, 5), (0, 400_000_000_000_000), (0, E15 - 1), (E15 - 1, E15)];
    for len in 1..=4 {
        for rows in choices(&rows, len) {
            let mut tables = Tables { layout: plain(&[E15]), ..Tables::new() };
            (tables.start, tables.end) = rows.iter().copied().unzip();
            (tables.count, tables.time, tables.rate) = (vec![0], vec![0], vec![1_000]);
            let expected = found(&tables);
            let given = steps_back(&tables.layout, tables.partitions(), tables.segments());
            assert_eq!(given.map(|_| ()), expected, "{:?}", rows);
            places[expected.map_or_else(|refusal| refusal.place.unwrap(), |_| 4)] += 1;
        }
    }
    assert!(places.iter().all(|&times| times > 20), "{:?}", places);
}

/// All segments of up to three rows with numbers out of a few: counts and times that grow or not, times and rates out of
/// range, lines that are too late at the next count or the total, counts above the total.
#[test]
fn first_rows_of_segments() {
    let mut places = [0; 4];
    let mut rows = vec![];
    for count in [0, 1, 5_000_000, u64::MAX] {
        for time in [-LATEST - 1, 0, 1, LATEST + 1] {
            rows.extend([999, 1_000, E15].map(|rate| (count, time, rate)));
        }
    }
    for len in 1..=3 {
        for rows in choices(&rows, len) {
            let mut tables = Tables { layout: plain(&[E15]), ..Tables::new() };
            (tables.start, tables.end) = (vec![0], vec![9_000_000]);
            tables.count = rows.iter().map(|row| row.0).collect();
            tables.time = rows.iter().map(|row| row.1).collect();
            tables.rate = rows.iter().map(|row| row.2).collect();
            let expected = found(&tables);
            let given = steps_back(&tables.layout, tables.partitions(), tables.segments());
            assert_eq!(given.map(|_| ()), expected, "{:?}", rows);
            places[expected.map_or_else(|refusal| refusal.place.unwrap(), |_| 3)] += 1;
        }
    }
    assert!(places.iter().all(|&times| times > 10), "{:?}", places);
}

/// All texts of up to six bytes out of a few: the tally finds the same places from marks and ranges.
#[test]
fn places_of_short_texts() {
    let mut script = "layout 2 1 100 10 0 0 0 0 0 0 0 0 1 1 0 0 0 0 0 0 0 0\nstart 0\nend 999\n".to_string();
    for len in 0..=6 {
        for text in choices(b"10 ./x", len).filter(|text| text.len() < 6 || text.contains(&b' ')) {
            let hex: String = text.iter().map(|byte| format!("{:02x}", byte)).collect();
            let hex = if hex.is_empty() { "." } else { &hex };
            script += &format!("read-text {}\nread-stamp {}\n", hex, hex);
        }
    }
    let tally = tally(script.as_bytes());
    assert!(tally.unexpected.is_empty(), "{:?}", &tally.unexpected[..tally.unexpected.len().min(9)]);
    assert_eq!(tally.bad_lines, 0);
    for label in
        ["read-text 5, a slash", "read-stamp 5, a second number", "read-stamp 7, empty", "read-stamp 8, later field"]
    {
        assert!(tally.places[label] > 100, "{}", label);
    }
}
