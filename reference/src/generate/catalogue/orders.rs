//! "Order": for each pair of neighbours an input with both faults.

use super::{layout, table_a};
use crate::generate::writer::Writer;
use crate::script::{Question, Tables};

pub fn all(writer: &mut Writer) {
    let good = table_a();
    let mut bad_layout = good.clone();
    bad_layout.layout.delimiter = 0;
    let mut bad_partitions = good.clone();
    bad_partitions.end[1] = 1_000;
    let mut bad_segments = good.clone();
    bad_segments.rate[1] = 9_999;
    let mut bad_first_two = bad_partitions.clone();
    bad_first_two.layout.delimiter = 6;
    let mut bad_last_two = bad_partitions.clone();
    bad_last_two.rate[0] = 0;
    let mut all_bad = bad_last_two.clone();
    all_bad.layout.n = 0;
    for tables in [&bad_layout, &bad_partitions, &bad_segments, &bad_first_two, &bad_last_two, &all_bad, &good] {
        writer.load(tables);
        texts(writer);
        messages(writer);
        numbers(writer);
    }
    fields(writer, &good);
}

/// 4 and 5; 5 and 7; 7 and 6; 6 and a field's; a field's and 10; 10 and 11.
fn texts(writer: &mut Writer) {
    let over = "x".repeat(97);
    let many = "1.".repeat(50);
    for text in
        [&over[..], &many, "1.2.3x", ".x", "x", "..", "..x", ".1000000000001001", "1.2.1000000000001001", "1 2 x"]
    {
        writer.ask(Question::ReadText(text.as_bytes()));
        writer.ask(Question::ReadStamp(text.as_bytes()));
    }
    for stamp in [
        "x/1.2.3",
        "/1.2.3",
        "0/1.2.3",
        "0/..",
        "0/.5",
        "0/x",
        "1 2/..",
        "3/9999999999999999",
        "0/9999999999999999",
        "3/999999999999999.0",
        "0/999999999999999.0",
        "3/99.9",
        "0/99.9",
        "3/100",
        "1/99.9",
        "99.9",
        "/",
        "3/",
    ] {
        writer.ask(Question::ReadStamp(stamp.as_bytes()));
    }
}

/// 21, 22 and 23 and the tables, and the text.
fn messages(writer: &mut Writer) {
    for message in [
        &b""[..],
        b"1",
        b"\x00\x00",
        b"x\x00\x00",
        b"x\x00\x02",
        b"x\x00\x01",
        b"5\x00\x01",
        b"1.2.3x\x00\x61",
        b"3/99.9\x00\x06",
    ] {
        writer.ask(Question::ReadMessage(message));
    }
}

/// The tables and 14, 12, 13, 9; 14 and 13; 12 and 16; 9 and 16.
fn numbers(writer: &mut Writer) {
    for t in [i64::MIN, -4_000_000_000_000_000_001, -4_000_000_000_000_000_000, 4_000_000_000_000_000_000] {
        writer.ask(Question::CountAt(t));
    }
    writer.ask(Question::CountAt(4_000_000_000_000_000_001));
    writer.ask(Question::CountAt(1_000));
    for e in [1_200, 1_201, u64::MAX] {
        writer.ask(Question::TimeOf(e));
        writer.ask(Question::PrintStamp { e, fill: 1, len: 0 });
        writer.ask(Question::PrintStamp { e, fill: 1, len: 5 });
        writer.ask(Question::PrintStamp { e, fill: 1, len: 6 });
    }
    for count in [999, 1_000, u64::MAX] {
        for len in [0, 3, 4] {
            writer.ask(Question::PrintCount { count, fill: 2, len });
        }
    }
    writer.ask(Question::StepsBack);
}

/// Fields left to right, 9 before 8; then the sum's 9; then 10 and 11. And 13 before other things.
fn fields(writer: &mut Writer, good: &Tables) {
    let mut tables = good.clone();
    tables.layout = layout(&[100, 10], &[1, 1], 1);
    tables.count[0] = 5;
    writer.load(&tables);
    const HUGE: &str = "1000000000001001";
    for (first, second) in
        [("0", "0"), ("0", HUGE), (HUGE, "0"), (HUGE, HUGE), ("5", "0"), ("0", "5"), (HUGE, ""), ("0", "")]
    {
        for front in ["", "0/", "1/", "3/"] {
            let stamp = format!("{}{}.{}", front, first, second);
            writer.ask(Question::ReadStamp(stamp.as_bytes()));
            writer.ask(Question::ReadText(stamp.as_bytes()));
        }
    }
    // The sum's 9 and 8; the sum's 9 and 10; 8 and 10; 8 and 11.
    for stamp in [
        "999999999999999.0",
        "999999999999999.1",
        "3/999999999999999.1",
        "0/5.0",
        "3/0.5",
        "1/99.0",
        "0/100.9",
        "3/100.9",
        "100000000000000.1",
        "100000000000001.1",
        "100000000000000.11",
        "0/100000000000001.2",
        "1/100000000000001.2",
    ] {
        writer.ask(Question::ReadStamp(stamp.as_bytes()));
    }
    for e in [0, 4, 5, 6, 1_200, 1_201] {
        writer.ask(Question::TimeOf(e));
    }
    for t in [-1_001, -1_000, -999] {
        writer.ask(Question::CountAt(t));
    }
}
