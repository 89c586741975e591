//! Document 01's examples and the readings'.

use super::{layout, plain, table_a, tables};
use crate::generate::writer::Writer;
use crate::script::Question;

#[rustfmt::skip]
const TEXTS: &[&str] = &[
    "12.3", "12", "5.13", ".5", "12..", "", "1/50.0", "1/50.1", "50.1", "30.0", "0/1", "3/1", "50.0", "90.0", "90.1",
    "12.", "..", ".", " 1 : : 3", "  ", "100.0", "0/", "0/x", "3/9999999999999999", "/5", " /5", "1 2/5", "1.2/5", "1/",
    " 1 / 5.3", "1/5.3", "2/19.9", "2/20.0", "2/90.0", "2/90.1", "1/0.1", "2 / 20 0", "1/2/3", "1/ 2 3 ", "1//2", "/", "//",
    "12-3", "12:3", "12,3", "12 3", "12  3", "12. 3", "12 .3", "12 . 3", " 12.3 ", "12.3.", "1 2 3", "1 2 .", "1. 2 .",
    "0012.0003", "100000000000000.0", "100000000000000.1", "99999999999999.10", "0.1000000000000000", "0.1000000000000001",
    "1000000000001000.0", "1000000000001001.0", "0.1000000000001000", "0.1000000000001001", "18446744073709551616/1",
    "18446744073709551617/1", "4294967297/1", "0000000000000000000000000000001/1", "1/+1", "+1/1", "-1/1", "-1", "1-", "1 -",
];

pub fn all(writer: &mut Writer) {
    writer.load(&table_a());
    for text in TEXTS {
        writer.ask(Question::ReadText(text.as_bytes()));
        writer.ask(Question::ReadStamp(text.as_bytes()));
    }
    writer.ask(Question::ReadMessage(b"\x07\xd01/5.3\x00\x05"));
    writer.ask(Question::ReadMessage(b"\x07\xd01/5.3\x00\x08"));
    for e in [0, 1, 2, 498, 499, 500, 501, 599, 600, 601, 1_199, 1_200, 1_201] {
        writer.ask(Question::PrintStamp { e, fill: 35, len: 8 });
        writer.ask(Question::TimeOf(e));
    }
    for t in
        [-1_001, -1_000, -999, -998, -997, -995, 0, 497, 498, 500, 700, 999, 1_000, 1_002, 1_003, 2_799, 2_802, 2_803]
    {
        writer.ask(Question::CountAt(t));
    }
    writer.ask(Question::StepsBack);
    // Table A cut to its first partition and segment.
    writer.load(&tables(table_a().layout, &[(0, 500)], &[(0, -1_000, 25_000)]));
    for e in [499, 500, 501] {
        writer.ask(Question::PrintStamp { e, fill: 35, len: 8 });
        writer.ask(Question::TimeOf(e));
    }
    for t in 248..254 {
        writer.ask(Question::CountAt(t));
    }
    for text in TEXTS {
        writer.ask(Question::ReadStamp(text.as_bytes()));
    }
    others(writer);
    step_back(writer);
}

/// Other layouts.
fn others(writer: &mut Writer) {
    writer.layout(&layout(&[65_536, 60, 800], &[0, 0, 1], 2));
    for text in ["20538:39:768", "20538:39:0", "20538:39:", "20538:39", "20538::1", "20538:39:801", "20538", "0:0:1"] {
        writer.ask(Question::ReadText(text.as_bytes()));
    }
    writer.layout(&plain(&[16_777_215, 91, 10, 8]));
    for text in ["0:0:0:9", "0:0:1:1", "16777214:90:9:7", "16777215", "0 0 0 9", "0:91", "0::10"] {
        writer.ask(Question::ReadText(text.as_bytes()));
    }
    writer.layout(&layout(&[100, 10], &[0, 1], 1));
    for text in ["999999999999999.0", "999999999999999.1", "5", "5.", "5.0", "5.1"] {
        writer.ask(Question::ReadText(text.as_bytes()));
    }
    writer.layout(&plain(&[100]));
    for text in ["5.", "5", ".", "", " 5 ", "5 6"] {
        writer.ask(Question::ReadText(text.as_bytes()));
    }
    writer.layout(&plain(&[10, 10, 10]));
    for text in [" 1 : : 3", "1::3", "1:2:3", "1 2 3", "1: 2 3", "1:::3", ":1:2"] {
        writer.ask(Question::ReadText(text.as_bytes()));
    }
}

/// Tables that step back by a nanosecond, by none, and not at all; and those of demand 3.
fn step_back(writer: &mut Writer) {
    let three = plain(&[3]);
    let one = (0, 0, 1_000);
    for tables in [
        tables(three, &[(0, 1)], &[one]),
        tables(three, &[(0, 1), (0, 1)], &[one, (2, 1, 1_000)]),
        tables(three, &[(0, 1), (0, 1)], &[one, (2, 2, 1_000)]),
        tables(three, &[(0, 1), (0, 1)], &[one, (2, 3, 1_000)]),
        tables(three, &[(0, 1)], &[one, (1, 2, 1_000)]),
        tables(three, &[(0, 1)], &[one, (1, 1, 1_000)]),
        tables(three, &[(0, 2), (0, 2)], &[(0, 0, 2_500), (3, 7, 1_000)]),
        tables(three, &[(0, 2), (0, 2)], &[(0, 0, 2_500), (3, 8, 1_000)]),
        tables(three, &[(0, 2), (0, 2)], &[(0, 0, 2_500), (3, 9, 1_000)]),
    ] {
        writer.load(&tables);
        writer.ask(Question::StepsBack);
        for number in 0..6 {
            writer.ask(Question::TimeOf(number));
            writer.ask(Question::CountAt(number as i64));
        }
        for t in [6, 7, 8, 9, 10, 11] {
            writer.ask(Question::CountAt(t));
        }
    }
    // Many of both answers.
    for by in 0..12 {
        let last = (600, 494 + by, 30_000);
        writer.load(&tables(table_a().layout, &[(0, 500), (200, 900)], &[(0, -1_000, 25_000), last]));
        writer.ask(Question::StepsBack);
        writer.ask(Question::CountAt(494));
        writer.ask(Question::CountAt(499));
        writer.load(&tables(
            table_a().layout,
            &[(0, 500), (200, 900)],
            &[(0, -1_000, 25_000), (601, 494 + by, 30_000)],
        ));
        writer.ask(Question::StepsBack);
        writer.ask(Question::CountAt(500));
        writer.ask(Question::TimeOf(600));
    }
    // The exception of printing: the end of 0..9 and a next start; the end of nine partitions and the start of a tenth.
    let (ten, two) = (layout(&[10], &[1], 1), plain(&[2]));
    for (layout, partitions) in
        [(ten, &[(0, 9)][..]), (ten, &[(0, 9), (0, 5)]), (two, &[(0, 1); 9]), (two, &[(0, 1); 10])]
    {
        writer.load(&tables(layout, partitions, &[(0, 0, 1_000)]));
        for len in 0..6 {
            writer.ask(Question::PrintStamp { e: 9, fill: 0, len });
        }
    }
}
