//! The fixed part of the stored calls. Before each call a comment states what must come back, a colon, and why: a refusal's
//! negative; a count; a print's length and the print; 0 and the time. None of these is asked of the library.

mod buffers;
mod bytes;
mod lists;
mod numbers;
mod orders;
mod refusals;
mod rows;

use std::fmt::Display;

use super::slices::{self, list, times};
use crate::host::{put_call, Call, Given, Name};
use crate::script::Tables;
use crate::{Layout, Segments};

const E15: u64 = Layout::LARGEST_P;
const LATEST: i64 = Segments::LATEST;
/// Of a lent buffer before the call.
const FILL: u8 = 0x77;

/// Writes calls, each with its comment.
pub struct Writer {
    pub lines: Vec<u8>,
    pub calls: u64,
}

impl Writer {
    /// A comment that states nothing.
    pub fn heading(&mut self, heading: &str) {
        self.lines.extend_from_slice(format!("# {}\n", heading).as_bytes());
    }

    /// A line that is no call.
    pub fn bad(&mut self, line: &str) {
        self.lines.extend_from_slice(format!("# bad line: no call\n{}\n", line).as_bytes());
        self.calls += 1;
    }

    pub fn call(&mut self, expected: impl Display, why: impl Display, call: &Call) {
        self.lines.extend_from_slice(format!("# {}: {}\n", expected, why).as_bytes());
        put_call(&mut self.lines, call);
        self.calls += 1;
    }
}

pub fn all(writer: &mut Writer) {
    writer.heading("papers and readings");
    refusals::examples(writer);
    writer.heading("each refusal of each call");
    refusals::texts(writer);
    refusals::messages(writer);
    refusals::counts_and_times(writer);
    writer.heading("lengths of lists");
    lists::all(writer);
    writer.heading("n and delimiter");
    numbers::all(writer);
    writer.heading("bytes of numbers");
    bytes::all(writer);
    writer.heading("lent buffers");
    buffers::all(writer);
    writer.heading("two faults at once");
    orders::all(writer);
    writer.heading("a hundred rows");
    rows::all(writer);
    writer.heading("lines that are no calls");
    for line in BAD {
        writer.bad(line);
    }
}

const BAD: &[&str] = &[
    "steps-back 1 1 0a00000000000000 0000000000000000 35",
    "read-text 1 1 0a00000000000000 0000000000000000",
    "read-text 1 1 0a00000000000000 0000000000000000 35 .",
    "read-text 1 1 0a0000000000000 0000000000000000 35",
    "read-text 1 1 0A00000000000000 0000000000000000 35",
    "read-text 18446744073709551617 1 0a00000000000000 0000000000000000 35",
    "print-count 1 1 0a00000000000000 0000000000000000 -5 77",
];

/// n 2, moduli 100 and 10, offsets 0, delimiter 1; partitions 0..500 and 200..900; segments of 2.5 and 3 ns a tick.
fn a(name: Name, given: Given) -> Call {
    let (layout, partitions, segments) = crate::table_a();
    let tables = Tables {
        layout,
        start: partitions.start.to_vec(),
        end: partitions.end.to_vec(),
        count: segments.count.to_vec(),
        time: segments.time.to_vec(),
        rate: segments.rate.to_vec(),
    };
    slices::call(name, &tables, [2, 2], given)
}

/// One field, one partition from 0 to the last tick, one segment from count and time 0 on with ticks of 1 ns: all numbers are
/// equal.
fn one(name: Name, modulus: u64, given: Given) -> Call {
    let mut call = a(name, given);
    call.n = 1;
    let lists = [&[modulus][..], &[0], &[0], &[modulus - 1], &[0], &[0], &[1_000]];
    for (slice, numbers) in call.lists.iter_mut().zip(lists).take(name.lists()) {
        *slice = list(numbers);
    }
    call
}

fn text(text: &str) -> Given {
    Given::Text(text.as_bytes().to_vec())
}

fn lent(count: u64, len: usize) -> Given {
    Given::Count(count, vec![FILL; len])
}

/// A message of this text alone.
fn message(text: &str) -> Given {
    Given::Text([text.as_bytes(), &(text.len() as u16).to_be_bytes()].concat())
}

/// Under table A one call of each name that is answered, with what it answers.
fn each() -> [(&'static str, Call); 7] {
    [
        ("123", a(Name::ReadText, text("12.3"))),
        ("801", a(Name::ReadStamp, text("50.1"))),
        ("53", a(Name::ReadMessage, message("1/5.3"))),
        ("4 12.3", a(Name::PrintCount, lent(123, 5))),
        ("6 2/20.0", a(Name::PrintStamp, lent(500, 7))),
        ("0 -997", a(Name::TimeOf, lent(1, 9))),
        ("599", a(Name::CountAt, Given::Time(700))),
    ]
}

/// The seven lists, and the refusal of the table that each belongs to.
const LISTS: [(&str, i64); 7] =
    [("moduli", -1), ("offsets", -1), ("starts", -2), ("ends", -2), ("counts", -3), ("times", -3), ("rates", -3)];
