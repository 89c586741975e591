//! "A host program for testing reads one call a line": README.md states the protocol.

use std::io::{self, BufRead, Write};

use super::*;
use crate::script::{hex, number, put_bytes, time};

/// "the function's name without `sclk_`, `-` for `_`".
#[derive(Clone, Copy, Debug, PartialEq, Eq, PartialOrd, Ord)]
pub enum Name {
    ReadText,
    ReadStamp,
    ReadMessage,
    PrintCount,
    PrintStamp,
    TimeOf,
    CountAt,
}

/// moduli, offsets, starts, ends, counts, times, rates
pub const LISTS: usize = 7;

impl Name {
    pub const ALL: [Name; 7] = [
        Name::ReadText,
        Name::ReadStamp,
        Name::ReadMessage,
        Name::PrintCount,
        Name::PrintStamp,
        Name::TimeOf,
        Name::CountAt,
    ];

    pub fn word(self) -> &'static str {
        match self {
            Name::ReadText => "read-text",
            Name::ReadStamp => "read-stamp",
            Name::ReadMessage => "read-message",
            Name::PrintCount => "print-count",
            Name::PrintStamp => "print-stamp",
            Name::TimeOf => "time-of",
            Name::CountAt => "count-at",
        }
    }

    /// How many lists the call takes: the layout's two, the partitions' two, the segments' three.
    pub fn lists(self) -> usize {
        match self {
            Name::ReadText | Name::PrintCount => 2,
            Name::ReadStamp | Name::ReadMessage | Name::PrintStamp => 4,
            Name::TimeOf | Name::CountAt => LISTS,
        }
    }
}

/// One call. Lists that it does not take are not looked at.
#[derive(Clone, Debug, PartialEq, Eq)]
pub struct Call {
    pub name: Name,
    pub n: u64,
    pub delimiter: u64,
    pub lists: [Vec<u8>; LISTS],
    pub given: Given,
}

/// What stands behind the lists.
#[derive(Clone, Debug, PartialEq, Eq)]
pub enum Given {
    /// A text, stamp or message.
    Text(Vec<u8>),
    /// A count, and the lent buffer: its bytes before the call, and after it those that the call left.
    Count(u64, Vec<u8>),
    Time(i64),
}

impl Call {
    /// Makes the call: "the number that came back".
    pub fn make(&mut self) -> i64 {
        let [moduli, offsets, starts, ends, counts, times, rates] = &self.lists;
        let layout = LayoutSlices { n: self.n, delimiter: self.delimiter, moduli, offsets };
        let partitions = PartitionSlices { starts, ends };
        let segments = SegmentSlices { counts, times, rates };
        match (self.name, &mut self.given) {
            (Name::ReadText, Given::Text(text)) => read_text(layout, text),
            (Name::ReadStamp, Given::Text(text)) => read_stamp(layout, partitions, text),
            (Name::ReadMessage, Given::Text(text)) => read_message(layout, partitions, text),
            (Name::PrintCount, Given::Count(count, buffer)) => print_count(layout, *count, buffer),
            (Name::PrintStamp, Given::Count(count, buffer)) => print_stamp(layout, partitions, *count, buffer),
            (Name::TimeOf, Given::Count(count, buffer)) => time_of(layout, partitions, segments, *count, buffer),
            (Name::CountAt, Given::Time(t)) => count_at(layout, partitions, segments, *t),
            _ => unreachable!("each name has its form"),
        }
    }
}

/// Reads a line; none for a bad one.
pub fn parse(line: &[u8]) -> Option<Call> {
    let mut words = line.split(|&byte| byte == b' ');
    let word = words.next()?;
    let name = Name::ALL.into_iter().find(|name| name.word().as_bytes() == word)?;
    let (n, delimiter) = (number(words.next()?)?, number(words.next()?)?);
    let mut lists: [Vec<u8>; LISTS] = Default::default();
    for list in &mut lists[..name.lists()] {
        *list = bytes(words.next()?)?;
    }
    let given = match name {
        Name::ReadText | Name::ReadStamp | Name::ReadMessage => Given::Text(bytes(words.next()?)?),
        Name::PrintCount | Name::PrintStamp | Name::TimeOf => {
            Given::Count(number(words.next()?)?, bytes(words.next()?)?)
        }
        Name::CountAt => Given::Time(time(words.next()?)?),
    };
    match words.next() {
        None => Some(Call { name, n, delimiter, lists, given }),
        Some(_) => None,
    }
}

/// "lower-case hex (`.` for none)".
fn bytes(word: &[u8]) -> Option<Vec<u8>> {
    if word == b"." {
        return Some(vec![]);
    }
    if word.is_empty() || word.len() % 2 != 0 {
        return None;
    }
    word.chunks_exact(2).map(|pair| Some(hex(pair[0])? << 4 | hex(pair[1])?)).collect()
}

/// A call as a line.
pub fn put_call(output: &mut Vec<u8>, call: &Call) {
    put(output, format_args!("{} {} {} ", call.name.word(), call.n, call.delimiter));
    for list in &call.lists[..call.name.lists()] {
        put_bytes(output, list);
        output.push(b' ');
    }
    match &call.given {
        Given::Text(text) => put_bytes(output, text),
        Given::Count(count, buffer) => {
            put(output, format_args!("{} ", count));
            put_bytes(output, buffer);
        }
        Given::Time(t) => put(output, format_args!("{}", t)),
    }
    output.push(10);
}

/// The answer to a call, "the number that came back, then each lent buffer afterwards in hex".
pub fn put_answer(output: &mut Vec<u8>, came_back: i64, call: &Call) {
    put(output, format_args!("{}", came_back));
    if let Given::Count(_, buffer) = &call.given {
        output.push(b' ');
        put_bytes(output, buffer);
    }
    output.push(10);
}

fn put(output: &mut Vec<u8>, text: std::fmt::Arguments) {
    output.write_fmt(text).expect("a vector takes all bytes");
}

/// One line without its byte 10; its answer, if it has one, is added to the output.
pub fn line(line: &[u8], output: &mut Vec<u8>) {
    if line.is_empty() || line[0] == b'#' {
        return;
    }
    match parse(line) {
        Some(mut call) => {
            let came_back = call.make();
            put_answer(output, came_back, &call);
        }
        None => output.extend_from_slice(b"bad line\n"),
    }
}

/// Answers all lines.
pub fn run(mut input: impl BufRead, mut output: impl Write) -> io::Result<()> {
    let (mut read, mut answers) = (Vec::new(), Vec::new());
    while input.read_until(10, &mut read)? > 0 {
        if read.last() == Some(&10) {
            read.pop();
        }
        line(&read, &mut answers);
        read.clear();
        if answers.len() > 1 << 16 {
            output.write_all(&answers)?;
            answers.clear();
        }
    }
    output.write_all(&answers)?;
    output.flush()
}

/// The answers to all lines.
pub fn answers(calls: &[u8]) -> Vec<u8> {
    let mut output = Vec::new();
    run(calls, &mut output).expect("a vector takes all bytes");
    output
}
