//! Writes a script, and remembers the tables, the older ones, the raw counter and the tail in force.

use std::io::Write;

use super::packets::cut;
use crate::packet::{Header, LONGEST};
use crate::random::Random;
use crate::script::{put_bytes, KernelQuestion, Question, Tables, WriteQuestion};
use crate::{DoubleSegment, Layout, Partitions, RawCounter, Segments};

pub struct Writer {
    pub random: Random,
    pub script: Vec<u8>,
    pub tables: Tables,
    pub older: Tables,
    pub counter: RawCounter,
    /// The tail that the last answered walk left.
    pub tail: Vec<u8>,
    /// How many questions were asked, bad lines not counted.
    pub questions: u64,
    /// Whether a line may have bytes that are no plain text.
    pub raw: bool,
}

impl Writer {
    pub fn new(seed: u64) -> Writer {
        let (tables, older, counter) = (Tables::new(), Tables::new(), RawCounter::new());
        let (random, script, tail) = (Random::new(seed), vec![], vec![]);
        Writer { random, script, tables, older, counter, tail, questions: 0, raw: false }
    }

    /// Any line, as it is.
    pub fn line(&mut self, line: &[u8]) {
        self.script.extend_from_slice(line);
        self.script.push(10);
    }

    /// A blank and a number, sometimes with leading zeros.
    fn number(&mut self, number: impl std::fmt::Display) {
        self.script.push(b' ');
        let mut digits = number.to_string();
        if self.random.below(256) == 0 {
            let zeros = "0".repeat(self.random.below(30));
            digits.insert_str(usize::from(digits.starts_with('-')), &zeros);
        }
        self.script.extend_from_slice(digits.as_bytes());
    }

    fn double(&mut self, double: f64) {
        write!(self.script, " {:016x}", double.to_bits()).expect("a vector takes all bytes");
    }

    fn word(&mut self, word: &str) {
        self.script.extend_from_slice(word.as_bytes());
    }

    fn entry(&mut self, list: &str, value: impl std::fmt::Display) {
        self.word(list);
        self.number(value);
        self.script.push(10);
    }

    pub fn layout(&mut self, layout: &Layout) {
        self.tables.layout = *layout;
        self.word("layout");
        self.number(layout.n);
        self.number(layout.delimiter);
        for slot in layout.moduli.iter().chain(&layout.offsets) {
            self.number(slot);
        }
        self.script.push(10);
    }

    pub fn start(&mut self, value: u64) {
        self.tables.start.push(value);
        self.entry("start", value);
    }

    pub fn end(&mut self, value: u64) {
        self.tables.end.push(value);
        self.entry("end", value);
    }

    pub fn count(&mut self, value: u64) {
        self.tables.count.push(value);
        self.entry("count", value);
    }

    pub fn time(&mut self, value: i64) {
        self.tables.time.push(value);
        self.entry("time", value);
    }

    pub fn rate(&mut self, value: u64) {
        self.tables.rate.push(value);
        self.entry("rate", value);
    }

    /// New lists, row by row or list by list.
    pub fn partitions(&mut self, lists: Partitions) {
        self.line(b"partitions");
        self.tables.start.clear();
        self.tables.end.clear();
        let by_row = self.random.chance(50);
        let rows = lists.start.len().max(lists.end.len());
        for i in 0..rows {
            if let Some(&value) = lists.start.get(i) {
                self.start(value);
            }
            if let Some(&value) = lists.end.get(i).filter(|_| by_row) {
                self.end(value);
            }
        }
        if !by_row {
            lists.end.iter().for_each(|&value| self.end(value));
        }
    }

    pub fn segments(&mut self, lists: Segments) {
        self.line(b"segments");
        self.tables.count.clear();
        self.tables.time.clear();
        self.tables.rate.clear();
        let by_row = self.random.chance(50);
        let rows = lists.count.len().max(lists.time.len()).max(lists.rate.len());
        for i in 0..rows {
            if let Some(&value) = lists.time.get(i) {
                self.time(value);
            }
            if let Some(&value) = lists.count.get(i).filter(|_| by_row) {
                self.count(value);
            }
            if let Some(&value) = lists.rate.get(i).filter(|_| by_row) {
                self.rate(value);
            }
        }
        if !by_row {
            lists.rate.iter().for_each(|&value| self.rate(value));
            lists.count.iter().for_each(|&value| self.count(value));
        }
    }

    /// Puts tables in force; those that are already stay.
    pub fn load(&mut self, tables: &Tables) {
        if self.tables.layout != tables.layout {
            self.layout(&tables.layout);
        }
        if self.tables.start != tables.start || self.tables.end != tables.end {
            self.partitions(tables.partitions());
        }
        let Tables { count, time, rate, .. } = &self.tables;
        if *count != tables.count || *time != tables.time || *rate != tables.rate {
            self.segments(tables.segments());
        }
    }

    pub fn ask(&mut self, question: Question) {
        self.questions += 1;
        match question {
            Question::ReadText(text) => self.bytes("read-text ", text),
            Question::ReadStamp(stamp) => self.bytes("read-stamp ", stamp),
            Question::ReadMessage(message) => self.bytes("read-message ", message),
            Question::PrintCount { count, fill, len } => self.print("print-count", count, fill, len),
            Question::PrintStamp { e, fill, len } => self.print("print-stamp", e, fill, len),
            Question::TimeOf(e) => {
                self.word("time-of");
                self.number(e);
            }
            Question::CountAt(t) => {
                self.word("count-at");
                self.number(t);
            }
            Question::StepsBack => self.word("steps-back"),
            Question::Forward { segment, msf, given } => {
                self.word("forward");
                self.segment(segment);
                self.number(msf);
                self.number(given);
            }
            Question::Back { segment, msf, given } => {
                self.word("back");
                self.segment(segment);
                self.number(msf);
                self.double(given);
            }
            Question::ReadKernel(KernelQuestion { clock, lent, text }) => {
                self.word("read-kernel");
                self.number(clock);
                for len in lent {
                    self.number(len);
                }
                self.bytes(" ", text);
            }
            Question::RawReset { number, raw } => {
                self.word("raw-reset");
                self.number(number);
                self.number(raw);
                let _ = self.counter.reset(&self.tables.layout, self.tables.partitions(), number, raw);
            }
            Question::RawRead(raw) => {
                self.word("raw-read");
                self.number(raw);
                let _ = self.counter.read(&self.tables.layout, self.tables.partitions(), raw);
            }
            Question::Microseconds { seconds, us } => {
                self.word("microseconds");
                self.number(seconds);
                self.number(us);
            }
            Question::ReadPacket(packet) => self.bytes("read-packet ", packet),
            Question::WritePacket(WriteQuestion { header, e, fill, len, data }) => {
                let Header { packet_type, apid, flags, sequence, coarse, fine } = header;
                self.word("write-packet");
                self.number(packet_type);
                self.number(apid);
                self.number(flags);
                self.number(sequence);
                self.number(coarse);
                self.number(fine);
                self.number(e);
                self.number(fill);
                self.number(len);
                self.bytes(" ", data);
            }
            Question::Walk { len, tail, piece } => {
                self.word("walk");
                self.number(len);
                self.number(tail);
                self.bytes(" ", piece);
                self.walked(len, tail, piece);
            }
            Question::Succeeds => self.word("succeeds"),
            Question::Horizon => self.word("horizon"),
        }
        self.script.push(10);
    }

    /// The tail afterwards. "An answered `walk` is asked only with the TAIL that the answered one before it left, or 0."
    fn walked(&mut self, len: usize, tail: u64, piece: &[u8]) {
        if len < LONGEST || tail > LONGEST as u64 {
            return;
        }
        assert!(tail == 0 || tail == self.tail.len() as u64, "another tail");
        self.tail.truncate(tail as usize);
        self.tail.extend_from_slice(piece);
        let from: usize = cut(&self.tail).iter().sum();
        self.tail.drain(..from);
    }

    /// Takes the tables in force as the older ones.
    pub fn older(&mut self) {
        self.older = self.tables.clone();
        self.line(b"older");
    }

    /// Puts a raw counter in force.
    pub fn counter(&mut self, counter: RawCounter) {
        self.counter = counter;
        self.word(&put_counter(counter));
    }

    fn bytes(&mut self, word: &str, bytes: &[u8]) {
        self.word(word);
        put_bytes(&mut self.script, bytes);
    }

    fn print(&mut self, word: &str, number: u64, fill: u8, len: usize) {
        self.word(word);
        self.number(number);
        self.number(fill);
        self.number(len);
    }

    fn segment(&mut self, segment: DoubleSegment) {
        self.double(segment.count);
        self.double(segment.time);
        self.double(segment.rate);
    }
}

/// A raw counter as a script line.
pub fn put_counter(counter: RawCounter) -> String {
    if counter.reset {
        format!("raw-state {} {}\n", counter.raw, counter.count)
    } else {
        "raw-new\n".to_string()
    }
}

/// Tables as script lines, row by row.
pub fn put_tables(tables: &Tables) -> Vec<u8> {
    let Tables { layout, start, end, count, time, rate } = tables;
    let slots = layout.moduli.iter().chain(&layout.offsets).map(|slot| format!(" {}", slot));
    let mut lines = format!("layout {} {}{}\n", layout.n, layout.delimiter, slots.collect::<String>());
    let mut row = |list: &str, value: Option<String>| {
        if let Some(value) = value {
            lines += &format!("{} {}\n", list, value);
        }
    };
    for i in 0..start.len().max(end.len()) {
        row("start", start.get(i).map(u64::to_string));
        row("end", end.get(i).map(u64::to_string));
    }
    for i in 0..count.len().max(time.len()).max(rate.len()) {
        row("count", count.get(i).map(u64::to_string));
        row("time", time.get(i).map(i64::to_string));
        row("rate", rate.get(i).map(u64::to_string));
    }
    lines.into_bytes()
}
