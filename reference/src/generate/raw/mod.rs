//! Raw counters and microseconds: every clause of every refusal, every edge of a difference, random lists of calls.

mod any;
mod fixed;
mod lines;
mod orders;
mod seconds;

use super::writer::Writer;
use crate::random::Random;
use crate::script::{Question, Tables};
use crate::{Layout, RawCounter};

const E15: u64 = Layout::LARGEST_P;
/// 2^32.
const TURN: u64 = 1 << 32;

/// Random lists of calls among the stored samples, and random microseconds.
const LISTS: usize = 220;
const RANDOM_SECONDS: usize = 400;

/// All that is stored: a fixed part, then random lists.
pub fn all(writer: &mut Writer) {
    writer.line(b"# raw counters: examples");
    fixed::examples(writer);
    writer.line(b"# raw counters: differences");
    fixed::differences(writer);
    writer.line(b"# raw counters: totals");
    fixed::totals(writer);
    writer.line(b"# raw counters: any state");
    fixed::states(writer);
    writer.line(b"# raw counters: resets");
    fixed::resets(writer);
    writer.line(b"# raw counters: two faults at once");
    orders::all(writer);
    writer.line(b"# raw counters: other tables between calls");
    orders::changes(writer);
    writer.line(b"# microseconds");
    seconds::all(writer);
    writer.line(b"# raw counters: lines of the script itself");
    lines::all(writer);
    writer.line(b"# raw counters at random");
    for _ in 0..LISTS {
        writer.any_calls(40);
    }
    writer.line(b"# microseconds at random");
    for _ in 0..RANDOM_SECONDS {
        writer.any_microseconds();
    }
}

/// Before any table.
pub fn before_tables(writer: &mut Writer) {
    writer.read("1: before any table", 0);
    writer.reset("1: before any table", 1, 5);
    writer.read("1: before any table", 5);
    writer.microseconds("ok: no tables asked", 7, 999_999);
    writer.microseconds("24: no tables asked", 7, 1_000_000);
}

/// Under 9,999 partitions of 1 to 4 ticks, the first of 1 tick.
pub fn most_partitions(writer: &mut Writer) {
    writer.counter(RawCounter::new());
    writer.reset("10: one above the most partitions", 10_000, 5);
    writer.reset("ok: the last of the most partitions", 9_999, u32::MAX);
    // Row 9,998 has 3 ticks.
    writer.read("12: past the total of the most partitions", 3);
    writer.read("ok: the total of the most partitions", 2);
    writer.reset("ok: the first of the most partitions", 1, 7);
    writer.read("ok: past the end of the first of the most partitions", 9);
    writer.reset("ok: a partition among the most", 5_000, 7);
    writer.reset("10: far above the most partitions", u64::MAX, 8);
}

/// Under so many partitions, too many.
pub fn too_many_partitions(writer: &mut Writer, rows: usize) {
    let label = format!("2 {}: too many partitions", rows);
    writer.reset(&label, 1, 5);
    writer.reset(&label, rows as u64, 5);
    writer.read(&label, 9);
    writer.counter(RawCounter::new());
    writer.read(&label, 9);
    writer.reset(&label, 0, 5);
}

impl Writer {
    /// Asks with random numbers of their own and without counting, so that all other questions stay as they are.
    pub fn apart(&mut self, seed: u64, ask: impl FnOnce(&mut Writer)) {
        let (random, questions) = (std::mem::replace(&mut self.random, Random::new(seed)), self.questions);
        ask(self);
        self.random = random;
        self.questions = questions;
    }

    /// A question with a comment before it: the outcome it must have (`ok` or a refusal's number and place), a colon, what
    /// it is about.
    pub fn labelled(&mut self, label: &str, question: Question) {
        if !self.raw {
            self.line(["# ", label].concat().as_bytes());
        }
        self.ask(question);
    }

    fn reset(&mut self, label: &str, number: u64, raw: u32) {
        self.labelled(label, Question::RawReset { number, raw });
    }

    fn read(&mut self, label: &str, raw: u32) {
        self.labelled(label, Question::RawRead(raw));
    }

    fn microseconds(&mut self, label: &str, seconds: u32, us: u32) {
        self.labelled(label, Question::Microseconds { seconds, us });
    }

    /// Puts a layout and partitions in force; segments, which no raw counter and no packet asks, stay as they are.
    pub fn load_partitions(&mut self, layout: Layout, partitions: &[(u64, u64)]) {
        let mut tables = Tables { layout, ..self.tables.clone() };
        tables.start = partitions.iter().map(|row| row.0).collect();
        tables.end = partitions.iter().map(|row| row.1).collect();
        self.load(&tables);
    }

    /// Sound tables of this total, in so many partitions of unlike lengths and starts.
    fn load_total(&mut self, total: u64, rows: u64) {
        let mut partitions = vec![];
        let mut left = total;
        for row in 0..rows {
            let more = rows - row - 1;
            let length = if more == 0 { left } else { (left / (more + 2)).max(1) };
            let start = (7 * row + 3 * (rows % 2)).min(E15 - 1 - length);
            partitions.push((start, start + length));
            left -= length;
        }
        let layout = layout(&[E15]);
        self.load_partitions(layout, &partitions);
    }
}

/// Offsets 0, delimiter 1.
fn layout(moduli: &[u64]) -> Layout {
    let mut all = [0; 10];
    all[..moduli.len()].copy_from_slice(moduli);
    Layout { n: moduli.len() as u64, moduli: all, offsets: [0; 10], delimiter: 1 }
}

/// Table A's.
const A: (&[u64], &[(u64, u64)]) = (&[100, 10], &[(0, 500), (200, 900)]);

impl Writer {
    fn load_a(&mut self) {
        self.load_partitions(layout(A.0), A.1);
    }
}
