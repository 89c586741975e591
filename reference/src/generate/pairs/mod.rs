//! An older and a newer table: every hypothesis at every row, every horizon, every refusal of either table; then random
//! pairs.

mod any;
mod bases;
mod faults;
mod lines;
mod orders;
mod refusals;

use super::writer::Writer;
use crate::script::{Question, Tables};
use crate::steps_back;

/// Random lists of pairs among the stored samples.
const LISTS: usize = 80;

/// All that is stored: a fixed part, then random ones.
pub fn all(writer: &mut Writer) {
    writer.line(b"# two tables: the newer succeeds");
    faults::none(writer);
    writer.line(b"# two tables: layouts");
    faults::layouts(writer);
    writer.line(b"# two tables: partitions");
    faults::partitions(writer);
    writer.line(b"# two tables: segments");
    faults::segments(writer);
    writer.line(b"# two tables: further segments");
    faults::further(writer);
    writer.line(b"# two tables: seams");
    faults::seams(writer);
    writer.line(b"# two tables: several faults at once");
    orders::all(writer);
    writer.line(b"# two tables: one refused, or both");
    refusals::all(writer);
    writer.line(b"# two tables: lines of the script itself");
    lines::all(writer);
    writer.line(b"# two tables at random");
    for _ in 0..LISTS {
        writer.any_pairs(3);
    }
}

/// Before any table.
pub fn before_tables(writer: &mut Writer) {
    writer.both("older 1", "older 1", "before any table");
}

/// Under 9,999 partitions and 9,999 segments, two ticks apart from 0 on.
pub fn most_partitions(writer: &mut Writer) {
    writer.older();
    let total = super::tables::total(&writer.tables);
    writer.both("yes", &total.to_string(), "as many partitions as there may be");
}

/// Beside that older table, under one segment more.
pub fn most_segments(writer: &mut Writer) {
    let row = writer.tables.count.len() - 1;
    let count = writer.tables.count[row].to_string();
    writer.both(&format!("no further {}", row), &count, "as many segments as there may be");
}

/// Beside that older table, under so many segments, too many.
pub fn too_many_segments(writer: &mut Writer, rows: usize) {
    let refusal = format!("newer 3 {}", rows);
    writer.both(&refusal, &refusal, "too many segments");
}

/// Beside that older table, under so many partitions, too many, and too many segments.
pub fn too_many_partitions(writer: &mut Writer, rows: usize) {
    let refusal = format!("newer 2 {}", rows);
    writer.both(&refusal, &refusal, "too many partitions");
}

/// Under too many partitions, taken as the older table.
pub fn older_of_too_many(writer: &mut Writer) {
    writer.older();
    let refusal = format!("older 2 {}", writer.tables.start.len());
    writer.both(&refusal, &refusal, "too many partitions in both");
}

impl Writer {
    /// Both questions, each with a comment: the answer it must have, without its first word, a colon, what it is about.
    fn both(&mut self, succeeds: &str, horizon: &str, why: &str) {
        self.labelled(&[succeeds, ": ", why].concat(), Question::Succeeds);
        self.labelled(&[horizon, ": ", why].concat(), Question::Horizon);
    }

    /// Takes these as the older tables, if they are not yet.
    fn load_older(&mut self, older: &Tables) {
        if self.older != *older {
            self.load(older);
            self.older();
        }
    }

    /// Puts both tables in force and asks.
    fn pair(&mut self, older: &Tables, newer: &Tables, (succeeds, horizon): (&str, &str), why: &str) {
        self.load_older(older);
        self.load(newer);
        self.both(succeeds, horizon, why);
    }
}

fn accepted(tables: &Tables) -> bool {
    steps_back(&tables.layout, tables.partitions(), tables.segments()).is_ok()
}
