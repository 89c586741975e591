//! The fixed part of a script: every edge and every pair of faults at least once.

mod doubles;
mod examples;
mod limits;
mod messages;
mod orders;
mod places;
mod prints;
mod rules;
mod texts;

use super::writer::Writer;
use super::{packets, pairs, raw};
use crate::script::Tables;
use crate::Layout;
pub use prints::longest;

pub fn all(writer: &mut Writer) {
    // Before any table: all zeros, no lists.
    writer.line(b"# before any table");
    writer.each_question();
    writer.apart(1, raw::before_tables);
    writer.apart(6, packets::before_tables);
    writer.apart(9, pairs::before_tables);
    writer.line(b"# examples and readings");
    examples::all(writer);
    writer.line(b"# texts");
    texts::all(writer);
    writer.line(b"# messages");
    messages::all(writer);
    writer.line(b"# two faults at once");
    orders::all(writer);
    writer.line(b"# prints and buffers");
    prints::all(writer);
    writer.line(b"# limits of tables");
    limits::all(writer);
    writer.line(b"# each rule of the tables broken");
    rules::all(writer);
    writer.line(b"# places of refusals");
    places::all(writer);
    writer.line(b"# doubles");
    doubles::all(writer);
    writer.line(b"# lines of the script itself");
    writer.load(&table_a());
    writer.all_lines();
}

pub fn layout(moduli: &[u64], offsets: &[u64], delimiter: u8) -> Layout {
    let (mut all_moduli, mut all_offsets) = ([0; 10], [0; 10]);
    all_moduli[..moduli.len()].copy_from_slice(moduli);
    all_offsets[..offsets.len()].copy_from_slice(offsets);
    Layout { n: moduli.len() as u64, moduli: all_moduli, offsets: all_offsets, delimiter }
}

/// Offsets 0, delimiter 1.
pub fn plain(moduli: &[u64]) -> Layout {
    layout(moduli, &[], 1)
}

pub fn table_a() -> Tables {
    let (layout, partitions, segments) = crate::table_a();
    Tables {
        layout,
        start: partitions.start.to_vec(),
        end: partitions.end.to_vec(),
        count: segments.count.to_vec(),
        time: segments.time.to_vec(),
        rate: segments.rate.to_vec(),
    }
}

pub fn tables(layout: Layout, partitions: &[(u64, u64)], segments: &[(u64, i64, u64)]) -> Tables {
    Tables {
        layout,
        start: partitions.iter().map(|row| row.0).collect(),
        end: partitions.iter().map(|row| row.1).collect(),
        count: segments.iter().map(|row| row.0).collect(),
        time: segments.iter().map(|row| row.1).collect(),
        rate: segments.iter().map(|row| row.2).collect(),
    }
}
