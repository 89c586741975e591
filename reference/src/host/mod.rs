//! "A host program in C needs it" (request 5): seven calls "on numbers and byte slices only", and the line protocol of a host
//! program for testing. "Each equals the inner call on the same numbers."

mod protocol;
mod slices;

use crate::message::text_of;
use crate::Refusal;
pub use protocol::{answers, line, parse, put_answer, put_call, run, Call, Given, Name, LISTS};
use slices::{layout_of, with_partitions, with_segments};
pub use slices::{LayoutSlices, PartitionSlices, SegmentSlices};

pub fn read_text(layout: LayoutSlices, text: &[u8]) -> i64 {
    count(layout_of(layout).and_then(|tables| crate::read_text(&tables.layout, text)))
}

pub fn read_stamp(layout: LayoutSlices, partitions: PartitionSlices, stamp: &[u8]) -> i64 {
    let tables = with_partitions(layout, partitions);
    count(tables.and_then(|tables| crate::read_stamp(&tables.layout, tables.partitions(), stamp)))
}

/// 21 to 23 are "all in 17's place": before the tables, so before any slice of them.
pub fn read_message(layout: LayoutSlices, partitions: PartitionSlices, message: &[u8]) -> i64 {
    let tables = text_of(message).and_then(|_| with_partitions(layout, partitions));
    count(tables.and_then(|tables| crate::read_message(&tables.layout, tables.partitions(), message)))
}

pub fn print_count(layout: LayoutSlices, number: u64, buffer: &mut [u8]) -> i64 {
    length(layout_of(layout).and_then(|tables| crate::print_count(&tables.layout, number, buffer)))
}

pub fn print_stamp(layout: LayoutSlices, partitions: PartitionSlices, e: u64, buffer: &mut [u8]) -> i64 {
    let tables = with_partitions(layout, partitions);
    length(tables.and_then(|tables| crate::print_stamp(&tables.layout, tables.partitions(), e, buffer)))
}

pub fn time_of(
    layout: LayoutSlices,
    partitions: PartitionSlices,
    segments: SegmentSlices,
    e: u64,
    buffer: &mut [u8],
) -> i64 {
    let tables = with_segments(layout, partitions, segments);
    let time = tables.and_then(|tables| crate::time_of(&tables.layout, tables.partitions(), tables.segments(), e));
    written(time, buffer)
}

pub fn count_at(layout: LayoutSlices, partitions: PartitionSlices, segments: SegmentSlices, t: i64) -> i64 {
    let tables = with_segments(layout, partitions, segments);
    count(tables.and_then(|tables| crate::count_at(&tables.layout, tables.partitions(), tables.segments(), t)))
}

/// "A count or a print's length comes back as itself". No count is above 10^15.
fn count(result: Result<u64, Refusal>) -> i64 {
    result.map_or_else(refused, |count| count as i64)
}

fn length(result: Result<usize, Refusal>) -> i64 {
    result.map_or_else(refused, |length| length as i64)
}

/// "times are written to an 8-byte buffer (16 if it is shorter), low byte first, and 0 returned": 16 last of all. The rest of
/// a longer buffer is untouched.
fn written(result: Result<i64, Refusal>, buffer: &mut [u8]) -> i64 {
    let time = match result {
        Ok(time) => time,
        Err(refusal) => return refused(refusal),
    };
    match buffer.get_mut(..8) {
        Some(eight) => eight.copy_from_slice(&time.to_le_bytes()),
        None => return refused(Refusal::new(16)),
    }
    0
}

/// "a refusal as its number's negative, without its place".
fn refused(refusal: Refusal) -> i64 {
    -i64::from(refusal.number)
}
