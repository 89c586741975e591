//! Short forms for the tests.
#![allow(dead_code)]

pub mod pairs;

use reference::*;

pub const LATEST: i64 = 4_000_000_000_000_000_000;

pub fn layout(moduli: &[u64], offsets: &[u64], delimiter: u8) -> Layout {
    // Slots after the n-th hold what no check would let pass.
    let (mut all_moduli, mut all_offsets) = ([0; 10], [u64::MAX; 10]);
    all_moduli[..moduli.len()].copy_from_slice(moduli);
    all_offsets[..offsets.len()].copy_from_slice(offsets);
    Layout { n: moduli.len() as u64, moduli: all_moduli, offsets: all_offsets, delimiter }
}

/// A refusal without a place.
pub fn err<T>(number: u32) -> Result<T, Refusal> {
    Err(Refusal::new(number))
}

pub fn err_at<T>(number: u32, place: usize) -> Result<T, Refusal> {
    Err(Refusal::at(number, place))
}

/// A layout with offsets 0 and delimiter 1.
pub fn plain(moduli: &[u64]) -> Layout {
    layout(moduli, &vec![0; moduli.len()], 1)
}

pub fn printed_count(layout: &Layout, count: u64) -> Result<String, Refusal> {
    let mut lent = [b'#'; 200];
    let len = print_count(layout, count, &mut lent);
    text_of(len, &lent)
}

pub fn printed_stamp(layout: &Layout, partitions: Partitions, e: u64) -> Result<String, Refusal> {
    let mut lent = [b'#'; 200];
    let len = print_stamp(layout, partitions, e, &mut lent);
    text_of(len, &lent)
}

/// The front is the print, the rest is as it was; nothing is written by a refusal.
fn text_of(len: Result<usize, Refusal>, lent: &[u8]) -> Result<String, Refusal> {
    let written = len.unwrap_or(0);
    assert!(lent[written..].iter().all(|&byte| byte == b'#'));
    len.map(|len| String::from_utf8(lent[..len].to_vec()).unwrap())
}

/// Table A's calls.
pub fn a_text(text: &str) -> Result<u64, Refusal> {
    read_text(&table_a().0, text.as_bytes())
}

pub fn a_stamp(stamp: &str) -> Result<u64, Refusal> {
    let (layout, partitions, _) = table_a();
    read_stamp(&layout, partitions, stamp.as_bytes())
}

pub fn a_message(message: &[u8]) -> Result<u64, Refusal> {
    let (layout, partitions, _) = table_a();
    read_message(&layout, partitions, message)
}

pub fn a_print(e: u64) -> Result<String, Refusal> {
    let (layout, partitions, _) = table_a();
    printed_stamp(&layout, partitions, e)
}

pub fn a_time(e: u64) -> Result<i64, Refusal> {
    let (layout, partitions, segments) = table_a();
    time_of(&layout, partitions, segments, e)
}

pub fn a_count(t: i64) -> Result<u64, Refusal> {
    let (layout, partitions, segments) = table_a();
    count_at(&layout, partitions, segments, t)
}
