//! "the first that fails, in the order layout, partition, segment, further, seam": several at once.

use super::bases::bases;
use super::faults::line;
use super::{accepted, Writer};

const NAMES: [&str; 5] = ["layout", "partition", "segment", "further", "seam"];

/// Each set of two faults or more, in each base that has room for it; the row that differs is the first or the last.
fn sets(writer: &mut Writer, row_of: impl Fn(usize) -> usize) {
    for base in bases() {
        let last = base.older.count.len() - 1;
        for set in 1u32..32 {
            let has = |fault: usize| set >> fault & 1 == 1;
            // At the first row only where one of the two that have rows there fails first.
            if set.count_ones() < 2 || row_of(1) == 0 && (has(0) || !has(1) && !has(2)) {
                continue;
            }
            let mut other = base.newer.clone();
            let (partition, segment) = (row_of(base.older.start.len() - 1), row_of(last));
            if has(0) {
                other.layout.delimiter = other.layout.delimiter % 5 + 1;
            }
            if has(1) {
                other.start[partition] += 1;
            }
            if has(2) {
                other.rate[segment] += 1;
            }
            if has(3) {
                other.count[last + 1] = base.total;
            }
            if has(3) && other.count[last] >= base.total {
                continue;
            }
            let line = line(&other, last, other.count[last + 1]);
            other.time[last + 1] = if has(4) { line - 1 } else { line.max(other.time[last + 1]) };
            let horizon = match set {
                _ if has(0) || has(1) => 0,
                _ if has(2) => base.older.count[segment],
                _ => base.total,
            };
            let first = set.trailing_zeros() as usize;
            let row = [0, partition, segment, last + 1, last][first];
            let why: Vec<&str> = (0..5).filter(|&fault| has(fault)).map(|fault| NAMES[fault]).collect();
            if accepted(&other) {
                let no = format!("no {} {}", NAMES[first], row);
                writer.pair(&base.older, &other, (&no, &horizon.to_string()), &why.join(", "));
            }
        }
    }
}

pub fn all(writer: &mut Writer) {
    sets(writer, |last| last);
    sets(writer, |_| 0);
}
