//! Tables with any number of rows.

use crate::generate::tables::{layout, msf, p, total};
use crate::random::Random;
use crate::script::Tables;
use crate::{Layout, Segments};

const E15: u64 = Layout::LARGEST_P;
/// A total's ticks of 2 ns end long before the latest time.
const LATEST: i64 = Segments::LATEST - 5_000_000_000_000_000;

/// So many partitions and segments; no other rule is broken than that of their numbers.
pub fn many(random: &mut Random, partitions: u64, segments: u64) -> Tables {
    let mut tables = Tables::new();
    while p(&tables.layout) < 3 * segments + 2 {
        tables.layout = layout(random);
    }
    let p = p(&tables.layout);
    for row in 0..partitions {
        let longest = (p - 1).min(E15 / partitions);
        // The first has room for all segments.
        let least = if row == 0 { 3 * segments } else { 1 };
        let length = random.magnitude(longest).max(least);
        let start = random.between(0, p - 1 - length);
        tables.start.push(start);
        tables.end.push(start + length);
    }
    set_segments(random, &mut tables, segments);
    tables
}

/// Ticks of 1 to 2 ns.
fn set_segments(random: &mut Random, tables: &mut Tables, segments: u64) {
    let unit = 1_000 * msf(&tables.layout);
    let total = total(tables);
    let step = total / segments;
    let mut time = random.time_between(-Segments::LATEST, LATEST);
    for row in 0..segments {
        let count = row * step + random.between(0, step - 1);
        let rate = (unit + random.between(0, unit)).min(E15);
        if let (Some(&before), Some(&rate)) = (tables.count.last(), tables.rate.last()) {
            let line = u128::from(rate) * u128::from(count - before) / u128::from(unit);
            time += (line as i64 + random.pick(&[-1, 0, 0, 1, 40])).max(1);
        }
        tables.count.push(count);
        tables.time.push(time);
        tables.rate.push(rate);
    }
}
