//! Tables that break a rule. Each rule has a number; what a rule cannot break in some tables it leaves as it is.

use super::tables::{msf, p, total, used};
use crate::random::Random;
use crate::script::Tables;
use crate::{Layout, Segments};

const E15: u64 = 1_000_000_000_000_000;
const E12: u64 = 1_000_000_000_000;
const LATEST: i64 = Segments::LATEST;

/// Products of 2^64 and little or nothing more.
pub const WRAPPING: &[(u64, u64)] = &[
    (1 << 32, 1 << 32),
    (1 << 63, 2),
    (2, 1 << 63),
    (1 << 52, 1 << 12),
    ((1 << 63) + 5, 2),
    (2, (1 << 63) + 5),
    (6_148_914_691_236_517_206, 3),
    (3, 6_148_914_691_236_517_210),
];

pub const LAYOUT_RULES: usize = 8;
pub const PARTITION_RULES: usize = 8;
pub const SEGMENT_RULES: usize = 17;
pub const ROW_RULES: usize = 11;

pub fn break_layout(random: &mut Random, tables: &mut Tables, rule: usize) {
    let layout = &mut tables.layout;
    let field = random.below(used(layout).max(1));
    match rule {
        0 => layout.n = 0,
        1 => layout.n = random.pick(&[11, 12, 255, 256 + 2, 1 << 32, u64::MAX]),
        2 => layout.moduli[field] = 0,
        3 => layout.offsets[field] = random.pick(&[1_001, 1_001, 65_536, u64::MAX]),
        4 => {
            // P too large, MSF not.
            let least = E15 / msf(layout).max(1) + 1;
            layout.moduli[0] = random.pick(&[least, least, least * 2, u64::MAX]);
        }
        5 => {
            // The product wraps in 64 bits.
            layout.n = 2;
            let (first, second) = random.pick(WRAPPING);
            layout.moduli[0] = first;
            layout.moduli[1] = second;
        }
        6 => {
            // MSF too large, P not.
            layout.n = 2;
            layout.moduli[0] = random.pick(&[1, 2, 900]);
            layout.moduli[1] = random.pick(&[E12 + 1, E12 + 2, 1_100_000_000_000]);
        }
        _ => layout.delimiter = random.pick(&[0, 6, 7, 32, 46, 255]),
    }
    // Offsets of slots that came into use.
    for i in 0..used(layout) {
        if rule != 3 && layout.offsets[i] > 1_000 {
            layout.offsets[i] = 1;
        }
    }
}

pub fn break_partitions(random: &mut Random, tables: &mut Tables, rule: usize) {
    let p = p(&tables.layout);
    let Tables { start, end, .. } = tables;
    let row = random.below(start.len().max(1));
    if row >= start.len().min(end.len()) {
        return;
    }
    match rule {
        0 => {
            start.clear();
            end.clear();
        }
        1 => start.truncate(row),
        2 => end.truncate(row),
        3 => {
            // One list longer than the other.
            if random.chance(50) {
                start.push(0);
            } else {
                end.push(1);
            }
        }
        4 => start[row] = end[row],
        5 => start[row] = random.pick(&[end[row].saturating_add(1), end[row].saturating_add(1), u64::MAX]),
        6 => end[row] = random.pick(&[p, p, p.saturating_add(1), u64::MAX]),
        _ => {
            // Half of 10^15 and a little in each of two rows.
            if p > E15 / 2 + 2 && p <= E15 {
                let more = random.between(1, 2);
                *start = vec![0, p - 1 - E15 / 2 - more, 0];
                *end = vec![E15 / 2 - more, p - 1, random.between(1, 3)];
            }
        }
    }
}

pub fn break_segments(random: &mut Random, tables: &mut Tables, rule: usize) {
    let unit = 1_000 * msf(&tables.layout).clamp(1, E12);
    let total = total(tables);
    let Tables { count, time, rate, .. } = tables;
    let rows = count.len();
    if rows == 0 || time.len() != rows || rate.len() != rows {
        return;
    }
    let (row, last) = (random.below(rows), rows - 1);
    // Two rows that follow each other, if there are two.
    let (early, late) = if rows > 1 { (random.below(last), random.below(last) + 1) } else { (0, 0) };
    match rule {
        0 => {
            count.clear();
            time.clear();
            rate.clear();
        }
        1 => count.truncate(row),
        2 => time.truncate(row),
        3 => rate.truncate(row),
        4 => count.push(total),
        5 => time.push(LATEST),
        6 => rate.push(unit),
        7 => count[late] = count[late.saturating_sub(1)],
        8 => count.swap(early, early + usize::from(rows > 1)),
        9 => count[last] = random.pick(&[total.saturating_add(1), total.saturating_mul(2), u64::MAX]),
        10 => time[late] = time[late.saturating_sub(1)],
        11 => time.swap(early, early + usize::from(rows > 1)),
        12 => time[random.pick(&[0, 0, row])] = random.pick(&[-LATEST - 1, -LATEST - 1, i64::MIN]),
        13 => {
            let row = random.pick(&[last, row]);
            let late = random.pick(&[LATEST + 1, LATEST + 1, i64::MAX - last as i64]);
            (row..rows).for_each(|row| time[row] = late + row as i64);
        }
        14 => rate[row] = random.pick(&[unit - 1, unit - 1, 0, 1]),
        15 => rate[row] = random.pick(&[E15 + 1, E15 + 1, u64::MAX]),
        _ => {
            // A line that is too late by a nanosecond: the last one's, or one that the next row overtakes.
            let row = random.pick(&[last, last, last.saturating_sub(1), row]);
            let end = if row == last { total } else { count[row + 1] };
            let product = u128::from(rate[row]) * u128::from(end.saturating_sub(count[row]));
            let line = ((product + u128::from(unit) - 1) / u128::from(unit)).min(1 << 63);
            time[row] = (i128::from(LATEST) - line as i128 + 1) as i64;
            for late in row + 1..rows {
                time[late] = time[late - 1].saturating_add(1);
            }
        }
    }
}

/// Sound tables in which a rule of rows can be broken alone: segments with ticks of two nanoseconds, and as many ticks behind
/// the last. Lines are long enough to be too late for a rule about lines, and too short for all others.
pub fn long(rows: usize, rule: usize) -> Tables {
    let ticks = if rule < 9 { 5_000 } else { 10_000_000 };
    let mut tables = Tables::new();
    tables.layout = Layout { n: 1, moduli: [E15; 10], offsets: [0; 10], delimiter: 1 };
    tables.start.push(0);
    tables.end.push((rows as u64 + 1) * ticks);
    for row in 0..rows as u64 {
        tables.count.push(row * ticks + 1);
        tables.time.push((3 * row * ticks) as i64 - 7_000);
        tables.rate.push(2_000);
    }
    tables
}

/// Breaks one rule of the segments at one row of such tables; what cannot be broken at that row at another.
pub fn break_row(tables: &mut Tables, rule: usize, row: usize) {
    let total = total(tables);
    let Tables { count, time, rate, .. } = tables;
    let last = count.len() - 1;
    let later = row.max(1);
    match rule {
        0 => count[later] = count[later - 1],
        1 => count[later] = count[later - 1] - 1,
        2 => count[last] = total + 1,
        3 => time[later] = time[later - 1],
        4 => time[later] = time[later - 1] - 1,
        5 => time[row] = -LATEST - 1,
        6 => (row..=last).for_each(|row| time[row] = LATEST + 1 + row as i64),
        7 => rate[row] = 999,
        8 => rate[row] = E15 + 1,
        9 => rate[row.min(last - 1)] = E15,
        _ => rate[last] = E15,
    }
}
