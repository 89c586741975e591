//! One fault at a time: at every row, and just not one.

use super::bases::{bases, Base};
use super::{accepted, Writer};
use crate::generate::catalogue::{plain, tables};
use crate::generate::tables::{msf, p, total};
use crate::script::Tables;
use crate::Layout;

/// "Adding nothing is allowed": equal tables, and each part of what the newer adds.
pub fn none(writer: &mut Writer) {
    for base in bases() {
        let Base { why, older, newer, total, longer, exchanged } = &base;
        let (total, longer) = (total.to_string(), longer.to_string());
        writer.pair(older, older, ("yes", &total), "equal tables");
        writer.pair(older, newer, ("yes", &total), why);
        let rows = older.start.len();
        // The partitions alone, one by one; the last end alone.
        for more in 0..=newer.start.len() - rows {
            let mut some = older.clone();
            some.start = newer.start[..rows + more].to_vec();
            some.end = newer.end[..rows + more].to_vec();
            writer.pair(older, &some, ("yes", &total), "partitions added, no segment");
            some.end[rows - 1] += 1;
            if accepted(&some) {
                writer.pair(older, &some, ("yes", &total), "the last end greater");
            }
        }
        // The segments one by one.
        for more in 1..=newer.count.len() - older.count.len() {
            let mut some = newer.clone();
            truncate(&mut some, older.count.len() + more);
            writer.pair(older, &some, ("yes", &total), "further segments");
            // The last as early as may be, from the second on.
            let last = some.time.len() - 1;
            some.time[last] = some.time[last - 1] + 1;
            if more > 1 && accepted(&some) {
                writer.pair(older, &some, ("yes", &total), "a further row steps back");
            }
        }
        for slot in [older.layout.n as usize, 9] {
            let mut spare = newer.clone();
            spare.layout.moduli[slot] = 7 + slot as u64;
            writer.pair(older, &spare, ("yes", &total), "another modulus after the n-th");
            spare.layout.offsets[slot] = 2_000;
            writer.pair(older, &spare, ("yes", &total), "another modulus and offset after the n-th");
        }
        writer.pair(newer, newer, ("yes", &longer), "equal tables");
        writer.pair(newer, older, (&format!("no partition {}", exchanged), "0"), "exchanged");
    }
}

pub fn layouts(writer: &mut Writer) {
    for base in bases() {
        let layout = base.older.layout;
        let n = layout.n as usize;
        let mut others = vec![];
        for delimiter in [layout.delimiter % 5 + 1, 5] {
            others.push(("another delimiter", Layout { delimiter, ..layout }));
        }
        for field in 0..n {
            let mut other = layout;
            other.offsets[field] = if layout.offsets[field] < 1_000 { layout.offsets[field] + 1 } else { 999 };
            others.push(("another offset", other));
            other.offsets[field] = 7;
            others.push(("another offset", other));
            let mut other = layout;
            other.moduli[field] += 1;
            others.push(("another modulus", other));
            other.moduli[field] = layout.moduli[field] - 1;
            others.push(("another modulus", other));
            let mut other = layout;
            other.moduli[field] = 2 * layout.moduli[field];
            others.push(("another modulus", other));
        }
        let mut other = Layout { n: layout.n + 1, ..layout };
        other.moduli[n] = 1;
        other.offsets[n] = 0;
        others.push(("a field more", other));
        for offset in [1, 2, 1_000] {
            other.offsets[n] = offset;
            others.push(("a field more, with an offset", other));
        }
        other.moduli = [1; 10];
        other.moduli[0] = p(&layout);
        others.push(("a field more, as many ticks in the first", Layout { offsets: [0; 10], ..other }));
        // A field less: what it had stands behind the n-th. As many fields and ticks, but other fields.
        if n > 1 {
            let mut other = layout;
            other.moduli[0] = layout.moduli[0] / 2;
            other.moduli[1] = layout.moduli[1] * 2;
            others.push(("as many ticks in other fields", other));
            other.offsets[0] += 1;
            others.push(("as many ticks in other fields, another offset", other));
            let mut other = Layout { n: layout.n - 1, ..layout };
            other.moduli[0] = p(&layout) / msf(&layout) * layout.moduli[n - 1];
            others.push(("a field less", other));
        }
        for (i, (why, layout)) in others.into_iter().enumerate() {
            let tables = if i % 3 == 0 { &base.older } else { &base.newer };
            let other = Tables { layout, ..tables.clone() };
            if accepted(&other) {
                writer.pair(&base.older, &other, ("no layout 0", "0"), why);
            }
        }
    }
}

pub fn partitions(writer: &mut Writer) {
    for base in bases() {
        let (older, newer) = (&base.older, &base.newer);
        let last = older.start.len() - 1;
        let mut ask = |other: &Tables, row: usize, why: &str| {
            if accepted(other) {
                writer.pair(older, other, (&format!("no partition {}", row), "0"), why);
            }
        };
        for row in 0..=last {
            for (tables, by) in [(newer, 1), (newer, u64::MAX), (newer, u64::MAX - 1), (older, 1), (older, u64::MAX)] {
                let mut other = tables.clone();
                other.start[row] = other.start[row].wrapping_add(by);
                ask(&other, row, "another start");
                let mut other = tables.clone();
                other.end[row] = older.end[row].wrapping_add(by);
                if row < last {
                    ask(&other, row, "another inner end");
                } else if by > 1 {
                    ask(&other, row, "the last end smaller");
                }
                // The length stays.
                let mut other = tables.clone();
                other.start[row] = other.start[row].wrapping_add(by);
                other.end[row] = other.end[row].wrapping_add(by);
                ask(&other, row, "another start and end");
            }
            // This row and the last.
            if row < last {
                let mut other = newer.clone();
                other.end[row] += 1;
                other.end[last] = older.end[last] - 1;
                ask(&other, row, "the first of two rows");
                other.end[last] = newer.end[last];
                other.start[last] += 1;
                ask(&other, row, "an inner end, and a later start");
                let mut other = newer.clone();
                other.end[row] -= 1;
                other.end[last] += 1;
                ask(&other, row, "an inner end smaller, the last end greater");
            } else {
                // The last end as small as the segments let it be, nearly.
                for by in [2, 5, 30] {
                    let mut other = newer.clone();
                    other.end[row] = older.end[row].saturating_sub(by);
                    ask(&other, row, "the last end smaller");
                }
            }
        }
        // Fewer rows, and the segments that fit them.
        for rows in 1..=last {
            let mut other = older.clone();
            other.start.truncate(rows);
            other.end.truncate(rows);
            let fits = other.count.iter().filter(|&&count| count <= total(&other)).count();
            truncate(&mut other, fits);
            ask(&other, rows, "fewer partitions");
            if fits > 1 {
                truncate(&mut other, 1);
                ask(&other, rows, "fewer partitions and segments");
            }
            // The last of them ends later: in the older it is an inner one.
            other.end[rows - 1] += 1;
            ask(&other, rows - 1, "fewer partitions, another inner end");
        }
    }
    // Row by row it is the older's last that may end later, not the newer's.
    let base = &bases()[0];
    let mut other = base.newer.clone();
    other.end[3] = 7;
    truncate(&mut other, 4);
    writer.pair(&base.older, &other, ("yes", "1500"), "the added partition is short");
    writer.pair(&base.newer, &base.newer, ("yes", "2549"), "equal tables");
    let mut other = base.newer.clone();
    other.end[2] = 451;
    other.end[3] = 998;
    writer.pair(&base.newer, &other, ("no partition 2", "0"), "another inner end, as long in all");
}

pub fn segments(writer: &mut Writer) {
    for base in bases() {
        let (older, newer) = (&base.older, &base.newer);
        let rows = older.count.len();
        let mut ask = |other: &Tables, row: usize, why: &str| {
            if accepted(other) {
                let count = other.count.get(row).map_or(u64::MAX, |&count| count);
                let horizon = base.total.min(count).min(older.count[row]);
                writer.pair(older, other, (&format!("no segment {}", row), &horizon.to_string()), why);
            }
        };
        for row in 0..rows {
            for (tables, by) in [(newer, 1), (newer, -1), (older, 50), (older, -50)] {
                let mut other = tables.clone();
                other.count[row] = other.count[row].wrapping_add(by as u64);
                ask(&other, row, if by > 0 { "a greater count" } else { "a smaller count" });
                let mut other = tables.clone();
                other.time[row] = other.time[row].saturating_add(by);
                ask(&other, row, "another time");
                let mut other = tables.clone();
                other.rate[row] = other.rate[row].wrapping_add(by as u64);
                ask(&other, row, "another rate");
            }
            let mut other = newer.clone();
            remove(&mut other, row);
            ask(&other, row, "a row left out");
            for tables in [older, newer] {
                let mut other = tables.clone();
                truncate(&mut other, row);
                ask(&other, row, "fewer rows");
            }
            let mut other = newer.clone();
            other.rate[row] += 1;
            other.time[rows - 1] += 1;
            other.count[rows - 1] += 1;
            ask(&other, row, "the first of two rows");
        }
    }
    // A row put in: its count is the newer's.
    for base in bases() {
        let (older, newer) = (&base.older, &base.newer);
        for row in 0..older.count.len() - 1 {
            let (count, time) = (older.count[row] + 1, older.time[row] + 1);
            let mut other = newer.clone();
            other.count.insert(row + 1, count);
            other.time.insert(row + 1, time);
            other.rate.insert(row + 1, older.rate[row]);
            if accepted(&other) {
                let no = format!("no segment {}", row + 1);
                writer.pair(older, &other, (&no, &count.min(base.total).to_string()), "a row put in");
            }
        }
    }
}

pub fn further(writer: &mut Writer) {
    for base in bases() {
        let (older, newer) = (&base.older, &base.newer);
        let last = older.count.len() - 1;
        let (no, total) = (format!("no further {}", last + 1), base.total);
        let mut ask = |other: &Tables, count: u64, why: &str| {
            if accepted(other) {
                let succeeds = if count > total { "yes" } else { &no };
                writer.pair(older, other, (succeeds, &count.min(total).to_string()), why);
            }
        };
        for (count, why) in [
            (total, "at the total"),
            (total - 1, "one below the total"),
            (older.count[last] + 1, "one above the last count"),
            (total / 2 + older.count[last] / 2, "below the total"),
            (total + 1, "one above the total"),
        ] {
            // Alone, under either partitions; before the others; and a second one behind it. It steps back, if it may.
            for (tables, rows, early) in [
                (older, 1, 0),
                (newer, 1, 0),
                (newer, 3, 0),
                (older, 2, 0),
                (newer, 2, 0),
                (newer, 2, 1),
                (older, 1, 1),
            ] {
                if early > 0 && count > total {
                    continue;
                }
                let mut other = tables.clone();
                truncate(&mut other, last + 1);
                let time = line(&other, last, count) - early;
                push(&mut other, count, time, newer.rate[last + 1]);
                if rows == 2 {
                    let time = line(&other, last + 1, count + 1);
                    push(&mut other, count + 1, time, newer.rate[last + 1]);
                }
                let above = newer.count.iter().position(|&more| more > count).unwrap_or(newer.count.len());
                for row in if rows == 3 { above } else { newer.count.len() }..newer.count.len() {
                    let time = newer.time[row].max(line(&other, other.count.len() - 1, newer.count[row]));
                    push(&mut other, newer.count[row], time, newer.rate[row]);
                }
                ask(&other, count, why);
            }
        }
    }
}

pub fn seams(writer: &mut Writer) {
    for base in bases() {
        let (older, newer) = (&base.older, &base.newer);
        let last = older.count.len() - 1;
        let (no, total) = (format!("no seam {}", last), base.total.to_string());
        let next = newer.count[last + 1];
        // Alone; with the others behind it; at other counts, alone.
        for (count, more) in [
            (next, 0),
            (next, newer.count.len()),
            (next + 1, 0),
            (next + 2, newer.count.len()),
            (next + 4, 0),
            (base.longer, 0),
        ] {
            let mut other = newer.clone();
            truncate(&mut other, more.max(last + 2));
            other.count[last + 1] = count;
            let line = line(&other, last, count);
            let mut times = vec![(-1, "one earlier"), (0, "where the line is"), (1, "one later")];
            if count == next {
                let early = older.time[last] + 1 - line;
                times.extend([(-2, "two earlier"), (-9, "nine earlier"), (70, "a gap"), (early, "as early as may be")]);
            }
            for (by, why) in times {
                other.time[last + 1] = line + by;
                if accepted(&other) {
                    let succeeds = if by < 0 { &no } else { "yes" };
                    writer.pair(older, &other, (succeeds, &total), why);
                }
            }
        }
    }
    // A line that is a part of a nanosecond above the next time, and one that is not.
    for (rate, down) in [(1_001, 101), (1_500, 151), (1_999, 201), (2_001, 202), (3_333, 336)] {
        let older = tables(plain(&[1_000]), &[(0, 100)], &[(0, 0, rate)]);
        for (time, succeeds) in [(down, "no seam 0"), (down + 1, "yes")] {
            let newer = tables(plain(&[1_000]), &[(0, 150)], &[(0, 0, rate), (101, time, rate)]);
            writer.pair(&older, &newer, (succeeds, "100"), "a part of a nanosecond");
        }
    }
}

/// A row's line at a count that is not below its own, rounded up.
pub fn line(tables: &Tables, row: usize, count: u64) -> i64 {
    let unit = 1_000 * u128::from(msf(&tables.layout));
    let product = u128::from(tables.rate[row]) * u128::from(count.saturating_sub(tables.count[row]));
    // Rounded down, and one more where something is left.
    let (whole, left) = (product / unit, product % unit);
    (i128::from(tables.time[row]) + whole as i128 + i128::from(left > 0)) as i64
}

pub fn truncate(tables: &mut Tables, rows: usize) {
    tables.count.truncate(rows);
    tables.time.truncate(rows);
    tables.rate.truncate(rows);
}

pub fn push(tables: &mut Tables, count: u64, time: i64, rate: u64) {
    tables.count.push(count);
    tables.time.push(time);
    tables.rate.push(rate);
}

fn remove(tables: &mut Tables, row: usize) {
    tables.count.remove(row);
    tables.time.remove(row);
    tables.rate.remove(row);
}
