//! Random pairs.

use super::faults::{line, push, truncate};
use super::{accepted, Writer};
use crate::generate::broken::*;
use crate::generate::tables::{msf, p, sound, total};
use crate::random::Random;
use crate::script::{Question, Tables};
use crate::{Layout, Partitions, Segments};

impl Writer {
    /// An older table, then newer ones, in the main with a fault or two; sometimes tables that are refused, or a bad line between.
    pub fn any_pairs(&mut self, most: usize) {
        let older = match self.random.below(4) {
            // What is in force, or was the newer one.
            0 if self.tables.start.len() < 7 && self.tables.count.len() < 9 && accepted(&self.tables) => {
                self.tables.clone()
            }
            1 | 2 => small(&mut self.random),
            _ => short(&mut self.random),
        };
        let mut first = older.clone();
        if self.random.chance(12) {
            break_any(&mut self.random, &mut first);
        }
        self.load_older(&first);
        for _ in 0..1 + self.random.below(2 * most) {
            let newer = self.any_newer(&older);
            self.load(&newer);
            if self.random.below(60) == 0 {
                self.any_bad_pair_line();
            }
            self.labelled("at random", Question::Succeeds);
            self.labelled("at random", Question::Horizon);
        }
    }

    fn any_newer(&mut self, older: &Tables) -> Tables {
        let random = &mut self.random;
        for _ in 0..40 {
            let mut newer = if random.chance(80) { longer(random, older) } else { older.clone() };
            for _ in 0..random.pick(&[0, 0, 1, 1, 1, 2, 3]) {
                edit(random, &mut newer, older);
            }
            if random.chance(12) {
                break_any(random, &mut newer);
                return newer;
            }
            if accepted(&newer) {
                return newer;
            }
        }
        older.clone()
    }
}

/// Small numbers, so that lines and counts often meet.
fn small(random: &mut Random) -> Tables {
    loop {
        let mut tables = Tables::new();
        let n = random.between(1, 3) as usize;
        tables.layout =
            Layout { n: n as u64, moduli: [0; 10], offsets: [0; 10], delimiter: random.between(1, 5) as u8 };
        for field in 0..n {
            tables.layout.moduli[field] = random.between(1, 12);
            tables.layout.offsets[field] = random.pick(&[0, 0, 1, 5, 999, 1_000]);
        }
        if p(&tables.layout) < 3 {
            continue;
        }
        let rows = random.between(1, 4);
        add_partitions(random, &mut tables, rows);
        let first = random.between(0, total(&tables));
        let rate = rate(random, &tables);
        push(&mut tables, random.pick(&[0, 0, 0, first]), random.between(0, 100) as i64 - 50, rate);
        let (more, highest) = (random.between(0, 3), total(&tables));
        add_segments(random, &mut tables, 0, highest, more);
        if accepted(&tables) {
            return tables;
        }
    }
}

/// Of any size, but of few rows.
fn short(random: &mut Random) -> Tables {
    loop {
        let tables = sound(random);
        if tables.start.len() < 7 && tables.count.len() < 7 {
            return tables;
        }
    }
}

/// A newer table that keeps the older's rows, if there is room for one; it may step back at the seam.
fn longer(random: &mut Random, older: &Tables) -> Tables {
    let mut tables = older.clone();
    let last = older.end.len() - 1;
    let room = |tables: &Tables| Partitions::LARGEST_TOTAL - total(tables);
    if random.chance(50) {
        let most = (p(&tables.layout) - 1 - tables.end[last]).min(room(&tables));
        tables.end[last] += random.magnitude(most);
    }
    if random.chance(60) && room(&tables) > 8 {
        let rows = random.between(1, 2);
        add_partitions(random, &mut tables, rows);
    }
    let (more, highest) = (random.between(0, 3), total(&tables));
    add_segments(random, &mut tables, total(older) + 1, highest, more);
    tables
}

/// Within what a total may be.
fn add_partitions(random: &mut Random, tables: &mut Tables, rows: u64) {
    for _ in 0..rows {
        let left = Partitions::LARGEST_TOTAL - total(tables);
        let start = random.between(0, p(&tables.layout) - 2);
        let longest = (p(&tables.layout) - 1 - start).min(left.saturating_sub(8)).max(1);
        let (any, small) = (random.between(1, longest), random.magnitude(longest).max(1));
        tables.start.push(start);
        tables.end.push(start + random.pick(&[any, small, longest]));
    }
}

/// Behind the last one, with counts in the range; where the last line is, around it or far off.
fn add_segments(random: &mut Random, tables: &mut Tables, lowest: u64, highest: u64, rows: u64) {
    for _ in 0..rows {
        let last = tables.count.len() - 1;
        let from = lowest.max(tables.count[last].saturating_add(1));
        if from > highest {
            return;
        }
        let (any, near) = (random.between(from, highest), from + random.magnitude(highest - from));
        let count = random.pick(&[from, any, near, near]);
        let rate = rate(random, tables);
        let by = random.magnitude(1 << 30) as i64;
        let shift = random.pick(&[0, 0, 0, 1, -1, -1, -2, by, by, -by]);
        let time = line(tables, last, count).saturating_add(shift).max(tables.time[last].saturating_add(1));
        push(tables, count, time, rate);
    }
}

fn rate(random: &mut Random, tables: &Tables) -> u64 {
    let unit = 1_000 * msf(&tables.layout);
    let more = random.between(0, unit / 2);
    (unit + random.pick(&[0, 0, 1, unit / 2, unit, more])).min(Segments::LARGEST_RATE)
}

/// One change, which may be a fault.
fn edit(random: &mut Random, tables: &mut Tables, older: &Tables) {
    let n = tables.layout.n as usize;
    // Rows of the older's, in the main.
    let row = random.below(older.start.len().min(tables.start.len()));
    let segment = random.below(older.count.len().min(tables.count.len()));
    let next = older.count.len();
    let by = random.pick(&[1, 1, 2, 40]);
    let by = if random.chance(50) { by } else { -by };
    match random.below(24) {
        0 => tables.layout.delimiter = random.between(1, 5) as u8,
        1 => {
            let offset = &mut tables.layout.offsets[random.below(n)];
            *offset = random.near(*offset);
        }
        2 => {
            let modulus = &mut tables.layout.moduli[random.below(n)];
            *modulus = random.near(*modulus).max(1);
        }
        3 if n < 10 => {
            tables.layout.n += 1;
            tables.layout.moduli[n] = 1;
            tables.layout.offsets[n] = random.pick(&[0, 1]);
        }
        4 if n < 10 => {
            let slot = random.between(n as u64, 9) as usize;
            tables.layout.moduli[slot] = random.word();
            tables.layout.offsets[slot] = random.word();
        }
        5 | 6 => tables.start[row] = tables.start[row].wrapping_add(by as u64),
        7 | 8 => tables.end[row] = tables.end[row].wrapping_add(by as u64),
        9 => {
            if let Some(end) = tables.end.get_mut(older.end.len() - 1) {
                *end = older.end[older.end.len() - 1].wrapping_add(by as u64);
            }
        }
        10 | 11 => {
            let rows = random.between(1, older.start.len() as u64) as usize;
            tables.start.truncate(rows);
            tables.end.truncate(rows);
            let fits = tables.count.iter().filter(|&&count| count <= total(tables)).count();
            truncate(tables, fits.max(1));
        }
        12 | 13 => tables.count[segment] = tables.count[segment].wrapping_add(by as u64),
        14 => tables.time[segment] = tables.time[segment].saturating_add(by),
        15 => tables.rate[segment] = tables.rate[segment].wrapping_add(by as u64),
        16 => truncate(tables, random.between(1, next as u64) as usize),
        17..=20 => {
            // Behind the older's rows, up to its total and around it.
            truncate(tables, next);
            let (lowest, edge) = (older.count[next - 1] + 1, total(older));
            let highest = random.pick(&[edge, edge, edge + 1, total(tables)]).min(total(tables));
            let from = random.pick(&[lowest, edge.saturating_sub(1).max(lowest), edge.max(lowest)]);
            if tables.count.len() == next {
                add_segments(random, tables, from, highest, by.unsigned_abs().min(2));
            }
        }
        _ => {
            // Around the seam.
            if next < tables.count.len() {
                let at = line(tables, next - 1, tables.count[next].max(tables.count[next - 1]));
                let early = random.pick(&[-1, -1, 0, 1, by]);
                tables.time[next] = at.saturating_add(early);
                for row in next + 1..tables.time.len() {
                    tables.time[row] = tables.time[row].max(tables.time[row - 1].saturating_add(1));
                }
            }
        }
    }
}

fn break_any(random: &mut Random, tables: &mut Tables) {
    match random.below(6) {
        0 => {
            let rule = random.below(LAYOUT_RULES);
            break_layout(random, tables, rule);
        }
        1 | 2 => {
            let rule = random.below(PARTITION_RULES);
            break_partitions(random, tables, rule);
        }
        _ => {
            let rule = random.below(SEGMENT_RULES);
            break_segments(random, tables, rule);
        }
    }
}
