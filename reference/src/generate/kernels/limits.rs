//! Tables at their limits and one beyond, as kernel text.

use super::draft::*;
use super::Writer;
use crate::generate::broken::*;
use crate::generate::tables::{p, sound};
use crate::script::Tables;
use crate::tally::first_fault;
use crate::{Layout, Segments};

const E15: u64 = 1_000_000_000_000_000;
const E12: u64 = 1_000_000_000_000;
const LATEST: i64 = Segments::LATEST;

pub fn all(writer: &mut Writer) {
    let a = super::table_a();
    layouts(writer, &a);
    partitions(writer);
    segments(writer);
    lines(writer);
    lengths(writer, &a);
    rules(writer);
    places(writer);
}

/// Any tables, with the rule they break.
fn ask(writer: &mut Writer, tables: &Tables) {
    let label = first_fault(tables);
    let draft = writer.of(tables);
    writer.draft(&label, &draft);
}

/// Sound but for the layout: one partition, one segment at its end.
fn with_layout(layout: Layout) -> Tables {
    Tables { layout, start: vec![0], end: vec![1], count: vec![1], time: vec![0], rate: vec![E15] }
}

fn layout(moduli: &[u64], offsets: &[u64], delimiter: u8) -> Layout {
    let (mut all_moduli, mut all_offsets) = ([0; 10], [0; 10]);
    all_moduli[..moduli.len()].copy_from_slice(moduli);
    all_offsets[..offsets.len()].copy_from_slice(offsets);
    Layout { n: moduli.len() as u64, moduli: all_moduli, offsets: all_offsets, delimiter }
}

fn layouts(writer: &mut Writer, a: &Tables) {
    for moduli in [
        &[2][..],
        &[E15],
        &[E15 + 1],
        &[1_000, E12],
        &[1_001, E12],
        &[2, E12],
        &[2, E12 + 1],
        &[1_000, 1_000_000, 1_000_000],
        &[1_000, 1_000_000, 1_000_001],
        &[1 << 32, 1 << 32],
        &[1 << 63, 2],
        &[2, (1 << 63) + 5],
        &[0],
        &[5, 0],
        &[0, 5],
        &[2; 10],
        &[31; 10],
        &[32, 31, 31, 31, 31, 31, 31, 31, 31, 31],
        &[37, 31, 31, 31, 31, 31, 31, 31, 31, 31],
    ] {
        ask(writer, &with_layout(layout(moduli, &[], 1)));
    }
    for offset in [0, 1, 999, 1_000, 1_001, 1_002, 65_536] {
        for field in 0..3 {
            let mut offsets = [0; 3];
            offsets[field] = offset;
            ask(writer, &with_layout(layout(&[3, 3, 3], &offsets, 2)));
        }
    }
    for delimiter in [0, 1, 2, 3, 4, 5, 6, 7, 32, 46, 255] {
        for _ in 0..2 {
            ask(writer, &with_layout(layout(&[10, 10], &[], delimiter)));
        }
    }
    // n and the lists' lengths.
    for (n, moduli, offsets, label) in [
        (0, 1, 1, "1: n is 0"),
        (0, 2, 2, "1: n is 0"),
        (0, 3, 3, "1: n is 0"),
        (0, 1, 2, "1: n is 0"),
        (0, 10, 10, "1: n is 0"),
        (1, 1, 1, "ok: n"),
        (1, 2, 2, "1: lists not n long"),
        (2, 1, 2, "1: lists not n long"),
        (2, 2, 1, "1: lists not n long"),
        (2, 1, 1, "1: lists not n long"),
        (2, 3, 2, "1: lists not n long"),
        (2, 2, 3, "1: lists not n long"),
        (2, 3, 3, "1: lists not n long"),
        (2, 2, 10, "1: lists not n long"),
        (2, 11, 2, "1: lists not n long"),
        (9, 9, 9, "ok: n"),
        (10, 10, 10, "ok: n"),
        (10, 9, 10, "1: lists not n long"),
        (10, 10, 9, "1: lists not n long"),
        (10, 11, 10, "1: lists not n long"),
        (10, 10, 11, "1: lists not n long"),
        (11, 11, 11, "1: n above 10"),
        (11, 10, 10, "1: n above 10"),
        (12, 12, 12, "1: n above 10"),
        (40, 40, 40, "1: n above 10"),
        (258, 2, 2, "1: n above 10"),
        (u64::MAX, 2, 2, "1: n above 10"),
    ] {
        for _ in 0..if label.starts_with("1: lists") { 3 } else { 4 } {
            let mut draft = writer.of(a);
            draft.set_of(FIELDS).values = vec![n.to_string()];
            draft.set_of(MODULI).values = vec!["2".to_string(); moduli];
            draft.set_of(MODULI).values[0] = "1000".to_string();
            draft.set_of(OFFSETS).values = vec!["0".to_string(); offsets];
            draft.set_of(COEFFICIENTS).values = ["0", "0", "1E-6"].map(str::to_string).to_vec();
            draft.lent = [moduli.min(10), offsets.min(10), 2, 2, 1, 1, 1];
            writer.draft(label, &draft);
        }
    }
}

fn partitions(writer: &mut Writer) {
    let (wide, thousand) = (layout(&[E15], &[], 1), layout(&[100, 10], &[], 1));
    for (layout, rows) in [
        (thousand, &[(0, 999)][..]),
        (thousand, &[(0, 1_000)]),
        (thousand, &[(998, 999)]),
        (thousand, &[(999, 999)]),
        (thousand, &[(0, 500), (500, 500)]),
        (thousand, &[(0, 500), (501, 500)]),
        (thousand, &[(0, 500), (0, 500), (0, 999)]),
        (thousand, &[(u64::MAX, 5)]),
        (thousand, &[(0, u64::MAX)]),
        (wide, &[(0, E15 - 1)]),
        (wide, &[(0, E15)]),
        (wide, &[(0, E15 - 1), (0, 1)]),
        (wide, &[(0, E15 - 1), (0, 2)]),
        (wide, &[(0, E15 - 1), (0, E15 - 1)]),
        (wide, &[(0, 500_000_000_000_000), (0, 500_000_000_000_001)]),
        (layout(&[1], &[], 1), &[(0, 0)]),
        (layout(&[2], &[], 1), &[(0, 1)]),
        (layout(&[2], &[], 1), &[(0, 2)]),
    ] {
        let (start, end) = rows.iter().copied().unzip();
        for _ in 0..2 {
            let (count, time, rate) = (vec![1], vec![-LATEST], vec![1_000_000]);
            ask(writer, &Tables { layout, start: Vec::clone(&start), end: Vec::clone(&end), count, time, rate });
        }
    }
}

fn segments(writer: &mut Writer) {
    for (layout, total) in
        [(layout(&[1_000, E12], &[], 1), E15 - 1), (layout(&[E15], &[], 1), E15 - 1), (layout(&[1_000], &[], 1), 999)]
    {
        let unit = 1_000 * if layout.n == 2 { E12 } else { 1 };
        let line = total as i64;
        for rows in [
            vec![(0, 0, unit)],
            vec![(0, 0, unit - 1)],
            vec![(0, 0, unit + 1)],
            vec![(total, 0, E15)],
            vec![(total, 0, E15 + 1)],
            vec![(total + 1, 0, unit)],
            vec![(u64::MAX, 0, unit)],
            vec![(0, -LATEST, unit)],
            vec![(0, -LATEST - 1, unit)],
            vec![(0, i64::MIN, unit)],
            vec![(total, LATEST, unit)],
            vec![(total, LATEST + 1, unit)],
            vec![(total, i64::MAX, unit)],
            vec![(0, LATEST - line, unit)],
            vec![(0, LATEST - line + 1, unit)],
            vec![(0, 0, unit), (0, 1, unit)],
            vec![(1, 0, unit), (0, 1, unit)],
            vec![(0, 0, unit), (1, 0, unit)],
            vec![(0, 1, unit), (1, 0, unit)],
            vec![(0, 0, unit), (2, 1, unit)],
            vec![(0, LATEST - 1, unit), (1, LATEST, unit)],
            vec![(0, -LATEST, unit), (total, LATEST, unit)],
            vec![(0, 0, unit), (total + 1, 1, unit)],
            vec![(0, 0, E15), (u64::MAX, 1, E15)],
        ] {
            let count = rows.iter().map(|row| row.0).collect();
            let time = rows.iter().map(|row| row.1).collect();
            let rate = rows.iter().map(|row| row.2).collect();
            ask(writer, &Tables { layout, start: vec![0], end: vec![total], count, time, rate });
        }
    }
}

/// Lines that end at 4×10^18 and a nanosecond later: a last one's, and one's that the next row overtakes.
fn lines(writer: &mut Writer) {
    for ticks in [2, 3, 4, 5, 6, 10, 99, 100, 500, 750, 998, 999] {
        for late in [0, 1] {
            let (from, time) = (999 - ticks as u64, LATEST - ticks + late);
            let one = Tables {
                layout: layout(&[1_000], &[], 1),
                start: vec![0],
                end: vec![999],
                count: vec![from],
                time: vec![time],
                rate: vec![1_000],
            };
            ask(writer, &one);
            let (count, time, rate) = (vec![from, 999], vec![time, LATEST], vec![1_000; 2]);
            ask(writer, &Tables { count, time, rate, ..one });
        }
    }
}

/// Partitions of unequal lists, and as many rows as a lent list can have.
fn lengths(writer: &mut Writer, a: &Tables) {
    for (starts, ends) in [(1, 2), (2, 1), (1, 3), (3, 1), (3, 2), (2, 3), (40, 39), (39, 40), (40, 1), (9, 8)] {
        for _ in 0..3 {
            let mut tables = Tables { start: vec![0; starts], end: vec![900; ends], ..a.clone() };
            tables.layout.delimiter = 1 + (starts as u8 + ends as u8) % 5;
            ask(writer, &tables);
        }
    }
    for rows in [10, 11, 39, 40] {
        let many = Tables { start: (0..rows).collect(), end: (0..rows).map(|row| 900 - row).collect(), ..a.clone() };
        ask(writer, &many);
        let many = Tables {
            count: (0..rows).collect(),
            time: (0..rows as i64).map(|row| row * 7 - 5).collect(),
            rate: (0..rows).map(|row| 10_000 + row).collect(),
            ..a.clone()
        };
        ask(writer, &many);
    }
}

/// Each rule of a row at the front, inside and at the end.
fn places(writer: &mut Writer) {
    for row in 0..3 {
        for rule in 0..ROW_RULES {
            let mut tables = long(3, rule);
            break_row(&mut tables, rule, row);
            ask(writer, &tables);
        }
        // A line in the second of four rows, whatever the row behind it does.
        let mut tables = long(4, 9);
        break_row(&mut tables, 9, 1);
        break_row(&mut tables, 3 * row + 1, 3);
        ask(writer, &tables);
        let mut tables = long(4, 9);
        break_row(&mut tables, 9, row);
        ask(writer, &tables);
        for (start, end) in [(8, 8), (9, 8), (3, E15), (0, E15 - 1)] {
            let mut tables = long(1, 0);
            (tables.start, tables.end) = (vec![3; 3], vec![20_000; 3]);
            (tables.start[row], tables.end[row]) = (start, end);
            ask(writer, &tables);
        }
    }
}

/// Random tables with each rule broken in turn.
fn rules(writer: &mut Writer) {
    for rule in 0..LAYOUT_RULES + PARTITION_RULES + SEGMENT_RULES {
        for _ in 0..24 {
            let tables = loop {
                let mut tables = sound(&mut writer.random);
                let wide = rule != LAYOUT_RULES + PARTITION_RULES - 1 || p(&tables.layout) > 600_000_000_000_000;
                if wide && (2..4).contains(&tables.count.len()) && tables.start.len() < 4 && tables.layout.n < 6 {
                    apply(writer, &mut tables, rule);
                    break tables;
                }
            };
            // A list has a value, and rows that are not whole come at the end only.
            let Tables { layout, start, end, count, time, rate } = &tables;
            let lists = layout.n > 0 && !start.is_empty() && !end.is_empty() && !count.is_empty();
            let rows = time.len() <= count.len() && rate.len() <= time.len() && count.len() <= rate.len() + 1;
            if lists && rows {
                ask(writer, &tables);
            }
        }
    }
}

fn apply(writer: &mut Writer, tables: &mut Tables, rule: usize) {
    let random = &mut writer.random;
    if rule < LAYOUT_RULES {
        break_layout(random, tables, rule);
    } else if rule < LAYOUT_RULES + PARTITION_RULES {
        break_partitions(random, tables, rule - LAYOUT_RULES);
    } else {
        break_segments(random, tables, rule - LAYOUT_RULES - PARTITION_RULES);
    }
}
