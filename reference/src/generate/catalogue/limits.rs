//! Every limit of the tables, and one beyond it.

use super::{layout, plain, tables};
use crate::generate::broken::WRAPPING;
use crate::generate::writer::Writer;
use crate::script::{Question, Tables};
use crate::{Layout, Segments};

const E15: u64 = 1_000_000_000_000_000;
const E12: u64 = 1_000_000_000_000;
const LATEST: i64 = Segments::LATEST;

pub fn all(writer: &mut Writer) {
    layouts(writer);
    partitions(writer);
    segments(writer);
    times(writer);
}

fn layouts(writer: &mut Writer) {
    let ones = [1; 10];
    let mut layouts: Vec<Layout> = vec![];
    for moduli in [
        &[0][..],
        &[1],
        &[2],
        &[E15 - 1],
        &[E15],
        &[E15 + 1],
        &[u64::MAX],
        &[1 << 63],
        &[1, E12 - 1],
        &[1, E12],
        &[1, E12 + 1],
        &[999, E12],
        &[1_000, E12],
        &[1_001, E12],
        &[1_000, E12 + 1],
        &[E15, 1],
        &[E15 + 1, 1],
        &[E15, 2],
        &[1, 1, E12 + 1],
        &[u64::MAX, u64::MAX],
        &[1 << 16, 1 << 48],
        &[5, (1 << 63) + 3, 2],
        &[1, (1 << 63) + 3, 2],
        &[0, 5],
        &[5, 0],
        &[1 << 32, 1 << 32, 0],
        &[0, 1 << 32, 1 << 32],
        &[1_000, 1_000_000, 1_000_000],
        &[1_000, 1_000_001, 1_000_000],
        &[1_001, 1_000_000, 1_000_000],
        &[31, 31, 31, 31, 31, 31, 31, 31, 31, 31],
        &[32, 31, 31, 31, 31, 31, 31, 31, 31, 31],
        &[37, 31, 31, 31, 31, 31, 31, 31, 31, 31],
        &ones,
    ] {
        layouts.push(plain(moduli));
    }
    layouts.extend(WRAPPING.iter().map(|&(first, second)| plain(&[first, second])));
    for n in [0, 1, 9, 10, 11, 12, 100, 1 << 32, (1 << 32) + 1, u64::MAX] {
        layouts.push(Layout { n, moduli: [2; 10], offsets: [0; 10], delimiter: 1 });
    }
    for field in 0..10 {
        for offset in [999, 1_000, 1_001, u64::MAX] {
            for n in [field as u64, field as u64 + 1] {
                let mut offsets = [0; 10];
                offsets[field] = offset;
                layouts.push(Layout { n, moduli: [2; 10], offsets, delimiter: 2 });
            }
        }
        for n in [field as u64, field as u64 + 1] {
            let mut moduli = [3; 10];
            moduli[field] = 0;
            layouts.push(Layout { n, moduli, offsets: [1; 10], delimiter: 3 });
        }
    }
    for delimiter in [0, 1, 2, 3, 4, 5, 6, 7, 46, 255] {
        layouts.push(layout(&[10, 10], &[0, 0], delimiter));
    }
    for layout in layouts {
        writer.layout(&layout);
        writer.any_text();
        writer.any_print_count();
        writer.ask(Question::ReadText(b"1001"));
    }
}

fn partitions(writer: &mut Writer) {
    let wide = plain(&[E15]);
    let thousand = plain(&[100, 10]);
    for (layout, rows) in [
        (plain(&[1]), &[(0, 0)][..]),
        (plain(&[1]), &[(0, 1)]),
        (plain(&[2]), &[(0, 1)]),
        (plain(&[2]), &[(0, 2)]),
        (plain(&[2]), &[(1, 1)]),
        (plain(&[3]), &[(1, 2), (0, 1), (0, 2)]),
        (thousand, &[(0, 999)]),
        (thousand, &[(0, 1_000)]),
        (thousand, &[(998, 999)]),
        (thousand, &[(999, 999)]),
        (thousand, &[(999, 998)]),
        (thousand, &[(0, 5), (6, 5), (0, 900)]),
        (thousand, &[(0, 5), (5, 5)]),
        (thousand, &[(u64::MAX, 5)]),
        (thousand, &[(u64::MAX, u64::MAX)]),
        (thousand, &[(0, u64::MAX)]),
        (thousand, &[(0, 500), (0, 500), (0, 500)]),
        (thousand, &[(0, 500), (500, 900), (900, 999)]),
        (thousand, &[(500, 900), (0, 999), (0, 1)]),
        (wide, &[(0, E15 - 1)]),
        (wide, &[(0, E15)]),
        (wide, &[(0, E15 - 1), (0, 1)]),
        (wide, &[(0, E15 - 1), (0, 2)]),
        (wide, &[(0, 1), (0, E15 - 1)]),
        (wide, &[(0, E15 - 1), (E15 - 2, E15 - 1)]),
        (wide, &[(0, E15 - 1), (0, E15 - 1)]),
        (wide, &[(0, 500_000_000_000_000), (0, 500_000_000_000_000)]),
        (wide, &[(0, 500_000_000_000_000), (0, 500_000_000_000_001)]),
        (wide, &[]),
    ] {
        writer.load(&tables(layout, rows, &[(0, 0, 1_000_000)]));
        ask(writer, 3);
        if let Some(&(start, end)) = rows.last() {
            for count in [start.wrapping_sub(1), start, end, end.wrapping_add(1)] {
                writer.ask(Question::ReadStamp(format!("0.{}", count).as_bytes()));
                writer.ask(Question::ReadStamp(format!("{}/{}", rows.len(), count).as_bytes()));
            }
        }
    }
}

/// Segments at their limits, for clocks with the smallest and the largest MSF.
fn segments(writer: &mut Writer) {
    for (layout, total) in [(plain(&[1_000, E12]), E15 - 1), (plain(&[E15]), E15 - 1), (plain(&[1_000]), 999)] {
        let unit = 1_000 * if layout.n == 2 { E12 } else { 1 };
        let line = total as i64;
        for rows in [
            vec![(0, 0, unit)],
            vec![(0, 0, unit - 1)],
            vec![(0, 0, unit + 1)],
            vec![(0, 0, E15)],
            vec![(0, 0, E15 + 1)],
            vec![(total, 0, E15)],
            vec![(total, 0, E15 + 1)],
            vec![(total + 1, 0, unit)],
            vec![(u64::MAX, 0, unit)],
            vec![(0, -LATEST, unit)],
            vec![(0, -LATEST - 1, unit)],
            vec![(0, i64::MIN, unit)],
            vec![(total, LATEST, unit)],
            vec![(total, LATEST + 1, unit)],
            vec![(total, i64::MAX, unit)],
            vec![(total - 1, LATEST, unit)],
            vec![(total - 1, LATEST - 1, unit)],
            vec![(0, LATEST - line, unit)],
            vec![(0, LATEST - line + 1, unit)],
            vec![(0, LATEST - line, unit + 1)],
            vec![(0, 0, unit), (0, 1, unit)],
            vec![(1, 0, unit), (0, 1, unit)],
            vec![(0, 0, unit), (1, 0, unit)],
            vec![(0, 1, unit), (1, 0, unit)],
            vec![(0, 0, unit), (1, 1, unit)],
            vec![(0, 0, unit), (2, 1, unit)],
            vec![(0, 0, unit), (total, 1, unit)],
            vec![(0, LATEST - 1, unit), (1, LATEST, unit)],
            vec![(0, -LATEST, unit), (total, LATEST, unit)],
            vec![(0, -LATEST, unit), (total - 1, LATEST - 1, unit)],
            vec![(0, 0, unit), (total + 1, 1, unit)],
            vec![(0, 0, unit), (u64::MAX, 1, unit)],
            vec![(0, 0, E15), (u64::MAX, 1, E15)],
            vec![(0, i64::MIN, unit), (1, i64::MAX, unit)],
            vec![(u64::MAX - 1, 0, unit), (u64::MAX, 1, unit)],
            vec![],
        ] {
            writer.load(&tables(layout, &[(0, total)], &rows));
            ask(writer, 2);
            writer.ask(Question::TimeOf(total));
            writer.ask(Question::CountAt(LATEST));
        }
    }
    lines(writer);
}

/// Lines that end at 4×10^18 and a nanosecond later, with a rest and without; inner lines that the next row overtakes.
fn lines(writer: &mut Writer) {
    let ten = plain(&[10]);
    for (rate, ticks) in [(1_500, 3), (1_001, 9), (1_000, 9), (2_500, 4), (999_999, 7)] {
        let line = ((rate * ticks + 999) / 1_000) as i64;
        for late in [-1, 0, 1] {
            writer.load(&tables(ten, &[(0, ticks)], &[(0, LATEST - line + late, rate)]));
            ask(writer, 1);
            writer.ask(Question::TimeOf(ticks));
            let first = (0, LATEST - line + late, rate);
            writer.load(&tables(ten, &[(0, ticks)], &[first, (ticks, LATEST - line + 2, 1_000)]));
            ask(writer, 1);
            writer.ask(Question::TimeOf(ticks));
        }
    }
    let wide = plain(&[E15, 1]);
    for rate in [100_000_000_000_000, 100_000_000_000_001, E15] {
        writer.load(&tables(wide, &[(0, E15 - 1)], &[(0, 0, rate), (40_000_000, 1, 1_000)]));
        ask(writer, 2);
    }
    // A tick of 8,000 ns over the whole range.
    for rate in [8_000_000, 8_000_001] {
        writer.load(&tables(plain(&[E15]), &[(0, E15 - 1), (0, 1)], &[(0, -LATEST, rate)]));
        ask(writer, 2);
        for number in [0, 1, E15 - 1, E15, E15 + 1] {
            writer.ask(Question::TimeOf(number));
        }
    }
}

/// Times at the ends of the range, in tables that reach them.
fn times(writer: &mut Writer) {
    let whole = tables(plain(&[E15]), &[(0, E15 - 1), (0, 1)], &[(0, -LATEST, 8_000_000)]);
    let early = tables(plain(&[1_000, E12]), &[(0, E15 - 1)], &[(0, -LATEST, E15)]);
    let late = tables(plain(&[100]), &[(0, 99)], &[(5, LATEST - 94, 1_000)]);
    let zero = tables(plain(&[100]), &[(0, 99)], &[(0, 0, 1_000), (50, 1_000, 1_500)]);
    for tables in [whole, early, late, zero] {
        writer.load(&tables);
        for t in [
            i64::MIN,
            i64::MIN + 1,
            -LATEST - 1,
            -LATEST,
            -LATEST + 1,
            -LATEST + 7_999,
            -LATEST + 8_000,
            -1,
            0,
            1,
            49,
            50,
            51,
            LATEST - 8_000,
            LATEST - 95,
            LATEST - 94,
            LATEST - 93,
            LATEST - 1,
            LATEST,
            LATEST + 1,
            i64::MAX - 1,
            i64::MAX,
        ] {
            writer.ask(Question::CountAt(t));
        }
        for e in [0, 1, 4, 5, 6, 49, 50, 51, 98, 99, 100, E15 - 1, E15, E15 + 1, u64::MAX] {
            writer.ask(Question::TimeOf(e));
        }
    }
    ticks(writer);
}

/// Every tick and every nanosecond of small tables with gaps and steps back.
fn ticks(writer: &mut Writer) {
    let all: Vec<Tables> = vec![
        tables(plain(&[5, 3]), &[(0, 14)], &[(0, 0, 4_000), (5, 9, 3_001), (9, 10, 7_000)]),
        tables(plain(&[20]), &[(2, 9), (0, 5)], &[(1, -9, 1_000), (2, -8, 2_500), (7, 4, 1_999), (12, 20, 1_000)]),
        tables(plain(&[5, 3]), &[(0, 14)], &[(3, -20, 9_000), (4, -10, 3_000), (8, -9, 3_000)]),
    ];
    for tables in all {
        writer.load(&tables);
        for e in 0..17 {
            writer.ask(Question::TimeOf(e));
        }
        for t in -22..32 {
            writer.ask(Question::CountAt(t));
        }
    }
}

fn ask(writer: &mut Writer, each: usize) {
    for _ in 0..each {
        writer.each_question();
    }
}
