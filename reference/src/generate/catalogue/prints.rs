//! Prints: widths, offsets, delimiters, and buffers of every length around the print's.

use super::{layout, plain, tables};
use crate::generate::writer::Writer;
use crate::script::{Question, MOST_LEN};
use crate::{print_count, print_stamp, Layout};

const E15: u64 = 1_000_000_000_000_000;
const E12: u64 = 1_000_000_000_000;

pub fn all(writer: &mut Writer) {
    for delimiter in 1..=5 {
        for (moduli, offsets) in [
            (&[100, 10][..], &[0, 0][..]),
            (&[10], &[1]),
            (&[10, 10], &[1, 1_000]),
            (&[2, 1_000], &[9, 1]),
            (&[1, 1, 1], &[0, 9, 10]),
            (&[9, 10, 11], &[0, 0, 0]),
            (&[99, 100, 101], &[1, 1, 1]),
            (&[999, 1_000, 1_001], &[1, 2, 3]),
            (&[10, 10, 10, 10, 10, 10, 10, 10, 10, 10], &[1_000; 10]),
        ] {
            writer.layout(&layout(moduli, offsets, delimiter));
            let p: u64 = moduli.iter().product();
            for count in [0, 1, p / 3, p - 1, p] {
                buffers(writer, count, if delimiter == 1 { 1 } else { 4 });
            }
        }
    }
    widths(writer);
    largest_shown(writer);
    around_powers(writer);
    side_by_side(writer);
    stamps(writer);
    wider_stamps(writer);
}

/// Every length from none to two more than the print, or those near it.
fn buffers(writer: &mut Writer, count: u64, step: usize) {
    let layout = writer.tables.layout;
    let print = print_count(&layout, count, &mut [0; MOST_LEN]).unwrap_or(3);
    for len in (0..print + 3).filter(|len| len % step == 0 || (print - 1..=print + 1).contains(len)) {
        let fill = writer.random.word() as u8;
        writer.ask(Question::PrintCount { count, fill, len });
    }
}

/// Moduli around powers of ten: with offset 0 the width is that of modulus - 1, with offset 1 that of modulus.
fn widths(writer: &mut Writer) {
    let mut power = 1;
    while power <= E15 {
        for modulus in [power - 1, power, power + 1] {
            if (1..=E15).contains(&modulus) {
                writer.layout(&plain(&[modulus]));
                for count in [0, modulus / 2, modulus - 1, modulus] {
                    writer.ask(Question::PrintCount { count, fill: 35, len: 18 });
                }
                if modulus <= E12 {
                    writer.layout(&layout(&[2, modulus], &[0, 1], 2));
                    for count in [0, modulus - 1, modulus, 2 * modulus - 1, 2 * modulus] {
                        writer.ask(Question::PrintCount { count, fill: 35, len: 20 });
                    }
                }
            }
        }
        power *= 10;
    }
}

/// One byte too few and just enough.
fn fitting(writer: &mut Writer, counts: &[u64]) {
    let layout = writer.tables.layout;
    for &count in counts {
        let print = print_count(&layout, count, &mut [0; MOST_LEN]).unwrap_or(3);
        for len in [print - 1, print] {
            writer.ask(Question::PrintCount { count, fill: 46, len });
        }
    }
}

/// Request 2: modulus 10 with offset 1 shows 1 to 10. All of its counts, and those of smaller moduli.
fn largest_shown(writer: &mut Writer) {
    for (modulus, offsets) in [
        (10, &[1][..]),
        (9, &[1, 2]),
        (3, &[7, 8]),
        (2, &[8, 9, 98, 99, 998, 999]),
        (1, &[0, 1, 9, 10, 99, 100, 999, 1_000]),
    ] {
        for &offset in offsets {
            writer.layout(&layout(&[modulus], &[offset], 1));
            fitting(writer, &(0..modulus).collect::<Vec<_>>());
        }
    }
    writer.layout(&longest());
    fitting(writer, &[0, 1, E15 - 1_001, E15 - 1_000, E15 - 1]);
}

/// A clock with the longest prints, of 61 bytes.
pub fn longest() -> Layout {
    layout(&[E15, 1, 1, 1, 1, 1, 1, 1, 1, 1], &[1_000; 10], 3)
}

/// The largest shown number, modulus + offset - 1, is a power of ten, one less or one more. At the power modulus - 1 is
/// shorter; at one less modulus + offset is longer.
fn around_powers(writer: &mut Writer) {
    let mut power = 10;
    while power <= E15 {
        for offset in [1, 2, 10, 1_000] {
            for largest in [power - 1, power, power + 1] {
                let modulus = (largest + 1).saturating_sub(offset);
                if modulus < 1 || modulus > E15 {
                    continue;
                }
                if offset != 2 && 3 * modulus <= E12 {
                    // Between narrow fields.
                    writer.layout(&layout(&[2, modulus, 3], &[9, offset, 0], 2));
                    fitting(writer, &[0, 6 * modulus - 1]);
                } else {
                    writer.layout(&layout(&[modulus], &[offset], 1));
                    fitting(writer, &[0, modulus - 1]);
                }
            }
        }
        power *= 10;
    }
}

/// Fields of different widths side by side, made so by the modulus, by the offset and by both.
fn side_by_side(writer: &mut Writer) {
    for (moduli, offsets) in [
        (&[2, 1_000][..], &[0, 0][..]),
        (&[1_000, 2], &[0, 0]),
        (&[2, 1_000, 2], &[0, 0, 0]),
        (&[1_000, 2, 1_000], &[0, 0, 0]),
        (&[2, 2], &[0, 999]),
        (&[2, 2], &[999, 0]),
        (&[2, 2, 2], &[0, 99, 9]),
        (&[2, 2, 2], &[9, 999, 0]),
        (&[1_000, 2], &[1, 9]),
        (&[10, 100], &[1, 1]),
        (&[100, 10], &[1, 1]),
        (&[1, 10, 100, 1_000], &[1, 1, 1, 1]),
        (&[1_000, 100, 10, 1], &[1, 1, 1, 1]),
        (&[1, 2, 1, 2, 1, 2, 1, 2, 1, 2], &[0, 9, 10, 0, 1_000, 99, 1, 999, 0, 8]),
    ] {
        let p: u64 = moduli.iter().product();
        writer.layout(&layout(moduli, offsets, 1 + (p % 5) as u8));
        fitting(writer, &[0, 1, p / 2, p - 1]);
    }
}

/// Partition numbers of one and more digits; inner ends, the total; offsets that make fields wider.
fn stamps(writer: &mut Writer) {
    let rows: Vec<(u64, u64)> = (0..120).map(|row| (row % 7, row % 7 + 1 + row % 3)).collect();
    writer.load(&tables(layout(&[10, 3], &[1, 9], 4), &rows, &[(0, 0, 3_000)]));
    let mut sum = 0;
    for (row, (start, end)) in rows.iter().enumerate() {
        if row < 12 || row > 97 && row < 102 || row > 117 {
            for e in [sum, sum + 1] {
                fitting_stamp(writer, e);
            }
        }
        sum += end - start;
    }
    for e in [sum - 1, sum, sum + 1, u64::MAX] {
        for len in 0..12 {
            writer.ask(Question::PrintStamp { e, fill: 255, len });
        }
        writer.ask(Question::PrintStamp { e, fill: 0, len: MOST_LEN });
    }
}

/// The same of a stamp.
fn fitting_stamp(writer: &mut Writer, e: u64) {
    let (layout, partitions) = (writer.tables.layout, writer.tables.partitions());
    let print = print_stamp(&layout, partitions, e, &mut [0; MOST_LEN]).unwrap_or(3);
    for len in [print - 1, print] {
        writer.ask(Question::PrintStamp { e, fill: 46, len });
    }
}

/// Fields that are wider by their offsets, behind a partition's number, which is not.
fn wider_stamps(writer: &mut Writer) {
    for (layout, rows) in [
        (layout(&[10], &[1], 1), &[(0, 9); 11][..]),
        (layout(&[2], &[9], 1), &[(0, 1); 11]),
        (layout(&[2, 1_000], &[9, 1], 2), &[(0, 1_999), (998, 1_001)]),
        (layout(&[1_000, 2], &[1, 9], 5), &[(0, 1_999), (1, 2)]),
        (layout(&[1, 10, 1], &[1_000, 1, 0], 3), &[(0, 9), (8, 9), (3, 4)]),
        (longest(), &[(0, 2), (E15 - 1_002, E15 - 999), (E15 - 2, E15 - 1)]),
    ] {
        writer.load(&tables(layout, rows, &[(0, 0, 1_000_000)]));
        let mut sum = 0;
        for (start, end) in rows {
            for e in [sum, sum + 1, sum + (end - start) / 2] {
                fitting_stamp(writer, e);
            }
            sum += end - start;
        }
        fitting_stamp(writer, sum - 1);
        fitting_stamp(writer, sum);
    }
}
