//! Tables as long as they may be, and longer.

use super::catalogue::longest;
use super::tables::total;
use super::writer::Writer;
use super::{packets, pairs, raw};
use crate::script::{Question, Tables, MOST_ENTRIES};
use crate::{Layout, Partitions, Segments};

const E15: u64 = 1_000_000_000_000_000;

pub fn all(writer: &mut Writer) {
    let (layout, ..) = crate::table_a();
    let mut tables = Tables { layout, ..Tables::new() };
    // 9,999 partitions of 1 to 4 ticks, 9,999 segments of 2 ticks.
    for row in 0..Partitions::MOST as u64 {
        tables.start.push(row * 7 % 500);
        tables.end.push(row * 7 % 500 + 1 + row % 4);
    }
    for row in 0..Segments::MOST as u64 - 1 {
        add_segment(&mut tables, row);
    }
    writer.load(&tables);
    questions(writer, 24);
    writer.apart(2, raw::most_partitions);
    writer.apart(7, packets::most_partitions);
    writer.apart(10, pairs::most_partitions);
    // The clock with the longest prints: stamps of 63 bytes at the front, of 66 at the end.
    writer.layout(&longest());
    for e in [0, total(&tables) - 1, total(&tables)] {
        for len in [62, 63, 65, 66, 67] {
            writer.ask(Question::PrintStamp { e, fill: 45, len });
        }
    }
    writer.layout(&layout);
    // The 10,000th segment, the 10,001st, and one that the lists do not hold.
    for row in Segments::MOST as u64 - 1..=MOST_ENTRIES as u64 {
        add_segment(&mut tables, row);
        let (count, time, rate) = last(&tables);
        if row < MOST_ENTRIES as u64 {
            writer.count(count);
            writer.time(time);
            writer.rate(rate);
        } else {
            writer.line(format!("count {}", count).as_bytes());
            writer.line(format!("time {}", time).as_bytes());
            writer.line(format!("rate {}", rate).as_bytes());
        }
        questions(writer, if row == Segments::MOST as u64 - 1 { 24 } else { 5 });
        let rows = writer.tables.count.len();
        writer.apart(11, |writer| match rows {
            Segments::MOST => pairs::most_segments(writer),
            _ => pairs::too_many_segments(writer, rows),
        });
    }
    // The same of partitions.
    for row in Partitions::MOST..=MOST_ENTRIES {
        if row < MOST_ENTRIES {
            writer.start(0);
            writer.end(1);
        } else {
            writer.line(b"start 0");
            writer.line(b"end 1");
        }
        questions(writer, 3);
        let rows = writer.tables.start.len();
        writer.apart(3, |writer| raw::too_many_partitions(writer, rows));
        writer.apart(8, |writer| packets::too_many_partitions(writer, rows));
        writer.apart(12, |writer| pairs::too_many_partitions(writer, rows));
    }
    writer.apart(13, pairs::older_of_too_many);
    writer.segments(Segments { count: &[0], time: &[0], rate: &[10_000] });
    questions(writer, 2);
    // 9,999 lengths of 10^15 - 1, which add up to nearly 10^19.
    writer.layout(&Layout { n: 1, moduli: [E15; 10], offsets: [0; 10], delimiter: 1 });
    writer.partitions(Partitions { start: &[0; Partitions::MOST], end: &[E15 - 1; Partitions::MOST] });
    questions(writer, 3);
    // Short ones again.
    writer.partitions(Partitions { start: &[0], end: &[E15 - 1] });
    questions(writer, 2);
}

fn add_segment(tables: &mut Tables, row: u64) {
    tables.count.push(2 * row);
    tables.time.push(10 * row as i64 + row as i64 % 3 - 50_000);
    tables.rate.push(10_000 + row % 64 * 300);
}

fn last(tables: &Tables) -> (u64, i64, u64) {
    let row = tables.count.len() - 1;
    (tables.count[row], tables.time[row], tables.rate[row])
}

fn questions(writer: &mut Writer, each: usize) {
    for _ in 0..each {
        writer.each_question();
    }
}
