//! `describe`: the tables as lines.

use super::kernel::Kernel;
use super::put;
use crate::time::round_up;

pub fn put(output: &mut String, kernel: &Kernel, clock: i64, seconds: bool) {
    let tables = &kernel.tables;
    let mut line = |fields: String| {
        *output += &fields;
        output.push('\n');
    };
    line(format!("clock\t{}", clock));
    line(format!("time system\t{}\t{}", kernel.time_system, if kernel.time_system == 1 { "TDB" } else { "TDT" }));
    let delimiter = tables.layout.delimiter;
    line(format!("delimiter\t{}\t{}", delimiter, [".", ":", "-", ",", " "][usize::from(delimiter) - 1]));
    let n = tables.layout.n as usize;
    for field in 0..n {
        line(format!("field\t{}\t{}\t{}", field + 1, tables.layout.moduli[field], tables.layout.offsets[field]));
    }
    let mut first = 0;
    for (row, (start, end)) in tables.start.iter().zip(&tables.end).enumerate() {
        line(format!("partition\t{}\t{}\t{}\t{}", row + 1, start, end, first));
        first += end - start;
    }
    let (mut gaps, mut backs) = (0, 0);
    for row in 0..tables.count.len() {
        let (time, rate) = (put::time(tables.time[row].into(), seconds), put::rate(tables.rate[row], seconds));
        let by = seam(kernel, row);
        gaps += u64::from(by > 0);
        backs += u64::from(by < 0);
        let size = put::time(by.abs(), seconds);
        let seam = match by.signum() {
            1 => format!("\tgap\t{}", size),
            -1 => format!("\tback\t{}", size),
            _ => String::new(),
        };
        line(format!("segment\t{}\t{}\t{}\t{}{}", row, tables.count[row], time, rate, seam));
    }
    line(format!("fields\t{}", n));
    line(format!("partitions\t{}", tables.start.len()));
    line(format!("total\t{}", first));
    line(format!("segments\t{}", tables.count.len()));
    line(format!("gaps\t{}", gaps));
    line(format!("steps back\t{}", backs));
}

/// "A row's line, rounded up to a nanosecond, at the next row's count": the next row's time less that; 0 behind the last row.
fn seam(kernel: &Kernel, row: usize) -> i128 {
    let tables = &kernel.tables;
    if row + 1 == tables.count.len() {
        return 0;
    }
    let msf: u64 = tables.layout.moduli[1..tables.layout.n as usize].iter().product();
    let ticks = u128::from(tables.count[row + 1] - tables.count[row]);
    let lasted = round_up(u128::from(tables.rate[row]) * ticks, u128::from(1_000 * msf)) as i128;
    i128::from(tables.time[row + 1]) - (i128::from(tables.time[row]) + lasted)
}
