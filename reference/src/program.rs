//! "The stamp program", as a function over bytes.

use crate::text::LONGEST_TEXT;
use crate::{read_stamp, time_of, Layout, Partitions, Refusal, Segments};

/// "Table A: moduli 100, 10; offsets 0; delimiter 1. Partitions 0..500 and 200..900 [..]. Segments (0, -1000, 25,000)
/// and (600, 1000, 30,000)."
pub fn table_a() -> (Layout, Partitions<'static>, Segments<'static>) {
    let layout = Layout { n: 2, moduli: [100, 10, 0, 0, 0, 0, 0, 0, 0, 0], offsets: [0; 10], delimiter: 1 };
    let partitions = Partitions { start: &[0, 200], end: &[500, 900] };
    let segments = Segments { count: &[0, 600], time: &[-1_000, 1_000], rate: &[25_000, 30_000] };
    (layout, partitions, segments)
}

/// "The stamp program holds table A, reads lines (up to byte 10 or the end of input) from standard input [..] and prints
/// encoded count and time, or `refused` and the number"; the refusal's place "after the number" (request 3).
pub fn stamp_program(input: &[u8]) -> Vec<u8> {
    let mut output = String::new();
    let mut rest = input;
    // "no bytes after the last byte 10 means no further line"
    while !rest.is_empty() {
        let end = rest.iter().position(|&byte| byte == 10).unwrap_or(rest.len());
        match encoded_and_time(&rest[..end]) {
            Ok((e, time)) => output += &format!("{} {}\n", e, time),
            Err(refusal) => output += &format!("refused {}\n", refusal),
        }
        rest = rest.get(end + 1..).unwrap_or(&[]);
    }
    output.into_bytes()
}

fn encoded_and_time(line: &[u8]) -> Result<(u64, i64), Refusal> {
    // "A line over 96 bytes prints `refused 4`"
    if line.len() > LONGEST_TEXT {
        return Err(Refusal::new(4));
    }
    let (layout, partitions, segments) = table_a();
    let e = read_stamp(&layout, partitions, line)?;
    Ok((e, time_of(&layout, partitions, segments, e)?))
}
