//! Request 3: every clause of a place, at the front, inside and at the end.

use super::{layout, plain, table_a, tables};
use crate::generate::broken::{break_row, long, ROW_RULES};
use crate::generate::writer::Writer;
use crate::script::{Question, Tables};

const E15: u64 = 1_000_000_000_000_000;
const HUGE: &str = "1000000000001001";

pub fn all(writer: &mut Writer) {
    writer.load(&table_a());
    front_parts(writer);
    bytes(writer);
    surplus(writer);
    small_and_large(writer);
    sums(writer);
    partitions(writer);
    segments(writer);
    lengths(writer);
}

/// A stamp, and the same in a message behind some payload.
fn stamp(writer: &mut Writer, stamp: &[u8]) {
    writer.ask(Question::ReadStamp(stamp));
    message(writer, stamp);
}

fn message(writer: &mut Writer, text: &[u8]) {
    let payload: Vec<u8> = (0..writer.random.pick(&[0, 1, 2, 5, 40])).map(|_| writer.random.word() as u8).collect();
    let message = [&payload[..], text, &[0, text.len() as u8]].concat();
    writer.ask(Question::ReadMessage(&message));
}

/// Text for all three calls.
fn text(writer: &mut Writer, text: &[u8]) {
    writer.ask(Question::ReadText(text));
    stamp(writer, text);
}

/// Front parts with a fault, before good text and before text that has one too.
fn front_parts(writer: &mut Writer) {
    #[rustfmt::skip]
    let fronts: [&[u8]; 43] = [
        b"1.2", b"1.", b".1", b"-1", b" 1:2", b"  ,", b"1 .2", b"1. 2", b" .", b"1-2x", b"1.2x", b".x", b"  :x", b"1 -\t",
        b"x", b"x1", b"1x", b"1x2", b" x ", b"  x1", b"1 x2x", b"+1", b"1\t", b"1x.+", b" \x001 2", b"xx", b"1x x",
        b"1 2", b"  1   2", b"0 0", b"12 34 5", b"1 2 ", b"1 2x", b" 1 2x ", b"1  2 3\xff", b"1 2.",
        b"  +x", b" \t1", b"0 1\x00", b"12 3x4", b"  1 2 +", b"  -1", b" ,x",
    ];
    for front in fronts {
        for behind in [&b"5.3"[..], b"x", b"5/3", b"1.2.3", b" "] {
            stamp(writer, &[front, b"/", behind].concat());
        }
    }
    #[rustfmt::skip]
    let behind: [&[u8]; 32] = [
        b"", b" ", b"5", b"5.3", b" 5 ", b"1.2.3", b"..", b".5", b"9999999999999999", b"50.1", b"99.9", b"100000000000001",
        b"x", b"5x", b"/", b"5/", b" x", b"\x00", b"5.3x", b"5:\t", b"1/5", b"//", b"-x", b"5.3 /x", b"  /", b"x/", b"/5", b"5 +",
        b".\xff", b"1.2.3x", b"\x0d", b"x5",
    ];
    for (i, behind) in behind.iter().enumerate() {
        stamp(writer, &[b"/", *behind].concat());
        stamp(writer, &[if i % 3 > 0 { &b" /"[..] } else { b"   /" }, behind].concat());
        stamp(writer, &[if i % 2 > 0 { &b"1/2/"[..] } else { b" 1 / 2 /" }, behind].concat());
    }
}

/// Bytes that stand nowhere, and `/` where none stands.
fn bytes(writer: &mut Writer) {
    for before in [&b""[..], b" ", b"  ", b"   ", b"1 ", b" 12.", b"1.2.3 ", b".."] {
        for byte in [&b"x"[..], b"\t", b"\xff"] {
            for behind in [&b""[..], b"5", b"x"] {
                let bad = [before, byte, behind].concat();
                text(writer, &bad);
                stamp(writer, &[b" 1 /", &bad[..]].concat());
            }
            writer.ask(Question::ReadText(&[before, byte, b" /5"].concat()));
        }
        for behind in [&b""[..], b"5", b"x", b"/", b" ", b".+", b"1/", b"\0", b"0.5", b" x"] {
            writer.ask(Question::ReadText(&[before, b"/", behind].concat()));
        }
    }
}

/// One field too many, and more: there, empty, behind blanks; for few fields and for as many as there can be.
fn surplus(writer: &mut Writer) {
    for n in [1, 2, 10] {
        let mut tables = tables(plain(&vec![2; n]), &[(0, 1)], &[(0, 0, 1_000_000)]);
        tables.layout.delimiter = 1 + n as u8 % 5;
        writer.load(&tables);
        let good = vec!["1"; n].join(".");
        for more in [".5", ". 5", " 5", "   05", "-005", ".", ". ", " : ", ".    "] {
            for behind in ["", ".6", "..7", " 8", "  "] {
                let bad = [&good, more, behind].concat();
                text(writer, bad.as_bytes());
                if n == 2 {
                    stamp(writer, ["1/", &bad].concat().as_bytes());
                    stamp(writer, ["  1 / ", &bad].concat().as_bytes());
                    stamp(writer, ["01/  ", &bad].concat().as_bytes());
                }
            }
        }
    }
}

/// Fields below their offsets and above the largest: first ones and later ones, behind zeros and blanks.
fn small_and_large(writer: &mut Writer) {
    for offsets in [&[7, 7][..], &[7, 7, 7], &[1_000; 10]] {
        let n = offsets.len();
        writer.load(&tables(layout(&vec![2; n], offsets, 1), &[(0, 1)], &[(0, 0, 1_000_000)]));
        for at in [0, n - 1] {
            for value in ["6", "0006", "00", HUGE, "0001000000000001001", "01000000000001001", "099999999999999999999"]
            {
                for (mark, behind) in [(".", ""), (". ", "  "), ("  ", "")] {
                    let mut fields = vec!["1000"; n];
                    fields[at] = value;
                    let blanks = if at == 0 { &mark[1..] } else { "" };
                    let bad = [blanks, &fields.join(mark), behind].concat();
                    text(writer, bad.as_bytes());
                    stamp(writer, [" 01 /", &bad].concat().as_bytes());
                    if (at, value) == (0, "6") {
                        text(writer, ["   ", &bad].concat().as_bytes());
                    }
                }
            }
        }
    }
}

/// Sums that are too large: the text's length, blanks and front part included.
fn sums(writer: &mut Writer) {
    writer.load(&table_a());
    for sum in ["100000000000001", "100000000000000.1", "99999999999999.11", "0.1000000000000001", "100000000000001."] {
        for before in ["", "  "] {
            for behind in ["", " ", "    "] {
                let bad = [before, sum, behind].concat();
                text(writer, bad.as_bytes());
                stamp(writer, [if before.is_empty() { " 2 /" } else { "1/" }, &bad].concat().as_bytes());
            }
        }
    }
}

/// All questions that check partitions, and messages that are refused before.
fn ask_partitions(writer: &mut Writer, tables: &Tables) {
    writer.load(tables);
    writer.any_stamp();
    let short: [&[u8]; 6] = [b"", b"\0", b"\0\0", b"\0\0", b"5\0\x02", b"50.1 1\0\x05"];
    let message = writer.random.pick(&short);
    writer.ask(Question::ReadMessage(message));
    writer.any_print_stamp();
    ask_segments(writer, tables);
}

fn ask_segments(writer: &mut Writer, tables: &Tables) {
    writer.load(tables);
    writer.any_time_of();
    writer.any_count_at();
    writer.ask(Question::StepsBack);
}

/// A partition of five ticks in each row.
fn fives(rows: usize) -> Tables {
    tables(plain(&[E15]), &vec![(3, 8); rows], &[(0, 0, 1_000_000)])
}

/// Each rule of a row at the front, inside and at the end; the total passed there; both, in both orders.
fn partitions(writer: &mut Writer) {
    for rows in 2..=6 {
        let inner = 1 + writer.random.below(rows - 1);
        for row in [0, inner.min(rows - 2), rows - 1] {
            for (start, end) in [(8, 8), (9, 8), (E15 - 5, E15)] {
                let mut bad = fives(rows);
                bad.start[row] = start;
                bad.end[row] = end;
                ask_partitions(writer, &bad);
                if (start, rows) == (9, 4) {
                    bad.start[row] = u64::MAX;
                    ask_segments(writer, &bad);
                    bad.start[row] = 3;
                    bad.end[row] = u64::MAX;
                    ask_segments(writer, &bad);
                }
            }
            if row > 0 {
                // One more than 10^15 with this row, and less with the row before.
                let mut bad = fives(rows);
                bad.end[row] = 3 + E15 + 1 - 5 * row as u64;
                ask_partitions(writer, &bad);
            }
        }
    }
    for rows in 3..=6 {
        for _ in 0..3 {
            let passed = 2 + writer.random.below(rows - 2);
            let before = writer.random.below(passed);
            for (start, end) in [(8, 8), (9, 8), (E15 - 5, E15)] {
                // Before, and at a row behind the one that passes the limit.
                for (row, passed) in [(before, passed), (passed, before.max(1))] {
                    let mut bad = fives(rows);
                    bad.end[passed] = E15 - 1;
                    bad.start[row] = start;
                    bad.end[row] = end;
                    writer.load(&bad);
                    writer.any_time_of();
                    writer.any_print_stamp();
                }
            }
        }
        for (first, second) in [((8, 8), (3, E15)), ((3, E15), (8, 8)), ((9, 8), (3, E15)), ((3, E15), (9, 8))] {
            let early = writer.random.below(rows - 1);
            let mut bad = fives(rows);
            for (row, (start, end)) in [(early, first), (rows - 1, second)] {
                bad.start[row] = start;
                bad.end[row] = end;
            }
            ask_partitions(writer, &bad);
        }
    }
}

/// The rules of segments' rows by kinds, as `break_row` has them: counts, times, their range, rates, lines, the last count.
const KINDS: [&[usize]; 6] = [&[0, 1], &[3, 4], &[5, 6], &[7, 8], &[9, 10], &[2]];

/// Each rule at the front, inside and at the end; each pair of kinds of rules, either one at the earlier row.
fn segments(writer: &mut Writer) {
    for rule in 0..ROW_RULES {
        for rows in 2..=8 {
            let inner = 1 + writer.random.below(rows - 1);
            let places = [0, inner.min(rows - 2), rows - 1];
            let places = match rule {
                0 | 1 | 3 | 4 => &places[1..],
                2 | 10 => &places[2..],
                5 => &places[..1],
                9 => &places[..2],
                _ => &places[..],
            };
            for &row in places {
                let mut bad = long(rows, rule);
                break_row(&mut bad, rule, row);
                ask_segments(writer, &bad);
            }
        }
    }
    for early in &KINDS[..5] {
        for late in KINDS.iter().filter(|late| *late != early) {
            for _ in 0..if late[0] == 9 { 40 } else { 26 } {
                let rows = 4 + writer.random.below(3);
                // A line is an inner one, a count or time stands behind another.
                let rule = early[if early[0] == 9 { 0 } else { writer.random.below(2) }];
                let row = writer.random.below(rows - 2) + usize::from(rule < 5);
                let other = late[writer.random.below(late.len())];
                let other_row = row + 1 + writer.random.below(rows - 1 - row);
                let mut bad = long(rows, rule.max(other));
                break_row(&mut bad, rule, row);
                break_row(&mut bad, other, other_row);
                writer.load(&bad);
                match writer.random.below(3) {
                    0 => writer.any_time_of(),
                    1 => writer.any_count_at(),
                    _ => writer.ask(Question::StepsBack),
                }
            }
        }
    }
    // A line at the next count as given, whatever that is; A's layout and partitions.
    let a = table_a();
    for next in [1_300, 1_600_000_000_000_000_400, 1_600_000_000_000_000_401, u64::MAX] {
        for more in [0, 1, 2] {
            let counts = [0, next, next.saturating_add(1), next.saturating_add(2)];
            let count: Vec<u64> = counts[..2 + more].to_vec();
            let time = [-1_000, 0, 1, 2][..2 + more].to_vec();
            let bad = Tables { count, time, rate: vec![25_000; 2 + more], ..a.clone() };
            ask_segments(writer, &bad);
        }
    }
}

/// Lists that are too short and too long, in rows of which some are bad too.
fn lengths(writer: &mut Writer) {
    let a = table_a();
    for (starts, ends) in [(0, 1), (0, 3), (1, 0), (4, 0), (1, 2), (3, 4), (2, 5), (2, 1), (4, 3), (5, 2)] {
        for end in [900, 1_000] {
            let bad = Tables { start: vec![200; starts], end: vec![end; ends], ..a.clone() };
            ask_partitions(writer, &bad);
        }
    }
    #[rustfmt::skip]
    let lengths = [
        [0, 1, 2], [0, 3, 1], [0, 2, 2], [0, 1, 1], [1, 0, 2], [3, 0, 1], [2, 0, 2], [1, 0, 1], [2, 1, 0], [1, 4, 0], [2, 2, 0],
        [1, 1, 0], [0, 0, 2], [0, 2, 0], [2, 0, 0], [1, 0, 0], [1, 2, 3], [1, 3, 2], [2, 1, 3], [3, 1, 2], [2, 3, 1], [3, 2, 1], [2, 3, 3], [3, 2, 3],
        [3, 3, 2], [2, 2, 3], [2, 3, 2], [3, 2, 2], [4, 4, 2], [2, 5, 4], [4, 2, 5],
    ];
    for lengths in lengths {
        for rate in [25_000, 9_999] {
            let bad = Tables {
                count: (0..lengths[0] as u64).collect(),
                time: (0..lengths[1] as i64).collect(),
                rate: vec![rate; lengths[2]],
                ..a.clone()
            };
            ask_segments(writer, &bad);
        }
    }
}
