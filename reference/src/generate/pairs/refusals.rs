//! "the older table is checked whole first (1, 2, 3 with places), then the newer".

use super::bases::bases;
use super::Writer;
use crate::script::Tables;

type Break = (&'static str, &'static str, fn(&mut Tables));
/// At a row.
type BreakRow = (&'static str, &'static str, fn(&mut Tables, usize));

/// Of the tables with three partitions and four segments, the older or the newer: a refusal with its place, why, and what
/// breaks them so.
const BREAKS: &[Break] = &[
    ("1", "n is 0", |tables| tables.layout.n = 0),
    ("1", "n is 11", |tables| tables.layout.n = 11),
    ("1", "a modulus is 0", |tables| tables.layout.moduli[1] = 0),
    ("1", "an offset above 1,000", |tables| tables.layout.offsets[1] = 1_001),
    ("1", "P wraps", |tables| tables.layout.moduli[0] = 1 << 63),
    ("1", "delimiter 0", |tables| tables.layout.delimiter = 0),
    ("1", "delimiter 6", |tables| tables.layout.delimiter = 6),
    ("2 0", "no partitions", |tables| {
        tables.start.clear();
        tables.end.clear();
    }),
    ("2 2", "starts are shortest", |tables| tables.start.truncate(2)),
    ("2 1", "ends are shortest", |tables| tables.end.truncate(1)),
    ("2 0", "the first starts at its end", |tables| tables.start[0] = 500),
    ("2 0", "the first starts above its end", |tables| tables.start[0] = u64::MAX),
    ("2 0", "the first ends above P", |tables| tables.end[0] = 1_001),
    ("2 0", "the first and the second", |tables| {
        tables.end[1] = 1_000;
        tables.start[0] = 501;
    }),
    ("2 1", "the second starts above its end", |tables| tables.start[1] = 901),
    ("2 1", "the second ends at P", |tables| tables.end[1] = 1_000),
    ("2 2", "the third starts at its end", |tables| tables.start[2] = tables.end[2]),
    ("2 1", "the second and the third", |tables| {
        tables.end[2] = 1_000;
        tables.start[1] = 950;
    }),
    ("3 0", "no segments", |tables| {
        tables.count.clear();
        tables.time.clear();
        tables.rate.clear();
    }),
    ("3 3", "times are shortest", |tables| tables.time.truncate(3)),
    ("3 1", "rates are shortest", |tables| tables.rate.truncate(1)),
    ("3 0", "the first rate too low", |tables| tables.rate[0] = 9_999),
    ("3 0", "the first rate too high", |tables| tables.rate[0] = u64::MAX),
    ("3 0", "the first time too early", |tables| tables.time[0] = -4_000_000_000_000_000_001),
    ("3 1", "equal counts", |tables| tables.count[1] = 0),
    ("3 2", "a time goes back", |tables| tables.time[2] = 999),
    ("3 3", "the fourth rate too high", |tables| tables.rate[3] = 1_000_000_000_000_001),
    ("3 1", "the second time too late", |tables| tables.time[1] = 4_000_000_000_000_000_001),
    ("3 2", "the third and the fourth", |tables| {
        tables.rate[3] = 0;
        tables.count[2] = 600;
    }),
];

/// The last row's, of whatever table.
const LAST: &[BreakRow] = &[
    ("2", "the last ends at P", |tables, row| tables.end[row] = 1_000),
    ("2", "the last starts at its end", |tables, row| tables.start[row] = tables.end[row]),
    ("2", "the last starts above its end", |tables, row| tables.start[row] = 999),
    ("3", "the last count above the total", |tables, row| tables.count[row] = 9_999),
    ("3", "the last rate too low", |tables, row| tables.rate[row] = 1),
    ("3", "the last time goes back", |tables, row| tables.time[row] = 1_999),
    ("3", "the last count is the one before", |tables, row| tables.count[row] = tables.count[row - 1]),
];

pub fn all(writer: &mut Writer) {
    let bases = bases();
    for base in bases.iter().filter(|base| base.older.count.len() == 4) {
        one(writer, &base.older, &base.newer);
        writer.pair(&base.older, &base.newer, ("yes", "1500"), "neither refused");
    }
    both(writer, &bases[0].older, &bases[0].newer);
}

fn broken(tables: &Tables, change: fn(&mut Tables)) -> Tables {
    let mut broken = tables.clone();
    change(&mut broken);
    broken
}

/// One of the two.
fn one(writer: &mut Writer, older: &Tables, newer: &Tables) {
    for &(refusal, why, change) in BREAKS {
        let said = format!("older {}", refusal);
        writer.pair(&broken(older, change), newer, (&said, &said), why);
        let said = format!("newer {}", refusal);
        writer.pair(older, &broken(newer, change), (&said, &said), why);
        if ["1", "3 0"].contains(&refusal) {
            writer.pair(older, &broken(older, change), (&said, &said), why);
        }
    }
    for &(number, why, change) in LAST {
        for tables in [older, newer] {
            let row = if number == "2" { tables.start.len() - 1 } else { tables.count.len() - 1 };
            let mut broken = tables.clone();
            change(&mut broken, row);
            let said = format!("older {} {}", number, row);
            writer.pair(&broken, newer, (&said, &said), why);
            let said = format!("newer {} {}", number, row);
            writer.pair(older, &broken, (&said, &said), why);
        }
    }
}

/// Both: the older's, whatever the newer's. Then a newer that would not succeed if it were not refused.
fn both(writer: &mut Writer, older: &Tables, newer: &Tables) {
    for (i, &(refusal, why, change)) in BREAKS.iter().enumerate() {
        let said = format!("older {}", refusal);
        for step in [0, 5, 9, 14, 18] {
            let (_, other, second) = BREAKS[(i + step) % BREAKS.len()];
            let why = format!("{}, and in the newer {}", why, other);
            writer.pair(&broken(older, change), &broken(newer, second), (&said, &said), &why);
        }
    }
    for &(refusal, why, change) in BREAKS.iter().filter(|breaks| breaks.0 != "1") {
        let said = format!("newer {}", refusal);
        let mut other = broken(newer, change);
        other.layout.delimiter = 3;
        writer.pair(older, &other, (&said, &said), &format!("{}, and another layout", why));
    }
}
