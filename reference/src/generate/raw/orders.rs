//! "1, 2, then 10 for a reset; 1, 2, 27 for a reading before any accepted reset, then 12": inputs with several faults;
//! tables that change between calls.

use super::{layout, Writer, A, E15, TURN};
use crate::{Layout, RawCounter};

/// Partitions that are refused with table A's layout, the place and why.
const BROKEN: &[(&[u64], &[u64], usize, &str)] = &[
    (&[], &[], 0, "no partitions"),
    (&[0], &[], 0, "no ends"),
    (&[], &[500, 900], 0, "no starts"),
    (&[0], &[500, 900], 1, "starts are shortest"),
    (&[0, 200, 300], &[500, 900], 2, "ends are shortest"),
    (&[500, 200], &[500, 900], 0, "the first starts at its end"),
    (&[0, 901], &[500, 900], 1, "the second starts above its end"),
    (&[0, 200], &[1_000, 900], 0, "the first ends at P"),
    (&[0, 200, 7], &[500, 900, 1_000], 2, "the third ends at P"),
    (&[0, 200, 7, 1], &[500, 900, 7, 2_000], 2, "the third starts at its end, the fourth ends above P"),
];

/// Layouts that are refused.
fn broken_layouts() -> Vec<Layout> {
    let good = layout(A.0);
    vec![
        Layout { n: 0, ..good },
        Layout { n: 11, ..good },
        Layout { delimiter: 0, ..good },
        Layout { delimiter: 6, ..good },
        layout(&[0, 10]),
        layout(&[E15, 10]),
        layout(&[TURN, TURN]),
        layout(&[1, 1_000_000_000_001]),
        Layout { offsets: [1_001; 10], ..good },
    ]
}

/// States: none, within table A's total, above it, near 2^64.
const STATES: [RawCounter; 4] =
    [RawCounter::new(), RawCounter::at(40, 600), RawCounter::at(40, 1_201), RawCounter::at(40, u64::MAX - 3)];

pub fn all(writer: &mut Writer) {
    // 1 before all else, also where the partitions are broken too.
    for (i, broken) in broken_layouts().into_iter().enumerate() {
        writer.load_partitions(broken, A.1);
        calls(writer, "1", "a layout");
        let (start, end, ..) = BROKEN[i];
        load(writer, broken, start, end);
        calls(writer, "1", "a layout, and partitions");
    }
    // 2 before all else but 1.
    for (start, end, place, why) in BROKEN {
        load(writer, layout(A.0), start, end);
        calls(writer, &format!("2 {}", place), why);
    }
    let long = layout(&[E15]);
    load(writer, long, &[0, 0, 0], &[E15 - 1, 1, 1]);
    calls(writer, "2 2", "the third passes the total of 10^15");
    // Good tables: 10; 27 also for a raw number past the total; 12.
    for (layout, partitions, total) in [(layout(A.0), A.1, 1_200), (long, &[(3, 9)][..], 6)] {
        writer.load_partitions(layout, partitions);
        for raw in [0, 1, total - 1, total, total + 1, 2 * total, 65_536, 1 << 31, u32::MAX] {
            writer.counter(RawCounter::new());
            let label =
                if raw > total { "27: and a raw number above the total" } else { "27: a raw number up to the total" };
            writer.read(label, raw);
            writer.reset("10: before a reset", [0, 3][raw as usize % 2], raw);
            writer.read("27: a refused reset is none", raw);
        }
        for state in [RawCounter::at(40, u64::from(total) + 1), RawCounter::at(40, u64::MAX)] {
            writer.counter(state);
            writer.reset("10: and a count above the total", 0, 9);
            writer.reset("10: and a count above the total", 3, 9);
            writer.read("12: a refused reset is none", 40);
        }
    }
}

/// Each call from each state, with a good number and others, a raw number that fits and others.
fn calls(writer: &mut Writer, outcome: &str, why: &str) {
    for state in STATES {
        writer.counter(state);
        for (number, fault) in [(1, ""), (0, ", and partition 0"), (u64::MAX, ", and a partition above")] {
            writer.reset(&[outcome, ": ", why, fault].concat(), number, 41);
        }
        let fault = if !state.reset {
            ", and no reset"
        } else if state.count > 1_200 {
            ", and past the total"
        } else {
            ""
        };
        for raw in [40, 41, 39] {
            writer.read(&[outcome, ": ", why, fault].concat(), raw);
        }
    }
}

fn load(writer: &mut Writer, layout: Layout, start: &[u64], end: &[u64]) {
    let mut tables = writer.tables.clone();
    tables.layout = layout;
    tables.start = start.to_vec();
    tables.end = end.to_vec();
    writer.load(&tables);
}

/// A counter that goes on under other tables than those it was reset with.
pub fn changes(writer: &mut Writer) {
    for (i, broken) in broken_layouts().into_iter().enumerate() {
        let last = [0, 700, u32::MAX - 2, 1 << 31][i % 4];
        let at = |difference: u32| last.wrapping_add(difference);
        writer.load_a();
        writer.counter(RawCounter::new());
        writer.reset("ok: table A", 2, last);
        writer.read("ok: table A", at(100));
        // A shorter total.
        writer.load_partitions(layout(A.0), &[(0, 500)]);
        writer.read("12: a shorter total, an equal raw number", at(100));
        writer.read("12: a shorter total", at(101));
        writer.reset("10: no second partition any more", 2, at(101));
        // A total that is just long enough.
        writer.load_partitions(layout(A.0), &[(0, 500), (300, 401)]);
        writer.read("ok: another total", at(101));
        writer.read("12: another total", at(102));
        // Refused tables, then table A again.
        writer.load_partitions(broken, A.1);
        writer.read("1: a layout", at(102));
        writer.reset("1: a layout", 1, at(102));
        writer.load_a();
        writer.read("ok: after a refused layout", at(102));
        writer.load_partitions(broken, A.1);
        writer.read("1: a layout", at(103));
        writer.load_a();
        writer.read("ok: after a refused layout", at(102));
        writer.load_partitions(broken, A.1);
        writer.reset("1: a layout", 2, at(103));
        writer.load_a();
        writer.read("ok: after a refused layout", at(102));
        let (start, end, place, why) = BROKEN[i % BROKEN.len()];
        let label = format!("2 {}: {}", place, why);
        load(writer, layout(A.0), start, end);
        writer.read(&label, at(103));
        writer.reset(&label, 1, at(103));
        writer.load_a();
        writer.read("ok: after refused partitions", at(104));
        load(writer, layout(A.0), start, end);
        writer.read(&label, at(105));
        writer.load_a();
        writer.read("ok: after refused partitions", at(104));
        // Longer partitions: the count stays, a reset starts elsewhere.
        writer.load_partitions(layout(&[1_000, 10]), &[(7, 5_007), (9_000, 9_999), (0, 4)]);
        writer.read("ok: another clock", at(110));
        writer.reset("ok: another clock", 2, at(0));
        writer.read("ok: the new total", at(1_003));
        writer.load_a();
        writer.read("12: a shorter total, an equal raw number", at(1_003));
        writer.reset("ok: table A again", 1, at(1_003));
        writer.read("ok: table A again", at(1_004));
    }
}
