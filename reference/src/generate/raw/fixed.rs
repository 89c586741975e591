//! The examples; differences, totals, states and resets at their edges.

use super::{layout, Writer, E15, TURN};
use crate::RawCounter;

const LAST: u32 = u32::MAX;

/// Request 4's and the readings', with table A.
pub fn examples(writer: &mut Writer) {
    writer.load_a();
    writer.counter(RawCounter::new());
    writer.read("27: before any reset", 0);
    writer.reset("10: zero", 0, 5);
    writer.read("27: before any reset that was accepted", 5);
    writer.reset("10: above", 3, 5);
    writer.read("27: before any reset that was accepted", 5);
    writer.reset("ok: the start is the sum of the earlier lengths", 2, LAST - 2);
    writer.read("ok: rollover", 4);
    writer.reset("ok: a second reset", 1, 0);
    writer.read("ok: past the partition's end", 600);
    writer.reset("ok: a third reset", 1, 0);
    writer.read("12: one past the total", 1_201);
    writer.read("ok: a refused reading leaves the raw number", 1_200);
    writer.read("ok: an equal raw number", 1_200);
    writer.read("12: one past the total", 1_201);
    writer.reset("10: zero", 0, 77);
    writer.reset("10: above", 3, 78);
    writer.read("ok: a refused reset leaves the state", 1_200);
    writer.reset("ok: after a refused one", 2, 1_200);
    writer.read("ok: no rollover", 1_207);
    writer.reset("ok: a raw number near the rollover", 1, LAST - 5);
    writer.read("ok: rollover from 4294967290 to 5", 5);
    writer.read("12: back by one is 2^32 - 1", 4);
    writer.read("12: back by six is 2^32 - 6", LAST);
    writer.read("ok: no rollover", 6);
    writer.counter(RawCounter::at(LAST, 1_199));
    writer.read("ok: rollover to the total", 0);
    writer.counter(RawCounter::at(LAST, 1_200));
    writer.read("12: rollover past the total", 0);
    writer.read("ok: an equal raw number at the total", LAST);
    writer.counter(RawCounter::new());
    writer.read("27: a new counter", LAST);
    writer.microseconds("ok: 255", 0, 998_046);
    writer.microseconds("ok: carried", 0, 998_047);
    writer.microseconds("ok: carried to second 2^32", LAST, 999_999);
    writer.microseconds("24: over 999,999", LAST, 1_000_000);
}

/// Every difference at its edges, from raw numbers at theirs.
pub fn differences(writer: &mut Writer) {
    writer.load_total(E15, 3);
    let half = 1 << 31;
    for last in [0, 1, 5, 65_535, half - 1, half, LAST - 5, LAST - 1, LAST] {
        for difference in [0, 1, 2, 6, 65_536, half - 1, half, half + 1, LAST - 1, LAST] {
            let raw = last.wrapping_add(difference);
            let label = match difference {
                0 => "ok: an equal raw number",
                _ if raw < last => "ok: rollover",
                _ => "ok: no rollover",
            };
            let count = writer.random.pick(&[0, 1, 999, TURN - 1, TURN, E15 / 2]);
            writer.counter(RawCounter::at(last, count));
            writer.read(label, raw);
            writer.read("ok: an equal raw number", raw);
        }
    }
    // A long way in the widest steps, and a turn that nobody sees.
    writer.reset("ok: the first partition", 1, 0);
    for turn in 1..24u32 {
        let raw = 0u32.wrapping_sub(turn);
        writer.read("ok: a difference of 2^32 - 1", raw);
    }
    writer.read("ok: a move of 2^32 adds nothing", LAST - 22);
}

/// The total itself, one past it, one before; and what fits after a refused reading.
pub fn totals(writer: &mut Writer) {
    for (total, rows) in [
        (1, 1),
        (2, 2),
        (3, 3),
        (999, 1),
        (1_200, 2),
        (TURN / 2, 4),
        (TURN - 2, 1),
        (TURN - 1, 2),
        (TURN, 1),
        (TURN + 1, 3),
        (3 * TURN, 2),
        (E15 - 1, 1),
        (E15 - 1, 5),
        (E15, 2),
    ] {
        writer.load_total(total, rows);
        for room in [0, 1, 2, 7, total / 2, total, TURN - 2] {
            if room > total || room > TURN - 2 {
                continue;
            }
            let word = writer.random.word() as u32;
            let last = writer.random.pick(&[0, 5, LAST, LAST - 6, 1 << 31, word]);
            let at = |difference: u64| last.wrapping_add(difference as u32);
            writer.counter(RawCounter::at(last, total - room));
            writer.read("12: one past the total", at(room + 1));
            writer.read("12: a difference of 2^32 - 1", at(TURN - 1));
            if room > 1 {
                writer.read("ok: one before the total", at(room - 1));
            }
            writer.read("ok: the total itself", at(room));
            writer.read("ok: an equal raw number at the total", at(room));
            writer.read("12: one past the total", at(room + 1));
            writer.reset("10: zero", 0, at(room + 1));
            writer.read("ok: after a refused reset", at(room));
        }
    }
}

/// Counts that no call leaves under these tables: above the total, near 2^64.
pub fn states(writer: &mut Writer) {
    for (total, rows) in [(1, 1), (1_200, 2), (TURN - 1, 1), (2 * TURN, 3), (E15, 2)] {
        writer.load_total(total, rows);
        for more in [1, 2, TURN, E15] {
            let last = writer.random.word() as u32;
            writer.counter(RawCounter::at(last, total + more));
            writer.read("12: an equal raw number, the count above the total", last);
            writer.read("12: the count above the total", last.wrapping_add(1));
            writer.read("12: a step back is no step back", last.wrapping_sub(1));
        }
        for less in [0, 1, 2, 999, TURN - 2, TURN - 1] {
            let last = writer.random.pick(&[0, 7, LAST - 3, LAST]);
            let at = |difference: u64| last.wrapping_add(difference as u32);
            writer.counter(RawCounter::at(last, u64::MAX - less));
            writer.read("12: an equal raw number, the count near 2^64", at(0));
            if less > 0 {
                writer.read("12: a count of 2^64 - 1", at(less));
            }
            if less < TURN - 1 {
                writer.read("12: a sum of 2^64", at(less + 1));
                writer.read("12: a sum past 2^64", at((less + 2).min(TURN - 1)));
            }
            writer.read("12: a difference of 2^32 - 1", at(TURN - 1));
            writer.reset("10: above", rows + 1, 7);
            writer.reset("ok: any state is left by a reset", 1, 9);
            writer.read("ok: from the reset's raw number", 10);
        }
        for count in [1 << 63, (1 << 63) - 1, TURN << 31, u64::MAX / 3] {
            writer.counter(RawCounter::at(5, count));
            writer.read("12: a count far above the total", 5);
            writer.read("12: a count far above the total", LAST);
        }
    }
}

/// To each partition, and to none.
pub fn resets(writer: &mut Writer) {
    let lists: [&[(u64, u64)]; 6] = [
        &[(0, 500), (200, 900)],
        &[(17, 999)],
        &[(5, 6), (5, 6), (5, 6)],
        &[(900, 901), (0, 1), (3, 800), (3, 4), (0, 999)],
        &[(999_999, 1_000_000), (0, 4), (400_000, 500_000)],
        &[(1, 400_000_000_000_000), (7, 400_000_000_000_000), (9, 12), (5, 200_000_000_000_009)],
    ];
    for partitions in lists {
        let most = partitions.iter().map(|row| row.1).max().unwrap_or(0);
        let clock = if most < 1_000 { layout(&[100, 10]) } else { layout(&[E15]) };
        writer.load_partitions(clock, partitions);
        let rows = partitions.len() as u64;
        for again in [false, true] {
            for number in 1..=rows {
                let word = writer.random.word() as u32;
                let raw = writer.random.pick(&[0, 1, LAST, LAST - 1, word]);
                writer.counter(if again { RawCounter::at(raw, 3) } else { RawCounter::new() });
                let label = match number {
                    1 => "ok: the first partition",
                    _ if number == rows => "ok: the last partition",
                    _ => "ok: an inner partition",
                };
                writer.reset(label, number, raw);
                writer.read("ok: an equal raw number", raw);
                let above = [rows + 1, rows + 2, TURN, TURN + number, (1 << 63) + number, u64::MAX];
                let above = writer.random.pick(&above);
                writer.reset("10: above", above, raw.wrapping_add(1));
                writer.reset("10: zero", 0, raw.wrapping_add(1));
                writer.read("ok: by one, after refused resets", raw.wrapping_add(1));
            }
            for number in [rows + 1, 256 + rows, 65_536 + rows, TURN, TURN + 1, 1 << 63, u64::MAX - 1, u64::MAX] {
                writer.counter(if again { RawCounter::at(8, 1) } else { RawCounter::new() });
                writer.reset("10: above", number, 5);
                writer.reset("10: zero", 0, 6);
                if again {
                    writer.read("ok: after refused resets", 8);
                } else {
                    writer.read("27: after refused resets", 8);
                }
            }
        }
        // One reset after another, each from its own raw number.
        for (i, number) in (1..=rows).chain((1..=rows).rev()).enumerate() {
            let raw = LAST - i as u32;
            writer.reset("ok: one reset after another", number, raw);
            writer.read("ok: from the reset's raw number", raw.wrapping_add(1));
        }
    }
}
