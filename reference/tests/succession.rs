//! An older and a newer table: `succeeds` and `horizon` by hand, and what they promise on random pairs.

mod common;
use common::pairs::{self, accepted, directions, product, total, Seen};
use common::{layout, plain};
use reference::random::Random;
use reference::script::Tables;
use reference::*;

fn tables(layout: Layout, partitions: &[(u64, u64)], segments: &[(u64, i64, u64)]) -> Tables {
    let mut tables = Tables { layout, ..Tables::new() };
    for &(start, end) in partitions {
        tables.start.push(start);
        tables.end.push(end);
    }
    for &(count, time, rate) in segments {
        tables.count.push(count);
        tables.time.push(time);
        tables.rate.push(rate);
    }
    tables
}

const PARTITIONS: &[(u64, u64)] = &[(0, 500), (200, 900), (100, 400)];
const SEGMENTS: &[(u64, i64, u64)] =
    &[(0, -1_000, 25_000), (600, 1_000, 30_000), (900, 2_000, 30_000), (1_300, 4_000, 25_000)];

/// Table A's layout, a total of 1,500, four segments with gaps between.
fn older() -> Tables {
    tables(plain(&[100, 10]), PARTITIONS, SEGMENTS)
}

/// The last partition ends later, one is added, and two segments: a total of 2,549. The older's last line is at 4,503 at the
/// first of them.
fn newer() -> Tables {
    let partitions = [&[(0, 500), (200, 900), (100, 450)], &[(0, 999)][..]].concat();
    tables(plain(&[100, 10]), &partitions, &[SEGMENTS, &[(1_501, 4_503, 30_000), (2_000, 7_000, 25_000)]].concat())
}

fn said(older: &Tables, newer: &Tables) -> (String, String) {
    let words = |result: Result<String, RefusedTable>| match result {
        Ok(answer) => answer,
        Err(refusal) => format!("refused {}", refusal),
    };
    (
        words(succeeds(older.table(), newer.table()).map(|answer| answer.to_string())),
        words(horizon(older.table(), newer.table()).map(|count| count.to_string())),
    )
}

#[track_caller]
fn says(older: &Tables, newer: &Tables, succeeds: &str, horizon: &str) {
    assert_eq!(said(older, newer), (succeeds.to_string(), horizon.to_string()));
}

/// The newer with one change.
fn changed(change: impl FnOnce(&mut Tables)) -> Tables {
    let mut tables = newer();
    change(&mut tables);
    tables
}

#[test]
fn yes() {
    says(&older(), &newer(), "yes", "1500");
    // "Adding nothing is allowed."
    says(&older(), &older(), "yes", "1500");
    says(&newer(), &newer(), "yes", "2549");
    // Table A cut to its first partition and segment, against table A.
    let (layout, partitions, segments) = table_a();
    let cut = tables(layout, &[(0, 500)], &[(0, -1_000, 25_000)]);
    let a = Table { layout: &layout, partitions, segments };
    assert_eq!(succeeds(cut.table(), a), Ok(Succession::Yes));
    assert_eq!(horizon(cut.table(), a), Ok(500));
    assert_eq!(succeeds(a, cut.table()), Ok(Succession::No(Hypothesis::Partition, 1)));
    assert_eq!(horizon(a, cut.table()), Ok(0));
}

#[test]
fn layouts() {
    says(&older(), &changed(|newer| newer.layout.delimiter = 2), "no layout 0", "0");
    says(&older(), &changed(|newer| newer.layout.offsets[0] = 1), "no layout 0", "0");
    says(&older(), &changed(|newer| newer.layout.offsets[1] = 1), "no layout 0", "0");
    says(&older(), &changed(|newer| newer.layout.moduli[0] = 200), "no layout 0", "0");
    says(&older(), &changed(|newer| newer.layout = plain(&[100, 10, 1])), "no layout 0", "0");
    // As many ticks in other fields.
    says(&older(), &changed(|newer| newer.layout = plain(&[50, 20])), "no layout 0", "0");
    // Slots after the n-th.
    says(&older(), &changed(|newer| newer.layout.moduli[2] = 77), "yes", "1500");
    says(&older(), &changed(|newer| newer.layout.offsets[9] = 77), "yes", "1500");
    // Before all else.
    let other = tables(plain(&[1_000]), &[(1, 900)], &[(5, 0, 1_000)]);
    says(&older(), &other, "no layout 0", "0");
}

#[test]
fn partitions() {
    says(&older(), &changed(|newer| newer.start[0] = 1), "no partition 0", "0");
    says(&older(), &changed(|newer| newer.end[0] = 501), "no partition 0", "0");
    says(&older(), &changed(|newer| newer.end[0] = 499), "no partition 0", "0");
    says(&older(), &changed(|newer| newer.end[1] = 901), "no partition 1", "0");
    says(&older(), &changed(|newer| newer.start[2] = 101), "no partition 2", "0");
    // The older's last end: equal, greater, smaller.
    says(&older(), &changed(|newer| newer.end[2] = 400), "yes", "1500");
    says(&older(), &changed(|newer| newer.end[2] = 401), "yes", "1500");
    says(&older(), &changed(|newer| newer.end[2] = 399), "no partition 2", "0");
    // Row 3 is the newer's alone.
    says(&older(), &changed(|newer| newer.start[3] = 7), "yes", "1500");
    // Fewer partitions; the segments fit them.
    let few = |rows: usize| tables(plain(&[100, 10]), &PARTITIONS[..rows], &SEGMENTS[..rows]);
    says(&older(), &few(2), "no partition 2", "0");
    says(&older(), &few(1), "no partition 1", "0");
    // The first of two.
    says(
        &older(),
        &changed(|newer| {
            newer.end[2] = 399;
            newer.end[1] = 899;
        }),
        "no partition 1",
        "0",
    );
    // Partitions exchanged, the total the same.
    says(&older(), &changed(|newer| newer.start.swap(0, 2)), "no partition 0", "0");
}

#[test]
fn segments() {
    says(&older(), &changed(|newer| newer.time[0] = -1_001), "no segment 0", "0");
    says(&older(), &changed(|newer| newer.rate[0] = 25_001), "no segment 0", "0");
    says(&older(), &changed(|newer| newer.time[1] = 1_001), "no segment 1", "600");
    says(&older(), &changed(|newer| newer.rate[1] = 30_001), "no segment 1", "600");
    // Its count in either table: the lesser.
    says(&older(), &changed(|newer| newer.count[1] = 599), "no segment 1", "599");
    says(&older(), &changed(|newer| newer.count[1] = 601), "no segment 1", "600");
    says(&older(), &changed(|newer| newer.count[3] = 1_299), "no segment 3", "1299");
    // A row left out: the next one stands in its place.
    let without = |row: usize| {
        changed(|newer| {
            newer.count.remove(row);
            newer.time.remove(row);
            newer.rate.remove(row);
        })
    };
    says(&older(), &without(0), "no segment 0", "0");
    says(&older(), &without(2), "no segment 2", "900");
    says(&older(), &without(3), "no segment 3", "1300");
    // Fewer rows.
    let few = tables(plain(&[100, 10]), PARTITIONS, &SEGMENTS[..2]);
    says(&older(), &few, "no segment 2", "900");
    // A row put in.
    let more = tables(plain(&[100, 10]), PARTITIONS, &[&SEGMENTS[..1], &[(300, 0, 25_000)], &SEGMENTS[1..]].concat());
    says(&older(), &more, "no segment 1", "300");
    // The first of two; a time that differs before a count that does.
    says(
        &older(),
        &changed(|newer| {
            newer.count[2] = 901;
            newer.time[3] = 4_001;
        }),
        "no segment 2",
        "900",
    );
}

#[test]
fn further_segments() {
    let further = |count: u64| changed(|newer| newer.count[4] = count);
    says(&older(), &further(1_501), "yes", "1500");
    says(&older(), &further(1_500), "no further 4", "1500");
    says(&older(), &further(1_301), "no further 4", "1301");
    // Both are too early: the first.
    says(
        &older(),
        &changed(|newer| {
            newer.count[4] = 1_400;
            newer.count[5] = 1_500;
        }),
        "no further 4",
        "1400",
    );
    // The newer's total is not asked: the same partitions, a segment at their total.
    let at = tables(plain(&[100, 10]), PARTITIONS, &[SEGMENTS, &[(1_500, 5_000, 25_000)]].concat());
    says(&older(), &at, "no further 4", "1500");
    assert_eq!(total(&at), total(&older()));
    // The older's last segment is at the total: what follows is above it.
    let last = tables(plain(&[100, 10]), PARTITIONS, &[SEGMENTS, &[(1_500, 5_000, 25_000)]].concat());
    let next = changed(|newer| {
        newer.count[4] = 1_500;
        newer.time[4] = 5_000;
        newer.rate[4] = 25_000;
    });
    says(&last, &next, "yes", "1500");
    // One that begins at the older's total, where another table has a row: the horizon is the total all the same.
    says(&last, &newer(), "no segment 4", "1500");
}

#[test]
fn seams() {
    let at = |time: i64| changed(|newer| newer.time[4] = time);
    says(&older(), &at(4_503), "yes", "1500");
    // The line is at 4,502.5 there: rounded up it is later.
    says(&older(), &at(4_502), "no seam 3", "1500");
    says(&older(), &at(4_001), "no seam 3", "1500");
    // A step back elsewhere, kept or further, is no fault of the seam.
    let back = changed(|newer| newer.time[5] = 5_999);
    assert_eq!(steps_back(&back.layout, back.partitions(), back.segments()), Ok(true));
    says(&older(), &back, "yes", "1500");
    let (mut old, mut new) = (older(), newer());
    for tables in [&mut old, &mut new] {
        tables.rate[1] = 40_000;
        assert_eq!(steps_back(&tables.layout, tables.partitions(), tables.segments()), Ok(true));
    }
    says(&old, &new, "yes", "1500");
    // Without a next row there is no seam, whatever the last line does.
    says(&new, &new, "yes", "2549");
    // Further comes first.
    says(
        &older(),
        &changed(|newer| {
            newer.count[4] = 1_500;
            newer.time[4] = 4_001;
        }),
        "no further 4",
        "1500",
    );
}

#[test]
fn refusals() {
    let empty = Tables::new();
    says(&empty, &empty, "refused older 1", "refused older 1");
    says(&empty, &newer(), "refused older 1", "refused older 1");
    says(&older(), &empty, "refused newer 1", "refused newer 1");
    // The older whole comes before the newer.
    let mut rates = older();
    rates.rate[2] = 9_999;
    says(&rates, &empty, "refused older 3 2", "refused older 3 2");
    says(&older(), &rates, "refused newer 3 2", "refused newer 3 2");
    let ends = changed(|newer| newer.end[3] = 1_000);
    says(&older(), &ends, "refused newer 2 3", "refused newer 2 3");
    says(&ends, &rates, "refused older 2 3", "refused older 2 3");
    let lengths = changed(|newer| newer.time.truncate(5));
    says(&older(), &lengths, "refused newer 3 5", "refused newer 3 5");
    // Another layout is no refusal, a bad one is.
    says(&older(), &changed(|newer| newer.layout.delimiter = 6), "refused newer 1", "refused newer 1");
}

/// As many rows as there may be.
#[test]
fn long_tables() {
    let e15 = Layout::LARGEST_P;
    let rows = |rows: usize| -> Vec<_> { (0..rows as u64).map(|i| (10 * i, 30 * i as i64, 2_000)).collect() };
    let partitions = |rows: usize| -> Vec<_> { (0..rows as u64).map(|i| (i, i + 10)).collect() };
    let long = |partitions: &[(u64, u64)], rows: &[(u64, i64, u64)]| tables(layout(&[e15], &[0], 1), partitions, rows);
    let old = long(&partitions(9_998), &rows(9_998));
    assert_eq!(total(&old), 99_980);
    let new = long(&partitions(9_999), &rows(10_000));
    says(&old, &new, "no further 9998", "99980");
    let old = long(&partitions(9_997), &rows(9_998));
    says(&old, &new, "yes", "99970");
    says(&new, &new, "yes", "99990");
    let mut last = new.clone();
    last.rate[9_999] += 1;
    says(&new, &last, "no segment 9999", "99990");
    last.end[9_998] -= 1;
    last.count[9_999] -= 1;
    says(&new, &last, "no partition 9998", "0");
}

/// Some newer table with faults, accepted.
fn edited(random: &mut Random, older: &Tables) -> Tables {
    loop {
        let mut tables = pairs::newer(random, older);
        for _ in 0..random.pick(&[1, 1, 1, 2, 3]) {
            edit(random, &mut tables, older);
        }
        if accepted(&tables) {
            return tables;
        }
    }
}

fn edit(random: &mut Random, tables: &mut Tables, older: &Tables) {
    let p = product(tables);
    let (row, segment) = (random.below(tables.start.len()), random.below(tables.count.len()));
    match random.below(12) {
        0 => tables.layout.delimiter = random.between(1, 5) as u8,
        1 => {
            // At times behind the n-th.
            let offset = &mut tables.layout.offsets[random.below(3)];
            *offset = offset.wrapping_add(1);
        }
        2 => tables.start[row] = random.between(0, p - 1),
        3 => tables.end[row] = random.between(0, p - 1),
        4 => {
            tables.start.truncate(row.max(1));
            tables.end.truncate(row.max(1));
        }
        5 => tables.count[segment] = random.near(tables.count[segment]),
        6 => tables.time[segment] += random.between(0, 4) as i64 - 2,
        7 => tables.rate[segment] += random.between(0, 4),
        8 => {
            tables.count.truncate(segment.max(1));
            tables.time.truncate(segment.max(1));
            tables.rate.truncate(segment.max(1));
        }
        9 => {
            // Segments up to the older's total.
            let (lowest, highest) = (older.count[older.count.len() - 1] + 1, total(tables));
            tables.count.truncate(older.count.len());
            tables.time.truncate(older.time.len());
            tables.rate.truncate(older.rate.len());
            pairs::add_segments(random, tables, lowest, highest);
        }
        // The row behind the older's last, a little earlier or later.
        _ => {
            if let Some(time) = tables.time.get_mut(older.time.len()) {
                *time += random.between(0, 8) as i64 - 6;
            }
        }
    }
}

/// "Every encoded count below it has one time in both; a stamp that either table reads to a count below it reads so in the
/// other."
fn agree_below(random: &mut Random, horizon: u64, old: &Tables, new: &Tables) {
    let time = |tables: &Tables, e| time_of(&tables.layout, tables.partitions(), tables.segments(), e);
    let below: Vec<u64> = if horizon < 200 {
        (0..horizon).collect()
    } else {
        let any = (0..100).map(|_| random.between(0, horizon - 1));
        any.chain([0, horizon - 1, horizon - 2]).collect()
    };
    for e in below {
        let (old, new) = (time(old, e), time(new, e));
        assert_eq!(old, new, "the time of {}", e);
        assert!(old.is_ok() || old == common::err(13));
    }
    for _ in 0..40 {
        let text = pairs::stamp(random, new);
        let read = |tables: &Tables| read_stamp(&tables.layout, tables.partitions(), &text);
        let (old, new) = (read(old), read(new));
        let counts = |reading: Result<u64, Refusal>| reading.map_or(false, |count| count < horizon);
        assert!(!counts(old) && !counts(new) || old == new, "{}", String::from_utf8_lossy(&text));
    }
}

/// "Where the older answers, the newer gives the same answer [..]", wherever `succeeds` says yes; below the horizon whatever it
/// says.
#[test]
fn on_random_pairs() {
    let mut random = Random::new(11);
    let mut seen = Seen::default();
    for _ in 0..20_000 {
        let old = pairs::older(&mut random);
        let new = if random.chance(40) { pairs::newer(&mut random, &old) } else { edited(&mut random, &old) };
        let steps = steps_back(&new.layout, new.partitions(), new.segments()).unwrap();
        let horizon = horizon(old.table(), new.table()).unwrap();
        agree_below(&mut random, horizon, &old, &new);
        match succeeds(old.table(), new.table()).unwrap() {
            Succession::Yes => {
                for _ in 0..12 {
                    assert!(directions(&mut seen, &mut random, &old, &new));
                }
                assert_eq!(horizon, total(&old));
                seen.note(format!("yes, {}", if steps { "steps back" } else { "no step back" }));
            }
            Succession::No(Hypothesis::Seam, _) => {
                assert!(steps);
                // All but the count at a time is as demand 3 says.
                let held = (0..12).all(|_| directions(&mut seen, &mut random, &old, &new));
                assert_eq!(horizon, total(&old));
                seen.note(format!("seam, the count at a time {}", if held { "held" } else { "misled" }));
            }
            Succession::No(hypothesis, _) => {
                let size = match horizon {
                    0 => "0",
                    _ if horizon < total(&old) => "a count",
                    _ => "the total",
                };
                seen.note(format!("{}, horizon {}", hypothesis.name(), size));
            }
        }
    }
    println!("{:#?}", seen.0);
    for event in [
        "yes, steps back",
        "yes, no step back",
        "seam, the count at a time held",
        "seam, the count at a time misled",
        "layout, horizon 0",
        "partition, horizon 0",
        "segment, horizon 0",
        "segment, horizon a count",
        "segment, horizon the total",
        "further, horizon a count",
        "further, horizon the total",
        "stamp both",
        "stamp 10",
        "stamp 11",
        "print 12",
        "time-of 12",
        "count-at 14",
        "exception ok ok",
    ] {
        assert!(seen.0.get(event).copied().unwrap_or(0) >= 20, "too few: {}", event);
    }
}
