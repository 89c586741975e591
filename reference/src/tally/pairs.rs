//! Two tables a second time: which hypotheses fail, all of them and at every row, where the tables differ, and what a question
//! shows.

use std::collections::BTreeSet;

use super::tables::{layout_faults, partition_faults, place, segment_faults};
use crate::script::{Question, Tables};

/// What a question must be answered.
pub struct Expected {
    pub answer: String,
    /// The outcome without the call's name, with the clause where an answer has several.
    pub outcome: String,
    /// What else it shows, without the call's name.
    pub shows: Vec<String>,
}

const NAMES: [&str; 5] = ["layout", "partition", "segment", "further", "seam"];

pub fn expected(older: &Tables, newer: &Tables, question: &Question) -> Expected {
    if let Some((side, refusal)) = refused(older, newer) {
        let (number, shows) = refusal_shows(older, newer, side, &refusal);
        let outcome = format!("refused {} {}", side, number);
        return Expected { answer: format!("refused {} {}", side, refusal), outcome, shows };
    }
    let failures = failures(older, newer);
    match question {
        Question::Succeeds => succeeds(older, newer, &failures),
        Question::Horizon => horizon(older, newer, &failures),
        _ => unreachable!("a question about two tables"),
    }
}

/// The first refusal of a table, with its place.
fn refusal(tables: &Tables) -> Option<String> {
    if !layout_faults(tables).is_empty() {
        return Some("1".to_string());
    }
    let number = |number: u32, place: usize| format!("{} {}", number, place);
    match place(&partition_faults(tables)) {
        Some(row) => Some(number(2, row)),
        None => place(&segment_faults(tables)).map(|row| number(3, row)),
    }
}

/// "refused older K, else refused newer K".
fn refused(older: &Tables, newer: &Tables) -> Option<(&'static str, String)> {
    refusal(older).map(|refusal| ("older", refusal)).or_else(|| refusal(newer).map(|refusal| ("newer", refusal)))
}

fn refusal_shows(older: &Tables, newer: &Tables, side: &str, said: &str) -> (String, Vec<String>) {
    let tables = if side == "older" { older } else { newer };
    let number = said[..1].to_string();
    let mut shows = vec![];
    if let Some(row) = said.get(2..).and_then(|row| row.parse::<usize>().ok()) {
        let lengths = match &number[..] {
            "2" => vec![tables.start.len(), tables.end.len()],
            _ => vec![tables.count.len(), tables.time.len(), tables.rate.len()],
        };
        let rows = lengths[0];
        let unequal = lengths.iter().any(|&length| length != rows) || rows == 0;
        shows.push(format!("{} {}, {}", side, number, if unequal { "lengths" } else { row_kind(row, rows) }));
    }
    if side == "older" {
        if let Some(other) = refusal(newer) {
            shows.push(format!("older {} before newer {}", number, &other[..1]));
        }
    }
    (number, shows)
}

fn row_kind(row: usize, rows: usize) -> &'static str {
    match row {
        _ if row >= rows => "too many rows",
        _ if rows == 1 => "the only row",
        0 => "the first row",
        _ if row + 1 == rows => "the last row",
        _ => "an inner row",
    }
}

/// A hypothesis by its place in the order, the row, and what is wrong there.
type Failure = (usize, usize, &'static str);

/// Every failure of two accepted tables, each hypothesis looked at whatever the others say.
fn failures(older: &Tables, newer: &Tables) -> Vec<Failure> {
    let mut all = vec![];
    all.extend(layout_differences(older, newer).first().map(|&what| (0, 0, what)));
    let last = older.start.len() - 1;
    for row in 0..=last {
        let what = match (newer.start.get(row), newer.end.get(row)) {
            (None, _) | (_, None) => "no row",
            (Some(start), _) if start != &older.start[row] => "another start",
            (_, Some(end)) if end < &older.end[row] && row == last => "the last end smaller",
            (_, Some(end)) if end < &older.end[row] => "an inner end smaller",
            (_, Some(end)) if end > &older.end[row] && row != last => "an inner end greater",
            _ => continue,
        };
        all.push((1, row, what));
    }
    for row in 0..older.count.len() {
        match row_difference(older, newer, row) {
            "" => {}
            what => all.push((2, row, what)),
        }
    }
    let total = total(older);
    for row in older.count.len()..newer.count.len() {
        match i128::from(newer.count[row]) - total {
            0 => all.push((3, row, "at the total")),
            more if more < 0 => all.push((3, row, "below the total")),
            _ => {}
        }
    }
    let seam = older.count.len() - 1;
    if let Some((up, down, next)) = seam_of(newer, seam) {
        if up > next {
            all.push((4, seam, if down > next { "rounded down too" } else { "only rounded up" }));
        }
    }
    all
}

fn layout_differences(older: &Tables, newer: &Tables) -> Vec<&'static str> {
    let (old, new) = (&older.layout, &newer.layout);
    let mut found = vec![];
    if old.n != new.n {
        found.push("n");
    }
    let fields = old.n.min(new.n) as usize;
    if (0..fields).any(|field| old.moduli[field] != new.moduli[field]) {
        found.push("a modulus");
    }
    if (0..fields).any(|field| old.offsets[field] != new.offsets[field]) {
        found.push("an offset");
    }
    if old.delimiter != new.delimiter {
        found.push("the delimiter");
    }
    found
}

/// What differs in one row; nothing where neither has it.
fn row_difference(older: &Tables, newer: &Tables, row: usize) -> &'static str {
    match (row < older.count.len(), row < newer.count.len()) {
        (false, false) => return "",
        (true, false) => return "a row the older alone has",
        (false, true) => return "a row the newer alone has",
        _ => {}
    }
    let differs =
        [older.count[row] != newer.count[row], older.time[row] != newer.time[row], older.rate[row] != newer.rate[row]];
    match differs {
        [false, false, false] => "",
        [true, false, false] => "another count",
        [false, true, false] => "another time",
        [false, false, true] => "another rate",
        _ => "several numbers",
    }
}

fn total(tables: &Tables) -> i128 {
    tables.start.iter().zip(&tables.end).map(|(&start, &end)| i128::from(end) - i128::from(start)).sum()
}

/// A row's line at the next row's count, rounded up and rounded down, and the next row's time.
fn seam_of(tables: &Tables, row: usize) -> Option<(i128, i128, i128)> {
    let (count, time, rate) = (*tables.count.get(row)?, *tables.time.get(row)?, *tables.rate.get(row)?);
    let (next, next_time) = (*tables.count.get(row + 1)?, *tables.time.get(row + 1)?);
    let unit =
        1_000 * tables.layout.moduli[1..tables.layout.n as usize].iter().map(|&m| i128::from(m)).product::<i128>();
    let picoseconds = i128::from(rate) * (i128::from(next) - i128::from(count));
    let (down, up) = (picoseconds.div_euclid(unit), -(-picoseconds).div_euclid(unit));
    Some((i128::from(time) + up, i128::from(time) + down, i128::from(next_time)))
}

fn succeeds(older: &Tables, newer: &Tables, failures: &[Failure]) -> Expected {
    let first = match failures.iter().min_by_key(|failure| (failure.0, failure.1)) {
        Some(&first) => first,
        None => return yes(older, newer),
    };
    let (order, row, what) = first;
    let name = NAMES[order];
    let mut shows = vec![format!("{}, {}", name, what)];
    match order {
        0 => {
            if let [alone] = layout_differences(older, newer)[..] {
                shows.push(format!("layout, {} alone", alone));
            }
        }
        1 => shows.push(format!("partition, {}", row_kind(row, older.start.len()))),
        2 => shows.push(format!("segment, {}", row_kind(row, older.count.len()))),
        3 if newer.count.iter().any(|&count| i128::from(count) > total(older)) => {
            shows.push("further, another above the total".to_string());
        }
        4 => shows.push(format!("seam, {}", if row == 0 { "row 0" } else { "a later row" })),
        _ => {}
    }
    if failures.iter().any(|failure| failure.0 == order && failure.1 > row) {
        shows.push(format!("{}, the first of several rows", name));
    }
    for (later, other) in NAMES.iter().enumerate().skip(order + 1) {
        if failures.iter().any(|failure| failure.0 == later) {
            shows.push(format!("{} before {}", name, other));
        }
    }
    Expected { answer: format!("ok no {} {}", name, row), outcome: format!("ok no {}", name), shows }
}

fn yes(older: &Tables, newer: &Tables) -> Expected {
    let mut shows = vec![];
    let mut show = |holds: bool, what: &str| {
        if holds {
            shows.push(format!("yes, {}", what));
        }
    };
    let (rows, segments) = (older.start.len(), older.count.len());
    let greater = newer.end[rows - 1] > older.end[rows - 1];
    let more = newer.start.len() > rows;
    show(greater, "the last end greater");
    show(!greater, "the last end kept");
    show(more, "a partition added");
    show(more && greater, "the last end greater and a partition added");
    show(newer.count.len() > segments, "further segments");
    show(newer.count.len() == segments, "no further segment");
    show(!greater && !more && newer.count.len() == segments, "nothing added");
    show(
        newer.count.get(segments).map_or(false, |&count| i128::from(count) == total(older) + 1),
        "one above the total",
    );
    let seam = seam_of(newer, segments - 1);
    show(seam.map_or(false, |(up, _, next)| up == next), "the line meets the next row");
    show(seam.map_or(false, |(up, down, next)| up == next && down < up), "the line, rounded up, meets the next row");
    let back = |row: usize| seam_of(newer, row).map_or(false, |(up, _, next)| up > next);
    show((0..segments - 1).any(back), "a kept row steps back");
    show((segments..newer.count.len()).any(back), "a further row steps back");
    let n = older.layout.n as usize;
    let (old, new) = (&older.layout, &newer.layout);
    show(old.moduli[n..] != new.moduli[n..] || old.offsets[n..] != new.offsets[n..], "other slots after the n-th");
    Expected { answer: "ok yes".to_string(), outcome: "ok yes".to_string(), shows }
}

fn horizon(older: &Tables, newer: &Tables, failures: &[Failure]) -> Expected {
    let first = failures.iter().map(|failure| failure.0).min();
    let mut shows = vec![format!("beside {}", first.map_or("yes", |order| NAMES[order]))];
    if first == Some(0) || first == Some(1) {
        let outcome = if first == Some(0) { "ok, 0 by the layout" } else { "ok, 0 by the partitions" };
        return Expected { answer: "ok 0".to_string(), outcome: outcome.to_string(), shows };
    }
    // Of all rows that one table alone has at their place, the least count.
    let rows = |tables: &Tables| -> BTreeSet<(usize, u64, i64, u64)> {
        (0..tables.count.len()).map(|row| (row, tables.count[row], tables.time[row], tables.rate[row])).collect()
    };
    let (old, new) = (rows(older), rows(newer));
    let least = |rows: BTreeSet<(usize, u64, i64, u64)>| rows.iter().map(|row| i128::from(row.1)).min();
    let (old, new) = (least(&old - &new), least(&new - &old));
    let total = total(older);
    let (count, outcome) = match old.into_iter().chain(new).min() {
        None => (total, "the total, no row differs"),
        Some(count) if count > total => (total, "the total, a row above it differs"),
        Some(count) if count == total => (total, "the total, where a row differs"),
        Some(count) if old == new => (count, "the count of both"),
        Some(count) if Some(count) == old => (count, "the older's count"),
        Some(count) => (count, "the newer's count"),
    };
    let most = older.count.len().max(newer.count.len());
    if let Some(row) = (0..most).find(|&row| !row_difference(older, newer, row).is_empty()) {
        shows.push(row_difference(older, newer, row).to_string());
        shows.push(if row == 0 { "the first row" } else { "a later row" }.to_string());
        if count == 0 {
            shows.push("0, the first row's count".to_string());
        }
        if i128::from(newer.count.get(row).copied().unwrap_or(0)) == total + 1 {
            shows.push("a row one above the total".to_string());
        }
    }
    Expected { answer: format!("ok {}", count), outcome: format!("ok, {}", outcome), shows }
}
