//! The rules that tables break, each with the first row that breaks it.

use crate::script::Tables;

const E15: u128 = 1_000_000_000_000_000;
const E12: u128 = 1_000_000_000_000;
const LATEST: i128 = 4_000_000_000_000_000_000;

/// A rule, and the row of its refusal; of wrong lengths the shortest.
pub type Fault = (&'static str, usize);

/// What tables break first, with the place: a label of the samples of kernel text.
pub fn first_fault(tables: &Tables) -> String {
    match layout_faults(tables)[..] {
        [] => {}
        [fault] => return fault.to_string(),
        _ => return "1: several".to_string(),
    }
    // Segments are looked at only beside good partitions.
    for faults_of in [partition_faults, segment_faults] {
        let faults = faults_of(tables);
        if let Some(place) = place(&faults) {
            let (number, rule) = faults[0].0.split_at(1);
            let rule = if faults.len() > 1 { ": several" } else { rule };
            return format!("{} {}{}", number, place, rule);
        }
    }
    "ok: tables".to_string()
}

/// "the first row, from 0, that breaks a rule".
pub fn place(faults: &[Fault]) -> Option<usize> {
    faults.iter().map(|fault| fault.1).min()
}

/// What the place shows, given the number of rows: where a rule broken alone is broken, and which kind of rule decides at
/// an earlier row where which other is broken at a later one.
pub fn labels(faults: &[Fault], rows: usize) -> Vec<String> {
    let first = match place(faults) {
        Some(first) => first,
        None => return vec![],
    };
    let mut labels = vec![];
    if let [(rule, row)] = *faults {
        let lengths = ["shortest", "no ", "lists", "over "].iter().any(|word| rule.contains(word));
        labels.push(match row {
            _ if lengths => rule.to_string(),
            _ if rows == 1 => format!("{}, the only row", rule),
            0 => format!("{}, the first row", rule),
            _ if row + 1 == rows => format!("{}, the last row", rule),
            _ => format!("{}, an inner row", rule),
        });
    }
    for early in faults.iter().filter(|fault| fault.1 == first) {
        for late in faults.iter().filter(|fault| fault.1 > first) {
            labels.push(format!("{} {} before {}", &early.0[..2], kind(early.0), kind(late.0)));
        }
    }
    labels
}

/// Rules of one kind.
fn kind(rule: &str) -> &'static str {
    match rule {
        "2: start is end" | "2: start above end" => "a start",
        "2: end not below P" => "an end",
        "2: total above 10^15" => "the total",
        "3: equal counts" | "3: a count goes back" => "counts",
        "3: equal times" | "3: a time goes back" => "times",
        "3: a time too early" | "3: a time too late" => "a time's range",
        "3: a rate too low" | "3: a rate too high" => "a rate",
        "3: an inner line too late" | "3: the last line too late" => "a line",
        "3: last count above the total" => "the last count",
        _ => unreachable!("a rule of rows"),
    }
}

pub fn layout_faults(tables: &Tables) -> Vec<&'static str> {
    let layout = &tables.layout;
    if layout.n == 0 || layout.n > 10 {
        return vec![if layout.n == 0 { "1: n is 0" } else { "1: n above 10" }];
    }
    let n = layout.n as usize;
    let moduli = &layout.moduli[..n];
    let product = |moduli: &[u64]| moduli.iter().fold(1u128, |product, &m| (product * u128::from(m)).min(1 << 64));
    let mut faults = vec![];
    if moduli.contains(&0) {
        faults.push("1: a modulus is 0");
    }
    if layout.offsets[..n].iter().any(|&offset| offset > 1_000) {
        faults.push("1: an offset above 1,000");
    }
    if product(moduli) > E15 {
        faults.push("1: P above 10^15");
    }
    if product(&moduli[1..]) > E12 {
        faults.push("1: MSF above 10^12");
    }
    if layout.delimiter == 0 || layout.delimiter > 5 {
        faults.push("1: delimiter");
    }
    faults
}

/// Each rule of a kind of rows, with the first row that breaks it.
struct Faults {
    rows: usize,
    found: Vec<Fault>,
}

impl Faults {
    fn rule(&mut self, rule: &'static str, breaks: impl Fn(usize) -> bool) {
        if let Some(row) = (0..self.rows).find(|&row| breaks(row)) {
            self.found.push((rule, row));
        }
    }
}

pub fn partition_faults(tables: &Tables) -> Vec<Fault> {
    let Tables { start, end, layout, .. } = tables;
    let p: u64 = layout.moduli[..layout.n as usize].iter().product();
    let rows = start.len().min(end.len());
    match (start.len(), end.len()) {
        (0, 0) => return vec![("2: no row", 0)],
        (0, _) => return vec![("2: no starts", 0)],
        (_, 0) => return vec![("2: no ends", 0)],
        (starts, ends) if starts < ends => return vec![("2: starts are shortest", rows)],
        (starts, ends) if starts > ends => return vec![("2: ends are shortest", rows)],
        (starts, _) if starts > 9_999 => return vec![("2: over 9,999 rows", rows)],
        _ => {}
    }
    let add = |sum: &mut i128, (&start, &end): (&u64, &u64)| {
        *sum += i128::from(end) - i128::from(start);
        Some(*sum)
    };
    let sums: Vec<i128> = start.iter().zip(end).scan(0, add).collect();
    let mut faults = Faults { rows, found: vec![] };
    faults.rule("2: start is end", |row| start[row] == end[row]);
    faults.rule("2: start above end", |row| start[row] > end[row]);
    faults.rule("2: end not below P", |row| end[row] >= p);
    faults.rule("2: total above 10^15", |row| sums[row] > E15 as i128);
    faults.found
}

pub fn segment_faults(tables: &Tables) -> Vec<Fault> {
    let Tables { count, time, rate, layout, .. } = tables;
    let rows = count.len().min(time.len()).min(rate.len());
    let lengths = [count.len(), time.len(), rate.len()];
    if lengths != [rows; 3] {
        let shortest = lengths.map(|length| length == rows);
        let rule = match (rows, shortest) {
            (0, [true, false, false]) => "3: no counts",
            (0, [false, true, false]) => "3: no times",
            (0, [false, false, true]) => "3: no rates",
            (0, _) => "3: no entries in two lists",
            (_, [true, false, false]) => "3: counts are shortest",
            (_, [false, true, false]) => "3: times are shortest",
            (_, [false, false, true]) => "3: rates are shortest",
            _ => "3: two lists are shortest",
        };
        return vec![(rule, rows)];
    }
    if rows == 0 || rows > 10_000 {
        return vec![(if rows == 0 { "3: no row" } else { "3: over 10,000 rows" }, rows)];
    }
    let total: u64 = tables.start.iter().zip(&tables.end).map(|(start, end)| end - start).sum();
    let unit = 1_000 * layout.moduli[1..layout.n as usize].iter().product::<u64>();
    let last = rows - 1;
    let late = |row: usize, end: u64| {
        let ticks = i128::from(end) - i128::from(count[row]);
        let line = (ticks * i128::from(rate[row]) + i128::from(unit) - 1).div_euclid(i128::from(unit));
        i128::from(time[row]) <= LATEST && i128::from(time[row]) + line > LATEST
    };
    let mut faults = Faults { rows, found: vec![] };
    faults.rule("3: equal counts", |row| row > 0 && count[row - 1] == count[row]);
    faults.rule("3: a count goes back", |row| row > 0 && count[row - 1] > count[row]);
    faults.rule("3: last count above the total", |row| row == last && count[row] > total);
    faults.rule("3: equal times", |row| row > 0 && time[row - 1] == time[row]);
    faults.rule("3: a time goes back", |row| row > 0 && time[row - 1] > time[row]);
    faults.rule("3: a time too early", |row| i128::from(time[row]) < -LATEST);
    faults.rule("3: a time too late", |row| i128::from(time[row]) > LATEST);
    faults.rule("3: a rate too low", |row| rate[row] < unit);
    faults.rule("3: a rate too high", |row| u128::from(rate[row]) > E15);
    faults.rule("3: an inner line too late", |row| row < last && late(row, count[row + 1]));
    faults.rule("3: the last line too late", |row| row == last && late(row, total));
    faults.found
}
