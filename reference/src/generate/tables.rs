//! Random tables: sound ones, biased to the limits.

use crate::random::Random;
use crate::script::Tables;
use crate::{Layout, Partitions, Segments};

const E15: u64 = Layout::LARGEST_P;
const E12: u64 = Layout::LARGEST_MSF;
const LATEST: i64 = Segments::LATEST;

/// Tables that break no rule.
pub fn sound(random: &mut Random) -> Tables {
    let mut tables = Tables::new();
    while p(&tables.layout) < 2 {
        tables.layout = layout(random);
    }
    set_partitions(random, &mut tables);
    set_segments(random, &mut tables);
    tables
}

/// The product of a sound layout's moduli, 0 for no layout.
pub fn p(layout: &Layout) -> u64 {
    used(layout).checked_sub(1).map_or(0, |_| product(&layout.moduli[..used(layout)]))
}

/// The product of all but the first.
pub fn msf(layout: &Layout) -> u64 {
    product(layout.moduli[..used(layout)].get(1..).unwrap_or(&[]))
}

/// The fields of a layout that may be broken.
pub fn used(layout: &Layout) -> usize {
    layout.n.min(10) as usize
}

fn product(moduli: &[u64]) -> u64 {
    moduli.iter().fold(1, |product: u64, &modulus| product.saturating_mul(modulus))
}

/// The sum of lengths, of lists that may be broken.
pub fn total(tables: &Tables) -> u64 {
    let lengths = tables.start.iter().zip(&tables.end).map(|(start, end)| end.saturating_sub(*start));
    lengths.fold(0, u64::saturating_add)
}

/// A layout that breaks no rule.
pub fn layout(random: &mut Random) -> Layout {
    let mut moduli = match random.below(10) {
        0 => vec![100, 10],
        1 => vec![65_536, 60, 800],
        2 => random.pick(&[&[16_777_215, 91, 10, 8][..], &[4_294_967_296, 256], &[4_294_967_296, 65_536]]).to_vec(),
        3 | 4 => {
            let (n, most) = (random.between(1, 10), random.pick(&[1, 2, 3, 12]));
            (0..n).map(|_| random.between(1, most)).collect()
        }
        5 => largest_p(random),
        6 => around_powers(random),
        7 => vec![random.pick(&[2, 3, 9, 10, 11, E12, E15 - 999, E15 - 1, E15])],
        8 => {
            let most = random.between(1, 1_000);
            vec![most, random.pick(&[E12, E12 - 1, 1_000_000])]
        }
        _ => any_size(random),
    };
    let n = moduli.len();
    // A place for a modulus of 1.
    if n < 10 && random.chance(15) {
        moduli.insert(random.below(n + 1), 1);
        if product(&moduli[1..]) > E12 {
            moduli.remove(0);
        }
    }
    fill(random, &moduli)
}

/// P is 10^15, its factors given out at random.
fn largest_p(random: &mut Random) -> Vec<u64> {
    let n = random.between(1, 10) as usize;
    let mut moduli = vec![1; n];
    moduli[0] = 1_000;
    for factor in [2, 5] {
        for _ in 0..12 {
            moduli[random.below(n)] *= factor;
        }
    }
    moduli
}

/// Moduli with a width that changes, 9, 10, 11, 99, 100, 101 and so on, or that an offset makes wider.
fn around_powers(random: &mut Random) -> Vec<u64> {
    let n = random.between(1, 6) as usize;
    let mut moduli = vec![1; n];
    let mut left = E12;
    for i in (0..n).rev() {
        if i == 0 {
            left = left.saturating_mul(1_000);
        }
        let power: u64 = random.pick(&[10, 100, 1_000, 10_000, 1_000_000]);
        let less = random.magnitude(power.min(1_000) - 1);
        let near = random.near(power);
        let modulus = random.pick(&[near, near, power - less]);
        if modulus <= left {
            moduli[i] = modulus;
            left /= modulus;
        }
    }
    moduli
}

/// Any moduli that fit.
fn any_size(random: &mut Random) -> Vec<u64> {
    let n = random.between(1, 10) as usize;
    let mut moduli = vec![1; n];
    let mut left = E12;
    for i in (0..n).rev() {
        if i == 0 {
            left = E15 / product(&moduli);
        }
        moduli[i] = random.magnitude(left).max(1);
        left /= moduli[i];
    }
    moduli
}

/// Offsets, a delimiter, and anything in the slots that are not looked at.
pub fn fill(random: &mut Random, moduli: &[u64]) -> Layout {
    let mut layout =
        Layout { n: moduli.len() as u64, moduli: [0; 10], offsets: [0; 10], delimiter: random.between(1, 5) as u8 };
    let offsets = random.below(5);
    for i in 0..10 {
        let any = random.magnitude(Layout::LARGEST_OFFSET);
        layout.offsets[i] = match offsets {
            0 => 0,
            1 => random.pick(&[0, 1]),
            2 => random.pick(&[0, 1, 9, 10, 999, 1_000, any]),
            _ => moduli.get(i).and_then(|&modulus| to_a_power(random, modulus)).unwrap_or(any),
        };
        let junk = random.word();
        layout.moduli[i] = moduli.get(i).copied().unwrap_or_else(|| random.pick(&[0, 1, u64::MAX, junk]));
        if i >= moduli.len() && random.chance(50) {
            layout.offsets[i] = random.pick(&[1_001, u64::MAX, junk]);
        }
    }
    layout
}

/// An offset with which the largest shown number is a power of ten, one more or one less, if there is one.
fn to_a_power(random: &mut Random, modulus: u64) -> Option<u64> {
    let powers: Vec<u64> =
        (1..16).map(|zeros| 10u64.pow(zeros)).filter(|power| (modulus..modulus + 1_000).contains(power)).collect();
    if powers.is_empty() {
        return None;
    }
    let offset = random.pick(&powers) - modulus + 1;
    Some(random.near(offset).min(Layout::LARGEST_OFFSET))
}

/// Partitions that break no rule, for a sound layout with P of at least 2.
pub fn set_partitions(random: &mut Random, tables: &mut Tables) {
    let p = p(&tables.layout);
    let rows = if random.chance(3) { random.between(20, 60) } else { random.between(1, 6) };
    let style = random.below(6);
    let mut left = Partitions::LARGEST_TOTAL;
    for row in 0..rows {
        // At least one tick stays for each further row.
        let longest = (left - (rows - row - 1)).min(p - 1);
        let previous = tables.end.last().copied().unwrap_or(0);
        let start = match style {
            0 => 0,
            // Each begins where the one before ended.
            1 if previous < p - 1 => previous,
            2 => random.magnitude(p - 2).min(20),
            _ => random.between(0, p - 2),
        };
        let longest = longest.min(p - 1 - start);
        let length = match (style, random.below(4)) {
            (0, 0) | (_, 1) => longest,
            (1, _) => longest / (rows - row) + 1,
            (2, _) => random.between(1, 30),
            (_, 2) => 1,
            _ => random.magnitude(longest).max(1),
        }
        .min(longest);
        tables.start.push(start);
        tables.end.push(start + length);
        left -= length;
    }
}

/// Segments that break no rule, for sound layout and partitions.
fn set_segments(random: &mut Random, tables: &mut Tables) {
    let total = total(tables);
    let most = if random.chance(3) { 60 } else { 5 };
    let rows = random.between(1, most);
    tables.count = (0..rows).map(|_| count(random, total)).collect();
    tables.count.sort_unstable();
    tables.count.dedup();
    // With the slowest clock the range is never left.
    if !set_rates_and_times(random, tables, false) {
        set_rates_and_times(random, tables, true);
    }
}

fn count(random: &mut Random, total: u64) -> u64 {
    let any = random.between(0, total);
    let small = random.magnitude(total);
    random.pick(&[0, 1, total, total - 1, total / 2, any, any, small, small]).min(total)
}

/// False if a line leaves the range.
fn set_rates_and_times(random: &mut Random, tables: &mut Tables, slowest: bool) -> bool {
    let unit = u128::from(1_000 * msf(&tables.layout));
    let (total, rows) = (total(tables), tables.count.len());
    let style = random.below(3);
    let mut times: Vec<i128> = vec![0];
    let mut highest = 0;
    tables.rate.clear();
    for i in 0..rows {
        let end = if i + 1 < rows { tables.count[i + 1] } else { total };
        let ticks = u128::from(end - tables.count[i]);
        let rate = if slowest { unit as u64 } else { rate(random, unit as u64, ticks) };
        tables.rate.push(rate);
        let line = (u128::from(rate) * ticks + unit - 1) / unit;
        let reached = times[i] + line as i128;
        highest = highest.max(reached);
        // The next one's time: where the line ends, by a little off it, or far off.
        let shift = match (style, random.below(3)) {
            (0, _) | (1, 0) => 0,
            (1, 1) => i128::from(random.pick(&[-1i8, 1])),
            (_, 0) => -(random.magnitude(1 << 40) as i128),
            _ => random.magnitude(1 << 50) as i128,
        };
        times.push((reached + shift).max(times[i] + 1));
    }
    times.pop();
    highest = highest.max(times[rows - 1]);
    if highest > 2 * i128::from(LATEST) {
        return false;
    }
    // The first time: as early as can be, as late as can be, or anywhere.
    let latest = (i128::from(LATEST) - highest) as i64;
    let near = (random.magnitude(1 << 45) as i64 - (1 << 44)).min(latest);
    let any = random.time_between(-LATEST, latest);
    let first = random.pick(&[-LATEST, latest, any, near, near, near, latest.min(0)]);
    tables.time = times.iter().map(|time| (i128::from(first) + time) as i64).collect();
    true
}

/// From 1,000×MSF to 10^15, most often one that keeps the line in range.
fn rate(random: &mut Random, unit: u64, ticks: u128) -> u64 {
    let fast = (4_000_000_000_000_000_000u128 * u128::from(unit) / ticks.max(1)).min(u128::from(E15)) as u64;
    let fast = fast.max(unit);
    let any = random.between(unit, fast);
    let small = (unit + random.magnitude(fast - unit)).min(E15);
    random.pick(&[unit, unit + 1, unit + unit / 2, 2 * unit, fast, any, any, small, small, small, E15]).min(E15)
}
