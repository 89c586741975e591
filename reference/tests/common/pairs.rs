//! Random pairs of tables, an older and a newer, and what demand 3 says of them.

use std::collections::BTreeMap;

use super::{err, layout, LATEST};
use reference::random::Random;
use reference::script::Tables;
use reference::*;

/// A small layout, a few partitions and segments.
pub fn older(random: &mut Random) -> Tables {
    loop {
        let mut tables = Tables::new();
        let n = random.between(1, 3) as usize;
        tables.layout = layout(&vec![1; n], &vec![0; n], random.between(1, 5) as u8);
        for i in 0..n {
            tables.layout.moduli[i] = random.between(1, 12);
            tables.layout.offsets[i] = random.pick(&[0, 0, 1, 5, 1_000]);
        }
        // At times nine partitions: the number of the next is longer.
        let rows = random.pick(&[1, 2, 9]);
        add_partitions(random, &mut tables, rows);
        let first = random.between(0, total(&tables));
        tables.count.push(random.pick(&[0, 0, first]));
        tables.time.push(random.between(0, 100) as i64 - 50);
        tables.rate.push(rate(random, &tables));
        let highest = total(&tables);
        add_segments(random, &mut tables, 0, highest);
        if accepted(&tables) {
            return tables;
        }
    }
}

/// "The newer keeps the old partitions in place, but may end the last one later, and may add more after it. It keeps the
/// old segments and adds only ones that begin at a count above the older table's total."
pub fn newer(random: &mut Random, older: &Tables) -> Tables {
    loop {
        let mut tables = older.clone();
        let p = product(&tables);
        if random.chance(40) {
            let end = tables.end.last_mut().unwrap();
            *end = random.between(*end, p - 1);
        }
        if random.chance(60) {
            let rows = random.between(1, 2);
            add_partitions(random, &mut tables, rows);
        }
        let highest = total(&tables);
        add_segments(random, &mut tables, total(older) + 1, highest);
        if accepted(&tables) {
            return tables;
        }
    }
}

pub fn product(tables: &Tables) -> u64 {
    tables.layout.moduli[..tables.layout.n as usize].iter().product()
}

/// Of lists that may be broken.
pub fn total(tables: &Tables) -> u64 {
    tables.start.iter().zip(&tables.end).map(|(start, end)| end.saturating_sub(*start)).sum()
}

fn rate(random: &mut Random, tables: &Tables) -> u64 {
    let msf: u64 = tables.layout.moduli[1..tables.layout.n as usize].iter().product();
    1_000 * msf + random.pick(&[0, 0, 1, 500 * msf, 1_000 * msf]) + random.between(0, 300 * msf)
}

pub fn add_partitions(random: &mut Random, tables: &mut Tables, rows: u64) {
    let p = product(tables);
    for _ in 0..rows {
        if p > 1 {
            let start = random.between(0, p - 2);
            tables.start.push(start);
            tables.end.push(random.between(start + 1, p - 1));
        }
    }
}

/// After the last one, with counts in the range; near the last line's end, at times before it.
pub fn add_segments(random: &mut Random, tables: &mut Tables, lowest: u64, highest: u64) {
    for _ in 0..random.between(0, 2) {
        let last = tables.count.len() - 1;
        let from = lowest.max(tables.count[last].saturating_add(1));
        if from > highest {
            return;
        }
        let count = random.between(from, highest);
        let msf: u64 = tables.layout.moduli[1..tables.layout.n as usize].iter().product();
        let ticks = (count - tables.count[last]) as i64;
        let line = ticks * tables.rate[last] as i64 / (1_000 * msf as i64) + 1;
        let by = random.between(0, 40) as i64 - 10;
        let shift = random.pick(&[0, -1, 1, by, ticks]);
        tables.count.push(count);
        tables.time.push(tables.time[last] + (line + shift).max(1));
        tables.rate.push(rate(random, tables));
    }
}

/// "accepted where none of 1, 2 and 3 applies"
pub fn accepted(tables: &Tables) -> bool {
    steps_back(&tables.layout, tables.partitions(), tables.segments()).is_ok()
}

#[derive(Default)]
pub struct Seen(pub BTreeMap<String, u64>);

impl Seen {
    pub fn note(&mut self, event: String) {
        *self.0.entry(event).or_insert(0) += 1;
    }

    /// "Where the older answers, the newer gives the same answer. Where only the newer answers, the older refuses" with
    /// one of these. False where that does not hold.
    fn claim<T: PartialEq>(
        &mut self,
        call: &str,
        old: Result<T, Refusal>,
        new: Result<T, Refusal>,
        allowed: &[u32],
    ) -> bool {
        match (old, new) {
            (Ok(old), Ok(new)) if old == new => self.note(format!("{} both", call)),
            (Err(Refusal { number, place: None }), Ok(_)) if allowed.contains(&number) => {
                self.note(format!("{} {}", call, number));
            }
            (Err(_), Err(_)) => self.note(format!("{} neither", call)),
            _ => return false,
        }
        true
    }
}

/// A print or a refusal, with what the lent buffer holds afterwards.
pub fn print(tables: &Tables, e: u64, len: usize, fill: u8) -> Result<Vec<u8>, Refusal> {
    let mut lent = vec![fill; len];
    let result = print_stamp(&tables.layout, tables.partitions(), e, &mut lent);
    let printed = result.unwrap_or(0);
    assert!(lent[printed..].iter().all(|&byte| byte == fill));
    result.map(|len| lent[..len].to_vec())
}

/// A stamp for both, sometimes with a partition, sometimes wrong.
pub fn stamp(random: &mut Random, newer: &Tables) -> Vec<u8> {
    let mut lent = [0; 200];
    let count = random.between(0, product(newer) + 1).min(product(newer) - 1);
    let len = print_count(&newer.layout, count, &mut lent).unwrap();
    let mut text = lent[..len].to_vec();
    if random.chance(60) {
        let number = random.between(0, newer.start.len() as u64 + 1);
        text = [format!("{} /", number).into_bytes(), text].concat();
    }
    if random.chance(10) {
        let at = random.below(text.len());
        text[at] = random.pick(b"0159 .:,-/x");
    }
    text
}

/// The same asked of both tables in each of the four directions. All must be as demand 3 says, apart from the count at a time:
/// false where that one is not.
pub fn directions(seen: &mut Seen, random: &mut Random, old: &Tables, new: &Tables) -> bool {
    let last = old.start.len() - 1;
    let exception = new.end[last] == old.end[last] && new.start.len() > old.start.len();
    let text = stamp(random, new);
    let ask = |tables: &Tables| read_stamp(&tables.layout, tables.partitions(), &text);
    assert!(seen.claim("stamp", ask(old), ask(new), &[10, 11]));

    let mut e = random.between(0, total(new) + 2);
    if random.chance(30) {
        e = random.near(total(old));
    }
    // A length near one of the two prints', or any.
    let lengths = [print(old, e, 99, 0), print(new, e, 99, 0)].map(|print| print.map_or(0, |text| text.len()));
    let near = random.pick(&lengths) as u64 + random.between(0, 2);
    let any = random.between(1, 24);
    let (len, fills) =
        ((random.pick(&[near, any]) as usize).saturating_sub(1), (random.word() as u8, random.word() as u8));
    let (old_print, new_print) = (print(old, e, len, fills.0), print(new, e, len, fills.1));
    if exception && e == total(old) {
        // "In the one exception each table prints the older's total as "Printing" says, or refuses 16: the older
        // prints the end of its last partition, the newer the start of the one after it."
        let text = |number: usize, count: u64| {
            let mut lent = [0; 200];
            let len = print_count(&old.layout, count, &mut lent).unwrap();
            [format!("{}/", number).into_bytes(), lent[..len].to_vec()].concat()
        };
        let fitting = |text: Vec<u8>| if text.len() <= len { Ok(text) } else { err(16) };
        assert_eq!(old_print, fitting(text(last + 1, old.end[last])));
        assert_eq!(new_print, fitting(text(last + 2, new.start[last + 1])));
        // Since request 2 the newer's print is never the shorter one.
        assert!(old_print.is_ok() || new_print.is_err());
        seen.note(format!("exception {} {}", word(&old_print), word(&new_print)));
    } else {
        assert!(seen.claim("print", old_print, new_print, &[12]));
    }

    let ask = |tables: &Tables| time_of(&tables.layout, tables.partitions(), tables.segments(), e);
    assert!(seen.claim("time-of", ask(old), ask(new), &[12]));

    let near = random.pick(&new.time) + random.between(0, 80) as i64 - 40;
    let far = random.pick(&[i64::MIN, i64::MAX, LATEST, -LATEST]);
    let t = if random.chance(95) { near } else { far };
    let ask = |tables: &Tables| count_at(&tables.layout, tables.partitions(), tables.segments(), t);
    seen.claim("count-at", ask(old), ask(new), &[14])
}

fn word(print: &Result<Vec<u8>, Refusal>) -> String {
    match print {
        Ok(_) => "ok".to_string(),
        Err(refusal) => refusal.to_string(),
    }
}
