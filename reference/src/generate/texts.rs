//! Random clock texts, stamps and messages.

use super::tables::{p, used};
use crate::random::Random;
use crate::script::Tables;
use crate::Layout;

const E15: u64 = 1_000_000_000_000_000;
const MARKS: &[u8] = b".:,-";
/// All that may stand in a stamp.
const ALLOWED: &[u8] = b"0123456789 .:,-/";

pub fn text(random: &mut Random, tables: &Tables) -> Vec<u8> {
    let count = text_count(random, tables);
    match random.below(40) {
        0 => soup(random, &ALLOWED[..15]),
        1 => soup(random, ALLOWED),
        2 => (0..random.below(8)).map(|_| random.word() as u8).collect(),
        3 => long(random, tables, false),
        _ => composed(random, &tables.layout, count),
    }
}

pub fn stamp(random: &mut Random, tables: &Tables) -> Vec<u8> {
    match random.below(40) {
        0 => return soup(random, ALLOWED),
        1 => return long(random, tables, true),
        _ => {}
    }
    let rows = tables.start.len().min(tables.end.len());
    if rows == 0 || random.chance(10) {
        let front = front(random, rows as u64, 1);
        return [front, text(random, tables)].concat();
    }
    let row = random.below(rows);
    let count = count_in(random, tables, row);
    let text = composed(random, &tables.layout, count);
    if random.chance(35) {
        return text;
    }
    [front(random, rows as u64, row as u64 + 1), text].concat()
}

pub fn message(random: &mut Random, tables: &Tables) -> Vec<u8> {
    let longest = if random.chance(3) { 1_800 } else { random.pick(&[0, 3, 20, 120]) };
    let payload: Vec<u8> = (0..random.below(longest + 1)).map(|_| random.word() as u8).collect();
    let text = stamp(random, tables);
    let mut message = [payload, text.clone()].concat();
    message.truncate(1_998);
    let (whole, right) = (message.len() as u64, text.len() as u64);
    let any = random.magnitude(65_535);
    let l = match random.below(12) {
        0 => random.pick(&[0, 1, 2, 255, 256, 65_535, any]),
        1 => random.near(96),
        2 => random.near(whole),
        3 => random.near(right),
        _ => right,
    };
    message.extend_from_slice(&(l as u16).to_be_bytes());
    if random.chance(2) {
        message.truncate(random.below(4));
    }
    message
}

/// A count for text without partition.
fn text_count(random: &mut Random, tables: &Tables) -> u64 {
    let p = p(&tables.layout).clamp(1, E15);
    let (any, size) = (random.between(0, p - 1), random.magnitude(E15));
    let edge = random.pick(&[0, 1, p - 1, p, E15 - 1, E15, E15 + 1]);
    random.pick(&[any, any, any, size, edge])
}

/// A count in or just outside a partition.
fn count_in(random: &mut Random, tables: &Tables, row: usize) -> u64 {
    let (start, end) = (tables.start[row].min(E15), tables.end[row].min(E15));
    let inside = random.between(start.min(end), end.max(start));
    match random.below(8) {
        0 => random.near(start).min(E15),
        1 => random.near(end).min(E15),
        2 => random.pick(&[start, end]),
        _ => inside,
    }
}

/// The numbers a layout shows for a count, the first field as large as it gets.
fn shown(layout: &Layout, count: u64) -> Vec<u64> {
    let n = used(layout).max(1);
    let mut left = count;
    let mut fields = vec![0; n];
    for i in (0..n).rev() {
        let modulus = layout.moduli[i].max(1);
        let value = if i == 0 { left } else { left % modulus };
        left /= modulus;
        fields[i] = value + layout.offsets[i].min(u64::MAX - value);
    }
    fields
}

/// A count's fields, often with one thing changed, between marks and blanks.
fn composed(random: &mut Random, layout: &Layout, count: u64) -> Vec<u8> {
    let mut values = shown(layout, count);
    let n = values.len();
    let field = random.below(n);
    // A field above its modulus: some of the one before goes into it.
    if field > 0 && random.chance(15) {
        let modulus = layout.moduli[field].clamp(1, E15);
        let spare = values[field - 1].saturating_sub(layout.offsets[field - 1]);
        let moved = random.magnitude(spare.min(E15 / modulus));
        values[field - 1] -= moved;
        values[field] = values[field].saturating_add(moved * modulus);
    }
    let mut fields: Vec<String> = values.iter().map(u64::to_string).collect();
    match random.below(40) {
        0 | 1 => fields.truncate(field + 1),
        2 | 3 if n > 1 => fields[field.max(1)].clear(),
        4 => fields[0].clear(),
        5 => {
            for _ in 0..random.pick(&[1, 1, 2, 3]) {
                fields.push(random.pick(&["", "0", "5", "007"]).to_string());
            }
        }
        6 => fields[field] = zeros(random) + &layout.offsets[field].saturating_sub(1).to_string(),
        7 => fields[field] = zeros(random) + &random.near(E15 + 1_000).to_string(),
        8 => fields[field] = digits(random),
        9 => fields[field].insert_str(0, &"0".repeat(random.below(20))),
        10 => fields[field] = random.magnitude(E15 + 1_000).to_string(),
        11 => {
            // Two faults.
            let other = random.below(n);
            fields[field] = "0".to_string();
            fields[other] = (E15 + 1_001).to_string();
        }
        _ => {}
    }
    let mut text = joined(random, &fields);
    if random.chance(3) && !text.is_empty() {
        let at = random.below(text.len());
        text[at] = if random.chance(50) { random.pick(ALLOWED) } else { random.word() as u8 };
    }
    text
}

/// Sometimes a few.
fn zeros(random: &mut Random) -> String {
    "0".repeat(random.pick(&[0, 0, 1, 3]))
}

/// Fields between marks; a run of blanks is a mark only between digits.
fn joined(random: &mut Random, fields: &[String]) -> Vec<u8> {
    let blanks = random.chance(25);
    let usual = random.pick(MARKS);
    let mut text = vec![];
    for (i, field) in fields.iter().enumerate() {
        if i > 0 {
            if blanks && random.chance(40) {
                text.extend(vec![b' '; random.between(1, 3) as usize]);
            } else {
                let around = if blanks { random.between(0, 2) as usize } else { 0 };
                text.extend(vec![b' '; around]);
                text.push(if random.chance(90) { usual } else { random.pick(MARKS) });
                text.extend(vec![b' '; random.below(around + 1)]);
            }
        }
        text.extend_from_slice(field.as_bytes());
    }
    if blanks {
        text = [vec![b' '; random.below(3)], text, vec![b' '; random.below(3)]].concat();
    }
    text
}

/// Long runs of digits, some that would wrap to small numbers.
pub fn digits(random: &mut Random) -> String {
    let small = random.between(0, 9);
    match random.below(5) {
        0 => (u128::from(u64::MAX) + 1 + u128::from(small)).to_string(),
        1 => ((1 << 32) + small).to_string(),
        2 => (0..random.between(1, 40)).map(|_| char::from(b'0' + random.below(10) as u8)).collect(),
        3 => "9".repeat(random.between(14, 40) as usize),
        _ => (u128::MAX - u128::from(small)).to_string(),
    }
}

/// A partition part with its `/`, most often the right one.
fn front(random: &mut Random, rows: u64, right: u64) -> Vec<u8> {
    let any = random.between(0, rows + 1);
    let number = match random.below(20) {
        0 => "0".to_string(),
        1 => (rows + 1).to_string(),
        2 => any.to_string(),
        3 => digits(random),
        4 => format!("{}{}", "0".repeat(random.below(20)), right),
        _ => right.to_string(),
    };
    let (before, after) = (" ".repeat(random.below(3)), " ".repeat(random.below(3)));
    match random.below(60) {
        0 => format!("{}/", before),
        1 => format!("{} {}/", number, any),
        2 => format!("{}{}{}/", number, char::from(random.pick(b".:,-x\t\0")), any),
        3 => format!("{}/{}/", number, any),
        4 => format!("{}{}/{}", number, before, random.pick(&["x", "/", "."])),
        5 | 6 => (0..random.below(7)).map(|_| random.pick(&['1', '0', ' ', ' ', '.', 'x'])).chain(['/']).collect(),
        7..=14 => format!("{}{}{}/{}", before, number, after, after),
        _ => format!("{}/", number),
    }
    .into_bytes()
}

/// Anything out of some bytes.
fn soup(random: &mut Random, bytes: &[u8]) -> Vec<u8> {
    (0..random.below(14)).map(|_| random.pick(bytes)).collect()
}

/// A text made 94 to 98 bytes long by blanks or zeros.
fn long(random: &mut Random, tables: &Tables, with_front: bool) -> Vec<u8> {
    let count = text_count(random, tables);
    let mut text = composed(random, &tables.layout, count);
    if with_front && random.chance(60) {
        text = [b"1/".to_vec(), text].concat();
    }
    let more = (random.between(94, 98) as usize).saturating_sub(text.len());
    match random.below(4) {
        0 => [vec![b' '; more], text].concat(),
        1 => [text, vec![b' '; more]].concat(),
        2 => [vec![b' '; more / 2], text, vec![b' '; more - more / 2]].concat(),
        _ => [vec![b'0'; more], text].concat(),
    }
}
