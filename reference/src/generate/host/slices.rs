//! Tables as byte slices, and slices of wrong length.

use crate::host::{Call, Given, Name, LISTS};
use crate::random::Random;
use crate::script::Tables;

/// Numbers as they stand in a slice.
pub fn list(numbers: &[u64]) -> Vec<u8> {
    numbers.iter().flat_map(|number| number.to_le_bytes()).collect()
}

pub fn times(times: &[i64]) -> Vec<u8> {
    times.iter().flat_map(|time| time.to_le_bytes()).collect()
}

/// A call over these tables, with so many moduli and offsets; those behind the tenth are of no use.
pub fn call(name: Name, tables: &Tables, slots: [usize; 2], given: Given) -> Call {
    let layout = &tables.layout;
    let mut lists: [Vec<u8>; LISTS] = Default::default();
    for (list, (numbers, len)) in lists.iter_mut().zip([(&layout.moduli, slots[0]), (&layout.offsets, slots[1])]) {
        list.extend((0..len).flat_map(|i| numbers.get(i).copied().unwrap_or(u64::MAX - i as u64).to_le_bytes()));
    }
    if name.lists() > 2 {
        lists[2] = list(&tables.start);
        lists[3] = list(&tables.end);
    }
    if name.lists() > 4 {
        lists[4] = list(&tables.count);
        lists[5] = times(&tables.time);
        lists[6] = list(&tables.rate);
    }
    Call { name, n: layout.n, delimiter: u64::from(layout.delimiter), lists, given }
}

/// One thing that only a host can do wrong: most often a list's length.
pub fn disturb(random: &mut Random, call: &mut Call) {
    let listed = random.below(call.name.lists());
    let len = call.lists[listed].len();
    let less = random.between(1, 7) as usize;
    match random.below(20) {
        0 => call.n = random.pick(&[0, 11, 12, 1 << 61, u64::MAX, call.n.wrapping_add(1), call.n.wrapping_add(256)]),
        1 => call.n |= 1 << random.pick(&[8, 16, 31, 32, 60, 61, 62, 63]),
        2 => call.delimiter = random.pick(&[0, 6, 256, 257, u64::MAX, call.delimiter.wrapping_neg()]),
        3 => call.delimiter |= 1 << random.pick(&[8, 16, 31, 32, 63]),
        // The layout's number of entries, and one.
        4 => call.n = (call.lists[random.below(2)].len() / 8) as u64 + 1,
        5..=8 => resize(random, call, listed, len + less),
        9..=12 => resize(random, call, listed, len.saturating_sub(less)),
        13 | 14 => {
            let short = random.below(18);
            resize(random, call, listed, short);
        }
        15 | 16 => resize(random, call, listed, len + 8),
        17 | 18 => resize(random, call, listed, len.saturating_sub(8)),
        // A byte from one list to another: together they are in eights.
        _ => {
            resize(random, call, listed, len.saturating_sub(1));
            let other = random.below(call.name.lists());
            let longer = call.lists[other].len() + 1;
            resize(random, call, other, longer);
        }
    }
}

/// New bytes are small numbers' or any.
fn resize(random: &mut Random, call: &mut Call, listed: usize, len: usize) {
    let any = random.word() as u8;
    call.lists[listed].resize(len, random.pick(&[0, 1, 255, any]));
}
