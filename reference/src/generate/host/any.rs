//! Random calls.

use super::rows::many;
use super::slices::{self, disturb};
use crate::generate::broken::{break_layout, break_partitions, break_segments};
use crate::generate::broken::{LAYOUT_RULES, PARTITION_RULES, SEGMENT_RULES};
use crate::generate::tables::sound;
use crate::generate::{questions, texts};
use crate::host::{Call, Given, Name};
use crate::random::Random;
use crate::script::{Tables, MOST_LEN};
use crate::{print_count, print_stamp, Partitions, Segments};

/// Tables, most often short, sometimes broken.
pub fn tables(random: &mut Random) -> Tables {
    let mut tables = match random.below(100) {
        0 | 1 => many_between(random, 100, 1_000),
        2..=14 => many_between(random, 1, 12),
        _ => sound(random),
    };
    if random.chance(10) {
        break_one(random, &mut tables);
    }
    tables
}

fn many_between(random: &mut Random, least: u64, most: u64) -> Tables {
    let (partitions, segments) = (random.between(least, most), random.between(least, most));
    many(random, partitions, segments)
}

fn break_one(random: &mut Random, tables: &mut Tables) {
    match random.below(6) {
        0 => {
            let rule = random.below(LAYOUT_RULES);
            break_layout(random, tables, rule);
        }
        1 | 2 => {
            let rule = random.below(PARTITION_RULES);
            break_partitions(random, tables, rule);
        }
        _ => {
            let rule = random.below(SEGMENT_RULES);
            break_segments(random, tables, rule);
        }
    }
}

/// A call over some tables, sometimes with a slice of another length.
pub fn call(random: &mut Random, tables: &Tables) -> Call {
    let name = match random.below(100) {
        0..=13 => Name::ReadText,
        14..=29 => Name::ReadStamp,
        30..=45 => Name::ReadMessage,
        46..=56 => Name::PrintCount,
        57..=69 => Name::PrintStamp,
        70..=84 => Name::TimeOf,
        _ => Name::CountAt,
    };
    let mut call = named(random, name, tables);
    if random.chance(20) {
        disturb(random, &mut call);
        if random.chance(25) {
            disturb(random, &mut call);
        }
    }
    call
}

/// Tables as long as they may be or a row longer, and broken at times, in a call that takes them.
pub fn large(random: &mut Random) -> Call {
    let partitions = random.pick(&[1, Partitions::MOST, Partitions::MOST, Partitions::MOST, Partitions::MOST + 1]);
    let segments = random.pick(&[1, Segments::MOST, Segments::MOST, Segments::MOST, Segments::MOST + 1]);
    let mut tables = many(random, partitions as u64, segments as u64);
    if random.chance(15) {
        break_one(random, &mut tables);
    }
    let name = random.pick(&[Name::ReadStamp, Name::ReadMessage, Name::PrintStamp, Name::TimeOf, Name::CountAt]);
    let mut call = named(random, name, &tables);
    if random.chance(15) {
        disturb(random, &mut call);
    }
    call
}

fn named(random: &mut Random, name: Name, tables: &Tables) -> Call {
    let given = match name {
        Name::ReadText => Given::Text(texts::text(random, tables)),
        Name::ReadStamp => Given::Text(texts::stamp(random, tables)),
        Name::ReadMessage => Given::Text(texts::message(random, tables)),
        Name::PrintCount => {
            let count = questions::count(random, tables);
            let print = print_count(&tables.layout, count, &mut [0; MOST_LEN]);
            let len = questions::len(random, print);
            Given::Count(count, buffer(random, len))
        }
        Name::PrintStamp => {
            let e = questions::encoded(random, tables);
            let print = print_stamp(&tables.layout, tables.partitions(), e, &mut [0; MOST_LEN]);
            let len = questions::len(random, print);
            Given::Count(e, buffer(random, len))
        }
        Name::TimeOf => {
            let e = questions::encoded(random, tables);
            let any = random.below(18);
            let len = random.pick(&[8, 8, 8, 8, 9, 16, 7, any]);
            Given::Count(e, buffer(random, len))
        }
        Name::CountAt => Given::Time(questions::time(random, tables)),
    };
    let slots = [slots(random, tables), slots(random, tables)];
    slices::call(name, tables, slots, given)
}

/// As many moduli or offsets as there are fields, or more.
fn slots(random: &mut Random, tables: &Tables) -> usize {
    let n = tables.layout.n.min(12) as usize;
    match random.below(8) {
        0 => n + random.below(4),
        1 => n.max(random.pick(&[9, 10, 11, 13])),
        _ => n,
    }
}

/// A lent buffer before the call: one byte throughout, or any bytes.
fn buffer(random: &mut Random, len: usize) -> Vec<u8> {
    let fill = random.word() as u8;
    let one = random.chance(70);
    (0..len).map(|_| if one { fill } else { random.word() as u8 }).collect()
}
