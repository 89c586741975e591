//! Two faults at once: the one that comes first in the order is given.

use super::*;

/// A refusal, what is wrong, and how to do it. The calls that can have it: a list's by the number of lists, others by name.
type Fault = (i64, &'static str, fn(&mut Call));

const MESSAGE: &[Fault] = &[
    (-21, "a message of one byte", |call| call.given = text("5")),
    (-22, "L is 0", |call| call.given = text("1/5.3\0\0")),
    (-23, "L is too far back", |call| call.given = text("1/5.3\0\u{6}")),
];

const LAYOUT: &[Fault] = &[
    (-1, "15 bytes of moduli", |call| call.lists[0].truncate(15)),
    (-1, "17 bytes of offsets", |call| call.lists[1].push(0)),
    (-1, "one offset for n 2", |call| call.lists[1].truncate(8)),
    (-1, "n is 0", |call| call.n = 0),
    (-1, "delimiter 257", |call| call.delimiter = 257),
    (-1, "a modulus of 0", |call| call.lists[0] = list(&[100, 0])),
];

const PARTITIONS: &[Fault] = &[
    (-2, "15 bytes of starts", |call| call.lists[2].truncate(15)),
    (-2, "19 bytes of ends", |call| call.lists[3].extend([0; 3])),
    (-2, "one end for two starts", |call| call.lists[3].truncate(8)),
    (-2, "a start that is its end", |call| call.lists[2] = list(&[500, 200])),
];

const SEGMENTS: &[Fault] = &[
    (-3, "15 bytes of counts", |call| call.lists[4].truncate(15)),
    (-3, "20 bytes of times", |call| call.lists[5].extend([0; 4])),
    (-3, "9 bytes of rates", |call| call.lists[6].truncate(9)),
    (-3, "three times for two counts", |call| call.lists[5].extend([9; 8])),
    (-3, "a rate too low", |call| call.lists[6] = list(&[25_000, 9_999])),
];

/// What is given behind the tables, in the order of its refusals.
fn values(name: Name) -> Vec<Fault> {
    match name {
        Name::ReadText => vec![
            (-4, "97 bytes of text", |call| call.given = text(&"x".repeat(97))),
            (-5, "a byte", |call| call.given = text("1.2.x")),
            (-7, "three fields", |call| call.given = text(".2.3")),
            (-6, "no first field", |call| call.given = text(".3")),
        ],
        Name::ReadStamp => vec![
            (-4, "97 bytes of text", |call| call.given = text(&"x".repeat(97))),
            (-10, "partition 0", |call| call.given = text("0/5")),
            (-11, "in no partition", |call| call.given = text("95.0")),
        ],
        Name::ReadMessage => vec![
            (-5, "a byte", |call| call.given = message("x")),
            (-10, "partition 3", |call| call.given = message("3/5")),
            (-11, "outside its partition", |call| call.given = message("1/50.1")),
        ],
        Name::PrintCount => vec![(-9, "a count of P", |call| set_count(call, 1_000)), (-16, "a short buffer", shorten)],
        Name::PrintStamp => {
            vec![(-12, "past the total", |call| set_count(call, 1_201)), (-16, "a short buffer", shorten)]
        }
        Name::TimeOf => vec![
            (-12, "past the total", |call| set_count(call, 1_201)),
            (-13, "before the first segment", |call| set_count(call, 9)),
            (-16, "a short buffer", shorten),
        ],
        Name::CountAt => vec![
            (-14, "out of range", |call| call.given = Given::Time(i64::MIN)),
            (-13, "before the first segment", |call| call.given = Given::Time(-1_001)),
            (-14, "past the total", |call| call.given = Given::Time(2_803)),
        ],
    }
}

fn set_count(call: &mut Call, number: u64) {
    if let Given::Count(count, _) = &mut call.given {
        *count = number;
    }
}

fn shorten(call: &mut Call) {
    if let Given::Count(_, buffer) = &mut call.given {
        buffer.truncate(3);
    }
}

pub fn all(writer: &mut Writer) {
    for (_, mut call) in each() {
        if call.name.lists() > 4 {
            // So that a count can be before the first segment.
            call.lists[4] = list(&[10, 600]);
        }
        let mut turns = vec![values(call.name)];
        let tables = [(6, SEGMENTS), (3, PARTITIONS), (1, LAYOUT)];
        turns.extend(tables.iter().filter(|turn| turn.0 < call.name.lists()).map(|turn| turn.1.to_vec()));
        if call.name == Name::ReadMessage {
            turns.push(MESSAGE.to_vec());
        }
        turns.reverse();
        for (turn, early) in turns.iter().enumerate() {
            for late in &turns[turn + 1..] {
                pairs(writer, &call, early, late);
            }
        }
        // A short buffer comes behind all other values.
        let values = values(call.name);
        if let Some((short, others)) = values.split_last().filter(|(last, _)| last.0 == -16) {
            pairs(writer, &call, others, &[*short]);
        }
    }
}

/// The later fault is made first, so that a message's own trailer stays.
fn pairs(writer: &mut Writer, call: &Call, early: &[Fault], late: &[Fault]) {
    for (refusal, first, make) in early {
        for (_, second, make_later) in late {
            let mut call = call.clone();
            make_later(&mut call);
            make(&mut call);
            writer.call(refusal, format!("{}, and {}", first, second), &call);
        }
    }
}
