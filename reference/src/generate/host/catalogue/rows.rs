//! A hundred partitions of ten ticks, and a hundred segments of ten ticks of 2 ns.

use super::*;

const ROWS: u64 = 100;

fn hundred(name: Name, given: Given) -> Call {
    let mut call = one(name, 1_000, given);
    let rows = || 0..ROWS;
    // The partition in row i has its clock counts from 9×i on.
    call.lists[2] = list(&rows().map(|row| 9 * row).collect::<Vec<_>>());
    call.lists[3] = list(&rows().map(|row| 9 * row + 10).collect::<Vec<_>>());
    if name.lists() > 4 {
        call.lists[4] = list(&rows().map(|row| 10 * row).collect::<Vec<_>>());
        call.lists[5] = times(&rows().map(|row| 20 * row as i64 - 1_000).collect::<Vec<_>>());
        call.lists[6] = list(&[2_000; ROWS as usize]);
    }
    call
}

pub fn all(writer: &mut Writer) {
    for (asked, answer) in [("100/901", 1_000), ("57/510", 566), ("902", -11)] {
        writer.call(answer, "a stamp", &hundred(Name::ReadStamp, text(asked)));
    }
    writer.call(566, "a message", &hundred(Name::ReadMessage, message("57/510")));
    for (e, print) in [(566, "6 57/510"), (1_000, "7 100/901")] {
        writer.call(print, "a print", &hundred(Name::PrintStamp, lent(e, 8)));
    }
    for (e, time) in [(566, "0 132"), (1_000, "0 1000")] {
        writer.call(time, "a time", &hundred(Name::TimeOf, lent(e, 8)));
    }
    for (t, answer) in [(133, 566), (1_002, -14)] {
        writer.call(answer, "a count", &hundred(Name::CountAt, Given::Time(t)));
    }
    for (i, (list, refusal)) in LISTS.iter().enumerate().skip(2).step_by(2) {
        let mut call = hundred(Name::CountAt, Given::Time(0));
        call.lists[i].pop();
        writer.call(refusal, format!("799 bytes of {}", list), &call);
    }
}
