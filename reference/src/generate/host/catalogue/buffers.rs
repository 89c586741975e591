//! Lent buffers of every length.

use super::*;

pub fn all(writer: &mut Writer) {
    // The longest print: ten fields with offsets of 1,000, the first 10^15 - 1 and 1,000.
    let print = ["1000000000000999", &"-1000".repeat(9)].concat();
    let stamp = ["1/", &print].concat();
    for len in 0..=70 {
        buffer(writer, &longest(Name::PrintCount, lent(E15 - 1, len)), &print, len);
        buffer(writer, &longest(Name::PrintStamp, lent(E15 - 1, len)), &stamp, len);
    }
    // Short ones.
    for len in 0..=20 {
        buffer(writer, &a(Name::PrintCount, lent(7, len)), "00.7", len);
        buffer(writer, &a(Name::PrintStamp, lent(1_200, len)), "2/90.0", len);
    }
    for fill in [0, 1, b'0', 0xff] {
        let call = a(Name::PrintCount, Given::Count(999, vec![fill; 7]));
        writer.call("4 99.9", format!("a buffer of {:02x}", fill), &call);
        let call = a(Name::PrintCount, Given::Count(999, vec![fill; 3]));
        writer.call(-16, format!("a buffer of {:02x}, too short", fill), &call);
        let call = a(Name::TimeOf, Given::Count(1_200, vec![fill; 12]));
        writer.call("0 2800", format!("a buffer of {:02x}", fill), &call);
        let call = a(Name::TimeOf, Given::Count(1_200, vec![fill; 4]));
        writer.call(-16, format!("a buffer of {:02x}, too short", fill), &call);
    }
    times_of(writer);
}

fn longest(name: Name, given: Given) -> Call {
    let mut call = Call { n: 10, delimiter: 3, ..one(name, E15, given) };
    call.lists[0] = list(&[E15, 1, 1, 1, 1, 1, 1, 1, 1, 1]);
    call.lists[1] = list(&[1_000; 10]);
    call
}

fn buffer(writer: &mut Writer, call: &Call, print: &str, len: usize) {
    let why = format!("a buffer of {} for a print of {}", len, print.len());
    if len < print.len() {
        writer.call(-16, why, call);
    } else {
        writer.call(format!("{} {}", print.len(), print), why, call);
    }
}

/// A buffer of every length up to 17 and a few longer ones, for times of each sign.
fn times_of(writer: &mut Writer) {
    let row = |time: i64, given: Given| {
        let mut call = a(Name::TimeOf, given);
        call.lists[4] = list(&[1_200]);
        call.lists[5] = times(&[time]);
        call.lists[6] = list(&[10_000]);
        call
    };
    for time in [-1_000, -1, 0, 1, 258, LATEST, -LATEST] {
        for len in (0..=17).chain([24, 40]) {
            let why = format!("the time {} into {} bytes", time, len);
            let call = row(time, lent(1_200, len));
            if len < 8 {
                writer.call(-16, why, &call);
            } else {
                writer.call(format!("0 {}", time), why, &call);
            }
        }
    }
    // 12 and 13 come first, whatever the buffer.
    for len in 0..=9 {
        writer.call(-13, format!("before the first segment, a buffer of {}", len), &row(5, lent(1_199, len)));
        writer.call(-12, format!("past the total, a buffer of {}", len), &row(5, lent(1_201, len)));
    }
}
