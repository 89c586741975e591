//! Lists of every length.

use super::*;

pub fn all(writer: &mut Writer) {
    for (expected, call) in &each() {
        for i in 0..call.name.lists() {
            for len in 0..=17 {
                length(writer, expected, call, i, len, len == 16);
            }
        }
    }
    // One field and one row: 16 bytes are an entry more.
    for name in Name::ALL {
        let (expected, given) = match name {
            Name::ReadText | Name::ReadStamp => ("7", text("7")),
            Name::ReadMessage => ("7", message("7")),
            Name::PrintCount => ("1 7", lent(7, 2)),
            Name::PrintStamp => ("3 1/7", lent(7, 4)),
            Name::TimeOf => ("0 7", lent(7, 8)),
            Name::CountAt => ("7", Given::Time(7)),
        };
        let call = one(name, 9, given);
        for i in 0..name.lists() {
            for len in [0, 1, 7, 8, 9, 15, 16, 17] {
                length(writer, expected, &call, i, len, len == 8 || i < 2 && len == 16);
            }
        }
    }
    longer(writer);
    together(writer);
}

/// One list of another length; new bytes are 0.
fn length(writer: &mut Writer, expected: &str, call: &Call, i: usize, len: usize, good: bool) {
    let (list, refusal) = LISTS[i];
    let mut call = call.clone();
    call.lists[i].resize(len, 0);
    if good {
        writer.call(expected, format!("{} bytes of {}", len, list), &call);
    } else {
        writer.call(refusal, format!("{} bytes of {}", len, list), &call);
    }
}

/// Moduli and offsets longer than n, than ten too; what stands behind the n-th is not looked at.
fn longer(writer: &mut Writer) {
    for (expected, call) in &each() {
        for (entries, fill) in [(3, 0), (3, 0xff), (10, 0), (11, 0xff)] {
            let mut call = call.clone();
            call.lists[0].resize(8 * entries, fill);
            writer.call(expected, format!("{} moduli for n 2", entries), &call);
            call.lists[1].resize(8 * entries + 8, fill);
            writer.call(expected, format!("{} moduli and an offset more", entries), &call);
            call.lists[1].resize(8 * entries + 4, fill);
            writer.call(-1, "four bytes behind the last offset", &call);
        }
    }
}

/// Two lists that are in eights only together.
fn together(writer: &mut Writer) {
    for (_, call) in &each() {
        let lists = LISTS.iter().enumerate().take(call.name.lists());
        for (i, (one, refusal)) in lists.clone() {
            for (j, (other, others)) in lists.clone().filter(|list| list.0 != i) {
                let mut call = call.clone();
                call.lists[i].pop();
                call.lists[j].push(0);
                writer.call(refusal.max(others), format!("15 bytes of {}, 17 of {}", one, other), &call);
                if i < j && refusal == others {
                    call.lists[i].resize(17, 0);
                    call.lists[j].resize(23, 0);
                    writer.call(refusal, format!("17 bytes of {}, 23 of {}", one, other), &call);
                }
            }
        }
    }
    // Rows of unequal number, all in eights.
    for (_, call) in &each() {
        for (i, (list, refusal)) in LISTS.iter().enumerate().take(call.name.lists()).skip(2) {
            for rows in [0, 1, 3] {
                let mut call = call.clone();
                call.lists[i].resize(8 * rows, 0);
                writer.call(refusal, format!("{} {} for 2 rows", rows, list), &call);
            }
        }
    }
    // No row at all.
    for (_, call) in each().iter().filter(|(_, call)| call.name.lists() > 2) {
        let mut none = call.clone();
        none.lists[2..].iter_mut().for_each(Vec::clear);
        writer.call(-2, "no partition", &none);
        if call.name.lists() > 4 {
            let mut none = call.clone();
            none.lists[4..].iter_mut().for_each(Vec::clear);
            writer.call(-3, "no segment", &none);
        }
    }
}
