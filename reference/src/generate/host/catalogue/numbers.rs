//! n and delimiter, which have 64 bits.

use super::*;

pub fn all(writer: &mut Writer) {
    for (expected, call) in &each() {
        writer.call(expected, "n 2", call);
        let wrapped = [1 << 8, 1 << 16, 1 << 32, 1 << 60, 1 << 61, 1 << 62, 1 << 63].map(|turn| turn + 2);
        for n in [0, 3, 10, 11, 12, 255, 256, 1 << 32, 1 << 60, 1 << 61, 1 << 63, u64::MAX].iter().chain(&wrapped) {
            let mut call = Call { n: *n, ..call.clone() };
            writer.call(-1, format!("n {}", n), &call);
            // Lists that hold n, as far as that can be.
            if *n == 11 || *n == 12 {
                call.lists[0] = list(&[2; 12]);
                call.lists[1] = list(&[0; 12]);
                writer.call(-1, format!("n {} of 12 moduli and offsets", n), &call);
            }
        }
        // Lists that hold n and break no rule: all that is wrong is n, also where it wraps to 2.
        for n in [11, 258] {
            let mut call = Call { n: n as u64, ..call.clone() };
            let mut moduli = vec![1; n];
            moduli[..2].copy_from_slice(&[100, 10]);
            call.lists[0] = list(&moduli);
            call.lists[1] = list(&vec![0; n]);
            writer.call(-1, format!("n {} of {} good moduli and offsets", n, n), &call);
        }
        for delimiter in
            [0, 6, 7, 46, 255, 256, 257, 258, 1 << 16, (1 << 16) + 1, (1 << 32) + 1, (1 << 63) + 1, u64::MAX]
        {
            writer.call(-1, format!("delimiter {}", delimiter), &Call { delimiter, ..call.clone() });
        }
    }
    delimiters(writer);
    fields(writer);
}

fn delimiters(writer: &mut Writer) {
    for (delimiter, mark) in (1..).zip(['.', ':', '-', ',', ' ']) {
        let why = format!("delimiter {}", delimiter);
        let print = Call { delimiter, ..a(Name::PrintCount, lent(123, 4)) };
        writer.call(format!("4 12{}3", mark), &why, &print);
        let stamp = Call { delimiter, ..a(Name::PrintStamp, lent(500, 6)) };
        writer.call(format!("6 2/20{}0", mark), &why, &stamp);
        let other = Call { delimiter, ..a(Name::ReadText, text("12.3")) };
        writer.call(123, &why, &other);
    }
}

/// n 1 to 10: that many fields of two ticks.
fn fields(writer: &mut Writer) {
    for n in 1..=10 {
        let last = "1".repeat(n).chars().map(String::from).collect::<Vec<_>>().join(".");
        let all = (1 << n) - 1;
        for entries in [n, n + 1, 11] {
            let why = format!("n {} of {} entries", n, entries);
            let set = |call: Call| {
                let mut call = Call { n: n as u64, ..call };
                call.lists[0] = list(&vec![2; entries]);
                call.lists[1] = list(&vec![0; entries]);
                call
            };
            writer.call(all, &why, &set(a(Name::ReadText, text(&last))));
            writer.call(-7, &why, &set(a(Name::ReadText, text(&[&last, ".0"].concat()))));
            let print = format!("{} {}", last.len(), last);
            writer.call(print, &why, &set(a(Name::PrintCount, lent(all, last.len() + 1))));
            writer.call(-9, &why, &set(a(Name::PrintCount, lent(all + 1, last.len()))));
        }
    }
}
