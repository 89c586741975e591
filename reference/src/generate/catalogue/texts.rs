//! Texts: all bytes, blanks and marks in all places, lengths around 96, long runs of digits.

use super::{layout, plain, table_a};
use crate::generate::writer::Writer;
use crate::script::Question;

pub fn all(writer: &mut Writer) {
    writer.load(&table_a());
    all_bytes(writer);
    lengths(writer);
    runs(writer);
    writer.load(&table_a());
    places(writer, b"1 ./", 4, true);
    for moduli in [&[100][..], &[100, 10], &[100, 10, 10]] {
        writer.layout(&plain(moduli));
        places(writer, b"1 .", 5, false);
    }
    writer.layout(&layout(&[100, 10], &[0, 2], 1));
    places(writer, b"1 .", 3, false);
    fields(writer);
}

/// Each byte at the front, between digits, in a partition's place and after one.
fn all_bytes(writer: &mut Writer) {
    for byte in 0..=255 {
        writer.ask(Question::ReadText(&[b'1', byte, b'2']));
        writer.ask(Question::ReadStamp(&[byte, b'5']));
        writer.ask(Question::ReadStamp(&[b'1', byte, b'/', b'2']));
        if byte % 4 == 0 || byte.is_ascii_punctuation() || byte.is_ascii_digit() || byte < 34 {
            writer.ask(Question::ReadText(&[byte]));
            writer.ask(Question::ReadStamp(&[b'2', b'/', b'3', b'0', byte]));
        }
    }
}

/// Every text of up to so many bytes out of these.
fn places(writer: &mut Writer, bytes: &[u8], longest: u32, stamp: bool) {
    for len in 0..=longest {
        for number in 0..bytes.len().pow(len) {
            let digit = |place| bytes[number / bytes.len().pow(place) % bytes.len()];
            let text: Vec<u8> = (0..len).map(digit).collect();
            writer.ask(if stamp { Question::ReadStamp(&text) } else { Question::ReadText(&text) });
        }
    }
}

/// 94 to 98 bytes, made up by blanks, zeros, marks or a byte that is not allowed.
fn lengths(writer: &mut Writer) {
    for len in 94..=98 {
        for text in ["12.3", "1/12.3", "1.2.3", ".3", "x", "1/50.1", "0/1"] {
            let more = len - text.len();
            for (before, after) in [(more, 0), (0, more), (more / 2, more - more / 2)] {
                let text = [" ".repeat(before), text.to_string(), " ".repeat(after)].concat();
                writer.ask(Question::ReadStamp(text.as_bytes()));
                writer.ask(Question::ReadText(text.as_bytes()));
            }
            let text = ["0".repeat(more), text.to_string()].concat();
            writer.ask(Question::ReadStamp(text.as_bytes()));
        }
        for byte in b"0 .x/9" {
            writer.ask(Question::ReadText(&vec![*byte; len]));
            writer.ask(Question::ReadStamp(&vec![*byte; len]));
        }
        let inside = ["12".to_string(), " ".repeat(len - 3), "3".to_string()].concat();
        writer.ask(Question::ReadText(inside.as_bytes()));
        writer.ask(Question::ReadStamp(inside.as_bytes()));
    }
    writer.ask(Question::ReadText(&[b'1'; 2_000]));
    writer.ask(Question::ReadStamp(&[b'1'; 2_000]));
}

/// Numbers around each limit and around powers of two and ten, as a field and as a partition.
fn runs(writer: &mut Writer) {
    let mut numbers = vec![];
    for limit in [
        0,
        10,
        100,
        1_000,
        9_999,
        10_000,
        1_000_000_000_000,
        1_000_000_000_000_000,
        1_000_000_000_001_000,
        1 << 16,
        1 << 31,
        1 << 32,
        1 << 53,
        1 << 63,
        1 << 64,
        10 << 64,
        1 << 127,
        u128::MAX,
    ] {
        for number in [limit.saturating_sub(1), limit, limit.saturating_add(1), limit.saturating_add(7)] {
            numbers.push(number.to_string());
        }
    }
    for len in [15, 16, 17, 19, 20, 21, 38, 39, 40, 90] {
        numbers.push("9".repeat(len));
        numbers.push(format!("1{}", "0".repeat(len)));
        numbers.push(format!("{}1", "0".repeat(len)));
    }
    let wide = plain(&[1_000_000_000_000_000]);
    for layout in [wide, layout(&[1_000_000_000_000_000], &[1_000], 1), table_a().layout] {
        writer.layout(&layout);
        for number in &numbers {
            writer.ask(Question::ReadText(number.as_bytes()));
        }
    }
    // A field times its weight that is 2^64 and little more.
    writer.layout(&plain(&[1_000, 1 << 39]));
    for first in [1 << 24, (1 << 25) - 1, 1 << 25, (1 << 25) + 1, 3 << 25] {
        writer.ask(Question::ReadText(format!("{}", first).as_bytes()));
        writer.ask(Question::ReadText(format!("{}.5", first).as_bytes()));
    }
    writer.load(&table_a());
    for number in &numbers {
        writer.ask(Question::ReadText(format!("5.{}", number).as_bytes()));
        writer.ask(Question::ReadStamp(format!("{}/5", number).as_bytes()));
    }
}

/// One field too many and one too few, for every n; below and at the offset in every field.
fn fields(writer: &mut Writer) {
    for n in 1..=10 {
        writer.layout(&layout(&vec![3; n], &vec![2; n], 1));
        for given in [n - 1, n, n + 1] {
            writer.ask(Question::ReadText(vec!["2"; given].join(".").as_bytes()));
            writer.ask(Question::ReadText("3.".repeat(given).as_bytes()));
            writer.ask(Question::ReadText("4 ".repeat(given).as_bytes()));
        }
        for at in 0..n {
            for value in ["1", "2", "", "1000000000001000", "1000000000001001"] {
                let mut fields = vec!["3"; n];
                fields[at] = value;
                writer.ask(Question::ReadText(fields.join(":").as_bytes()));
            }
        }
    }
}
