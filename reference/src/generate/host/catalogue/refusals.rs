//! The papers' examples, and each refusal of each call.

use super::*;

pub fn examples(writer: &mut Writer) {
    for (asked, answer) in [("12.3", 123), ("12", 120), ("5.13", 63)] {
        writer.call(answer, "document 01", &a(Name::ReadText, text(asked)));
    }
    for (asked, answer) in [("1/50.0", 500), ("1/50.1", -11), ("50.1", 801), ("30.0", 300), ("0/1", -10), ("3/1", -10)]
    {
        writer.call(answer, "document 01", &a(Name::ReadStamp, text(asked)));
        writer.call(answer, "document 01", &a(Name::ReadMessage, message(asked)));
    }
    for (e, answer) in [(499, "6 1/49.9"), (500, "6 2/20.0"), (1_200, "6 2/90.0"), (1_201, "-12")] {
        writer.call(answer, "document 01", &a(Name::PrintStamp, lent(e, 8)));
    }
    for (e, time) in [(1, -997), (599, 498), (600, 1_000), (1_200, 2_800)] {
        writer.call(format!("0 {}", time), "document 01", &a(Name::TimeOf, lent(e, 8)));
    }
    for (t, answer) in [(-998, 0), (-997, 1), (700, 599), (1_000, 600), (2_802, 1_200), (2_803, -14), (-1_001, -13)] {
        writer.call(answer, "document 01", &a(Name::CountAt, Given::Time(t)));
    }
    let given = |message: &[u8]| a(Name::ReadMessage, Given::Text(message.to_vec()));
    writer.call(53, "document 01", &given(b"\x07\xd01/5.3\x00\x05"));
    writer.call(-23, "document 01", &given(b"\x07\xd01/5.3\x00\x08"));
    let mut start = a(Name::ReadStamp, text("12.3"));
    start.lists[2].pop();
    writer.call(-2, "reading 1, a start slice of 15 bytes", &start);
    start.given = text("x");
    writer.call(-2, "reading 1, a start slice of 15 bytes and any text", &start);
    start.lists[0] = list(&[100, 0]);
    writer.call(-1, "reading 1, a start slice of 15 bytes and a bad layout", &start);
    let mut moduli = a(Name::ReadText, text("12.3"));
    moduli.lists[0].push(0);
    writer.call(-1, "reading 2, moduli of 17 bytes", &moduli);
    writer.call(-1, "reading 2, n is 2^61", &Call { n: 1 << 61, ..a(Name::ReadText, text("12.3")) });
    writer.call("0 -997", "reading 3, into 9 bytes", &a(Name::TimeOf, lent(1, 9)));
    writer.call(-16, "reading 3, into 7 bytes", &a(Name::TimeOf, lent(1, 7)));
    writer.call(-1, "reading 4, delimiter 257", &Call { delimiter: 257, ..a(Name::ReadText, text("12.3")) });
}

/// Text that each of the three reading calls refuses.
#[rustfmt::skip]
const TEXTS: &[(i64, &[&str])] = &[
    (-5, &["x", "12x3", "1\t2", "+5", "1e3", "12.4\r", "12.4\n", "12;4", "\0", "A", "1_2", "~", "12.4.x"]),
    (-6, &[" ", ".", ":", ".5", ",5", "-5", " : 5", ". 5", " - ", "  :  ", ":4", "- 9", ", ", " .0"]),
    (-7, &["1.2.3", "12..", "1 2 3", "1:2,3", "1-2-", "...", "1.2. ", ". 2 3"]),
    (-8, &["1.0", "1.000", "5:0", "5 0", "5,00", " 5 - 0 ", "99.0", "0 0", "7 . 0", "100.0", "42.0", "1:00", "9 , 0", "0.0", "12 0"]),
    (-9, &["1000000000001001", "1.1000000000001001", "99999999999999999999", "100000000000001", "18446744073709551621",
           "1000000000000000", "1.999999999999999999", "100000000000000.2",
           "340282366920938463463374607431768211461", "1.1000000000001002", "4294967296000000000", "9.9999999999999999"]),
];

/// Stamps that both calls refuse.
const STAMPS: &[(i64, &[&str])] = &[
    (-5, &["/5", "1 2/5", "1.2/5", "1/2/3"]),
    (-10, &["0/12.4", "3/12.4", "00/5.1", "9999/1.1", "10000/1.1", "18446744073709551617/1.1"]),
    (-11, &["99.4", "90.2", "1/50.2", "2/19.1", "2/90.2", "1/99.1"]),
];

/// With an offset of 1 in the second field. A good text of `12.4` is 123.
pub fn texts(writer: &mut Writer) {
    let set = |name: Name, given: Given| {
        let mut call = a(name, given);
        call.lists[1] = list(&[0, 1]);
        call
    };
    for (answer, texts) in TEXTS {
        for asked in *texts {
            writer.call(answer, "text", &set(Name::ReadText, text(asked)));
            writer.call(answer, "text", &set(Name::ReadStamp, text(asked)));
            writer.call(answer, "text behind a partition", &set(Name::ReadStamp, text(&["1/", asked].concat())));
            writer.call(answer, "text", &set(Name::ReadMessage, message(asked)));
            writer.call(answer, "text behind a partition", &set(Name::ReadMessage, message(&["2/", asked].concat())));
        }
    }
    writer.call(-6, "no text", &set(Name::ReadText, text("")));
    writer.call(-6, "no text", &set(Name::ReadStamp, text("")));
    writer.call(-6, "no text", &set(Name::ReadMessage, message("1/")));
    for (answer, stamps) in STAMPS {
        for asked in *stamps {
            writer.call(answer, "a stamp", &set(Name::ReadStamp, text(asked)));
            writer.call(answer, "a stamp", &set(Name::ReadMessage, message(asked)));
        }
    }
    writer.call(-5, "a slash in text", &set(Name::ReadText, text("1/5")));
    for (asked, answer) in [("12.4", 123), (" 12 . 4 ", 123), ("1/12.4", 123), (" 2 /20.1", 500), ("50.2", 801)] {
        if !asked.contains('/') && answer < 500 {
            writer.call(answer, "text", &set(Name::ReadText, text(asked)));
        }
        writer.call(answer, "a stamp", &set(Name::ReadStamp, text(asked)));
        writer.call(answer, "a stamp", &set(Name::ReadMessage, message(asked)));
    }
    // 96 and 97 bytes; a message of 97 has no good L.
    for len in (95..=116).chain([200]) {
        let asked = format!("{:>len$}", "12.4", len = len);
        let answer = if len > 96 { -4 } else { 123 };
        writer.call(answer, format!("{} bytes of text", len), &set(Name::ReadText, text(&asked)));
        writer.call(answer, format!("{} bytes of text", len), &set(Name::ReadStamp, text(&asked)));
        let answer = if len > 96 { -23 } else { 123 };
        writer.call(answer, format!("L of {}", len), &set(Name::ReadMessage, message(&asked)));
    }
}

pub fn messages(writer: &mut Writer) {
    let given = |message: &[u8]| a(Name::ReadMessage, Given::Text(message.to_vec()));
    for (message, answer) in [
        (&b""[..], -21),
        (b"5", -21),
        (b"\x00", -21),
        (b"\x00\x00", -22),
        (b"5\x00\x00", -22),
        (b"1/5.3\x00\x00", -22),
        (b"\x00\x01", -23),
        (b"\xff\xff", -23),
        (b"5\x00\x02", -23),
        (b"5\x01\x01", -23),
        (b"5\x01\x00", -23),
        (b"1/5.3\x00\x06", -23),
        (b"1/5.3\x00\x61", -23),
        (b"1/5.3\xff\xff", -23),
        (b"5\x00\x01", 50),
        (b"1/5.3\x00\x05", 53),
        (b"1/5.3\x00\x03", 53),
        (b"1/5.3\x00\x01", 30),
        (b"1/5.3\x00\x04", -5),
        (b"1/5.3\x00\x02", -6),
        (b"xyz1/5.3\x00\x05", 53),
        (b"\x00\x00\x00\x00\x002/50.1\x00\x06", 801),
    ] {
        writer.call(answer, "a message", &given(message));
    }
    // L is 96 and 97 in a message that is long enough.
    for payload in [0, 1, 100] {
        for l in [94, 95, 96, 97, 255, 256] {
            let text = format!("{:>97}", "1/5.3");
            let whole = [vec![b'x'; payload], text.into_bytes(), (l as u16).to_be_bytes().to_vec()].concat();
            writer.call(if l > 96 { -23 } else { 53 }, format!("L is {}", l), &given(&whole));
        }
    }
}

/// The numbers' refusals, each alone.
pub fn counts_and_times(writer: &mut Writer) {
    for (count, answer) in
        [(0, "4 00.0"), (999, "4 99.9"), (1_000, "-9"), (1_001, "-9"), (u64::MAX, "-9"), (1 << 63, "-9")]
    {
        writer.call(answer, "a count to print", &a(Name::PrintCount, lent(count, 5)));
    }
    for (e, answer) in [(0, "6 1/00.0"), (1_200, "6 2/90.0"), (1_201, "-12"), (u64::MAX, "-12"), (1 << 63, "-12")] {
        writer.call(answer, "an encoded count to print", &a(Name::PrintStamp, lent(e, 6)));
    }
    for (e, answer) in
        [(0, "0 -1000"), (2, "0 -995"), (1_200, "0 2800"), (1_201, "-12"), (u64::MAX, "-12"), (1 << 63, "-12")]
    {
        writer.call(answer, "an encoded count", &a(Name::TimeOf, lent(e, 8)));
    }
    for e in 0..12 {
        let mut call = a(Name::TimeOf, lent(e, 8));
        call.lists[4] = list(&[10, 600]);
        let time = if e < 10 { "-13".to_string() } else { format!("0 {}", -1_000 + 3 * (e as i64 - 10)) };
        writer.call(time, "the first segment begins at 10", &call);
    }
    for (t, answer) in [
        (-1_000, 0),
        (-1_001, -13),
        (-1_002, -13),
        (-1_000_000, -13),
        (1 - LATEST, -13),
        (-1_003, -13),
        (-2_000, -13),
        (-1 << 32, -13),
        (999, 599),
        (2_800, 1_200),
        (2_803, -14),
        (i64::MIN, -14),
        (i64::MAX, -14),
    ] {
        writer.call(answer, "a time", &a(Name::CountAt, Given::Time(t)));
    }
    rules(writer);
}

/// One rule of each table broken, by numbers.
fn rules(writer: &mut Writer) {
    for (_, call) in &each() {
        for (i, numbers, rule) in [
            (0, [0, 10], "a modulus of 0"),
            (0, [100, 0], "a modulus of 0"),
            (0, [E15, 10], "P above 10^15"),
            (0, [1 << 63, 2], "P of 2^64"),
            (0, [1, 1_000_000_000_001], "MSF above 10^12"),
            (1, [1_001, 0], "an offset above 1,000"),
            (1, [0, u64::MAX], "an offset above 1,000"),
            (2, [500, 200], "a start that is its end"),
            (2, [0, 901], "a start above its end"),
            (3, [500, 1_000], "an end of P"),
            (3, [u64::MAX, 900], "an end above P"),
            (4, [600, 600], "equal counts"),
            (4, [0, 1_201], "a count above the total"),
            (5, [1_000, 1_000], "equal times"),
            (5, [1_001, 1_000], "a time that goes back"),
            (5, [1 << 63, 1_000], "a time too early"),
            (6, [9_999, 30_000], "a rate too low"),
            (6, [25_000, E15 + 1], "a rate too high"),
            (6, [25_000, 0], "a rate of 0"),
        ] {
            if i < call.name.lists() {
                let mut call = call.clone();
                call.lists[i] = list(&numbers);
                writer.call(LISTS[i].1, rule, &call);
            }
        }
    }
}
