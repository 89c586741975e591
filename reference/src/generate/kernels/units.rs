//! Numbers that are exact, and those that are not or do not fit 64 bits.

use super::draft::*;
use super::{numbers, small, Writer};

/// What a number is, its list and, for coefficients, its place in a row.
const KINDS: [(&str, usize, usize); 9] = [
    ("n", FIELDS, 0),
    ("delimiter", DELIMITER, 0),
    ("modulus", MODULI, 0),
    ("offset", OFFSETS, 0),
    ("start", STARTS, 0),
    ("end", ENDS, 0),
    ("count", COEFFICIENTS, 0),
    ("time", COEFFICIENTS, 1),
    ("rate", COEFFICIENTS, 2),
];

const TWO_64: i128 = 1 << 64;
const TWO_63: i128 = 1 << 63;

pub fn all(writer: &mut Writer) {
    for (kind, name, column) in KINDS {
        let unit = if name == COEFFICIENTS { UNITS[column] } else { 0 };
        inexact(writer, kind, name, column, unit);
        outside(writer, kind, name, column, unit);
        exact(writer, name, column, unit);
    }
    edges(writer);
    surplus(writer);
    forms(writer);
    writer.apart(5, wrapping);
}

/// Exponents that would be small if each digit's step wrapped in 64 bits.
fn wrapping(writer: &mut Writer) {
    for digit in 0..10 {
        let far = format!("9223372036854775808{}", digit);
        a(writer, "20: end too large", ENDS, 1, &format!("9E{}", far));
        a(writer, "20: end not whole", ENDS, 1, &format!("9E-{}", far));
        a(writer, "20: rate too large", COEFFICIENTS, 5, &format!("3D+{}", far));
        a(writer, "ok: exponents", STARTS, 0, &format!("0.E{}", far));
    }
}

/// Replaces one of the list's values of that column.
fn replace(writer: &mut Writer, draft: &mut Draft, name: usize, column: usize, value: String) {
    let values = &mut draft.set_of(name).values;
    let step = if name == COEFFICIENTS { 3 } else { 1 };
    let row = writer.random.below(values.len() / step);
    values[row * step + column] = value;
}

fn ask(writer: &mut Writer, label: &str, name: usize, column: usize, value: String) {
    let mut draft = writer.base();
    replace(writer, &mut draft, name, column, value);
    writer.draft(label, &draft);
}

fn inexact(writer: &mut Writer, kind: &str, name: usize, column: usize, unit: usize) {
    let label = format!("20: {} not whole", kind);
    let past = |number: &str| format!("{}E-{}", number, unit + 1);
    for value in [
        past("1"),
        past("5"),
        past("19"),
        past("1000000000000000000000000000001"),
        past("9.99"),
        "1E-99999999999999999999".to_string(),
        "1E-9223372036854775809".to_string(),
        "5E-18446744073709551616".to_string(),
        format!("0.{}1", "0".repeat(unit)),
        format!(".{}5", "0".repeat(unit)),
        format!("+2.{}5D0", "0".repeat(unit)),
        format!("1000{}E-{}", "0".repeat(30), unit + 34),
    ] {
        ask(writer, &label, name, column, value);
    }
    for _ in 0..10 {
        let number = i128::from(writer.random.magnitude(1 << 50));
        let value = numbers::inexact(&mut writer.random, number, unit);
        ask(writer, &label, name, column, value);
    }
}

fn outside(writer: &mut Writer, kind: &str, name: usize, column: usize, unit: usize) {
    let signed = kind == "time";
    let most = if signed { TWO_63 } else { TWO_64 };
    let label = format!("20: {} too large", kind);
    for number in [
        most,
        most + 1,
        most + 2,
        most * 2,
        most * 10,
        1 << 100,
        TWO_64,
        TWO_64 + 1,
        TWO_64 + 100,
        10i128.pow(20),
        10i128.pow(30),
    ] {
        let value = numbers::any(&mut writer.random, number, unit);
        ask(writer, &label, name, column, value);
    }
    #[rustfmt::skip]
    let huge = [
        "1E20", "1E400", "1E99999999999999999999", "1E9223372036854775807", "1E9223372036854775808",
        "2E18446744073709551616", "1E4294967296", "99999999999999999999", "+1.8D+20",
    ];
    for value in huge {
        ask(writer, &label, name, column, value.to_string());
    }
    let label = if signed { format!("20: {} too small", kind) } else { format!("20: {} below 0", kind) };
    let least = if signed { -most - 1 } else { -1 };
    for number in
        [least, least, least - 1, least - 1_000, least * 5, -TWO_64, -TWO_64 - 1, -TWO_64 * 2, -(10i128.pow(24))]
    {
        let value = numbers::any(&mut writer.random, number, unit);
        ask(writer, &label, name, column, value);
    }
    for value in ["-1E20", "-1E400", "-1E99999999999999999999", "-1E9223372036854775808", "-2D30"] {
        ask(writer, &label, name, column, value.to_string());
    }
    // Neither whole nor inside.
    for value in [
        "-1E-99999999999999999999",
        "-0.00000000000001",
        "-2.50000000000001",
        "-1E-13",
        "-.00000000000001D0",
        "-0.00000000000000000000000000001E5",
    ] {
        ask(writer, &label, name, column, value.to_string());
    }
}

/// The numbers of sound tables in other forms.
fn exact(writer: &mut Writer, name: usize, column: usize, unit: usize) {
    for _ in 0..8 {
        let tables = small(&mut writer.random);
        let mut draft = writer.of(&tables);
        let step = if name == COEFFICIENTS { 3 } else { 1 };
        let rows = draft.set_of(name).values.len() / step;
        for row in 0..rows {
            let number = match name {
                FIELDS => i128::from(tables.layout.n),
                DELIMITER => i128::from(tables.layout.delimiter),
                MODULI => i128::from(tables.layout.moduli[row]),
                OFFSETS => i128::from(tables.layout.offsets[row]),
                STARTS => i128::from(tables.start[row]),
                ENDS => i128::from(tables.end[row]),
                _ => {
                    [i128::from(tables.count[row]), i128::from(tables.time[row]), i128::from(tables.rate[row])][column]
                }
            };
            let value = numbers::any(&mut writer.random, number, unit);
            draft.set_of(name).values[row * step + column] = value;
        }
        writer.draft("ok: numbers in other forms", &draft);
    }
}

/// Table A with one value in another place of its list.
fn a(writer: &mut Writer, label: &str, name: usize, place: usize, value: &str) {
    let mut draft = writer.of(&super::table_a());
    draft.set_of(name).values[place] = value.to_string();
    writer.draft(label, &draft);
}

/// The last and first numbers of 64 bits, and the readings' examples.
fn edges(writer: &mut Writer) {
    let max = u64::MAX.to_string();
    for max in [&max[..], "1.8446744073709551615E19", "18446744073709551615000E-3"] {
        a(writer, "1: n above 10", FIELDS, 0, max);
        a(writer, "1: delimiter", DELIMITER, 0, max);
        a(writer, "1: P above 10^15", MODULI, 0, max);
        a(writer, "1: an offset above 1,000", OFFSETS, 1, max);
        a(writer, "2 0: start above end", STARTS, 0, max);
        a(writer, "2 1: end not below P", ENDS, 1, max);
        a(writer, "3 0: several", COEFFICIENTS, 3, max);
    }
    for (label, time) in [
        ("3 0: a time too early", "-9223372036.854775808"),
        ("20: time too small", "-9223372036.854775809"),
        ("20: time too small", "-9223372036.8547758081"),
        ("3 0: a time too early", "-4000000000.000000001"),
        ("ok: a time", "-4000000000.000000000"),
        ("ok: a time", "-4E9"),
        ("3 0: several", "9223372036.854775807"),
        ("20: time too large", "9223372036.854775808"),
    ] {
        a(writer, label, COEFFICIENTS, 1, time);
    }
    for (label, rate) in [
        ("ok: a rate", "25.001E-9"),
        ("20: rate not whole", "25.0001E-9"),
        ("20: rate below 0", "-25E-9"),
        ("3 1: a rate too low", "0E99999999999999999999"),
        ("3 1: a rate too low", "-0"),
        ("20: rate too large", "1E99999999999999999999"),
        ("20: rate not whole", "1E-99999999999999999999"),
        ("3 1: a rate too high", "1000.000000000001"),
        ("3 1: a rate too high", "18446744.073709551615"),
        ("20: rate too large", "18446744.073709551616"),
        ("3 1: a rate too low", "0.000000009999"),
        ("ok: a rate", "0.000000010000"),
        ("ok: a rate", "0.000000010001"),
    ] {
        a(writer, label, COEFFICIENTS, 5, rate);
    }
    let zeros = "0".repeat(80);
    for (label, name, place, value) in [
        ("ok: zeros", ENDS, 1, format!("900{}E-80", zeros)),
        ("ok: zeros", ENDS, 1, format!("{}900", zeros)),
        ("ok: zeros", ENDS, 1, format!("900.{}", zeros)),
        ("ok: zeros", ENDS, 1, format!(".{}9E83", zeros)),
        ("20: end not whole", ENDS, 1, format!("900.{}1", zeros)),
        ("20: end not whole", ENDS, 1, format!("900{}1E-81", zeros)),
        ("ok: zeros", STARTS, 0, format!("-{}.{}", &zeros[..40], &zeros[..40])),
        ("ok: zeros", STARTS, 0, "-0".to_string()),
        ("ok: zeros", STARTS, 0, "0E99999999999999999999".to_string()),
        ("ok: zeros", STARTS, 0, "-0.00E-99999999999999999999".to_string()),
        ("ok: zeros", COEFFICIENTS, 0, "+.0D5".to_string()),
        ("20: start not whole", STARTS, 0, "0.5".to_string()),
        ("20: start below 0", STARTS, 0, "-1".to_string()),
        ("20: n not whole", FIELDS, 0, "2.5".to_string()),
        ("20: n below 0", FIELDS, 0, "-2".to_string()),
        ("1: n above 10", FIELDS, 0, "11".to_string()),
        ("1: delimiter", DELIMITER, 0, "257".to_string()),
        ("1: delimiter", DELIMITER, 0, "256".to_string()),
        ("1: delimiter", DELIMITER, 0, "4294967297".to_string()),
        ("1: lists not n long", FIELDS, 0, "4294967298".to_string()),
        ("1: lists not n long", FIELDS, 0, "18446744073709551615".to_string()),
    ] {
        let label = if label == "1: lists not n long" { "1: n above 10" } else { label };
        for _ in 0..2 {
            a(writer, label, name, place, &value);
        }
    }
}

/// Coefficients that are not in threes: the surplus ones have the units of their places.
fn surplus(writer: &mut Writer) {
    for (label, more) in [
        ("3: not in threes", &["700"][..]),
        ("3: not in threes", &["700", "0.000000001"]),
        ("3: not in threes", &["700", "-1E-9"]),
        ("3: not in threes", &["0"]),
        ("3: not in threes", &["18446744073709551615"]),
        ("20: count not whole", &["700.5"]),
        ("20: count below 0", &["-700"]),
        ("20: count not whole", &["0.000000001"]),
        ("20: time not whole", &["700", "0.0000000001"]),
        ("20: time too large", &["700", "1E10"]),
        ("20: rate not whole", &["700", "1", "0.0000000000001"]),
        ("20: rate below 0", &["700", "1", "-1"]),
        ("20: count too large", &["18446744073709551616"]),
    ] {
        for _ in 0..if label.starts_with('3') { 5 } else { 2 } {
            for mut draft in [writer.base(), writer.of(&super::table_a())] {
                let values = &mut draft.set_of(COEFFICIENTS).values;
                values.extend(more.iter().map(|value| value.to_string()));
                let rows = values.len() / 3;
                let label = label.replacen("3:", &format!("3 {}:", rows), 1);
                writer.draft(&label, &draft);
            }
        }
    }
    // The place is the number of whole rows.
    let values = ["0", "-1E-6", "25E-9", "600", "1E-6", "30E-9", "700", "2E-6", "40E-9", "800", "3E-6"];
    for (len, times) in [(1, 3), (2, 3), (4, 20), (5, 20), (7, 20), (8, 20), (10, 3), (11, 3)] {
        for _ in 0..times {
            let mut draft = writer.of(&super::table_a());
            draft.set_of(COEFFICIENTS).values = values[..len].iter().map(|value| value.to_string()).collect();
            let label = if times > 3 { format!("{} coefficients", len) } else { "not in threes".to_string() };
            writer.draft(&format!("3 {}: {}", len / 3, label), &draft);
        }
    }
}

/// One number in every form and with exponents of every size.
fn forms(writer: &mut Writer) {
    for exponent in -40i64..=40 {
        // An end of 900 with its point moved.
        let (front, zeros) = ("9", exponent.unsigned_abs() as usize);
        let value = match exponent {
            0 => "900.E0".to_string(),
            _ if exponent < 0 => format!("{}00{}E-{}", front, "0".repeat(zeros), zeros),
            _ => format!("0.{}{}E{}", "0".repeat(zeros - 1), front, zeros + 2),
        };
        a(writer, "ok: exponents", ENDS, 1, &value);
        // A time of 1,000 ns or a rate of 30,000 ps.
        let letter = writer.random.pick(&['E', 'e', 'D', 'd']);
        let digits = format!("1{}", "0".repeat(zeros));
        a(writer, "ok: exponents", COEFFICIENTS, 4, &format!("{}{}-{:02}", digits, letter, zeros + 6));
        a(
            writer,
            "ok: exponents",
            COEFFICIENTS,
            5,
            &format!("+.{}3{}-{}", "0".repeat(zeros), letter, 7i64 - zeros as i64).replace("--", "+"),
        );
    }
    // Around the exact unit: a digit more or less.
    for exponent in 0..16 {
        let time = if exponent <= 9 { "ok: exponents" } else { "20: time not whole" };
        a(writer, time, COEFFICIENTS, 4, &format!("1E-{}", exponent));
        let start = if exponent == 0 { "ok: exponents" } else { "20: start not whole" };
        a(writer, start, STARTS, 0, &format!("1E-{}", exponent));
        let rate = match exponent {
            0..=8 => "ok: exponents",
            9..=12 => "3 0: a rate too low",
            _ => "20: rate not whole",
        };
        a(writer, rate, COEFFICIENTS, 2, &format!("1E-{}", exponent));
    }
}
