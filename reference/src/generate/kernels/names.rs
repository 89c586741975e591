//! The ten names: missing, twice, with `+=`, with several values, with no number, of another type or time system.

use super::draft::*;
use super::{short_clock, small, Writer};
use crate::generate::kernels::numbers;

pub fn all(writer: &mut Writer) {
    clocks(writer);
    for name in 0..NAMES.len() {
        if name == SYSTEM {
            absent(writer);
        } else {
            missing(writer, name);
        }
        twice(writer, name);
        appended(writer, name);
        if name != ID {
            no_number(writer, name);
        }
        if name <= DELIMITER {
            several(writer, name);
        }
    }
    ids(writer);
    types(writer);
}

/// Every size of the clock's number.
fn clocks(writer: &mut Writer) {
    for clock in [0, 1, 9, 10, 77, 94, 999, 65_536, 99_999_999_999, 10_000_000_000] {
        for clock in [clock, -clock] {
            let tables = small(&mut writer.random);
            let draft = Draft::new(&mut writer.random, clock, &tables, Some(2), Style::Short);
            writer.draft("ok: a clock's number", &draft);
        }
    }
    // Names of over 32 bytes.
    for clock in [100_000_000_000, -100_000_000_000, 1 << 62, i64::MAX, -i64::MAX, i64::MIN] {
        for _ in 0..3 {
            let tables = small(&mut writer.random);
            let draft = Draft::new(&mut writer.random, clock, &tables, Some(2), Style::Short);
            writer.draft("19: a name of over 32 bytes", &draft);
        }
        // Without such names others are missing.
        let mut draft = writer.base();
        draft.clock = clock;
        let text = draft.text(&mut writer.random, Style::Short);
        writer.kernel("19: a name missing", clock, [1; 7], &text);
    }
    // Another clock's kernel; numbers that begin or end like this clock's.
    for (clock, asked) in [
        (77, 7),
        (7, 77),
        (77, 777),
        (0, 7),
        (7, 0),
        (1, 10),
        (-77, 78),
        (94, 77),
        (77, 94),
        (10, 1),
        (0, i64::MIN),
        (707, 7),
    ] {
        let tables = small(&mut writer.random);
        let draft = Draft::new(&mut writer.random, clock, &tables, None, Style::Short);
        let text = draft.text(&mut writer.random, Style::Short);
        writer.kernel("19: a name missing", asked, [1; 7], &text);
    }
    // The same numbers for several clocks in one text.
    for other in [7, 78, 770, 0] {
        for clock in [77, -77] {
            let tables = small(&mut writer.random);
            let mut draft = Draft::new(&mut writer.random, clock, &tables, Some(1), Style::Short);
            let tables = small(&mut writer.random);
            let more = Draft::new(&mut writer.random, other, &tables, Some(2), Style::Short);
            draft.items.extend(more.items.into_iter().skip(3));
            draft.shuffle(&mut writer.random);
            writer.draft("ok: two clocks", &draft);
        }
    }
}

fn absent(writer: &mut Writer) {
    for _ in 0..6 {
        let tables = small(&mut writer.random);
        let clock = short_clock(&mut writer.random);
        let draft = Draft::new(&mut writer.random, clock, &tables, None, Style::Short);
        writer.draft("ok: no time system", &draft);
    }
}

fn missing(writer: &mut Writer, name: usize) {
    for way in 0..5 {
        let mut draft = writer.base();
        let place = draft.place(name);
        let written = draft.name(name);
        match way {
            0 | 1 => {
                draft.items.remove(place);
            }
            // Another name in its place.
            2 => draft.set_of(name).name = written.to_lowercase(),
            3 => {
                draft.set_of(name).name =
                    if name == ID { format!("{}_7", written) } else { written.replace("SCLK", "SCLC") }
            }
            _ => {
                let number = draft.clock.unsigned_abs().to_string();
                draft.set_of(name).name = match name {
                    ID => "SCLK_KERNEL_I".to_string(),
                    _ => written.replace(&format!("_{}", number), &format!("_0{}", number)),
                };
            }
        }
        writer.draft("19: a name missing", &draft);
    }
}

fn twice(writer: &mut Writer, name: usize) {
    for way in 0..3 {
        let mut draft = writer.base();
        if name == SYSTEM {
            draft = with_system(writer);
        }
        let again = draft.items[draft.place(name)].clone();
        match way {
            0 => draft.items.insert(draft.place(name), again),
            1 => draft.items.push(again),
            // In another block.
            _ => {
                draft.line("\\begintext");
                draft.line("\\begindata");
                draft.items.push(again);
            }
        }
        writer.draft("19: a name twice", &draft);
    }
}

fn appended(writer: &mut Writer, name: usize) {
    for way in 0..3 {
        let mut draft = with_system(writer);
        if way == 0 {
            draft.set_of(name).operator = "+=";
        } else {
            // Behind the name's own assignment, or before it.
            let mut again = draft.items[draft.place(name)].clone();
            if let Item::Set(set) = &mut again {
                set.operator = if way == 1 { "+=" } else { " +=" };
            }
            let place = draft.place(name) + usize::from(way == 1);
            draft.items.insert(place, again);
        }
        writer.draft("19: +=", &draft);
    }
}

fn with_system(writer: &mut Writer) -> Draft {
    let tables = small(&mut writer.random);
    let (clock, system) = (short_clock(&mut writer.random), writer.random.between(1, 2));
    Draft::new(&mut writer.random, clock, &tables, Some(system), Style::Short)
}

/// A string or a date, alone or among numbers.
fn no_number(writer: &mut Writer, name: usize) {
    for value in ["@", "@a", "@1999-02-07", "''", "'1'", "'a b'"] {
        let clause = if value.starts_with('@') { "19: a date for a number" } else { "19: a string for a number" };
        let mut draft = with_system(writer);
        let values = &mut draft.set_of(name).values;
        let any = writer.random.below(values.len());
        if value == "''" || value == "'a b'" {
            *values = vec![value.to_string(); values.len()];
        } else {
            values[any] = value.to_string();
        }
        writer.draft(clause, &draft);
    }
}

/// Two values, three, a date and a number; for the ID too.
fn several(writer: &mut Writer, name: usize) {
    for more in [&["1"][..], &["1", "1"], &["2"], &["@"], &["1E400"]] {
        let mut draft = with_system(writer);
        draft.set_of(name).values.extend(more.iter().map(|value| value.to_string()));
        writer.draft("19: several values", &draft);
    }
}

fn ids(writer: &mut Writer) {
    for id in [
        "@",
        "@04-SEP-1990//4:23:00",
        "1",
        "1E400",
        "-1.5D-99999999999999999999",
        "'a'",
        "''",
        "'@ ( , ) ='",
        "@'=",
        "0.1",
        "2",
    ] {
        for _ in 0..2 {
            let mut draft = writer.base();
            draft.set_of(ID).values = vec![id.to_string()];
            writer.draft("ok: an ID", &draft);
        }
    }
    for id in ["a", "1E", "@a b", "@a,", "'a", "'a'b", "1 2", "", "NONE", "@(", "1a"] {
        for _ in 0..2 {
            let mut draft = writer.base();
            let place = draft.place(ID);
            draft.items[place] = Item::Line(format!("SCLK_KERNEL_ID = {}", id).into_bytes());
            writer.draft("19: an ID", &draft);
        }
    }
    let quoted = |len: usize| format!("'{}'", "a".repeat(len));
    for (label, id) in [("ok: an ID", quoted(80)), ("19: an ID", quoted(81))] {
        let mut draft = writer.base();
        draft.set_of(ID).values = vec![id];
        writer.draft(label, &draft);
    }
}

/// 1 in all its forms; what is near 1, or not exact, or far too large.
fn types(writer: &mut Writer) {
    for (name, good, clause) in [(TYPE, &[1][..], "19: another type"), (SYSTEM, &[1, 2], "19: another time system")] {
        for &number in good {
            for _ in 0..8 {
                let mut draft = with_system(writer);
                let value = numbers::any(&mut writer.random, number, 0);
                draft.set_of(name).values = vec![value];
                writer.draft("ok: a type or time system", &draft);
            }
        }
        let other = if name == TYPE { "2" } else { "3" };
        #[rustfmt::skip]
        let bad = [
            other, "0", "-1", "-2", "1.5", "1E400", "1E-400", "1.0000000000000000000000000001",
            "0.99999999999999999999", "1E1", "10", "18446744073709551617", "18446744073709551618",
            "1E99999999999999999999", "0E5", "-0", "4294967297", "257", "2.5", "-1.0", "1E-1", "20", "3.0D0",
        ];
        for value in bad {
            let mut draft = with_system(writer);
            draft.set_of(name).values = vec![value.to_string()];
            writer.draft(clause, &draft);
        }
    }
}
