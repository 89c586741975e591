//! Random kernels: random tables in a random style; some then edited.

use super::draft::*;
use super::{numbers, room, Writer};
use crate::generate::broken::*;
use crate::generate::tables::sound;
use crate::random::Random;
use crate::script::{Tables, MOST_KERNEL, MOST_LENT};

/// Bytes that mean something in kernel text.
const BYTES: &[u8] = b"0123456789012345 \t\n\r,()='+-.EeDd@\\X_\x00\x7f\xc8";

impl Writer {
    pub fn any_kernel(&mut self) {
        let random = &mut self.random;
        let tables = any_tables(random);
        let clock = any_clock(random);
        let style = if random.chance(70) { Style::Any } else { Style::Short };
        let system = random.pick(&[None, Some(1), Some(2)]);
        let mut draft = Draft::new(random, clock, &tables, system, style);
        if random.chance(40) {
            draft.shuffle(random);
        }
        if random.chance(40) {
            others(random, &mut draft);
        }
        if random.chance(25) {
            let line = any_line(random);
            draft.insert(random, line.as_bytes());
        }
        let sound = !random.chance(22);
        if !sound && random.chance(35) {
            edit_value(random, &mut draft);
        }
        let mut text = draft.text(random, style);
        if !sound && random.chance(70) {
            for _ in 0..random.pick(&[1, 1, 1, 2]) {
                edit(random, &mut text);
            }
        }
        text.truncate(MOST_KERNEL);
        let mut lent = room(random, &draft);
        if random.chance(4) {
            let list = random.below(7);
            lent[list] = random.below(draft.lent[list] + 3).min(MOST_LENT);
        }
        let asked = if random.chance(2) { any_clock(random) } else { clock };
        self.kernel("at random", asked, lent, &text);
    }
}

/// Mostly short and sound.
fn any_tables(random: &mut Random) -> Tables {
    let most = if random.chance(3) { 60 } else { 6 };
    let mut tables = sound(random);
    while tables.start.len() > most || tables.count.len() > most {
        tables = sound(random);
    }
    if random.chance(6) {
        let whole = tables.clone();
        let rule = random.below(SEGMENT_RULES);
        match random.below(3) {
            0 => break_layout(random, &mut tables, rule % LAYOUT_RULES),
            1 => break_partitions(random, &mut tables, rule % PARTITION_RULES),
            _ => break_segments(random, &mut tables, rule),
        }
        if tables.start.is_empty() || tables.end.is_empty() || tables.count.is_empty() {
            return whole;
        }
    }
    tables
}

fn any_clock(random: &mut Random) -> i64 {
    let any = random.magnitude(99_999_999_999) as i64;
    match random.below(40) {
        0 => random.pick(&[0, i64::MAX, i64::MIN, 100_000_000_000, -100_000_000_000]),
        1..=9 => random.pick(&[any, -any]),
        _ => super::short_clock(random),
    }
}

/// Comments, empty lines, other names, a second block.
fn others(random: &mut Random, draft: &mut Draft) {
    for _ in 0..random.between(1, 3) {
        let line: &[u8] = random.pick(&[
            &b""[..],
            b"  ",
            b"\t",
            b"\\begindata",
            b"X = 1",
            b"X += ( 'a' 'b' )",
            b"Y=@",
            b"Z = ( 1E400, @x\n -.5 )",
            b"\\begintext\nX =\n\x00\xff\n\\begindata",
            b" \\begintext \n \\begindata\t",
            b"SCLK01_MODULI = 1",
        ]);
        draft.insert(random, line);
    }
    if random.chance(30) {
        draft.items.insert(1, Item::Line(b"A comment: X = ( 'a \\begindata\r".to_vec()));
    }
    if random.chance(30) {
        draft.line("\\begintext");
    }
}

/// An assignment of another name, put together from words; one word may be lost, doubled or another.
fn any_line(random: &mut Random) -> String {
    let gap = |random: &mut Random| random.pick(&["", "", " ", "\t", "  "]);
    let name = random.pick(&["X", "X+Y", "Y'", "@N", "1", "SCLK_X", "+Z", "\\A", "NNNNNNNNNNNNNNNNNNNNNNNNNNNNNNNN"]);
    let mut words = vec![gap(random), name, gap(random), random.pick(&["=", "=", "+="]), gap(random)];
    let strings = random.chance(30);
    let values = if random.chance(40) { 1 } else { random.between(1, 4) };
    let list = values > 1 || random.chance(30);
    if list {
        words.extend(["(", gap(random)]);
    }
    for value in 0..values {
        if value > 0 {
            words.push(random.pick(&[" ", " ", ",", "\t", "\n", " , ", "\n\n", ",\n", "\n\\begindata\n", ",,"]));
        }
        words.push(if strings {
            random.pick(&["'a'", "''''", "'a''b'", "'('", "' '", "'\\begintext'", "'X = 1'"])
        } else {
            random.pick(&["1", "-1", "+.5", "1.", "1E5", "2d-3", "1E400", "0", "@", "@a", "@a'b", "@=="])
        });
    }
    if list {
        words.extend([gap(random), ")"]);
    }
    words.push(gap(random));
    if random.chance(30) {
        let place = random.below(words.len());
        match random.below(3) {
            0 => {
                words.remove(place);
            }
            1 => words.insert(place, words[place]),
            _ => {
                words[place] = random.pick(&[
                    "=",
                    "+=",
                    "+",
                    "(",
                    ")",
                    ",",
                    "'",
                    "''",
                    "@",
                    "1",
                    ".",
                    "E",
                    " ",
                    "\t",
                    "\n",
                    "\\begintext",
                    "-",
                    "X",
                    "\r",
                    "\n\\begintext\n\\begindata\n",
                ])
            }
        }
    }
    words.concat()
}

/// Another number in one place.
fn edit_value(random: &mut Random, draft: &mut Draft) {
    let name = random.pick(&[
        TYPE,
        FIELDS,
        DELIMITER,
        MODULI,
        OFFSETS,
        STARTS,
        ENDS,
        COEFFICIENTS,
        COEFFICIENTS,
        COEFFICIENTS,
    ]);
    let values = draft.set_of(name).values.len();
    if values == 0 {
        return;
    }
    let place = random.below(values);
    let unit = if name == COEFFICIENTS { UNITS[place % 3] } else { 0 };
    let any = i128::from(random.word() >> random.below(64));
    let number = random.pick(&[
        0,
        1,
        2,
        -1,
        10,
        11,
        1_000,
        1_001,
        any,
        any,
        -any,
        (1 << 63) - 1,
        1 << 63,
        (1 << 64) - 1,
        1 << 64,
        -(1 << 63),
        -(1 << 63) - 1,
    ]);
    let value = match random.below(10) {
        0 => numbers::inexact(random, number, unit),
        1 => random.pick(&["@", "'a'", "1E400", "1E-400", "", "a"]).to_string(),
        _ => numbers::any(random, number, unit),
    };
    draft.set_of(name).values[place] = value;
}

/// One byte more, less or another; or a line more or less.
fn edit(random: &mut Random, text: &mut Vec<u8>) {
    let place = random.below(text.len().max(1));
    let byte = random.pick(BYTES);
    match random.below(10) {
        0..=3 if place < text.len() => text[place] = byte,
        4..=5 => text.insert(place, byte),
        6..=7 if place < text.len() => {
            text.remove(place);
        }
        _ => {
            let mut lines: Vec<Vec<u8>> = text.split(|&byte| byte == 10).map(<[u8]>::to_vec).collect();
            let line = random.below(lines.len());
            let other = random.below(lines.len());
            match random.below(3) {
                0 => lines.swap(line, other),
                1 => lines.insert(other, lines[line].clone()),
                _ => {
                    lines.remove(line);
                }
            }
            *text = lines.join(&10);
        }
    }
}
