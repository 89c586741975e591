//! Assignments: `NAME = VALUE`, `NAME = ( VALUE .. )`, also over several lines, and `+=`. All that is not of the form
//! is refused 19, other names' too.

use super::found::Found;
use super::number::Decimal;
use super::reader::{is_gap, Reader};
use crate::Refusal;

const LONGEST_NAME: usize = 32;
/// Characters of a string; a doubled quote is one.
const LONGEST_STRING: usize = 80;

pub enum Value<'a> {
    Number(Decimal<'a>),
    Date,
    String,
}

/// Takes every assignment of the text.
pub fn read(reader: &mut Reader, found: &mut Found) -> Result<(), Refusal> {
    while let Some(line) = reader.data_line(false)? {
        let mut line = Line(line);
        let (name, append) = line.name()?;
        let variable = found.variable(name, append)?;
        line.skip(is_gap);
        if line.eat(b'(') {
            line = list(reader, line, |value, row| found.take(variable, value, row))?;
        } else {
            found.take(variable, line.value()?, 0)?;
        }
        line.skip(is_gap);
        if !line.0.is_empty() {
            return Err(Refusal::new(19));
        }
    }
    Ok(())
}

/// The values up to the closing parenthesis, each with its place in the list; then what is left of the line.
fn list<'a>(
    reader: &mut Reader<'a>,
    mut line: Line<'a>,
    mut take: impl FnMut(Value<'a>, usize) -> Result<(), Refusal>,
) -> Result<Line<'a>, Refusal> {
    let mut row = 0;
    let mut strings = false;
    loop {
        line.skip(|byte| is_gap(byte) || *byte == b',');
        if line.0.is_empty() {
            line = Line(reader.data_line(true)?.ok_or(Refusal::new(19))?);
            continue;
        }
        if line.eat(b')') {
            return if row > 0 { Ok(line) } else { Err(Refusal::new(19)) };
        }
        let value = line.value()?;
        // Strings only, or numbers and dates only.
        let string = matches!(value, Value::String);
        if row > 0 && string != strings {
            return Err(Refusal::new(19));
        }
        strings = string;
        take(value, row)?;
        row += 1;
    }
}

/// What is left of a data line.
struct Line<'a>(&'a [u8]);

impl<'a> Line<'a> {
    fn skip(&mut self, skipped: impl Fn(&u8) -> bool) {
        while let [first, rest @ ..] = self.0 {
            if !skipped(first) {
                break;
            }
            self.0 = rest;
        }
    }

    fn eat(&mut self, byte: u8) -> bool {
        match self.0 {
            [first, rest @ ..] if *first == byte => {
                self.0 = rest;
                true
            }
            _ => false,
        }
    }

    /// The name in front and its operator; true for `+=`.
    fn name(&mut self) -> Result<(&'a [u8], bool), Refusal> {
        let end = self.0.iter().position(|byte| matches!(byte, b' ' | b'\t' | b'(' | b')' | b',' | b'='));
        let (mut name, rest) = self.0.split_at(end.ok_or(Refusal::new(19))?);
        self.0 = rest;
        let mut append = false;
        // A `+` directly before `=` is the operator's: no name ends in one.
        if rest[0] == b'=' {
            if let [front @ .., b'+'] = name {
                name = front;
                append = true;
            }
        } else {
            self.skip(is_gap);
            append = self.eat(b'+');
        }
        if !self.eat(b'=') || name.is_empty() || name.len() > LONGEST_NAME || name.ends_with(b"+") {
            return Err(Refusal::new(19));
        }
        Ok((name, append))
    }

    /// The value in front, which "ends before a blank, tab, comma, parenthesis or the line's end".
    fn value(&mut self) -> Result<Value<'a>, Refusal> {
        let value = match self.0 {
            [b'@', ..] => {
                // "a date may have any text after `@`"
                let end = self.0.iter().position(ends_value).unwrap_or(self.0.len());
                self.0 = &self.0[end..];
                Value::Date
            }
            [b'\'', rest @ ..] => {
                self.0 = after_string(rest)?;
                Value::String
            }
            text => {
                let (number, rest) = Decimal::read(text).ok_or(Refusal::new(19))?;
                self.0 = rest;
                Value::Number(number)
            }
        };
        if self.0.first().map_or(true, ends_value) {
            Ok(value)
        } else {
            Err(Refusal::new(19))
        }
    }
}

fn ends_value(byte: &u8) -> bool {
    matches!(byte, b' ' | b'\t' | b',' | b'(' | b')')
}

/// From behind a string's first quote to behind its last.
fn after_string(mut rest: &[u8]) -> Result<&[u8], Refusal> {
    let mut characters = 0;
    loop {
        rest = match rest {
            [b'\'', b'\'', rest @ ..] => rest,
            [b'\'', rest @ ..] if characters <= LONGEST_STRING => return Ok(rest),
            [b'\'', ..] | [] => return Err(Refusal::new(19)),
            [_, rest @ ..] => rest,
        };
        characters += 1;
    }
}
