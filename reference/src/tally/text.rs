//! Refusals of text: which clause it was, where it is, and what stands around it.

use std::ops::Range;

use crate::Layout;

const E15: u128 = 1_000_000_000_000_000;
const LARGEST: u128 = E15 + 1_000;

/// A text that is refused: of a stamp if it may have a partition in front.
#[derive(Clone, Copy)]
pub struct Text<'a> {
    pub bytes: &'a [u8],
    pub stamp: bool,
}

fn is_digit(byte: &u8) -> bool {
    byte.is_ascii_digit()
}

fn is_mark(byte: &u8) -> bool {
    b".:,-".contains(byte)
}

fn value(digits: &[u8]) -> u128 {
    digits.iter().fold(0u128, |value, digit| (value * 10 + u128::from(digit - b'0')).min(E15 * E15))
}

impl<'a> Text<'a> {
    fn slash(self) -> Option<usize> {
        self.bytes.iter().position(|&byte| byte == b'/').filter(|_| self.stamp)
    }

    /// The first byte behind the front part.
    fn from(self) -> usize {
        self.slash().map_or(0, |slash| slash + 1)
    }

    pub fn clause(self, refusal: &str) -> &'static str {
        let front = &self.bytes[..self.slash().unwrap_or(0)];
        match refusal {
            "5" => match self.bad_byte() {
                Some((_, "a byte" | "a byte in front")) => "a byte",
                Some((_, "a slash" | "a second slash")) => "a slash",
                _ => "front part",
            },
            "9" if self.bad_field(&[]).is_some() => "field",
            "9" => "sum",
            "10" if front.iter().all(|byte| b" 0".contains(byte)) => "zero",
            "10" => "above",
            "11" if self.slash().is_some() => "named",
            "11" => "in none",
            _ => "",
        }
    }

    pub fn place(self, layout: &Layout, refusal: &str) -> Option<usize> {
        let n = layout.n as usize;
        let whole = self.bytes.len();
        match refusal {
            "5" => self.bad_byte().map(|(place, _)| place),
            "7" => self.fields().get(n).map(|field| self.digits(field).map_or(whole, |digits| digits.start)),
            "8" | "9" => Some(self.bad_field(&layout.offsets[..n]).map_or(whole, |(_, digits)| digits.start)),
            _ => None,
        }
    }

    /// "the earliest byte that can't stand where it is (a front part empty or all blanks: its `/`; with two numbers: the
    /// second)", and what it is.
    fn bad_byte(self) -> Option<(usize, &'static str)> {
        let text = self.bytes;
        if let Some(slash) = self.slash() {
            let front = &text[..slash];
            let second =
                |at: &usize| is_digit(&front[*at]) && front[at - 1] == b' ' && front[..*at].iter().any(is_digit);
            let strange = front.iter().position(|byte| *byte != b' ' && !is_digit(byte));
            match (strange, (1..slash).find(second)) {
                (Some(strange), second) if second.map_or(true, |second| strange < second) => {
                    return Some((
                        strange,
                        if is_mark(&front[strange]) { "a mark in front" } else { "a byte in front" },
                    ));
                }
                (_, Some(second)) => return Some((second, "a second number")),
                _ if front.is_empty() => return Some((slash, "an empty front part")),
                _ if !front.iter().any(is_digit) => return Some((slash, "a blank front part")),
                _ => {}
            }
        }
        let bad = self.bad_byte_behind(self.from())?;
        Some((
            bad,
            if text[bad] != b'/' {
                "a byte"
            } else if self.stamp {
                "a second slash"
            } else {
                "a slash"
            },
        ))
    }

    /// In what is no front part.
    fn bad_byte_behind(self, from: usize) -> Option<usize> {
        let bad = |byte: &u8| *byte != b' ' && !is_digit(byte) && !is_mark(byte);
        self.bytes[from..].iter().position(bad).map(|at| from + at)
    }

    /// What stands between marks, blanks and all.
    fn fields(self) -> Vec<Range<usize>> {
        let text = self.bytes;
        let digit = |at: usize| text.get(at).map_or(false, is_digit);
        let (mut fields, mut start, mut at) = (vec![], self.from(), self.from());
        while at < text.len() {
            let blanks = text[at..].iter().take_while(|&&byte| byte == b' ').count();
            let run = blanks > 0 && at > self.from() && digit(at - 1) && digit(at + blanks);
            let len = blanks.max(1);
            if run || is_mark(&text[at]) {
                fields.push(start..at);
                start = at + len;
            }
            at += len;
        }
        fields.push(start..text.len());
        fields
    }

    /// A field's digits.
    fn digits(self, field: &Range<usize>) -> Option<Range<usize>> {
        let start = field.start + self.bytes[field.clone()].iter().position(is_digit)?;
        let len = self.bytes[start..field.end].iter().take_while(|byte| is_digit(byte)).count();
        Some(start..start + len)
    }

    /// The first field that is too large or below its offset, from 0, and its digits. Without offsets any field's.
    fn bad_field(self, offsets: &[u64]) -> Option<(usize, Range<usize>)> {
        let bad = |(i, field): (usize, &Range<usize>)| {
            let digits = self.digits(field)?;
            let value = value(&self.bytes[digits.clone()]);
            let below = offsets.get(i).map_or(false, |&offset| value < u128::from(offset));
            Some((i, digits)).filter(|_| value > LARGEST || below)
        };
        self.fields().iter().enumerate().find_map(bad)
    }

    /// What the place of 5, 7, 8 or 9 shows.
    pub fn labels(self, layout: &Layout, refusal: &str) -> Vec<String> {
        let place = match self.place(layout, refusal) {
            Some(place) => place,
            None => return vec![],
        };
        let (text, front) = (self.bytes, self.slash().is_some());
        let n = layout.n as usize;
        let fields = self.fields();
        let blanks_at_the_end = text.ends_with(b" ");
        let mut labels = vec![];
        let name = match (refusal, self.bad_byte()) {
            ("5", Some((_, name))) => name.to_string(),
            ("7", _) if place == text.len() => "empty".to_string(),
            ("7", _) => "there".to_string(),
            _ => match self.bad_field(&layout.offsets[..n]) {
                Some((0, _)) => "first field".to_string(),
                Some(_) => "later field".to_string(),
                None => "sum".to_string(),
            },
        };
        let mut label = |holds: bool, more: &str| {
            if holds {
                labels.push([refusal, ", ", &name, more].concat());
            }
        };
        label(true, "");
        label(place > 0 && text[..place].iter().all(|&byte| byte == b' '), ", blanks before");
        if refusal == "5" {
            let behind = self.bad_byte_behind(place + 1);
            let in_front = self.slash().map_or(false, |slash| place <= slash);
            let slash = self.slash().unwrap_or(0);
            label(in_front && behind.map_or(false, |behind| behind < slash), ", a byte behind it in front");
            label(in_front && self.bad_byte_behind(slash + 1).is_some(), ", another in the text");
            label(!in_front && behind.is_some(), ", another behind it");
            label(!in_front && front, ", behind a front part");
            label(fields.len() > n && !front, ", and too many fields");
            return labels;
        }
        label(front, ", behind a front part");
        if place == text.len() {
            label(blanks_at_the_end, ", blanks at the end");
            label(front && blanks_at_the_end, ", behind a front part and blanks at the end");
        } else {
            label(text[place] == b'0' && text.get(place + 1).map_or(false, is_digit), ", leading zeros");
            label(place > 0 && text[place - 1] == b' ', ", directly behind blanks");
        }
        if refusal == "7" {
            label(fields.len() > n + 1, ", more behind it");
            label(fields[n + 1..].iter().any(|field| self.digits(field).is_some()), ", digits behind it");
        }
        labels
    }
}
