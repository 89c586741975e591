//! Lines, markers and blocks.

use crate::Refusal;

/// Bytes of a data line, those that are dropped at its end not counted.
const LONGEST_LINE: usize = 132;

/// "The reader keeps the kernel text and its place in it as one thing."
pub struct Reader<'a> {
    text: &'a [u8],
    at: usize,
    /// Whether the place is in a data block.
    data: bool,
}

impl<'a> Reader<'a> {
    pub fn new(text: &'a [u8]) -> Reader<'a> {
        Reader { text, at: 0, data: false }
    }

    /// The next line without what is dropped at its end; none at the text's end. "lines end at byte 10 or the text's
    /// end, blanks and a 13 before that dropped".
    pub fn line(&mut self) -> Option<&'a [u8]> {
        let rest = &self.text[self.at..];
        if rest.is_empty() {
            return None;
        }
        let line = match rest.iter().position(|&byte| byte == 10) {
            Some(end) => {
                self.at += end + 1;
                &rest[..end]
            }
            None => {
                self.at = self.text.len();
                rest
            }
        };
        Some(match without_blanks(line) {
            [front @ .., 13] => without_blanks(front),
            line => line,
        })
    }

    /// The next line "between `\begindata` and `\begintext`" that is not empty. None at the text's end; also at the
    /// block's end where a parenthesis is open.
    pub fn data_line(&mut self, open: bool) -> Result<Option<&'a [u8]>, Refusal> {
        while let Some(line) = self.line() {
            // A marker may have blanks and tabs around it.
            let front = line.iter().position(|byte| !is_gap(byte)).unwrap_or(line.len());
            if line.get(front) == Some(&b'\\') {
                match without_gap(&line[front..]) {
                    b"\\begindata" => {
                        self.data = true;
                        continue;
                    }
                    b"\\begintext" => {
                        self.data = false;
                        if open {
                            return Ok(None);
                        }
                        continue;
                    }
                    _ => {}
                }
            }
            if !self.data {
                continue;
            }
            // Not `all`: to go through the whole line is quicker.
            let good = line.iter().fold(true, |good, byte| good & is_data(byte));
            if !good || line.len() > LONGEST_LINE {
                return Err(Refusal::new(19));
            }
            if front < line.len() {
                return Ok(Some(&line[front..]));
            }
        }
        Ok(None)
    }
}

/// A blank or a tab.
pub fn is_gap(byte: &u8) -> bool {
    matches!(byte, b' ' | b'\t')
}

/// A byte of a data line.
fn is_data(byte: &u8) -> bool {
    (b' '..=b'~').contains(byte) | (*byte == b'\t')
}

fn without_blanks(line: &[u8]) -> &[u8] {
    let len = line.iter().rposition(|&byte| byte != b' ').map_or(0, |last| last + 1);
    &line[..len]
}

fn without_gap(line: &[u8]) -> &[u8] {
    let len = line.iter().rposition(|byte| !is_gap(byte)).map_or(0, |last| last + 1);
    &line[..len]
}
