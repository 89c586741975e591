//! The case script: its lines, and the session that answers them. README.md states the protocol; words in quotation
//! marks in this folder are its.

mod adler;
mod parse;
mod session;
mod tables;

use std::io::{self, BufRead, Read, Write};

pub(crate) use parse::{hex, number, time};
pub use parse::{parse, KernelQuestion, Line, Question, WriteQuestion};
pub use session::{put_bytes, Session};
pub use tables::Tables;

pub const LONGEST_LINE: usize = 140_000;
/// Of a text, a message or a piece of a dump.
pub const MOST_BYTES: usize = 2_000;
/// Of a kernel text, a packet or its data.
pub const MOST_KERNEL: usize = 65_600;
/// Of a list.
pub const MOST_ENTRIES: usize = 10_001;
/// Of a lent buffer.
pub const MOST_LEN: usize = 256;
/// Of a lent list.
pub const MOST_LENT: usize = 40;
/// Of the tail buffer.
pub const MOST_TAIL: usize = 65_600;

/// Answers a whole script. However long a line is, no more than the longest good one and a byte are kept of it.
pub fn run(mut input: impl BufRead, mut output: impl Write) -> io::Result<()> {
    let mut session = Session::new();
    let (mut line, mut answers) = (Vec::new(), Vec::new());
    while next_line(&mut input, &mut line)? {
        session.line(&line, &mut answers);
        if answers.len() > 1 << 16 {
            output.write_all(&answers)?;
            answers.clear();
        }
    }
    output.write_all(&answers)?;
    output.flush()
}

/// The next line without its byte 10, cut off after one byte too many; false where no bytes are left.
fn next_line(input: &mut impl BufRead, line: &mut Vec<u8>) -> io::Result<bool> {
    const KEPT: usize = LONGEST_LINE + 1;
    line.clear();
    let read = input.by_ref().take(KEPT as u64).read_until(10, line)?;
    if line.last() == Some(&10) {
        line.pop();
    } else if read == KEPT {
        let mut rest = Vec::new();
        while input.by_ref().take(KEPT as u64).read_until(10, &mut rest)? == KEPT && rest.last() != Some(&10) {
            rest.clear();
        }
    }
    Ok(read > 0)
}

/// A whole script's answers.
pub fn answers(script: &[u8]) -> Vec<u8> {
    let mut output = Vec::new();
    run(script, &mut output).expect("a vector takes all bytes");
    output
}
