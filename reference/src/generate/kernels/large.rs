//! As many rows, and as long texts and lines, as the script can hold.

use super::draft::*;
use super::Writer;
use crate::script::{put_bytes, Tables, LONGEST_LINE, MOST_KERNEL};
use crate::Partitions;

pub fn all(writer: &mut Writer) {
    let a = super::table_a();
    for rows in [Partitions::MOST, Partitions::MOST + 1] {
        let one = Tables { count: vec![0], time: vec![0], rate: vec![25_000], ..a.clone() };
        let draft = writer.of(&Tables { start: vec![0; rows], end: vec![9; rows], ..one });
        writer.draft(if rows > Partitions::MOST { "2 10000: over 9,999 rows" } else { "16: all" }, &draft);
    }
    let text = |writer: &mut Writer, len: usize| {
        let mut draft = Draft::new(&mut writer.random, 77, &a, Some(2), Style::Short);
        draft.line("\\begintext");
        let mut text = draft.text(&mut writer.random, Style::Short);
        text.resize(len, b'x');
        text
    };
    for len in [MOST_KERNEL, MOST_KERNEL + 1] {
        let text = text(writer, len);
        line(writer, &text, if len > MOST_KERNEL { 0 } else { LONGEST_LINE });
    }
    for len in [LONGEST_LINE, LONGEST_LINE + 1] {
        let text = text(writer, 800);
        line(writer, &text, len);
    }
    writer.line(&[b'#'; LONGEST_LINE + 1]);
    bad_lines(writer);
}

/// A question's line of this length, by zeros before the clock's number.
fn line(writer: &mut Writer, text: &[u8], len: usize) {
    let mut back = b"77 2 2 2 2 2 2 2 ".to_vec();
    put_bytes(&mut back, text);
    let front = b"read-kernel -";
    let zeros = vec![b'0'; len.saturating_sub(front.len() + back.len())];
    let line = [&front[..], &zeros, &back].concat();
    let good = text.len() <= MOST_KERNEL && line.len() <= LONGEST_LINE;
    writer.questions += u64::from(good);
    if good {
        writer.line(b"# ok: long lines");
    }
    writer.line(&line);
}

/// Lines that are not the question's.
fn bad_lines(writer: &mut Writer) {
    for line in [
        "read-kernel",
        "read-kernel ",
        "read-kernel 77",
        "read-kernel 77 1 1 1 1 1 1 1",
        "read-kernel 77 1 1 1 1 1 1 1 ",
        "read-kernel 77 1 1 1 1 1 1 .",
        "read-kernel 77 1 1 1 1 1 1 1 1 .",
        "read-kernel 77 1 1 1 1 1 1 1 . ",
        "read-kernel 77 41 1 1 1 1 1 1 .",
        "read-kernel 77 1 1 1 1 1 1 41 .",
        "read-kernel 77 1 1 1 1 -1 1 1 .",
        "read-kernel 77 1 1 1 1 18446744073709551617 1 1 .",
        "read-kernel 9223372036854775808 1 1 1 1 1 1 1 .",
        "read-kernel -9223372036854775809 1 1 1 1 1 1 1 .",
        "read-kernel +77 1 1 1 1 1 1 1 .",
        "read-kernel - 1 1 1 1 1 1 1 .",
        "read-kernel x 1 1 1 1 1 1 1 .",
        "read-kernel 77 1 1 1 1 1 1 1 4",
        "read-kernel 77 1 1 1 1 1 1 1 4B",
        "read-kernel 77 1 1 1 1 1 1 1 4g",
        "read-kernel 77  1 1 1 1 1 1 1 .",
        "read-kernel 77 1 1 1 1 1 1 1 4b 4b",
        "read-kernels 77 1 1 1 1 1 1 1 .",
        "Read-kernel 77 1 1 1 1 1 1 1 .",
        "read_kernel 77 1 1 1 1 1 1 1 .",
    ] {
        writer.line(line.as_bytes());
    }
    for line in [
        "read-kernel 0077 0 1 2 3 000000 40 040 .",
        "read-kernel -9223372036854775808 0 0 0 0 0 0 0 4b",
        "read-kernel 9223372036854775807 1 1 1 1 1 1 1 4b50",
    ] {
        writer.questions += 1;
        writer.line(b"# 18: first line");
        writer.line(line.as_bytes());
    }
}
