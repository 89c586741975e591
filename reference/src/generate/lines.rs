//! Bad lines, good lines at the protocol's limits, comments and empty lines.

use super::writer::Writer;
use crate::script::{Question, MOST_BYTES};

/// Lines around this length are as good as any.
const LONG: usize = 8_192;

/// Lines that are none of the protocol's, or have a number outside its range.
#[rustfmt::skip]
const BAD: &[&[u8]] = &[
    b"x", b"read", b" ", b"  ", b"\t", b"\r", b".", b"-", b"0", b" # no comment", b"ok 5", b"bad line",
    b"read-text", b"read-text ", b" read-text 31", b"read-text  31", b"read-text 31 ", b"read-text 31 32",
    b"read-text 3", b"read-text 313", b"read-text 3g", b"read-text g3", b"read-text 3A", b"read-text 2E", b"read-text .31",
    b"read-text ..", b"read-text 31.", b"read-text 0x31", b"read-text -31", b"Read-text 31", b"READ-TEXT 31",
    b"read_text 31", b"read-text\t31", b"read-text 31\r", b"read-texts 31", b"read-tex 31",
    b"read-stamp", b"read-stamp ", b"read-stamp 312f3", b"read-stamp 312F31", b"read-stamp 31 .", b"read-stamp 1/50.1",
    b"read-message", b"read-message 000", b"read-message 31 0001", b"read-message 310001 ",
    b"print-count", b"print-count 1", b"print-count 1 2", b"print-count 1 2 3 4", b"print-count 1 256 8",
    b"print-count 1 0 257", b"print-count 1 0 18446744073709551624", b"print-count -1 0 8", b"print-count 1 -1 8",
    b"print-count 1 0 -1", b"print-count 18446744073709551616 0 8", b"print-count 36893488147419103232 0 8",
    b"print-count 1 18446744073709551616 8", b"print-count 1. 0 8", b"print-count +1 0 8", b"print-count 1  0 8",
    b"print-count 0x1 0 8", b"print-count 1 0 8 ", b"print-count 1 ff 8", b"print-count 99999999999999999999999999 0 8",
    b"print-stamp", b"print-stamp 1 0", b"print-stamp 1 300 8", b"print-stamp 1 0 1000", b"print-stamp -1 0 8",
    b"print-stamp 18446744073709551616 0 8", b"print-stamp 1 0 8 8", b"print-stamp 1 0 8\r", b"print-stamp a 0 8",
    b"time-of", b"time-of ", b"time-of -1", b"time-of 18446744073709551616", b"time-of 1 2", b"time-of 1e3", b"time-of 1,000",
    b"time-of  1", b"timeof 1", b"time-of 1\r", b"time-of 340282366920938463463374607431768211457",
    b"count-at", b"count-at ", b"count-at 9223372036854775808", b"count-at -9223372036854775809", b"count-at --1",
    b"count-at -", b"count-at +1", b"count-at 1-", b"count-at 1.0", b"count-at - 1", b"count-at 18446744073709551615",
    b"count-at -18446744073709551616", b"count-at 36893488147419103233", b"count-at 5 5",
    b"steps-back ", b"steps-back 1", b" steps-back", b"steps-back\r", b"stepsback", b"steps back", b"Steps-back",
    b"forward", b"forward 0000000000000000 4059000000000000 3ff0000000000000 256",
    b"forward 0000000000000000 4059000000000000 3ff0000000000000 256 512 1",
    b"forward 000000000000000 4059000000000000 3ff0000000000000 256 512",
    b"forward 00000000000000000 4059000000000000 3ff0000000000000 256 512",
    b"forward 0000000000000000 4059000000000000 3FF0000000000000 256 512",
    b"forward 0000000000000000 4059000000000000 3ff000000000000g 256 512",
    b"forward 0000000000000000 4059000000000000 3ff0000000000000 -1 512",
    b"forward 0000000000000000 4059000000000000 3ff0000000000000 256 -512",
    b"forward 0000000000000000 4059000000000000 3ff0000000000000 18446744073709551616 512",
    b"forward 0000000000000000 4059000000000000 3ff0000000000000 256 18446744073709551616",
    b"forward 0 100 1 256 512", b"forward 0000000000000000 4059000000000000 . 256 512",
    b"forward 0000000000000000 4059000000000000 3ff0000000000000 256 4080000000000000g",
    b"back", b"back 0000000000000000 4059000000000000 3ff0000000000000 256",
    b"back 0000000000000000 4059000000000000 3ff0000000000000 256 512",
    b"back 0000000000000000 4059000000000000 3ff0000000000000 256 4059800000000000 0",
    b"back 0000000000000000 4059000000000000 3ff0000000000000 256 405980000000000",
    b"back 0000000000000000 4059000000000000 3ff0000000000000 256 40598000000000000",
    b"back 0000000000000000 4059000000000000 3ff0000000000000 256 7FF8000000000000",
    b"back 0000000000000000 4059000000000000 3ff0000000000000 0x100 4059800000000000",
    b"back 0000000000000000 4059000000000000 nan 256 4059800000000000",
    b"back 0000000000000000 4059000000000000 3ff0000000000000  256 4059800000000000",
    b"layout", b"layout 2", b"layout 2 1 100 10", b"layout 1 1 5 0 0 0 0 0 0 0 0 0 0 0 0 0 0 0 0 0 0",
    b"layout 1 1 5 0 0 0 0 0 0 0 0 0 0 0 0 0 0 0 0 0 0 0 0", b"layout 1 1 5 0 0 0 0 0 0 0 0 0 0 0 0 0 0 0 0 0 0 0 ",
    b"layout 1 256 5 0 0 0 0 0 0 0 0 0 0 0 0 0 0 0 0 0 0 0", b"layout 1 -1 5 0 0 0 0 0 0 0 0 0 0 0 0 0 0 0 0 0 0 0",
    b"layout -1 1 5 0 0 0 0 0 0 0 0 0 0 0 0 0 0 0 0 0 0 0", b"layout 1 1 5 0 0 0 0 0 0 0 0 0 0 0 0 0 0 0 0 0 0 -1",
    b"layout 18446744073709551616 1 5 0 0 0 0 0 0 0 0 0 0 0 0 0 0 0 0 0 0 0",
    b"layout 1 1 5 0 0 0 0 0 0 0 0 0 0 0 0 0 0 0 0 0 0 18446744073709551616",
    b"layout 1 1 18446744073709551616 0 0 0 0 0 0 0 0 0 0 0 0 0 0 0 0 0 0 0", b"layout 1 . 5 0 0 0 0 0 0 0 0 0 0 0 0 0 0 0 0 0 0 0",
    b"layout 1 1 5  0 0 0 0 0 0 0 0 0 0 0 0 0 0 0 0 0 0", b"Layout 1 1 5 0 0 0 0 0 0 0 0 0 0 0 0 0 0 0 0 0 0 0",
    b"partitions 1", b"partitions ", b" partitions", b"partition", b"partitions\r", b"Partitions", b"partitions partitions",
    b"start", b"start ", b"start -1", b"start 1 2", b"start 18446744073709551616", b"start x", b"start  1", b"start 1\r",
    b"end", b"end ", b"end -1", b"end 1 2", b"end 18446744073709551616", b"end 1.5", b"END 900", b" end 900",
    b"segments 0", b"segments ", b"segment", b"segments\r", b"\tsegments",
    b"count", b"count -1", b"count 18446744073709551616", b"count 5 ", b"count 0x5", b"count 5 5",
    b"time", b"time 9223372036854775808", b"time -9223372036854775809", b"time -", b"time 1 2", b"time +1", b"time -1-",
    b"rate", b"rate -5", b"rate 18446744073709551616", b"rate 1e3", b"rate 10000 ", b"rate\t10000",
];

/// Bad lines with bytes that a stored file is better without.
const RAW: &[&[u8]] =
    &[b"\0", b"\xff", b"read-text 31\0", b"read-text 3\xb1", b"\0read-text 31", b"time-of\x0b1", b"\xc3\xa9"];

/// Lines that are passed over.
const PASSED: &[&[u8]] = &[b"", b"#", b"# a comment", b"#read-text 31", b"##", b"# \t", b"#\r", b"# read-text 31"];

impl Writer {
    pub fn any_bad_line(&mut self) {
        let raw = self.raw && self.random.chance(10);
        let line = self.random.pick(if raw { RAW } else { BAD });
        self.line(line);
    }

    pub fn any_passed_line(&mut self) {
        let line = self.random.pick(PASSED);
        self.line(line);
    }

    /// Every bad line; a question about the tables after each shows that nothing was changed.
    pub fn all_lines(&mut self) {
        for line in PASSED {
            self.line(line);
        }
        for (i, line) in BAD.iter().enumerate() {
            self.line(line);
            match i % 4 {
                0 => self.ask(Question::PrintStamp { e: 500 + i as u64, fill: i as u8, len: 7 }),
                1 => self.ask(Question::TimeOf(i as u64 * 5)),
                2 => self.ask(Question::CountAt(i as i64 * 9)),
                _ => self.ask(Question::ReadStamp(b"2/89.9")),
            }
        }
        self.long_lines();
        self.wide_numbers();
    }

    /// Lines of 8,192 bytes and one more, which was once the limit; texts and messages of 2,000 bytes and one more.
    fn long_lines(&mut self) {
        for (front, back) in [("time-of ", "600"), ("count-at -", "997"), ("print-stamp ", "500 1 6"), ("start ", "1")]
        {
            for len in [LONG, LONG + 1] {
                let zeros = "0".repeat(len - front.len() - back.len());
                let line = [front, &zeros, back].concat();
                if front == "start " {
                    // The entry does not stay.
                    self.line(line.as_bytes());
                    self.line(b"end 2");
                    self.ask(Question::PrintStamp { e: 1_201, fill: 0, len: 9 });
                    let partitions = self.tables.clone();
                    self.partitions(partitions.partitions());
                } else {
                    self.questions += 1;
                    self.line(line.as_bytes());
                }
            }
        }
        self.line(&[b'x'; 3 * LONG]);
        self.ask(Question::TimeOf(1));
        self.line(&[b"steps-back".to_vec(), vec![b' '; LONG]].concat());
        self.ask(Question::StepsBack);
        for len in [MOST_BYTES - 1, MOST_BYTES, MOST_BYTES + 1] {
            for word in ["read-text ", "read-stamp ", "read-message "] {
                let bytes = if word == "read-message " { "31".repeat(len - 2) + "0001" } else { "31".repeat(len) };
                self.questions += u64::from(len <= MOST_BYTES);
                self.line([word, &bytes].concat().as_bytes());
            }
        }
    }

    /// The largest numbers a line may have.
    fn wide_numbers(&mut self) {
        let (layout, tables) = (self.tables.layout, self.tables.clone());
        for line in [
            "time-of 18446744073709551615",
            "count-at 9223372036854775807",
            "count-at -9223372036854775808",
            "print-count 18446744073709551615 255 256",
            "print-stamp 0018446744073709551615 000255 000256",
            "print-stamp 5 255 256",
            "print-count 5 0 0",
            "forward ffffffffffffffff ffffffffffffffff ffffffffffffffff 18446744073709551615 18446744073709551615",
            "back 0000000000000000 0000000000000000 3ff0000000000000 0000000000000000001 3ff0000000000000",
            "layout 18446744073709551615 255 1 1 1 1 1 1 1 1 1 1 1 1 1 1 1 1 1 1 1 1",
            "steps-back",
            "layout 00000000000000000000000000001 1 7 18446744073709551615 0 0 0 0 0 0 0 0 0 0 0 0 0 0 0 0 0 18446744073709551615",
            "print-count 6 46 3",
        ] {
            self.questions += u64::from(!line.starts_with("layout"));
            self.line(line.as_bytes());
        }
        self.layout(&layout);
        for line in ["start 18446744073709551615", "end 18446744073709551615", "steps-back", "partitions", "steps-back"]
        {
            self.questions += u64::from(line == "steps-back");
            self.line(line.as_bytes());
        }
        self.partitions(tables.partitions());
        for line in ["time -9223372036854775808", "time 9223372036854775807", "steps-back", "segments", "steps-back"] {
            self.questions += u64::from(line == "steps-back");
            self.line(line.as_bytes());
        }
        self.segments(tables.segments());
    }
}
