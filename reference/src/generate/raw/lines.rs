//! Bad lines about raw counters, and good ones at the protocol's limits.

use super::Writer;
use crate::RawCounter;

/// Lines that are none of the protocol's, or have a number outside its range.
#[rustfmt::skip]
const BAD: &[&[u8]] = &[
    b"raw", b"raw-", b"raw-new 1", b"raw-new ", b" raw-new", b"raw-new\r", b"Raw-new", b"raw_new", b"raw new", b"raw-new .",
    b"raw-state", b"raw-state ", b"raw-state 1", b"raw-state 1 ", b"raw-state 1 2 3", b"raw-state 1 2 ", b"raw-state 1  2",
    b"raw-state 4294967296 5", b"raw-state 4294967297 5", b"raw-state 18446744073709551616 5", b"raw-state 18446744073709551617 5",
    b"raw-state -1 5", b"raw-state 1 -5", b"raw-state 1 18446744073709551616", b"raw-state 1 18446744073709551621",
    b"raw-state none", b"raw-state none 5", b"raw-state . 5", b"raw-state 1 .", b"raw-state 0x1 5", b"raw-state 1 5\r", b"raw-state 1,5",
    b"raw-state +1 5", b"raw-state 1 1e3", b"raw-states 1 5", b"RAW-STATE 1 5",
    b"raw-reset", b"raw-reset ", b"raw-reset 1", b"raw-reset 1 ", b"raw-reset 1 2 3", b"raw-reset 1 2 ", b"raw-reset  1 2",
    b"raw-reset 1 4294967296", b"raw-reset 1 8589934592", b"raw-reset 2 18446744073709551616", b"raw-reset 0 4294967296",
    b"raw-reset 1 -1", b"raw-reset -1 0", b"raw-reset 18446744073709551616 0", b"raw-reset 18446744073709551617 0",
    b"raw-reset 1/ 0", b"raw-reset a 0", b"raw-reset 1 0x0", b"raw-reset +1 0", b"raw-reset 1 +0", b"raw-reset 1 0\r", b"raw-reset\t1 0",
    b"raw-read", b"raw-read ", b"raw-read 4294967296", b"raw-read 4294967300", b"raw-read 8589934591", b"raw-read -1",
    b"raw-read -0", b"raw-read 1 2", b"raw-read 1 ", b"raw-read  1", b" raw-read 1", b"raw-read 18446744073709551616",
    b"raw-read 18446744073709551617", b"raw-read x", b"raw-read 1.0", b"raw-read +1", b"raw-read\t1", b"raw-read 1\r", b"raw-read 1e3",
    b"raw-read 4294967295.", b"raw-read 99999999999999999999999999", b"raw-read .", b"rawread 1", b"raw_read 1", b"Raw-read 1",
    b"microseconds", b"microseconds ", b"microseconds 1", b"microseconds 1 ", b"microseconds 1 2 3", b"microseconds 1 2 ",
    b"microseconds 1  2", b"microseconds 4294967296 0", b"microseconds 0 4294967296", b"microseconds 0 4295967295",
    b"microseconds 18446744073709551616 0", b"microseconds 0 18446744073709551616", b"microseconds -1 0", b"microseconds 0 -1",
    b"microseconds 0.5 0", b"microseconds 0 0.5", b"microseconds 0 1000000.", b"microseconds 1:5", b"microseconds 0 0\r", b"microsecond 0 0",
    b"micro-seconds 0 0", b"Microseconds 0 0", b" microseconds 0 0",
];

impl Writer {
    pub fn any_bad_raw_line(&mut self) {
        let line = self.random.pick(BAD);
        self.line(line);
    }
}

/// Every bad line; a reading after each shows that nothing was changed.
pub fn all(writer: &mut Writer) {
    writer.load_a();
    writer.counter(RawCounter::new());
    for line in BAD.iter().step_by(3) {
        writer.line(line);
        writer.read("27: a bad line is no reset", 0);
    }
    writer.reset("ok: before bad lines", 1, 5);
    for line in BAD {
        writer.line(line);
        let raw = writer.counter.raw + 1;
        writer.read("ok: a bad line changes nothing", raw);
    }
    // Leading zeros, as many as a line may have; the largest numbers.
    let good = |writer: &mut Writer, label: &str, line: &str| {
        writer.questions += 1;
        writer.line(["# ", label].concat().as_bytes());
        writer.line(line.as_bytes());
    };
    let zeros = "0".repeat(300);
    for zeros in ["0", "00000000000000000000000000000", &zeros] {
        good(writer, "ok: leading zeros", &["raw-reset ", zeros, "2 ", zeros, "4294967295"].concat());
        good(writer, "ok: leading zeros", &["raw-read ", zeros, "4"].concat());
        writer.line(["raw-state ", zeros, "4294967295 ", zeros, "18446744073709551615"].concat().as_bytes());
        good(writer, "12: leading zeros", &["raw-read ", zeros].concat());
        good(writer, "10: leading zeros", &["raw-reset ", zeros, "18446744073709551615 ", zeros].concat());
        good(writer, "ok: leading zeros", &["microseconds ", zeros, "4294967295 ", zeros, "999999"].concat());
        good(writer, "24: leading zeros", &["microseconds ", zeros, " ", zeros, "4294967295"].concat());
    }
    writer.counter(RawCounter::new());
}
