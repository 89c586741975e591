//! The seven calls of include/stitchwold.h for Rust, safe to use.
//!
//! A program keeps one `Tables` for each clock. It holds the lists as the calls take them; any number of threads may share it.

#![allow(dead_code)] // a program need not make every call

use std::fmt;

/// A refusal by its number: `sclk_refusal` in the header.
#[derive(Clone, Copy, Debug, PartialEq, Eq)]
pub struct Refusal(pub i64);

impl fmt::Display for Refusal {
    fn fmt(&self, f: &mut fmt::Formatter) -> fmt::Result {
        write!(f, "refused {}", self.0)
    }
}

impl std::error::Error for Refusal {}

/// A clock's tables: each list as eight-byte numbers, low byte first.
pub struct Tables {
    n: u64,
    delimiter: u64,
    moduli: Vec<u8>,
    offsets: Vec<u8>,
    starts: Vec<u8>,
    ends: Vec<u8>,
    counts: Vec<u8>,
    times: Vec<u8>,
    rates: Vec<u8>,
}

/// Makes a call: n and the delimiter, pointer and length of each list, then the call's own arguments.
macro_rules! call {
    ($tables:ident, $function:ident, [$($list:ident),*], $($argument:expr),*) => {
        // Safe: every pointer comes with the length of its slice, and the call keeps none of them.
        answer(unsafe {
            $function($tables.n, $tables.delimiter, $($tables.$list.as_ptr(), $tables.$list.len(),)* $($argument),*)
        })
    };
}

impl Tables {
    /// Fields are (modulus, offset), partitions (start, end), segments (count, time, rate).
    pub fn new(delimiter: u64, fields: &[(u64, u64)], partitions: &[(u64, u64)], segments: &[(u64, i64, u64)]) -> Tables {
        Tables {
            n: fields.len() as u64,
            delimiter,
            moduli: fields.iter().flat_map(|f| f.0.to_le_bytes()).collect(),
            offsets: fields.iter().flat_map(|f| f.1.to_le_bytes()).collect(),
            starts: partitions.iter().flat_map(|p| p.0.to_le_bytes()).collect(),
            ends: partitions.iter().flat_map(|p| p.1.to_le_bytes()).collect(),
            counts: segments.iter().flat_map(|s| s.0.to_le_bytes()).collect(),
            times: segments.iter().flat_map(|s| s.1.to_le_bytes()).collect(),
            rates: segments.iter().flat_map(|s| s.2.to_le_bytes()).collect(),
        }
    }

    /// The count of a clock text without partition.
    pub fn read_text(&self, text: &[u8]) -> Result<u64, Refusal> {
        call!(self, sclk_read_text, [moduli, offsets], text.as_ptr(), text.len())
    }

    /// The encoded count of a stamp.
    pub fn read_stamp(&self, text: &[u8]) -> Result<u64, Refusal> {
        call!(self, sclk_read_stamp, [moduli, offsets, starts, ends], text.as_ptr(), text.len())
    }

    /// The encoded count of the stamp in a message.
    pub fn read_message(&self, message: &[u8]) -> Result<u64, Refusal> {
        call!(self, sclk_read_message, [moduli, offsets, starts, ends], message.as_ptr(), message.len())
    }

    /// A count as clock text.
    pub fn print_count(&self, count: u64) -> Result<String, Refusal> {
        let mut print = [0; LONGEST_STAMP];
        let printed = call!(self, sclk_print_count, [moduli, offsets], count, print.as_mut_ptr(), LONGEST_STAMP)?;
        Ok(string(&print[..printed as usize]))
    }

    /// An encoded count as a stamp.
    pub fn print_stamp(&self, count: u64) -> Result<String, Refusal> {
        let mut print = [0; LONGEST_STAMP];
        let printed = call!(self, sclk_print_stamp, [moduli, offsets, starts, ends], count, print.as_mut_ptr(), LONGEST_STAMP)?;
        Ok(string(&print[..printed as usize]))
    }

    /// The time of an encoded count, in nanoseconds.
    pub fn time_of(&self, count: u64) -> Result<i64, Refusal> {
        let mut time = [0; 8];
        call!(self, sclk_time_of, [moduli, offsets, starts, ends, counts, times, rates], count, time.as_mut_ptr(), 8)?;
        Ok(i64::from_le_bytes(time))
    }

    /// The encoded count at a time in nanoseconds.
    pub fn count_at(&self, time: i64) -> Result<u64, Refusal> {
        call!(self, sclk_count_at, [moduli, offsets, starts, ends, counts, times, rates], time)
    }
}

/// No print is longer.
const LONGEST_STAMP: usize = 66;

/// A negative result is a refusal's number.
fn answer(result: i64) -> Result<u64, Refusal> {
    if result < 0 {
        Err(Refusal(-result))
    } else {
        Ok(result as u64)
    }
}

/// A print has digits, marks and `/` only.
fn string(print: &[u8]) -> String {
    String::from_utf8_lossy(print).into_owned()
}

// The header's functions. A slice or buffer is two arguments, pointer and length in bytes.
extern "C" {
    fn sclk_read_text(
        n: u64, delimiter: u64, moduli: *const u8, moduli_length: usize, offsets: *const u8, offsets_length: usize,
        text: *const u8, text_length: usize,
    ) -> i64;
    fn sclk_read_stamp(
        n: u64, delimiter: u64, moduli: *const u8, moduli_length: usize, offsets: *const u8, offsets_length: usize,
        starts: *const u8, starts_length: usize, ends: *const u8, ends_length: usize,
        text: *const u8, text_length: usize,
    ) -> i64;
    fn sclk_read_message(
        n: u64, delimiter: u64, moduli: *const u8, moduli_length: usize, offsets: *const u8, offsets_length: usize,
        starts: *const u8, starts_length: usize, ends: *const u8, ends_length: usize,
        message: *const u8, message_length: usize,
    ) -> i64;
    fn sclk_print_count(
        n: u64, delimiter: u64, moduli: *const u8, moduli_length: usize, offsets: *const u8, offsets_length: usize,
        count: u64, buffer: *mut u8, buffer_length: usize,
    ) -> i64;
    fn sclk_print_stamp(
        n: u64, delimiter: u64, moduli: *const u8, moduli_length: usize, offsets: *const u8, offsets_length: usize,
        starts: *const u8, starts_length: usize, ends: *const u8, ends_length: usize,
        count: u64, buffer: *mut u8, buffer_length: usize,
    ) -> i64;
    fn sclk_time_of(
        n: u64, delimiter: u64, moduli: *const u8, moduli_length: usize, offsets: *const u8, offsets_length: usize,
        starts: *const u8, starts_length: usize, ends: *const u8, ends_length: usize,
        counts: *const u8, counts_length: usize, times: *const u8, times_length: usize,
        rates: *const u8, rates_length: usize,
        count: u64, time: *mut u8, time_length: usize,
    ) -> i64;
    fn sclk_count_at(
        n: u64, delimiter: u64, moduli: *const u8, moduli_length: usize, offsets: *const u8, offsets_length: usize,
        starts: *const u8, starts_length: usize, ends: *const u8, ends_length: usize,
        counts: *const u8, counts_length: usize, times: *const u8, times_length: usize,
        rates: *const u8, rates_length: usize,
        time: i64,
    ) -> i64;
}
