//! "Printing."

use crate::layout::Clock;
use crate::{Layout, Partitions, Refusal};

/// Count to text. "A count below P is split into fields by the moduli"; 9 for "a count to print at or above P".
pub fn print_count(layout: &Layout, count: u64, buffer: &mut [u8]) -> Result<usize, Refusal> {
    let clock = layout.check()?;
    if count >= clock.p {
        return Err(Refusal::new(9));
    }
    let mut print = Print::new();
    print.fields(&clock, count);
    print.copy_to(buffer)
}

/// Encoded count to stamp. "A stamp has the partition number, unpadded, and `/` in front."
pub fn print_stamp(layout: &Layout, partitions: Partitions, e: u64, buffer: &mut [u8]) -> Result<usize, Refusal> {
    let clock = layout.check()?;
    let total = partitions.check(clock.p)?;
    // "encoded count above the total"
    if e > total {
        return Err(Refusal::new(12));
    }
    let (number, count) = partitions.locate(e);
    let mut print = Print::new();
    print.fields(&clock, count);
    print.byte(b'/');
    print.number(number, 1);
    print.copy_to(buffer)
}

/// A print, made from its end to its front. Ten fields of up to 16 digits, nine delimiters, `/` and a partition number
/// of four digits always fit.
struct Print {
    bytes: [u8; 192],
    from: usize,
}

impl Print {
    fn new() -> Print {
        Print { bytes: [0; 192], from: 192 }
    }

    fn byte(&mut self, byte: u8) {
        self.from -= 1;
        self.bytes[self.from] = byte;
    }

    /// Zero-padded to a width of at least one.
    fn number(&mut self, mut value: u64, width: usize) {
        let padded = self.from - width;
        while value > 0 || self.from > padded {
            self.byte(b'0' + (value % 10) as u8);
            value /= 10;
        }
    }

    /// "each field has its offset added, and is zero-padded to as many digits as the number" modulus + offset - 1 "has (0
    /// has one)", as request 2 amends it: "The width must be that of the largest shown number, modulus plus offset less
    /// one." "Fields are joined by the delimiter."
    fn fields(&mut self, clock: &Clock, count: u64) {
        let mut left = count;
        for i in (0..clock.moduli.len()).rev() {
            let (modulus, offset) = (clock.moduli[i], clock.offsets[i]);
            self.number(left % modulus + offset, digits(modulus + offset - 1));
            left /= modulus;
            if i > 0 {
                self.byte(clock.mark);
            }
        }
    }

    /// "The print goes to the front of the lent buffer, the rest is untouched, the answer is its length"; 16 for a
    /// "lent buffer shorter than the print", and then "nothing lent is written".
    fn copy_to(&self, buffer: &mut [u8]) -> Result<usize, Refusal> {
        let print = &self.bytes[self.from..];
        buffer.get_mut(..print.len()).ok_or(Refusal::new(16))?.copy_from_slice(print);
        Ok(print.len())
    }
}

/// How many digits a number has; "0 has one".
fn digits(mut number: u64) -> usize {
    let mut digits = 1;
    while number >= 10 {
        number /= 10;
        digits += 1;
    }
    digits
}
