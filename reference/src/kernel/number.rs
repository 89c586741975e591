//! Decimals, exactly.

/// A decimal as written. "Decimals may have an E or D exponent and become ns and ps exactly."
#[derive(Clone, Copy)]
pub struct Decimal<'a> {
    negative: bool,
    /// The digits before the point and behind it.
    whole: &'a [u8],
    fraction: &'a [u8],
    exponent: i64,
}

/// An exponent of more is taken as this: no text has as many digits, and one digit more still fits 64 bits.
const MOST: i64 = 100_000_000_000_000_000;

/// Every power of ten in 64 bits.
const TENS: [u64; 20] = {
    let mut tens = [1; 20];
    let mut i = 1;
    while i < tens.len() {
        tens[i] = tens[i - 1] * 10;
        i += 1;
    }
    tens
};

impl<'a> Decimal<'a> {
    /// The number in front and the rest; none if there is no number.
    pub fn read(text: &'a [u8]) -> Option<(Decimal<'a>, &'a [u8])> {
        let (negative, text) = sign(text);
        let (whole, mut rest) = digits(text);
        let mut fraction: &[u8] = &[];
        if let [b'.', behind @ ..] = rest {
            (fraction, rest) = digits(behind);
        }
        if whole.is_empty() && fraction.is_empty() {
            return None;
        }
        let mut exponent = 0;
        if let [b'E' | b'e' | b'D' | b'd', behind @ ..] = rest {
            let (down, behind) = sign(behind);
            let (power, behind) = digits(behind);
            if power.is_empty() {
                return None;
            }
            exponent = power.iter().fold(0, |power, digit| (power * 10 + i64::from(digit - b'0')).min(MOST));
            if down {
                exponent = -exponent;
            }
            rest = behind;
        }
        Some((Decimal { negative, whole, fraction, exponent }, rest))
    }

    /// In units of which 10^unit make one, without sign; none if that is not whole or outside 64 bits.
    fn magnitude(self, unit: i64) -> Option<u64> {
        let fraction = without_zeros(self.fraction);
        let whole = if fraction.is_empty() { without_zeros(self.whole) } else { self.whole };
        let digits = followed(followed(0, whole)?, fraction)?;
        if digits == 0 {
            return Some(0);
        }
        // The last digit is not 0: below the unit nothing is exact.
        let zeros = (self.whole.len() - whole.len()) as i64;
        let power = self.exponent + zeros - fraction.len() as i64 + unit;
        digits.checked_mul(*TENS.get(usize::try_from(power).ok()?)?)
    }

    pub fn unsigned(self, unit: i64) -> Option<u64> {
        self.magnitude(unit).filter(|&magnitude| !self.negative || magnitude == 0)
    }

    pub fn signed(self, unit: i64) -> Option<i64> {
        let magnitude = i128::from(self.magnitude(unit)?);
        i64::try_from(if self.negative { -magnitude } else { magnitude }).ok()
    }
}

/// Whether there is a `-`, and what is behind the sign.
fn sign(text: &[u8]) -> (bool, &[u8]) {
    match text {
        [b'-', rest @ ..] => (true, rest),
        [b'+', rest @ ..] => (false, rest),
        _ => (false, text),
    }
}

/// The digits in front and the rest.
fn digits(text: &[u8]) -> (&[u8], &[u8]) {
    text.split_at(text.iter().position(|byte| !byte.is_ascii_digit()).unwrap_or(text.len()))
}

/// Without the zeros at its end.
fn without_zeros(digits: &[u8]) -> &[u8] {
    &digits[..digits.iter().rposition(|&digit| digit != b'0').map_or(0, |last| last + 1)]
}

/// The number, with more digits behind it; none from 2^64 on.
fn followed(number: u64, digits: &[u8]) -> Option<u64> {
    digits.iter().try_fold(number, |number, digit| number.checked_mul(10)?.checked_add(u64::from(digit - b'0')))
}
