//! "Reading clock text."

use crate::layout::Clock;
use crate::{Layout, Refusal};

/// "At most 96 bytes, any partition in front included".
pub(crate) const LONGEST_TEXT: usize = 96;
/// "a field above 10^15 + 1,000".
const LARGEST_FIELD: u64 = 1_000_000_000_000_000 + 1_000;
/// "the sum above 10^15".
const LARGEST_COUNT: u128 = 1_000_000_000_000_000;

/// Text without partition to count.
pub fn read_text(layout: &Layout, text: &[u8]) -> Result<u64, Refusal> {
    let clock = layout.check()?;
    if text.len() > LONGEST_TEXT {
        return Err(Refusal::new(4));
    }
    count_of(&clock, text, 0)
}

/// The count of a text, or of a stamp from the byte behind its front part on. "Order: [..] 5; 7; 6; then fields left to
/// right, 9 before 8 in each; the sum's 9". Places count from the first byte given.
pub(crate) fn count_of(clock: &Clock, text: &[u8], from: usize) -> Result<u64, Refusal> {
    // The value of each of the first ten fields, none if it is empty. All values above the largest field are taken as one.
    let mut values = [None; Layout::MOST_FIELDS];
    let number = fields(text, from, |field, _, digit| {
        if let Some(value) = values.get_mut(field) {
            let longer = value.unwrap_or(0) * 10 + u64::from(digit);
            *value = Some(longer.min(LARGEST_FIELD + 1));
        }
    })?;
    let n = clock.moduli.len();
    if number > n {
        return Err(Refusal::at(7, first_digit(text, from, n)));
    }
    // "The first field must be there."
    if values[0].is_none() {
        return Err(Refusal::new(6));
    }
    // "The count is the sum over fields of (value - offset) times the product of the later moduli."
    let mut sum: u128 = 0;
    for (i, &field) in values[..number].iter().enumerate() {
        // "An empty or missing field adds no ticks, whatever its offset"
        if let Some(value) = field {
            if value > LARGEST_FIELD {
                return Err(Refusal::at(9, first_digit(text, from, i)));
            }
            if value < clock.offsets[i] {
                return Err(Refusal::at(8, first_digit(text, from, i)));
            }
            sum += u128::from(value - clock.offsets[i]) * u128::from(clock.weights[i]);
        }
    }
    if sum > LARGEST_COUNT {
        return Err(Refusal::at(9, text.len()));
    }
    Ok(sum as u64)
}

/// "the first digit of the field", or for one that is empty "the text's length". Fields count from 0; all bytes can stand
/// where they are.
#[cold]
fn first_digit(text: &[u8], from: usize, wanted: usize) -> usize {
    let mut place = None;
    let _ = fields(text, from, |field, at, _| {
        if field == wanted && place.is_none() {
            place = Some(at);
        }
    });
    place.unwrap_or(text.len())
}

/// What stands to the left.
#[derive(PartialEq)]
enum Left {
    /// The text's front or one of `.` `:` `,` `-`, then any blanks.
    Mark,
    /// A digit.
    Digit,
    /// A digit, then blanks.
    DigitAndBlanks,
}

/// "The fields are what stands between marks." Gives each digit with its field and its place, and tells how many fields there
/// are; there may be more than a layout can have. "digits, blank, `.` `:` `,` `-`", any other byte is refused 5. "A mark is
/// each `.` `:` `,` `-`, and each run of blanks with a digit directly on both sides. Other blanks are dropped", those at both
/// ends too.
fn fields(text: &[u8], from: usize, mut digit: impl FnMut(usize, usize, u8)) -> Result<usize, Refusal> {
    let mut marks = 0;
    let mut left = Left::Mark;
    for (at, &byte) in text.iter().enumerate().skip(from) {
        match byte {
            b'0'..=b'9' => {
                if left == Left::DigitAndBlanks {
                    marks += 1;
                }
                digit(marks, at, byte - b'0');
                left = Left::Digit;
            }
            b' ' => {
                if left == Left::Digit {
                    left = Left::DigitAndBlanks;
                }
            }
            b'.' | b':' | b',' | b'-' => {
                marks += 1;
                left = Left::Mark;
            }
            _ => return Err(Refusal::at(5, at)),
        }
    }
    Ok(marks + 1)
}
