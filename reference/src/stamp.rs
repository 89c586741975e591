//! Reading a stamp.

use crate::text::{count_of, LONGEST_TEXT};
use crate::{Layout, Partitions, Refusal};

/// Stamp to encoded count. "A stamp may have a partition in front, before the first `/`". "Order: [..] 1, 2, 3 (those
/// the call uses); 4; 5; 7; 6; then fields [..]; the sum's 9; 10; 11."
pub fn read_stamp(layout: &Layout, partitions: Partitions, stamp: &[u8]) -> Result<u64, Refusal> {
    let clock = layout.check()?;
    partitions.check(clock.p)?;
    if stamp.len() > LONGEST_TEXT {
        return Err(Refusal::new(4));
    }
    // "a second `/`" stands in the text and is refused 5 there.
    let (named, from) = match stamp.iter().position(|&byte| byte == b'/') {
        Some(slash) => (Some(partition_number(&stamp[..slash])?), slash + 1),
        None => (None, 0),
    };
    let count = count_of(&clock, stamp, from)?;
    partitions.encode(named, count)
}

/// "blanks, digits, blanks (document 003 allows the blanks)"; 5 for "a front part that is not digits between blanks", at
/// "the earliest byte that can't stand where it is (a front part empty or all blanks: its `/`; with two numbers: the
/// second)". All numbers above the most partitions are taken as one.
fn partition_number(front: &[u8]) -> Result<u64, Refusal> {
    let mut number = None;
    let mut ended = false;
    for (at, &byte) in front.iter().enumerate() {
        match byte {
            b' ' => ended = number.is_some(),
            b'0'..=b'9' if !ended => {
                let value = number.unwrap_or(0) * 10 + u64::from(byte - b'0');
                number = Some(value.min(Partitions::MOST as u64 + 1));
            }
            _ => return Err(Refusal::at(5, at)),
        }
    }
    number.ok_or(Refusal::at(5, front.len()))
}
