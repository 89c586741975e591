//! Lines of standard input, and what stands in them.

use crate::text::LONGEST_TEXT;
use crate::Refusal;

/// Hex digits of a line.
const MOST_DIGITS: usize = 4_000;
/// Of a second.
const DECIMALS: usize = 9;

/// "up to byte 10 or the end of input; no bytes after the last byte 10 means no further line. One byte 13 at a line's end is
/// dropped".
pub fn of(input: &[u8]) -> Vec<&[u8]> {
    let mut lines: Vec<&[u8]> = input.split(|&byte| byte == 10).collect();
    // What stands behind the last byte 10, or all of an empty input.
    if lines.last().map_or(false, |last| last.is_empty()) {
        lines.pop();
    }
    lines.into_iter().map(|line| line.strip_suffix(b"\r").unwrap_or(line)).collect()
}

/// "an even number of hex digits, of either case, at most 4,000 of them."
pub fn hex(line: &[u8]) -> Result<Vec<u8>, Refusal> {
    if line.len() > MOST_DIGITS {
        return Err(Refusal::new(4));
    }
    let digit = |at: usize| (line[at] as char).to_digit(16).map(|digit| digit as u8).ok_or(Refusal::at(5, at));
    let digits = (0..line.len()).map(digit).collect::<Result<Vec<u8>, Refusal>>()?;
    if digits.len() % 2 != 0 {
        return Err(Refusal::at(5, line.len()));
    }
    Ok(digits.chunks(2).map(|pair| 16 * pair[0] + pair[1]).collect())
}

/// An encoded count; a number that is too large for 64 bits is the largest.
pub fn count(line: &[u8]) -> Result<u64, Refusal> {
    short(line)?;
    number(line, 0)
}

/// A time in nanoseconds.
pub fn nanoseconds(line: &[u8]) -> Result<i128, Refusal> {
    short(line)?;
    let sign = sign(line);
    Ok(signed(sign, number(line, sign)?.into()))
}

/// A time in decimal seconds. "Order: 4, 5, 6, 20".
pub fn seconds(line: &[u8]) -> Result<i128, Refusal> {
    short(line)?;
    let sign = sign(line);
    let mut point = None;
    for (at, byte) in line.iter().enumerate().skip(sign) {
        match byte {
            b'0'..=b'9' => {}
            b'.' if point.is_none() => point = Some(at),
            _ => return Err(Refusal::at(5, at)),
        }
    }
    let whole = number(&line[..point.unwrap_or(line.len())], sign)?;
    let decimals = point.map_or(&[][..], |point| &line[point + 1..]);
    let (kept, behind) = decimals.split_at(decimals.len().min(DECIMALS));
    if behind.iter().any(|&digit| digit != b'0') {
        return Err(Refusal::new(20));
    }
    let part = (0..DECIMALS).fold(0, |part, at| 10 * part + u128::from(kept.get(at).map_or(0, |digit| digit - b'0')));
    Ok(signed(sign, u128::from(whole) * 1_000_000_000 + part))
}

fn short(line: &[u8]) -> Result<(), Refusal> {
    if line.len() > LONGEST_TEXT {
        return Err(Refusal::new(4));
    }
    Ok(())
}

/// "one `-` may stand in front": the bytes it takes.
fn sign(line: &[u8]) -> usize {
    usize::from(line.first() == Some(&b'-'))
}

fn signed(sign: usize, magnitude: u128) -> i128 {
    if sign > 0 {
        -(magnitude as i128)
    } else {
        magnitude as i128
    }
}

/// "no bytes: 6; a byte that is not a digit 0-9: 5 at the first such byte; then the number, of any size, leading zeros
/// allowed". Bytes before `from` are passed over.
fn number(line: &[u8], from: usize) -> Result<u64, Refusal> {
    if line.len() == from {
        return Err(Refusal::new(6));
    }
    line.iter().enumerate().skip(from).try_fold(0u64, |value, (at, &byte)| match byte {
        b'0'..=b'9' => Ok(value.saturating_mul(10).saturating_add(u64::from(byte - b'0'))),
        _ => Err(Refusal::at(5, at)),
    })
}
