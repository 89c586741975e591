//! Decimals written in many ways.

use crate::random::Random;

/// A number of units, of which 10^unit make one, as short as can be.
pub fn short(number: i128, unit: usize) -> String {
    let digits = number.to_string();
    let zeros = if number == 0 { unit } else { digits.len() - digits.trim_end_matches('0').len() };
    match (number, unit) {
        (0, _) | (_, 0) => digits,
        _ if zeros >= unit => digits[..digits.len() - unit].to_string(),
        _ => format!("{}E-{}", &digits[..digits.len() - zeros], unit - zeros),
    }
}

/// The same number with its point anywhere, an exponent that makes up for it, and zeros that change nothing.
pub fn any(random: &mut Random, number: i128, unit: usize) -> String {
    let digits = number.unsigned_abs().to_string();
    let len = digits.len() as i64;
    // How many of the digits stand before the point.
    let usual = len - unit as i64;
    let point = match random.below(8) {
        0 | 1 => usual,
        2 | 3 => 1,
        4 => len,
        5 => 0,
        6 => random.time_between(-4, len + 4),
        _ => random.time_between(-30, len + 30),
    };
    let mut text = String::new();
    if number < 0 || number == 0 && random.chance(10) {
        text.push('-');
    } else if random.chance(8) {
        text.push('+');
    }
    if random.chance(15) {
        text += &"0".repeat(random.pick(&[1, 2, 3, 30]));
    }
    with_point(random, &mut text, &digits, point);
    exponent(random, &mut text, usual - point);
    // A line has room for this much.
    if text.len() > 80 {
        return short(number, unit);
    }
    text
}

fn with_point(random: &mut Random, text: &mut String, digits: &str, point: i64) {
    let len = digits.len() as i64;
    let before = point.clamp(0, len) as usize;
    if before == 0 && random.chance(70) {
        text.push('0');
    }
    *text += &digits[..before];
    *text += &"0".repeat((point - len).max(0) as usize);
    if point < len {
        text.push('.');
        *text += &"0".repeat((-point).max(0) as usize);
        *text += &digits[before..];
        if random.chance(20) {
            *text += &"0".repeat(random.pick(&[1, 2, 9, 40]));
        }
    } else if random.chance(25) {
        *text += random.pick(&[".", ".0", ".000"]);
    }
}

fn exponent(random: &mut Random, text: &mut String, exponent: i64) {
    if exponent == 0 && random.chance(70) {
        return;
    }
    text.push(random.pick(&['E', 'E', 'e', 'D', 'd']));
    if exponent < 0 || exponent == 0 && random.chance(30) {
        text.push('-');
    } else if random.chance(50) {
        text.push('+');
    }
    if random.chance(30) {
        *text += &"0".repeat(random.pick(&[1, 2, 25]));
    }
    *text += &exponent.unsigned_abs().to_string();
}

/// Not whole in its unit, by a tenth or less: some digits of a part follow.
pub fn inexact(random: &mut Random, number: i128, unit: usize) -> String {
    let places = random.pick(&[1, 1, 2, 7, 19, 40]);
    let last = random.between(1, 9).to_string();
    let part = ["0".repeat(places - 1), last].concat();
    let text = format!("{}{}", number, part);
    if random.chance(50) {
        format!("{}E-{}", text, unit + places)
    } else {
        let (sign, digits) = text.split_at(usize::from(number < 0));
        let digits = format!("{:0>1$}", digits, unit + places + 1);
        let point = digits.len() - unit - places;
        format!("{}{}.{}", sign, &digits[..point], &digits[point..])
    }
}
