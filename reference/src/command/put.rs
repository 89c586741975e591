//! Refusals, times and rates as fields.

use crate::Refusal;

/// `refused`, then "three fields: number, place (`-` where there is none), sentence".
pub fn refused(refusal: Refusal) -> String {
    format!("refused\t{}", refusal_fields(refusal))
}

pub fn refusal_fields(refusal: Refusal) -> String {
    let place = refusal.place.map_or("-".to_string(), |place| place.to_string());
    format!("{}\t{}\t{}", refusal.number, place, sentence(refusal.number))
}

fn sentence(number: u32) -> &'static str {
    match number {
        1 => "the layout breaks its rules",
        2 => "the partitions break their rules",
        3 => "the segments break their rules",
        4 => "the text is too long",
        5 => "a byte that is not allowed",
        6 => "the first field is missing",
        7 => "too many fields",
        8 => "a field below its offset",
        9 => "a number that is too large",
        10 => "no such partition",
        11 => "the count is in no such partition",
        12 => "the encoded count is above the total",
        13 => "before the first segment",
        14 => "the time or its count is out of range",
        16 => "too little room",
        18 => "the first line is not KPL/SCLK",
        19 => "the text is not of a kernel's form",
        20 => "a number that is not exact in its unit",
        21 => "a message under two bytes",
        22 => "a message without a text",
        23 => "a message shorter than the text it claims",
        _ => "refused",
    }
}

/// Nanoseconds, or "decimal seconds: `-` where negative, the whole seconds, `.`, nine digits".
pub fn time(ns: i128, seconds: bool) -> String {
    if seconds {
        decimal(ns, 9)
    } else {
        ns.to_string()
    }
}

/// Picoseconds, or seconds "with twelve digits behind the point".
pub fn rate(ps: u64, seconds: bool) -> String {
    if seconds {
        decimal(ps.into(), 12)
    } else {
        ps.to_string()
    }
}

/// A whole number of units, so many decimals small.
fn decimal(number: i128, decimals: usize) -> String {
    let sign = if number < 0 { "-" } else { "" };
    let digits = format!("{:0width$}", number.unsigned_abs(), width = decimals + 1);
    let (whole, part) = digits.split_at(digits.len() - decimals);
    format!("{}{}.{}", sign, whole, part)
}
