//! "Time."

use crate::{Layout, Partitions, Refusal, Segments};

/// The time of an encoded count. "For numbers: tables, [..] 12, 13".
pub fn time_of(layout: &Layout, partitions: Partitions, segments: Segments, e: u64) -> Result<i64, Refusal> {
    let clock = layout.check()?;
    let total = partitions.check(clock.p)?;
    segments.check(clock.msf, total)?;
    // "encoded count above the total"
    if e > total {
        return Err(Refusal::new(12));
    }
    // "count [..] before the first segment"
    if e < segments.count[0] {
        return Err(Refusal::new(13));
    }
    // "The segment of e is the last whose count is at most e."
    let i = segments.count.partition_point(|&count| count <= e) - 1;
    // "Exact time: time(i) + rate(i)×(e - count(i)) / (1,000×MSF). The answer is the first whole nanosecond at or after
    // it". By the check of the segment's line it is at most 4×10^18.
    let product = u128::from(segments.rate[i]) * u128::from(e - segments.count[i]);
    Ok(segments.time[i] + round_up(product, u128::from(1_000 * clock.msf)) as i64)
}

/// The count at a time. "For numbers: tables, 14 for the range, [..] 13, [..] 14 for the answer".
pub fn count_at(layout: &Layout, partitions: Partitions, segments: Segments, t: i64) -> Result<u64, Refusal> {
    let clock = layout.check()?;
    let total = partitions.check(clock.p)?;
    segments.check(clock.msf, total)?;
    // "time beyond ±4×10^18"
    if t < -Segments::LATEST || t > Segments::LATEST {
        return Err(Refusal::new(14));
    }
    // "time before the first segment"
    if t < segments.time[0] {
        return Err(Refusal::new(13));
    }
    // "the last segment i with time(i) at most T; count(i) + (T - time(i))×1,000×MSF / rate(i), rounded down". The
    // quotient is at most T - time(i), since the rate is at least 1,000×MSF.
    let i = segments.time.partition_point(|&time| time <= t) - 1;
    let product = (t - segments.time[i]) as u128 * u128::from(1_000 * clock.msf);
    let mut count = segments.count[i] + (product / u128::from(segments.rate[i])) as u64;
    // "where a next segment exists and this reaches its count, the answer is that count less one"
    if let Some(&next) = segments.count.get(i + 1) {
        if count >= next {
            count = next - 1;
        }
    }
    // "or its answer above the total"
    if count > total {
        return Err(Refusal::new(14));
    }
    Ok(count)
}

pub(crate) fn round_up(product: u128, divisor: u128) -> u128 {
    (product + divisor - 1) / divisor
}
