//! "The double form."

use crate::{Layout, Refusal};

/// "one segment is also kept as three doubles: count, time, rate in seconds per first-field count"
#[derive(Clone, Copy, Debug)]
pub struct DoubleSegment {
    pub count: f64,
    pub time: f64,
    pub rate: f64,
}

/// "count above 10^15": the count given to forward.
const LARGEST_GIVEN: u64 = 1_000_000_000_000_000;

/// "Forward, given MSF and a whole count up to 10^15: time + (rate / MSF) × (count given - count)."
pub fn forward(segment: DoubleSegment, msf: u64, given: u64) -> Result<f64, Refusal> {
    if given > LARGEST_GIVEN {
        return Err(Refusal::new(15));
    }
    let tick = tick(segment, msf)?;
    // Exact: 10^15 is below 2^53.
    let given = given as f64;
    if given < segment.count {
        return Err(Refusal::new(15));
    }
    finite(segment.time + tick * (given - segment.count))
}

/// "Back: count + (time given - time) / (rate / MSF)."
pub fn back(segment: DoubleSegment, msf: u64, given: f64) -> Result<f64, Refusal> {
    let tick = tick(segment, msf)?;
    if !given.is_finite() || given < segment.time {
        return Err(Refusal::new(15));
    }
    finite(segment.count + (given - segment.time) / tick)
}

/// rate / MSF, or 15: "MSF 0 or above 10^12, [..] a number not finite, rate not above 0, rate/MSF zero".
fn tick(segment: DoubleSegment, msf: u64) -> Result<f64, Refusal> {
    let DoubleSegment { count, time, rate } = segment;
    if msf == 0 || msf > Layout::LARGEST_MSF {
        return Err(Refusal::new(15));
    }
    if !count.is_finite() || !time.is_finite() || !rate.is_finite() {
        return Err(Refusal::new(15));
    }
    if rate <= 0.0 {
        return Err(Refusal::new(15));
    }
    let tick = rate / msf as f64;
    if tick == 0.0 {
        return Err(Refusal::new(15));
    }
    Ok(tick)
}

/// "result not finite".
fn finite(result: f64) -> Result<f64, Refusal> {
    if result.is_finite() {
        Ok(result)
    } else {
        Err(Refusal::new(15))
    }
}
