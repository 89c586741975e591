//! "Raw counters from the second satellite" (request 4).

use crate::{Layout, Partitions, Refusal};

/// "Keep the last raw number and the encoded count". Before any accepted reset both mean nothing.
#[derive(Clone, Copy, Debug, PartialEq, Eq)]
pub struct RawCounter {
    /// The raw number of the last accepted call.
    pub raw: u32,
    /// The encoded count; in a state made otherwise any number.
    pub count: u64,
    /// Whether there was an accepted reset.
    pub reset: bool,
}

impl RawCounter {
    /// A counter that has seen no reset.
    pub const fn new() -> RawCounter {
        RawCounter { raw: 0, count: 0, reset: false }
    }

    /// The state an accepted call leaves.
    pub const fn at(raw: u32, count: u64) -> RawCounter {
        RawCounter { raw, count, reset: true }
    }

    /// "A reset names a partition and a raw number and starts again at its start." "1, 2, then 10 for a reset". Answers
    /// the encoded count; "A refused reading or reset leaves the state."
    pub fn reset(&mut self, layout: &Layout, partitions: Partitions, number: u64, raw: u32) -> Result<u64, Refusal> {
        let clock = layout.check()?;
        partitions.check(clock.p)?;
        let row = partitions.row(number)?;
        // The start as an encoded count: the sum of the earlier lengths.
        let count = partitions.earlier(row);
        *self = RawCounter::at(raw, count);
        Ok(count)
    }

    /// "each reading adds the difference of the raw numbers as a 32-bit counter sees it". "1, 2, 27 for a reading before
    /// any accepted reset, then 12 for one past the total". Answers the encoded count.
    pub fn read(&mut self, layout: &Layout, partitions: Partitions, raw: u32) -> Result<u64, Refusal> {
        let clock = layout.check()?;
        let total = partitions.check(clock.p)?;
        if !self.reset {
            return Err(Refusal::new(27));
        }
        let difference = raw.wrapping_sub(self.raw);
        // Only the total binds, no partition's end. A sum past 2^64 is past any total.
        let count = match self.count.checked_add(u64::from(difference)) {
            Some(count) if count <= total => count,
            _ => return Err(Refusal::new(12)),
        };
        *self = RawCounter::at(raw, count);
        Ok(count)
    }
}

impl Default for RawCounter {
    fn default() -> RawCounter {
        RawCounter::new()
    }
}

/// "turn 32-bit seconds with microseconds into seconds×256 + subtick".
pub fn microseconds(seconds: u32, us: u32) -> Result<u64, Refusal> {
    // "24 microseconds over 999,999"
    if us > 999_999 {
        return Err(Refusal::new(24));
    }
    // "subtick (512×us + 1,000,256) / 2,000,000 rounded down"
    let subtick = (512 * u64::from(us) + 1_000_256) / 2_000_000;
    // "a subtick of 256 carries into the second", which may become 2^32.
    let second = u64::from(seconds);
    let (second, subtick) = if subtick == 256 { (second + 1, 0) } else { (second, subtick) };
    Ok(second * 256 + subtick)
}
