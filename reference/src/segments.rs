//! "Segments."

use crate::{Layout, Partitions, Refusal};

/// "Three lists [..]: count, time in nanoseconds (signed), rate in picoseconds per first-field count."
#[derive(Clone, Copy, Debug)]
pub struct Segments<'a> {
    pub count: &'a [u64],
    pub time: &'a [i64],
    pub rate: &'a [u64],
}

impl<'a> Segments<'a> {
    pub const MOST: usize = 10_000;
    /// Times "lie within ±4×10^18".
    pub const LATEST: i64 = 4_000_000_000_000_000_000;
    pub const LARGEST_RATE: u64 = 1_000_000_000_000_000;

    /// Refusal 3, given an accepted layout's MSF and accepted partitions' total.
    pub(crate) fn check(self, msf: u64, total: u64) -> Result<(), Refusal> {
        // "of one length, 1 to 10,000"; "Wrong list lengths come first and give the shortest length."
        let rows = self.count.len();
        if rows != self.time.len() || rows != self.rate.len() || rows < 1 || rows > Self::MOST {
            return Err(Refusal::at(3, rows.min(self.time.len()).min(self.rate.len())));
        }
        let last = rows - 1;
        for i in 0..last {
            // "Each segment ends at the next one's count"; "Counts grow strictly [..]. Times grow strictly".
            let end = self.count[i + 1];
            let grows = self.count[i] < end && self.time[i] < self.time[i + 1];
            if !grows || !self.within_limits(i, end, msf) {
                return Err(Refusal::at(3, self.row(i, msf)));
            }
        }
        // "the last is at most the total"; "the last at the total".
        if self.count[last] > total || !self.within_limits(last, total, msf) {
            return Err(Refusal::at(3, last));
        }
        Ok(())
    }

    /// Of row i and the next: "between two rows the later one [..], for a line its own row". Row i is looked at first; where
    /// the next count is not greater its line does not rise.
    #[cold]
    fn row(self, i: usize, msf: u64) -> usize {
        let end = self.count[i + 1].max(self.count[i]);
        if self.within_limits(i, end, msf) {
            i + 1
        } else {
            i
        }
    }

    /// "Times [..] lie within ±4×10^18. A rate lies from 1,000×MSF to 10^15 [..]. Each segment ends at the next one's count, the
    /// last at the total; the time reached there by the segment's own line, rounded up, is at most 4×10^18."
    fn within_limits(self, i: usize, end: u64, msf: u64) -> bool {
        let (time, rate) = (self.time[i], self.rate[i]);
        time >= -Self::LATEST
            && time <= Self::LATEST
            && rate >= 1_000 * msf
            && rate <= Self::LARGEST_RATE
            && !self.line_passes(i, end, Self::LATEST, msf)
    }

    /// Is segment i's line at that count, rounded up, later than that time (not before the segment's)? The line is
    /// time(i) + rate(i)×(count - count(i)) / (1,000×MSF), and a number rounded up is above a whole number exactly
    /// if it is above it itself. Both products fit: 2^64 × 10^15 and 8×10^18 × 10^15.
    fn line_passes(self, i: usize, count: u64, time: i64, msf: u64) -> bool {
        let reached = u128::from(self.rate[i]) * u128::from(count - self.count[i]);
        let room = (i128::from(time) - i128::from(self.time[i])) as u128 * u128::from(1_000 * msf);
        reached > room
    }

    /// Of checked lists with a next row: is segment i's line, "rounded up, at the next segment's count [..] later than the next
    /// segment's time"?
    pub(crate) fn steps_back_at(self, i: usize, msf: u64) -> bool {
        self.line_passes(i, self.count[i + 1], self.time[i + 1], msf)
    }

    /// Of checked lists: row i, if there is one.
    pub(crate) fn row_at(self, i: usize) -> Option<(u64, i64, u64)> {
        Some((*self.count.get(i)?, *self.time.get(i)?, *self.rate.get(i)?))
    }
}

/// "A table steps back if some segment's line, rounded up, at the next segment's count is later than the next
/// segment's time. Such a table is accepted; a yes/no question tells it, and refuses a bad table like any other call."
pub fn steps_back(layout: &Layout, partitions: Partitions, segments: Segments) -> Result<bool, Refusal> {
    let clock = layout.check()?;
    let total = partitions.check(clock.p)?;
    segments.check(clock.msf, total)?;
    Ok((0..segments.count.len() - 1).any(|i| segments.steps_back_at(i, clock.msf)))
}
