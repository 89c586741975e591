//! "Partitions."

use crate::Refusal;

/// "Two lists, start and end".
#[derive(Clone, Copy, Debug)]
pub struct Partitions<'a> {
    pub start: &'a [u64],
    pub end: &'a [u64],
}

impl<'a> Partitions<'a> {
    pub const MOST: usize = 9_999;
    pub const LARGEST_TOTAL: u64 = 1_000_000_000_000_000;

    /// Refusal 2, or "the sum of lengths, called the total".
    pub(crate) fn check(self, p: u64) -> Result<u64, Refusal> {
        // "of one length from 1 to 9,999"; "Wrong list lengths come first and give the shortest length."
        let rows = self.start.len();
        if rows != self.end.len() || rows < 1 || rows > Self::MOST {
            return Err(Refusal::at(2, rows.min(self.end.len())));
        }
        let mut total = 0;
        for (row, (start, end)) in self.rows().enumerate() {
            // "Each start is below its end, each end is at most P - 1."
            if start >= end || end > p - 1 {
                return Err(Refusal::at(2, row));
            }
            // "The sum of lengths, called the total, is at most 10^15": "for a sum the row that passes the limit". Two
            // numbers of at most 10^15 do not wrap.
            total += end - start;
            if total > Self::LARGEST_TOTAL {
                return Err(Refusal::at(2, row));
            }
        }
        Ok(total)
    }

    fn rows(self) -> impl Iterator<Item = (u64, u64)> + 'a {
        self.start.iter().copied().zip(self.end.iter().copied())
    }

    /// Of checked lists. "The encoded count is the sum of the earlier lengths, plus count, minus start."
    pub(crate) fn encode(self, named: Option<u64>, count: u64) -> Result<u64, Refusal> {
        let holds = |i: usize| (self.start[i]..=self.end[i]).contains(&count);
        let row = match named {
            Some(number) => {
                let row = self.row(number)?;
                // "count outside the named partition"
                if !holds(row) {
                    return Err(Refusal::new(11));
                }
                row
            }
            // "Without one, the partition is the first whose start..end, both included, holds the count; refused
            // exactly if no partition holds it."
            None => (0..self.start.len()).find(|&row| holds(row)).ok_or(Refusal::new(11))?,
        };
        Ok(self.earlier(row) + (count - self.start[row]))
    }

    /// The row of a partition's number, or 10: "partition 0 or above the number there is".
    pub(crate) fn row(self, number: u64) -> Result<usize, Refusal> {
        if number < 1 || number > self.start.len() as u64 {
            return Err(Refusal::new(10));
        }
        Ok(number as usize - 1)
    }

    /// Of checked lists: "the sum of the earlier lengths".
    pub(crate) fn earlier(self, row: usize) -> u64 {
        self.rows().take(row).map(|(start, end)| end - start).sum()
    }

    /// Of checked lists, for e up to the total: the partition's number and the count in it. "The encoded count e
    /// belongs to the first partition whose running sum of lengths is above e; the total itself belongs to the last."
    pub(crate) fn locate(self, e: u64) -> (u64, u64) {
        let last = self.start.len() - 1;
        let mut left = e;
        for (i, (start, end)) in self.rows().enumerate() {
            if left < end - start || i == last {
                return (i as u64 + 1, start + left);
            }
            left -= end - start;
        }
        unreachable!("checked lists are not empty")
    }
}
