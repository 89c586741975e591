//! An older and a newer table: whether the one succeeds the other, and below which encoded count they agree.
//!
//! Words in quotation marks are demand 3's, or those of the two calls.

use std::fmt;

use crate::{Layout, Partitions, Refusal, Segments};

/// "Here a table is a layout, partitions and segments together".
#[derive(Clone, Copy, Debug)]
pub struct Table<'a> {
    pub layout: &'a Layout,
    pub partitions: Partitions<'a>,
    pub segments: Segments<'a>,
}

/// "yes, where demand 3's hypotheses hold with 'nowhere steps back' asked of the seam alone; else the first that fails [..],
/// with its row". Rows count from 0; the layout's is 0.
#[derive(Clone, Copy, Debug, PartialEq, Eq)]
pub enum Succession {
    Yes,
    No(Hypothesis, usize),
}

/// "in the order layout, partition, segment, further, seam".
#[derive(Clone, Copy, Debug, PartialEq, Eq)]
pub enum Hypothesis {
    Layout,
    Partition,
    Segment,
    Further,
    Seam,
}

/// "or which table is refused, and its refusal".
#[derive(Clone, Copy, Debug, PartialEq, Eq)]
pub enum RefusedTable {
    Older(Refusal),
    Newer(Refusal),
}

/// Does the newer table succeed the older?
pub fn succeeds(older: Table, newer: Table) -> Result<Succession, RefusedTable> {
    let (old, new) = check(older, newer)?;
    let hypotheses = [
        (Hypothesis::Layout, layout(older.layout, newer.layout)),
        (Hypothesis::Partition, partition(older.partitions, newer.partitions)),
        (Hypothesis::Segment, segment(older.segments, newer.segments)),
        (Hypothesis::Further, further(older.segments, newer.segments, old.total)),
        (Hypothesis::Seam, seam(older.segments, newer.segments, new.msf)),
    ];
    let first = hypotheses.iter().find_map(|&(hypothesis, fails)| fails.map(|row| Succession::No(hypothesis, row)));
    Ok(first.unwrap_or(Succession::Yes))
}

/// "the encoded count below which the two agree": "the lesser of the older's total and the count of the first segment that
/// differs in either table (none: the total); 0 where the layout differs or partitions are not kept as in demand 3."
pub fn horizon(older: Table, newer: Table) -> Result<u64, RefusedTable> {
    let (old, _) = check(older, newer)?;
    if layout(older.layout, newer.layout).is_some() || partition(older.partitions, newer.partitions).is_some() {
        return Ok(0);
    }
    let (olds, news) = (older.segments, newer.segments);
    let rows = olds.count.len().max(news.count.len());
    let differs = (0..rows).find(|&row| olds.row_at(row) != news.row_at(row));
    // "in either table": of those that have this row, the lesser count.
    let counts = differs.map(|row| [olds.count.get(row), news.count.get(row)]);
    Ok(counts.iter().flatten().flatten().fold(old.total, |least, &&count| least.min(count)))
}

/// What the hypotheses need of an accepted table.
struct Accepted {
    msf: u64,
    total: u64,
}

/// "Take any two accepted tables": the older is checked whole, then the newer.
fn check(older: Table, newer: Table) -> Result<(Accepted, Accepted), RefusedTable> {
    let old = older.check().map_err(RefusedTable::Older)?;
    let new = newer.check().map_err(RefusedTable::Newer)?;
    Ok((old, new))
}

impl Table<'_> {
    /// "accepted where none of 1, 2 and 3 applies".
    fn check(self) -> Result<Accepted, Refusal> {
        let clock = self.layout.check()?;
        let total = self.partitions.check(clock.p)?;
        self.segments.check(clock.msf, total)?;
        Ok(Accepted { msf: clock.msf, total })
    }
}

// Each hypothesis of two accepted tables: the row at which it fails first.

/// "Two tables have one layout if n, the first n moduli, the first n offsets and the delimiter are equal."
fn layout(older: &Layout, newer: &Layout) -> Option<usize> {
    let n = older.n as usize;
    let one = older.n == newer.n
        && older.moduli[..n] == newer.moduli[..n]
        && older.offsets[..n] == newer.offsets[..n]
        && older.delimiter == newer.delimiter;
    if one {
        None
    } else {
        Some(0)
    }
}

/// "The newer keeps the old partitions in place if its two lists begin with the older's starts and ends; only the end of the
/// older's last partition may be greater in the newer."
fn partition(older: Partitions, newer: Partitions) -> Option<usize> {
    let last = older.start.len() - 1;
    (0..=last).find(|&row| match (newer.start.get(row), newer.end.get(row)) {
        (Some(&start), Some(&end)) => {
            let kept = if row < last { end == older.end[row] } else { end >= older.end[row] };
            start != older.start[row] || !kept
        }
        _ => true,
    })
}

/// "It keeps the old segments if its lists begin with the older's, every number equal".
fn segment(older: Segments, newer: Segments) -> Option<usize> {
    (0..older.count.len()).find(|&row| older.row_at(row) != newer.row_at(row))
}

/// "any further segment has a count above the older's total".
fn further(older: Segments, newer: Segments, total: u64) -> Option<usize> {
    (older.count.len()..newer.count.len()).find(|&row| newer.count[row] <= total)
}

/// "of 'it nowhere steps back' only the last kept row's seam is needed": the older's last row must not step back into the
/// newer's next row, if there is one.
fn seam(older: Segments, newer: Segments, msf: u64) -> Option<usize> {
    let last = older.count.len() - 1;
    if last + 1 < newer.count.len() && newer.steps_back_at(last, msf) {
        Some(last)
    } else {
        None
    }
}

impl Hypothesis {
    pub fn name(self) -> &'static str {
        match self {
            Hypothesis::Layout => "layout",
            Hypothesis::Partition => "partition",
            Hypothesis::Segment => "segment",
            Hypothesis::Further => "further",
            Hypothesis::Seam => "seam",
        }
    }
}

/// As the script prints it.
impl fmt::Display for Succession {
    fn fmt(&self, f: &mut fmt::Formatter) -> fmt::Result {
        match self {
            Succession::Yes => write!(f, "yes"),
            Succession::No(hypothesis, row) => write!(f, "no {} {}", hypothesis.name(), row),
        }
    }
}

/// As the script prints it, behind `refused`.
impl fmt::Display for RefusedTable {
    fn fmt(&self, f: &mut fmt::Formatter) -> fmt::Result {
        match self {
            RefusedTable::Older(refusal) => write!(f, "older {}", refusal),
            RefusedTable::Newer(refusal) => write!(f, "newer {}", refusal),
        }
    }
}
