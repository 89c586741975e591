//! Tables out of byte slices.

use crate::script::Tables;
use crate::{Layout, Refusal};

/// "tables come as byte slices, one a list, of eight-byte numbers, low byte first (times two's complement); n and delimiter as
/// numbers". Both have 64 bits.
#[derive(Clone, Copy, Debug)]
pub struct LayoutSlices<'a> {
    pub n: u64,
    pub delimiter: u64,
    pub moduli: &'a [u8],
    pub offsets: &'a [u8],
}

#[derive(Clone, Copy, Debug)]
pub struct PartitionSlices<'a> {
    pub starts: &'a [u8],
    pub ends: &'a [u8],
}

#[derive(Clone, Copy, Debug)]
pub struct SegmentSlices<'a> {
    pub counts: &'a [u8],
    pub times: &'a [u8],
    pub rates: &'a [u8],
}

/// Tables with a layout alone. The inner call checks it.
pub(super) fn layout_of(layout: LayoutSlices) -> Result<Tables, Refusal> {
    let moduli = slots(layout.moduli, layout.n)?;
    let offsets = slots(layout.offsets, layout.n)?;
    // No number above 255 is a code, and 0 is none either.
    let delimiter = u8::try_from(layout.delimiter).unwrap_or(0);
    Ok(Tables { layout: Layout { n: layout.n, moduli, offsets, delimiter }, ..Tables::new() })
}

/// A slice is "refused as the table it belongs to": in that table's turn, when the layout is found good.
pub(super) fn with_partitions(layout: LayoutSlices, partitions: PartitionSlices) -> Result<Tables, Refusal> {
    let mut tables = layout_of(layout)?;
    tables.layout.check()?;
    tables.start = numbers(partitions.starts, 2)?;
    tables.end = numbers(partitions.ends, 2)?;
    Ok(tables)
}

/// Likewise, when the partitions are found good.
pub(super) fn with_segments(
    layout: LayoutSlices,
    partitions: PartitionSlices,
    segments: SegmentSlices,
) -> Result<Tables, Refusal> {
    let mut tables = with_partitions(layout, partitions)?;
    tables.partitions().check(tables.layout.check()?.p)?;
    tables.count = numbers(segments.counts, 3)?;
    tables.time = numbers(segments.times, 3)?.into_iter().map(|time| time as i64).collect();
    tables.rate = numbers(segments.rates, 3)?;
    Ok(tables)
}

/// "a modulus or offset list under n is refused". n is compared with the number of entries: eight times n may not fit 64 bits.
/// Entries after the n-th are not looked at, however many there are.
fn slots(slice: &[u8], n: u64) -> Result<[u64; Layout::MOST_FIELDS], Refusal> {
    let list = numbers(slice, 1)?;
    if (list.len() as u64) < n {
        return Err(Refusal::new(1));
    }
    let mut slots = [0; Layout::MOST_FIELDS];
    slots.iter_mut().zip(list).for_each(|(slot, number)| *slot = number);
    Ok(slots)
}

/// "A slice not in eights [..] is refused", also behind the n-th number.
fn numbers(slice: &[u8], table: u32) -> Result<Vec<u64>, Refusal> {
    if slice.len() % 8 != 0 {
        return Err(Refusal::new(table));
    }
    let number = |eight: &[u8]| u64::from_le_bytes(eight.try_into().expect("eight bytes"));
    Ok(slice.chunks_exact(8).map(number).collect())
}
