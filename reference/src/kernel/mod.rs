//! "Read the mission's kernel text." Words in quotation marks in this folder are request 1's; README.md has the form.

mod assignments;
mod found;
mod number;
mod reader;

use crate::{Layout, Partitions, Refusal, Segments};
use found::Found;
use reader::Reader;

/// "n, delimiter, time system and list lengths are the answer." Moduli and offsets are n long.
#[derive(Clone, Copy, Debug, PartialEq, Eq)]
pub struct Kernel {
    pub n: u64,
    pub delimiter: u64,
    pub time_system: u64,
    pub partitions: usize,
    pub segments: usize,
}

/// Kernel text to tables. "Lists go to lent buffers". "Refusals [..], in this order: 18 [..], 19 [..], 20 [..], then 1
/// [..], 2, 3 [..], 16 a lent list too short."
#[allow(clippy::too_many_arguments)]
pub fn read_kernel(
    text: &[u8],
    clock: i64,
    moduli: &mut [u64],
    offsets: &mut [u64],
    starts: &mut [u64],
    ends: &mut [u64],
    counts: &mut [u64],
    times: &mut [i64],
    rates: &mut [u64],
) -> Result<Kernel, Refusal> {
    let mut reader = Reader::new(text);
    // "first line `KPL/SCLK`"
    if reader.line() != Some(&b"KPL/SCLK"[..]) {
        return Err(Refusal::new(18));
    }
    let mut found = Found::new(clock);
    assignments::read(&mut reader, &mut found)?;
    // "a name missing"
    if !found.complete() {
        return Err(Refusal::new(19));
    }
    if !found.exact {
        return Err(Refusal::new(20));
    }
    check(&found)?;
    if moduli.len() < found.moduli.len()
        || offsets.len() < found.offsets.len()
        || starts.len() < found.starts.len()
        || ends.len() < found.ends.len()
        || counts.len() < found.counts.len()
        || times.len() < found.times.len()
        || rates.len() < found.rates.len()
    {
        return Err(Refusal::new(16));
    }
    fill(moduli, &found.moduli);
    fill(offsets, &found.offsets);
    fill(starts, &found.starts);
    fill(ends, &found.ends);
    fill(counts, &found.counts);
    fill(times, &found.times);
    fill(rates, &found.rates);
    Ok(Kernel {
        n: found.n,
        delimiter: found.delimiter,
        time_system: found.time_system,
        partitions: found.starts.len(),
        segments: found.counts.len(),
    })
}

/// "then 1 (also lists not n long), 2, 3 (also not in threes)". Lists of counts, times and rates that are not in threes
/// are not of one length: the place is the shortest.
fn check(found: &Found) -> Result<(), Refusal> {
    let layout = layout(found).ok_or(Refusal::new(1))?;
    let clock = layout.check()?;
    let total = Partitions { start: &found.starts, end: &found.ends }.check(clock.p)?;
    Segments { count: &found.counts, time: &found.times, rate: &found.rates }.check(clock.msf, total)
}

/// None where the numbers fit no layout.
fn layout(found: &Found) -> Option<Layout> {
    let (mut moduli, mut offsets) = ([0; Layout::MOST_FIELDS], [0; Layout::MOST_FIELDS]);
    if found.moduli.len() as u64 != found.n || found.offsets.len() as u64 != found.n {
        return None;
    }
    moduli.get_mut(..found.moduli.len())?.copy_from_slice(&found.moduli);
    offsets.get_mut(..found.offsets.len())?.copy_from_slice(&found.offsets);
    Some(Layout { n: found.n, moduli, offsets, delimiter: u8::try_from(found.delimiter).ok()? })
}

/// The front of a lent list that is long enough.
fn fill<T: Copy>(lent: &mut [T], list: &[T]) {
    lent[..list.len()].copy_from_slice(list);
}
