//! A kernel's tables, and what a line is asked of them.

use super::lines;
use crate::script::Tables;
use crate::{count_at, read_kernel, read_message, read_stamp, time_of, Layout, Partitions, Refusal, Segments};

pub struct Kernel {
    pub tables: Tables,
    pub time_system: u64,
}

impl Kernel {
    /// The lent lists are as long as lists may be, so 16 is not given.
    pub fn read(text: &[u8], clock: i64) -> Result<Kernel, Refusal> {
        let (mut moduli, mut offsets) = ([0; Layout::MOST_FIELDS], [0; Layout::MOST_FIELDS]);
        let (mut start, mut end) = (vec![0; Partitions::MOST], vec![0; Partitions::MOST]);
        let (mut count, mut time, mut rate) =
            (vec![0; Segments::MOST], vec![0; Segments::MOST], vec![0; Segments::MOST]);
        let read = read_kernel(
            text,
            clock,
            &mut moduli,
            &mut offsets,
            &mut start,
            &mut end,
            &mut count,
            &mut time,
            &mut rate,
        )?;
        start.truncate(read.partitions);
        end.truncate(read.partitions);
        count.truncate(read.segments);
        time.truncate(read.segments);
        rate.truncate(read.segments);
        let layout = Layout { n: read.n, moduli, offsets, delimiter: read.delimiter as u8 };
        Ok(Kernel { tables: Tables { layout, start, end, count, time, rate }, time_system: read.time_system })
    }

    /// Encoded count and time of a stamp or of a message in hex.
    pub fn timed(&self, line: &[u8], hex: bool) -> Result<(u64, i64), Refusal> {
        let Tables { layout, .. } = &self.tables;
        let partitions = self.tables.partitions();
        let e = if hex {
            read_message(layout, partitions, &lines::hex(line)?)?
        } else {
            read_stamp(layout, partitions, line)?
        };
        Ok((e, time_of(layout, partitions, self.tables.segments(), e)?))
    }

    /// The count at a time of any size: "14 where outside +-4*10^18, then 13, 14".
    pub fn count_at(&self, t: i128) -> Result<u64, Refusal> {
        let t = i64::try_from(t).map_err(|_| Refusal::new(14))?;
        count_at(&self.tables.layout, self.tables.partitions(), self.tables.segments(), t)
    }
}
