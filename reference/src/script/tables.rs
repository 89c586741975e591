//! The tables in force.

use crate::{Layout, Partitions, Segments, Table};

#[derive(Clone, Debug, PartialEq)]
pub struct Tables {
    pub layout: Layout,
    pub start: Vec<u64>,
    pub end: Vec<u64>,
    pub count: Vec<u64>,
    pub time: Vec<i64>,
    pub rate: Vec<u64>,
}

impl Tables {
    /// "At the start the layout is all zeros and all lists are empty."
    pub fn new() -> Tables {
        let layout = Layout { n: 0, moduli: [0; 10], offsets: [0; 10], delimiter: 0 };
        Tables { layout, start: vec![], end: vec![], count: vec![], time: vec![], rate: vec![] }
    }

    pub fn partitions(&self) -> Partitions<'_> {
        Partitions { start: &self.start, end: &self.end }
    }

    pub fn segments(&self) -> Segments<'_> {
        Segments { count: &self.count, time: &self.time, rate: &self.rate }
    }

    pub fn table(&self) -> Table<'_> {
        Table { layout: &self.layout, partitions: self.partitions(), segments: self.segments() }
    }
}

impl Default for Tables {
    fn default() -> Tables {
        Tables::new()
    }
}
