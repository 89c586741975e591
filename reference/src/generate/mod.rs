//! Seeded scripts, biased to the edges of every rule.

mod broken;
mod catalogue;
mod doubles;
pub mod host;
mod kernels;
mod large;
mod lines;
mod packets;
mod pairs;
mod questions;
mod raw;
pub mod runs;
pub mod tables;
mod texts;
mod writer;

use crate::random::Random;
use broken::{break_layout, break_partitions, break_segments, LAYOUT_RULES, PARTITION_RULES, SEGMENT_RULES};
use writer::Writer;
pub use writer::{put_counter, put_tables};

/// What the stored samples are made from.
pub const STORED_SEED: u64 = 1;
pub const STORED_COUNT: u64 = 38_000;

/// A script with a fixed part for every edge, then random questions up to the count. Plain text, but for a few tabs and
/// returns; the last line has no byte 10.
pub fn script(seed: u64, count: u64) -> Vec<u8> {
    let mut writer = Writer::new(seed);
    catalogue::all(&mut writer);
    large::all(&mut writer);
    while writer.questions < count {
        writer.block(30);
    }
    writer.any_stamp();
    // Kernel text has a part of its own.
    writer.random = Random::new(!seed);
    kernels::all(&mut writer);
    // So have raw counters.
    writer.random = Random::new(seed ^ 4 << 32);
    raw::all(&mut writer);
    // And packets.
    writer.random = Random::new(seed ^ 7 << 32);
    packets::all(&mut writer);
    // And two tables, an older and a newer.
    writer.random = Random::new(seed ^ 8 << 32);
    pairs::all(&mut writer);
    writer.script.pop();
    writer.script
}

/// A script of random questions, tables in force longer; large tables in few scripts only.
pub fn fresh(seed: u64, count: u64) -> Vec<u8> {
    let mut writer = Writer::new(seed);
    writer.raw = true;
    match writer.random.below(32) {
        0 => large::all(&mut writer),
        1 => catalogue::all(&mut writer),
        _ => {}
    }
    while writer.questions < count {
        writer.block(120);
        for _ in 0..6 {
            writer.any_kernel();
        }
        writer.any_calls(40);
        writer.any_packets(30);
        for _ in 0..4 {
            writer.any_pairs(3);
        }
    }
    writer.script
}

/// A script of random lists of calls of the raw counter, with microseconds.
pub fn fresh_raw(seed: u64, count: u64) -> Vec<u8> {
    let mut writer = Writer::new(seed);
    writer.raw = true;
    if writer.random.below(64) == 0 {
        raw::all(&mut writer);
    }
    while writer.questions < count {
        writer.any_calls(120);
    }
    writer.script
}

/// A script of random packets, read, written and walked.
pub fn fresh_packets(seed: u64, count: u64) -> Vec<u8> {
    let mut writer = Writer::new(seed);
    writer.raw = true;
    if writer.random.below(64) == 0 {
        packets::all(&mut writer);
    }
    while writer.questions < count {
        writer.any_packets(120);
    }
    writer.script
}

/// A script of random pairs of tables, an older and a newer.
pub fn fresh_pairs(seed: u64, count: u64) -> Vec<u8> {
    let mut writer = Writer::new(seed);
    writer.raw = true;
    if writer.random.below(64) == 0 {
        pairs::all(&mut writer);
    }
    while writer.questions < count {
        writer.any_pairs(3);
    }
    writer.script
}

/// A script of random kernel texts.
pub fn fresh_kernels(seed: u64, count: u64) -> Vec<u8> {
    let mut writer = Writer::new(seed);
    writer.raw = true;
    if writer.random.below(64) == 0 {
        kernels::all(&mut writer);
    }
    while writer.questions < count {
        writer.any_kernel();
    }
    writer.script
}

impl Writer {
    /// New tables, sometimes broken, and questions about them.
    fn block(&mut self, most: usize) {
        let mut tables = tables::sound(&mut self.random);
        let random = &mut self.random;
        // Broken tables get fewer questions.
        let broken = random.chance(16);
        let questions = 1 + if broken { random.below(12) } else { most / 2 + random.below(most) };
        if broken {
            for _ in 0..random.pick(&[1, 1, 2]) {
                match random.below(6) {
                    0 => {
                        let rule = random.below(LAYOUT_RULES);
                        break_layout(random, &mut tables, rule);
                    }
                    1 | 2 => {
                        let rule = random.below(PARTITION_RULES);
                        break_partitions(random, &mut tables, rule);
                    }
                    _ => {
                        let rule = random.below(SEGMENT_RULES);
                        break_segments(random, &mut tables, rule);
                    }
                }
            }
        }
        self.load(&tables);
        for _ in 0..questions {
            self.any_question();
            match self.random.below(400) {
                0 | 1 => self.any_bad_line(),
                2 => self.any_passed_line(),
                _ => {}
            }
        }
    }
}
