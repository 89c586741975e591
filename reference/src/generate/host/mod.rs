//! A host's calls: random ones, and those that are stored.

mod any;
mod catalogue;
mod rows;
mod slices;

use crate::host::{put_call, Call, Name};
use crate::random::Random;
use crate::script::Tables;

/// Of every so many random calls one has tables as long as they may be, or a row longer.
const LARGE: u64 = 5_000;

/// Random calls without end.
pub struct Calls {
    random: Random,
    tables: Tables,
    /// How many more calls these tables get.
    left: usize,
    made: u64,
}

impl Calls {
    pub fn new(seed: u64) -> Calls {
        Calls { random: Random::new(seed), tables: Tables::new(), left: 0, made: 0 }
    }
}

impl Iterator for Calls {
    type Item = Call;

    fn next(&mut self) -> Option<Call> {
        self.made += 1;
        if self.made % LARGE == LARGE / 2 {
            return Some(any::large(&mut self.random));
        }
        if self.left == 0 {
            self.tables = any::tables(&mut self.random);
            self.left = 1 + self.random.below(4);
        }
        self.left -= 1;
        Some(any::call(&mut self.random, &self.tables))
    }
}

/// What the stored calls are made from.
pub const STORED_SEED: u64 = 5;
/// How many of them are random.
const STORED_RANDOM: u64 = 3_000;

/// The stored calls: a fixed part with comments, then random ones. The last line has its byte 10.
pub fn stored_calls(seed: u64) -> Vec<u8> {
    let mut writer = catalogue::Writer { lines: vec![], calls: 0 };
    catalogue::all(&mut writer);
    writer.heading("at random");
    let mut calls = Calls::new(seed);
    let mut line = vec![];
    for number in 0..STORED_RANDOM {
        // By turns of each name, every second one answered; a long line now and then.
        let name = Name::ALL[number as usize % 7];
        let longest = if number % 50 == 0 { 1_200 } else { 120 + 30 * name.lists() };
        loop {
            let mut call = calls.next().expect("calls do not end");
            line.clear();
            put_call(&mut line, &call);
            if call.name == name && line.len() <= longest && (number % 2 == 0 || call.make() >= 0) {
                break;
            }
        }
        writer.lines.extend_from_slice(&line);
    }
    writer.lines
}
