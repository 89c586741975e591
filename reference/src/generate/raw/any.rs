//! Random lists of calls, and random microseconds.

use super::{layout, Writer, E15, TURN};
use crate::generate::broken::*;
use crate::generate::tables::{sound, total};
use crate::script::{Question, Tables};
use crate::RawCounter;

impl Writer {
    /// A list of calls, each on the state the one before left, in the main under sound tables; sometimes other tables, a state or
    /// a bad line between.
    pub fn any_calls(&mut self, most: usize) {
        self.any_raw_tables();
        if self.random.chance(50) {
            self.counter(RawCounter::new());
        }
        for _ in 0..most / 2 + self.random.below(most) {
            match self.random.below(100) {
                0..=1 => self.any_raw_tables(),
                2..=5 => self.any_other_tables(),
                6 => self.counter(RawCounter::new()),
                7..=10 => self.any_state(),
                11 if self.random.chance(30) => self.any_bad_raw_line(),
                12..=14 => self.any_microseconds(),
                15..=26 => self.any_reset(),
                // Mostly there is a counter with a reading that fits.
                _ if !self.any_room() && self.random.chance(60) => self.any_reset(),
                _ => self.any_read(),
            }
        }
    }

    fn any_room(&self) -> bool {
        self.counter.reset && self.counter.count <= total(&self.tables)
    }

    pub fn any_reset(&mut self) {
        let random = &mut self.random;
        let rows = self.tables.start.len() as u64;
        let any = random.between(1, rows.max(1));
        let number = match random.below(20) {
            0 => 0,
            1 => random.pick(&[rows + 1, rows + 1, rows + 2, TURN + any, 1 << 63, u64::MAX]),
            2..=3 => rows.max(1),
            _ => any,
        };
        let last = self.counter.raw;
        let word = random.word() as u32;
        let raw = random.pick(&[word, word, 0, u32::MAX, u32::MAX - word % 256, last, last.wrapping_add(word % 256)]);
        self.labelled("at random", Question::RawReset { number, raw });
    }

    pub fn any_read(&mut self) {
        let random = &mut self.random;
        let room = total(&self.tables).saturating_sub(self.counter.count);
        let turn = TURN - u64::from(self.counter.raw);
        let fits = room.min(TURN - 1);
        let difference = match random.below(24) {
            0 => 0,
            1 => 1,
            2 => random.pick(&[TURN - 1, TURN - 2, 1 << 31]),
            3..=4 => fits,
            5 => room.saturating_add(1).min(TURN - 1),
            6 => random.near(fits) % TURN,
            // To raw number 0, and around it.
            7..=8 => random.near(turn) % TURN,
            9 => random.word() % TURN,
            // Over the rollover, if there is room.
            10..=13 if turn < fits => random.between(turn, fits),
            14..=17 => random.between(0, fits),
            _ => random.magnitude(fits),
        };
        let raw = self.counter.raw.wrapping_add(difference as u32);
        self.labelled("at random", Question::RawRead(raw));
    }

    /// Near the total, near 2^64, at a partition's edge, or anywhere.
    fn any_state(&mut self) {
        let random = &mut self.random;
        let total = total(&self.tables);
        let (size, far) = (random.magnitude(total), random.magnitude(TURN + 9));
        let rows = self.tables.start.len().min(self.tables.end.len());
        let lengths = self.tables.start.iter().zip(&self.tables.end).take(random.below(rows + 1));
        let edge = lengths.fold(0u64, |sum, (start, end)| sum.saturating_add(end.saturating_sub(*start)));
        let (above, any) = (total.saturating_add(far), random.word());
        let (near, edge) = (random.near(total), random.near(edge));
        let count = random.pick(&[0, size, total - size, total - size, near, edge, above, u64::MAX - far, any]);
        let word = random.word() as u32;
        let raw = random.pick(&[word, 0, u32::MAX - word % 100, u32::MAX]);
        self.counter(RawCounter::at(raw, count));
    }

    pub fn any_microseconds(&mut self) {
        let random = &mut self.random;
        let word = random.word() as u32;
        let size = random.magnitude(u64::from(u32::MAX)) as u32;
        let seconds = random.pick(&[word, size, 0, u32::MAX, u32::MAX - 1]);
        // Around a subtick's first microsecond.
        let edge = (2_000_000 * random.between(1, 257) - 1_000_256) / 512;
        let us = match random.below(16) {
            0 => random.near(1_000_000),
            1 => random.between(1_000_000, TURN - 1),
            2..=3 => random.between(998_047, 999_999),
            4..=9 => random.near(edge),
            _ => random.between(0, 999_999),
        };
        self.labelled("at random", Question::Microseconds { seconds, us: us as u32 });
    }

    /// Sound ones, with a total of any size.
    fn any_raw_tables(&mut self) {
        let random = &mut self.random;
        if random.chance(50) {
            let mut tables = sound(random);
            while tables.start.len() > 8 {
                tables = sound(random);
            }
            self.load_raw(tables);
            return;
        }
        let rows = random.between(1, 5);
        let total = match random.below(4) {
            0 => TURN + random.magnitude(64) - 32,
            1 => rows + random.magnitude(2 * TURN),
            2 => E15 - rows - random.magnitude(1 << 20),
            _ => rows + random.magnitude(E15 - rows - 1),
        };
        let mut left = total;
        let mut partitions = vec![];
        for row in 0..rows {
            let more = rows - row - 1;
            let length = if more == 0 { left } else { random.between(1, left - more) };
            let start = random.magnitude(E15 - 1 - length);
            partitions.push((start, start + length));
            left -= length;
        }
        self.load_partitions(layout(&[E15]), &partitions);
    }

    /// Some edit of the tables in force: a row less, a row more, a rule broken; what is broken is left at once or soon.
    fn any_other_tables(&mut self) {
        let good = self.tables.clone();
        let mut tables = good.clone();
        let random = &mut self.random;
        match random.below(6) {
            0 if tables.start.len() > 1 => {
                tables.start.pop();
                tables.end.pop();
            }
            1 => {
                tables.start.push(0);
                tables.end.push(1);
            }
            2 => {
                let rule = random.below(LAYOUT_RULES);
                break_layout(random, &mut tables, rule);
            }
            _ => {
                let rule = random.below(PARTITION_RULES);
                break_partitions(random, &mut tables, rule);
            }
        }
        self.load_raw(tables);
        for _ in 0..self.random.between(1, 4) {
            if self.random.chance(40) {
                self.any_reset();
            } else {
                self.any_read();
            }
        }
        if self.random.chance(70) {
            self.load_raw(good);
        }
    }

    /// Segments stay as they are.
    pub fn load_raw(&mut self, tables: Tables) {
        let Tables { count, time, rate, .. } = self.tables.clone();
        self.load(&Tables { count, time, rate, ..tables });
    }
}
