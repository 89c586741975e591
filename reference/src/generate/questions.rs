//! Random questions about the tables in force.

use super::tables::{msf, p, total};
use super::writer::Writer;
use super::{doubles, texts};
use crate::random::Random;
use crate::script::{Question, Tables, MOST_LEN};
use crate::{print_count, print_stamp, Refusal, Segments};

const LATEST: i64 = Segments::LATEST;

impl Writer {
    /// One question of any kind.
    pub fn any_question(&mut self) {
        match self.random.below(100) {
            0..=13 => self.any_text(),
            14..=31 => self.any_stamp(),
            32..=43 => self.any_message(),
            44..=52 => self.any_print_count(),
            53..=63 => self.any_print_stamp(),
            64..=76 => self.any_time_of(),
            77..=89 => self.any_count_at(),
            90..=91 => self.ask(Question::StepsBack),
            92..=95 => self.any_forward(),
            _ => self.any_back(),
        }
    }

    /// One question of each kind.
    pub fn each_question(&mut self) {
        self.any_text();
        self.any_stamp();
        self.any_message();
        self.any_print_count();
        self.any_print_stamp();
        self.any_time_of();
        self.any_count_at();
        self.ask(Question::StepsBack);
    }

    pub fn any_text(&mut self) {
        let text = texts::text(&mut self.random, &self.tables);
        self.ask(Question::ReadText(&text));
    }

    pub fn any_stamp(&mut self) {
        let stamp = texts::stamp(&mut self.random, &self.tables);
        self.ask(Question::ReadStamp(&stamp));
    }

    pub fn any_message(&mut self) {
        let message = texts::message(&mut self.random, &self.tables);
        self.ask(Question::ReadMessage(&message));
    }

    pub fn any_print_count(&mut self) {
        let count = count(&mut self.random, &self.tables);
        let mut lent = [0; MOST_LEN];
        let print = print_count(&self.tables.layout, count, &mut lent);
        let (fill, len) = (self.random.word() as u8, len(&mut self.random, print));
        self.ask(Question::PrintCount { count, fill, len });
    }

    pub fn any_print_stamp(&mut self) {
        let e = encoded(&mut self.random, &self.tables);
        let mut lent = [0; MOST_LEN];
        let print = print_stamp(&self.tables.layout, self.tables.partitions(), e, &mut lent);
        let (fill, len) = (self.random.word() as u8, len(&mut self.random, print));
        self.ask(Question::PrintStamp { e, fill, len });
    }

    pub fn any_time_of(&mut self) {
        let e = encoded(&mut self.random, &self.tables);
        self.ask(Question::TimeOf(e));
    }

    pub fn any_count_at(&mut self) {
        let t = time(&mut self.random, &self.tables);
        self.ask(Question::CountAt(t));
    }

    pub fn any_forward(&mut self) {
        let (segment, msf, given) = doubles::forward(&mut self.random);
        self.ask(Question::Forward { segment, msf, given });
    }

    pub fn any_back(&mut self) {
        let (segment, msf, given) = doubles::back(&mut self.random);
        self.ask(Question::Back { segment, msf, given });
    }
}

/// A count to print: around 0 and P, or anywhere below.
pub fn count(random: &mut Random, tables: &Tables) -> u64 {
    let p = p(&tables.layout).max(1);
    let (any, size) = (random.between(0, p - 1), random.magnitude(p - 1));
    match random.below(12) {
        0 => random.near(p),
        1 => random.pick(&[0, 1, p - 1]),
        2 => random.pick(&[p, u64::MAX, 1 << 63]),
        _ => random.pick(&[any, size]),
    }
}

/// A buffer's length, around the print's.
pub fn len(random: &mut Random, print: Result<usize, Refusal>) -> usize {
    let print = print.unwrap_or(8);
    let any = random.below(print + 8);
    let near = print + random.below(3) - 1;
    random.pick(&[print, print, near, near, near, any, any.max(print)]).min(MOST_LEN)
}

/// An encoded count: around the partitions' and segments' ends, or anywhere.
pub fn encoded(random: &mut Random, tables: &Tables) -> u64 {
    let total = total(tables);
    let any = random.between(0, total);
    match random.below(16) {
        0 => random.pick(&[0, 1, total, total.saturating_add(1), u64::MAX, 1 << 63]),
        1 => random.near(total),
        2..=4 if !tables.start.is_empty() => {
            let row = random.below(tables.start.len());
            let lengths = tables.start.iter().zip(&tables.end).take(row + 1);
            let sum = lengths.fold(0u64, |sum, (start, end)| sum.saturating_add(end.saturating_sub(*start)));
            random.near(sum)
        }
        5..=8 if !tables.count.is_empty() => {
            let edge = random.pick(&tables.count);
            random.near(edge)
        }
        9 => random.magnitude(total),
        _ => match tables.count.first() {
            // From the first segment on.
            Some(&first) if first < total => random.between(first, total),
            _ => any,
        },
    }
}

/// A time: around the segments' times and their lines' ends, at a tick, around the range's ends, or anywhere.
pub fn time(random: &mut Random, tables: &Tables) -> i64 {
    let total = total(tables);
    let rows = tables.count.len().min(tables.time.len()).min(tables.rate.len());
    let far = random.pick(&[LATEST, -LATEST, i64::MIN, i64::MAX]);
    let near = |random: &mut Random, time: i64| random.near(time as u64) as i64;
    if rows == 0 || random.chance(4) {
        return near(random, far);
    }
    let row = random.below(rows);
    let (count, time, rate) = (tables.count[row], tables.time[row], tables.rate[row]);
    if random.chance(15) {
        return near(random, time);
    }
    // The line at the next count, at the total, or at some count between.
    let next = tables.count.get(row + 1).copied().unwrap_or(total);
    let between = if count < next { random.between(count, next) } else { next };
    let at = match random.below(12) {
        0 => next,
        1 => total,
        _ => between,
    };
    let unit = 1_000 * i128::from(msf(&tables.layout).clamp(1, 1 << 40));
    let ticks = i128::from(at) - i128::from(count);
    let line = i128::from(time) + (ticks.saturating_mul(i128::from(rate)) / unit);
    let line = line.clamp(i128::from(i64::MIN), i128::from(i64::MAX)) as i64;
    let gap = tables.time.get(row + 1).copied().unwrap_or(LATEST);
    match random.below(12) {
        0 if line < gap => random.time_between(line, gap),
        1 => random.time_between(-LATEST, LATEST),
        _ => near(random, line),
    }
}
