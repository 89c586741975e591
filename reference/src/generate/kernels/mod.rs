//! Kernel texts: every production of the form used and broken, every clause of every refusal, random ones.

mod any;
mod draft;
mod forms;
mod large;
mod lent;
mod limits;
mod names;
mod numbers;
mod orders;
mod units;

use super::tables::sound;
use super::writer::Writer;
use crate::random::Random;
use crate::script::{KernelQuestion, Question, Tables, MOST_KERNEL, MOST_LENT};
use draft::{Draft, Style};

/// Random kernels among the stored samples.
const RANDOM: usize = 1_900;

/// All that is stored: a fixed part, then random kernels.
pub fn all(writer: &mut Writer) {
    writer.line(b"# kernel text: its form");
    forms::all(writer);
    writer.line(b"# kernel text: its names");
    names::all(writer);
    writer.line(b"# kernel text: numbers and units");
    units::all(writer);
    writer.line(b"# kernel text: limits of tables");
    limits::all(writer);
    writer.line(b"# kernel text: lent lists");
    lent::all(writer);
    writer.line(b"# kernel text: two faults at once");
    orders::all(writer);
    writer.line(b"# kernel text: as long as a line can hold");
    large::all(writer);
    writer.line(b"# kernel text: at random");
    for _ in 0..RANDOM {
        writer.any_kernel();
    }
}

impl Writer {
    /// A question with a comment before it: the outcome it must have (`ok` or a refusal's number), a colon, what it is
    /// about.
    fn kernel(&mut self, label: &str, clock: i64, lent: [usize; 7], text: &[u8]) {
        assert!(text.len() <= MOST_KERNEL);
        if !self.raw {
            self.line(["# ", label].concat().as_bytes());
        }
        self.ask(Question::ReadKernel(KernelQuestion { clock, lent, text }));
    }

    /// A draft with room for its lists, in the short style.
    fn draft(&mut self, label: &str, draft: &Draft) {
        self.styled(label, draft, Style::Short);
    }

    fn styled(&mut self, label: &str, draft: &Draft, style: Style) {
        let text = draft.text(&mut self.random, style);
        let lent = room(&mut self.random, draft);
        self.kernel(label, draft.clock, lent, &text);
    }

    /// A small sound kernel in the short style.
    fn base(&mut self) -> Draft {
        let tables = small(&mut self.random);
        self.of(&tables)
    }

    /// Tables as a kernel of some clock in the short style.
    fn of(&mut self, tables: &Tables) -> Draft {
        let random = &mut self.random;
        let (clock, system) = (short_clock(random), random.pick(&[None, Some(1), Some(2), Some(2)]));
        let mut draft = Draft::new(random, clock, tables, system, Style::Short);
        if random.chance(30) {
            draft.shuffle(random);
        }
        draft
    }
}

/// Room for what the draft holds, and often a little more.
fn room(random: &mut Random, draft: &Draft) -> [usize; 7] {
    draft.lent.map(|len| (len + random.pick(&[0, 0, 0, 1])).min(MOST_LENT))
}

fn short_clock(random: &mut Random) -> i64 {
    random.pick(&[0, 1, -1, 7, -7, 77, -77, 94, -94, 236, -236])
}

/// Sound tables that make a short text.
fn small(random: &mut Random) -> Tables {
    loop {
        let tables = sound(random);
        if tables.layout.n <= 4 && tables.start.len() <= 2 && tables.count.len() <= 3 {
            return tables;
        }
    }
}

/// Table A, as its rows are written in document 01.
fn table_a() -> Tables {
    let (layout, partitions, segments) = crate::table_a();
    Tables {
        layout,
        start: partitions.start.to_vec(),
        end: partitions.end.to_vec(),
        count: segments.count.to_vec(),
        time: segments.time.to_vec(),
        rate: segments.rate.to_vec(),
    }
}
