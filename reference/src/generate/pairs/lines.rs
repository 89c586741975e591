//! Bad lines about two tables.

use super::bases::bases;
use super::Writer;
use crate::script::Question;

/// Lines that are none of the protocol's.
#[rustfmt::skip]
const BAD: &[&[u8]] = &[
    b"older ", b" older", b"older 1", b"older older", b"older\r", b"Older", b"OLDER", b"old", b"olders", b"older .", b"older-table", b"newer", b"newer ", b"\tolder",
    b"succeeds ", b" succeeds", b"succeeds 1", b"succeeds older", b"succeeds\r", b"Succeeds", b"succeed", b"success", b"succeeds?", b"succeeds .", b"succeeds succeeds",
    b"horizon ", b" horizon", b"horizon 0", b"horizon 1500", b"horizon\r", b"Horizon", b"horizons", b"horizon -1", b"horizon .", b"hor", b"horizon\t",
];

impl Writer {
    pub fn any_bad_pair_line(&mut self) {
        let line = self.random.pick(BAD);
        self.line(line);
    }
}

/// Every bad line, before questions that show that the older table stays.
pub fn all(writer: &mut Writer) {
    let base = &bases()[0];
    writer.load_older(&base.older);
    writer.load(&base.newer);
    for (i, line) in BAD.iter().enumerate() {
        writer.line(line);
        if i % 2 == 0 {
            writer.labelled("yes: a bad line changes nothing", Question::Succeeds);
        } else {
            writer.labelled("1500: a bad line changes nothing", Question::Horizon);
        }
    }
    // A line that empties a list of the tables in force leaves the older ones.
    writer.older();
    writer.line(b"segments");
    writer.tables.count.clear();
    writer.tables.time.clear();
    writer.tables.rate.clear();
    writer.both("newer 3 0", "newer 3 0", "the tables in force have no segments");
    writer.load(&base.newer);
    writer.both("yes", "2549", "the older ones have theirs");
}
