//! `compare`: one line for the two tables' succession, one for their horizon, then one for each stamp or message.

use super::kernel::Kernel;
use super::put;
use crate::{horizon, succeeds, Succession};

/// Both tables are a kernel's, so neither is refused.
pub fn put_tables(output: &mut String, older: &Kernel, newer: &Kernel) {
    let (older, newer) = (older.tables.table(), newer.tables.table());
    let said = match succeeds(older, newer).expect("a kernel's tables are accepted") {
        Succession::Yes => "yes".to_string(),
        Succession::No(hypothesis, row) => format!("no\t{}\t{}", hypothesis.name(), row),
    };
    let horizon = horizon(older, newer).expect("a kernel's tables are accepted");
    *output += &format!("succeeds\t{}\nhorizon\t{}\n", said, horizon);
}

/// False where the line is not `same` with an answer.
pub fn put_line(output: &mut String, older: &Kernel, newer: &Kernel, line: &[u8], seconds: bool, hex: bool) -> bool {
    let answer = |(e, t): (u64, i64)| format!("{}\t{}", e, put::time(t.into(), seconds));
    let refusal = put::refusal_fields;
    let (old, new) = (older.timed(line, hex), newer.timed(line, hex));
    let fields = match (old, new) {
        (Ok(old), Ok(new)) if old == new => format!("same\t{}", answer(old)),
        (Ok(old), Ok(new)) => {
            let by = i128::from(new.1) - i128::from(old.1);
            format!("differ\t{}\t{}\t{}", answer(old), answer(new), put::time(by, seconds))
        }
        (Err(old), Ok(new)) => format!("older refuses\t{}\t{}", refusal(old), answer(new)),
        (Ok(old), Err(new)) => format!("newer refuses\t{}\t{}", refusal(new), answer(old)),
        // "the place is the older's"
        (Err(old), Err(new)) if old.number == new.number => format!("same\t{}", put::refused(old)),
        (Err(old), Err(new)) => format!("refused\t{}\t{}", refusal(old), refusal(new)),
    };
    *output += &fields;
    output.push('\n');
    old.is_ok() && old == new
}
