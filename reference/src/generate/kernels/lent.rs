//! Lent lists: exact, one too short, longer, empty.

use super::draft::{Draft, Style};
use super::{small, Writer};
use crate::generate::tables::sound;
use crate::script::{Tables, MOST_LENT};

const LISTS: [&str; 7] = ["moduli", "offsets", "starts", "ends", "counts", "times", "rates"];

pub fn all(writer: &mut Writer) {
    for (list, name) in LISTS.iter().enumerate() {
        for way in 0..20 {
            let draft = kernel(writer);
            let mut lent = draft.lent;
            match way {
                // The others have exactly enough, or more.
                0..=7 => {}
                8..=12 => lent = lent.map(|len| (len + 1 + way % 3).min(MOST_LENT)),
                _ => lent = [MOST_LENT; 7],
            }
            lent[list] = if way % 7 == 6 { 0 } else { draft.lent[list] - 1 };
            ask(writer, &format!("16: {}", name), &draft, lent);
        }
        // One list alone is longer.
        for more in [1, 2, 30] {
            let draft = kernel(writer);
            let mut lent = draft.lent;
            lent[list] = (lent[list] + more).min(MOST_LENT);
            ask(writer, "ok: room", &draft, lent);
        }
    }
    for len in [0, 1, 2, 3, 40] {
        let a = super::table_a();
        for _ in 0..3 {
            let draft = writer.of(&a);
            ask(writer, if len < 2 { "16: all" } else { "ok: room" }, &draft, [len; 7]);
        }
    }
    // Several lists too short, among them the first or the last.
    for lent in [
        [1, 1, 2, 2, 2, 2, 2],
        [2, 2, 2, 2, 2, 1, 1],
        [1, 2, 2, 2, 2, 2, 1],
        [0, 40, 40, 40, 40, 40, 0],
        [2, 2, 1, 2, 1, 2, 2],
    ] {
        for _ in 0..4 {
            let a = super::table_a();
            let draft = writer.of(&a);
            ask(writer, "16: all", &draft, lent);
        }
    }
    forty(writer);
}

fn ask(writer: &mut Writer, label: &str, draft: &Draft, lent: [usize; 7]) {
    let text = draft.text(&mut writer.random, Style::Short);
    writer.kernel(label, draft.clock, lent, &text);
}

fn kernel(writer: &mut Writer) -> Draft {
    let tables = small(&mut writer.random);
    writer.of(&tables)
}

/// As many rows as a lent list can have, and one more.
fn forty(writer: &mut Writer) {
    let (layout, ..) = crate::table_a();
    for rows in [39, 40, 41] {
        let partitions = Tables { start: vec![5; rows], end: (6..6 + rows as u64).collect(), ..super::table_a() };
        let segments = Tables {
            layout,
            count: (0..rows as u64).map(|row| row * 3).collect(),
            time: (0..rows as i64).map(|row| row * 1_001).collect(),
            rate: vec![12_345; rows],
            ..super::table_a()
        };
        for (tables, first, last) in [(partitions, 2, 3), (segments, 4, 6)] {
            let mut draft = writer.of(&tables);
            if first == 2 {
                // The total is small: all segments at its front.
                draft = writer.of(&Tables { count: vec![0], time: vec![0], rate: vec![25_000], ..tables });
            }
            for list in first..=last {
                for short in [39, 40] {
                    let mut lent = [MOST_LENT; 7];
                    lent[list] = short;
                    let room = rows <= short && rows <= MOST_LENT;
                    ask(
                        writer,
                        &if room { "ok: room".to_string() } else { format!("16: {}", LISTS[list]) },
                        &draft,
                        lent,
                    );
                }
            }
        }
    }
    // Ten fields need ten entries.
    let mut ten = sound(&mut writer.random);
    while ten.layout.n != 10 || ten.count.len() > 4 || ten.start.len() > 4 {
        ten = sound(&mut writer.random);
    }
    for (list, len) in [(0, 9), (1, 9), (0, 10), (1, 10), (0, 11), (1, 11)] {
        let draft = writer.of(&ten);
        let mut lent = draft.lent;
        lent[list] = len;
        ask(writer, &if len < 10 { format!("16: {}", LISTS[list]) } else { "ok: room".to_string() }, &draft, lent);
    }
}
