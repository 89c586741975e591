//! Tables that break each rule in turn, and two rules at once.

use crate::generate::broken::*;
use crate::generate::tables::{p, sound};
use crate::generate::writer::Writer;
use crate::script::Tables;

pub fn all(writer: &mut Writer) {
    for rule in 0..LAYOUT_RULES + PARTITION_RULES + SEGMENT_RULES {
        for _ in 0..5 {
            let mut tables = base(writer, rule);
            apply(writer, &mut tables, rule);
            writer.load(&tables);
            writer.each_question();
        }
    }
    for _ in 0..40 {
        let rules = LAYOUT_RULES + PARTITION_RULES + SEGMENT_RULES;
        let (first, second) = (writer.random.below(rules), writer.random.below(rules));
        let mut tables = base(writer, second);
        apply(writer, &mut tables, second);
        apply(writer, &mut tables, first);
        writer.load(&tables);
        writer.each_question();
    }
}

/// Sound tables in which the rule can be broken.
fn base(writer: &mut Writer, rule: usize) -> Tables {
    loop {
        let tables = sound(&mut writer.random);
        let wide = rule != LAYOUT_RULES + PARTITION_RULES - 1 || p(&tables.layout) > 600_000_000_000_000;
        if wide && (2..8).contains(&tables.count.len()) && tables.start.len() < 8 {
            return tables;
        }
    }
}

fn apply(writer: &mut Writer, tables: &mut Tables, rule: usize) {
    let random = &mut writer.random;
    if rule < LAYOUT_RULES {
        break_layout(random, tables, rule);
    } else if rule < LAYOUT_RULES + PARTITION_RULES {
        break_partitions(random, tables, rule - LAYOUT_RULES);
    } else {
        break_segments(random, tables, rule - LAYOUT_RULES - PARTITION_RULES);
    }
}
