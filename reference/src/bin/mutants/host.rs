//! The changes to the host's calls. The stored calls of a host must see them.

use super::list::{mutant, Mutant};

const CALLS: &str = "host/mod.rs";
const SLICES: &str = "host/slices.rs";

/// Where the lists of the three tables are taken from.
const STARTS: &str = "tables.start = numbers(partitions.starts, 2)?;";
const ENDS: &str = "tables.end = numbers(partitions.ends, 2)?;";
const COUNTS: &str = "tables.count = numbers(segments.counts, 3)?;";
const TIMES: &str = "numbers(segments.times, 3)?";
const RATES: &str = "tables.rate = numbers(segments.rates, 3)?;";
const MODULI: &str = "slots(layout.moduli, layout.n)?";
const OFFSETS: &str = "slots(layout.offsets, layout.n)?";
const UNDER_N: &str = "if (list.len() as u64) < n {";
const EIGHTS: &str = "if slice.len() % 8 != 0 {";
const CODE: &str = "u8::try_from(layout.delimiter).unwrap_or(0)";
const LIST: &str = "let list = numbers(slice, 1)?;";
const MESSAGE: &str = "text_of(message).and_then(|_| with_partitions(layout, partitions))";
const REFUSED: &str = "-i64::from(refusal.number)";
const TIME: &str = "let time = match result {";
const WRITE: &str = "eight.copy_from_slice(&time.to_le_bytes()),";
const ROOM: &str = "match buffer.get_mut(..8) {";
const SHORT: &str = "None => return refused(Refusal::new(16)),";
const ZERO: &str = "    0\n}";

#[rustfmt::skip]
pub const MUTANTS: &[Mutant] = &[
    // Bytes to numbers.
    mutant("host-high-byte-first", SLICES, "u64::from_le_bytes", "u64::from_be_bytes"),
    mutant("host-halves-exchanged", SLICES, "Ok(slice.chunks_exact(8).map(number).collect())", "Ok(slice.chunks_exact(8).map(number).map(|number| number.rotate_left(32)).collect())"),
    mutant("host-four-bytes-of-eight", SLICES, "Ok(slice.chunks_exact(8).map(number).collect())", "Ok(slice.chunks_exact(8).map(number).map(|number| number & 0xffff_ffff).collect())"),
    mutant("host-seven-bytes-of-eight", SLICES, "Ok(slice.chunks_exact(8).map(number).collect())", "Ok(slice.chunks_exact(8).map(number).map(|number| number << 8 >> 8).collect())"),
    mutant("host-sign-lost", SLICES, "|time| time as i64", "|time| (time & (u64::MAX >> 1)) as i64"),
    mutant("host-sign-and-magnitude", SLICES, "|time| time as i64", "|time| if time >> 63 == 1 { -((time << 1 >> 1) as i64) } else { time as i64 }"),
    mutant("host-times-of-32-bits", SLICES, "|time| time as i64", "|time| i64::from(time as i32)"),
    // Lengths of slices.
    mutant("host-17-bytes", SLICES, EIGHTS, "if false {"),
    mutant("host-rest-is-a-number", SLICES, EIGHTS, "if slice.len() % 8 != 0 && slice.len() > 8 { return numbers(&[slice, &[0; 8][slice.len() % 8..]].concat(), table); } if slice.len() % 8 != 0 {"),
    mutant("host-slices-in-fours", SLICES, EIGHTS, "if slice.len() % 4 != 0 {"),
    mutant("host-slices-in-sixteens", SLICES, EIGHTS, "if slice.len() % 16 != 0 {"),
    mutant("host-bytes-behind-the-nth", SLICES, LIST, "let list = numbers(if n < 99 { &slice[..slice.len().min(8 * n as usize)] } else { slice }, 1)?;"),
    mutant("host-eights-together", SLICES, STARTS, "let PartitionSlices { starts, ends } = partitions; if (starts.len() + ends.len()) % 8 == 0 { tables.start = numbers(&starts[..starts.len() / 8 * 8], 2)?; tables.end = numbers(&ends[..ends.len() / 8 * 8], 2)?; return Ok(tables); } tables.start = numbers(starts, 2)?;"),
    mutant("host-no-offsets-are-zeros", SLICES, OFFSETS, "if layout.offsets.is_empty() { [0; 10] } else { slots(layout.offsets, layout.n)? }"),
    mutant("host-under-n-padded", SLICES, UNDER_N, "if n > 10 {"),
    mutant("host-under-n-padded-by-1", SLICES, LIST, "let mut list = numbers(slice, 1)?; while list.len() < 10 && (list.len() as u64) < n { list.push(1); }"),
    mutant("host-offsets-under-n", SLICES, OFFSETS, "slots(layout.offsets, 0)?"),
    mutant("host-one-under-n", SLICES, UNDER_N, "if (list.len() as u64) + 1 < n {"),
    mutant("host-longer-lists", SLICES, UNDER_N, "if list.len() as u64 != n {"),
    mutant("host-lists-over-ten", SLICES, UNDER_N, "if list.len() > 10 || (list.len() as u64) < n {"),
    mutant("host-always-ten", SLICES, UNDER_N, "if list.len() < 10 {"),
    mutant("host-lists-of-one-length", SLICES, OFFSETS, "slots(layout.offsets, (layout.moduli.len() / 8).max(layout.offsets.len() / 8) as u64)?"),
    mutant("host-entries-from-the-end", SLICES, "slots.iter_mut().zip(list)", "slots.iter_mut().zip(list.into_iter().rev())"),
    // n and delimiter.
    mutant("host-n-times-eight", SLICES, UNDER_N, "let reached = n.wrapping_mul(8) as usize <= slice.len(); if reached && n > 0 { let _ = list[n as usize - 1]; } if !reached {"),
    mutant("host-n-wraps-at-61-bits", SLICES, "let moduli = slots(", "let layout = LayoutSlices { n: layout.n << 3 >> 3, ..layout }; let moduli = slots("),
    mutant("host-n-wraps-at-32-bits", SLICES, "let moduli = slots(", "let layout = LayoutSlices { n: layout.n & 0xffff_ffff, ..layout }; let moduli = slots("),
    mutant("host-n-wraps-at-8-bits", SLICES, "let moduli = slots(", "let layout = LayoutSlices { n: layout.n & 0xff, ..layout }; let moduli = slots("),
    mutant("host-n-wraps-behind-the-lists", SLICES, "Layout { n: layout.n,", "Layout { n: layout.n & 0xff,"),
    mutant("host-n-is-the-moduli", SLICES, "Layout { n: layout.n,", "Layout { n: layout.n.max((layout.moduli.len() / 8) as u64),"),
    mutant("host-delimiter-wraps-at-8-bits", SLICES, CODE, "layout.delimiter as u8"),
    mutant("host-delimiter-wraps-at-16-bits", SLICES, CODE, "u8::try_from(layout.delimiter as u16).unwrap_or(0)"),
    mutant("host-delimiter-wraps-at-32-bits", SLICES, CODE, "u8::try_from(layout.delimiter as u32).unwrap_or(0)"),
    mutant("host-delimiter-above-255-is-1", SLICES, CODE, "u8::try_from(layout.delimiter).unwrap_or(1)"),
    // Which table.
    mutant("host-offsets-are-2", SLICES, OFFSETS, "slots(layout.offsets, layout.n).map_err(|_| Refusal::new(2))?"),
    mutant("host-moduli-are-16", SLICES, MODULI, "slots(layout.moduli, layout.n).map_err(|_| Refusal::new(16))?"),
    mutant("host-starts-are-1", SLICES, STARTS, "tables.start = numbers(partitions.starts, 1)?;"),
    mutant("host-ends-are-3", SLICES, ENDS, "tables.end = numbers(partitions.ends, 3)?;"),
    mutant("host-counts-are-2", SLICES, COUNTS, "tables.count = numbers(segments.counts, 2)?;"),
    mutant("host-times-are-2", SLICES, TIMES, "numbers(segments.times, 2)?"),
    mutant("host-rates-are-1", SLICES, RATES, "tables.rate = numbers(segments.rates, 1)?;"),
    mutant("host-starts-and-ends-exchanged", SLICES, "    tables.end = numbers(partitions.ends, 2)?;\n    Ok(tables)", "    tables.end = numbers(partitions.ends, 2)?;\n    std::mem::swap(&mut tables.start, &mut tables.end);\n    Ok(tables)"),
    mutant("host-counts-and-rates-exchanged", SLICES, "    tables.rate = numbers(segments.rates, 3)?;\n    Ok(tables)", "    tables.rate = numbers(segments.rates, 3)?;\n    std::mem::swap(&mut tables.count, &mut tables.rate);\n    Ok(tables)"),
    mutant("host-moduli-and-offsets-exchanged", SLICES, "Layout { n: layout.n, moduli, offsets, delimiter }", "Layout { n: layout.n, moduli: offsets, offsets: moduli, delimiter }"),
    // Order.
    mutant("host-partitions-before-the-layout", SLICES, "let mut tables = layout_of(layout)?;", "numbers(partitions.starts, 2)?; numbers(partitions.ends, 2)?; let mut tables = layout_of(layout)?;"),
    mutant("host-partitions-before-the-layouts-rules", SLICES, "    tables.layout.check()?;\n", ""),
    mutant("host-segments-before-the-layout", SLICES, "let mut tables = with_partitions(layout, partitions)?;", "numbers(segments.counts, 3)?; numbers(segments.times, 3)?; numbers(segments.rates, 3)?; let mut tables = with_partitions(layout, partitions)?;"),
    mutant("host-segments-before-the-partitions-rules", SLICES, "    tables.partitions().check(tables.layout.check()?.p)?;\n", ""),
    mutant("host-slices-before-21", CALLS, MESSAGE, "with_partitions(layout, partitions)"),
    mutant("host-layout-before-21", CALLS, MESSAGE, "layout_of(layout).and_then(|_| text_of(message)).and_then(|_| with_partitions(layout, partitions))"),
    mutant("host-rules-before-21", CALLS, MESSAGE, "with_partitions(layout, partitions).and_then(|tables| { tables.partitions().check(tables.layout.check()?.p)?; text_of(message)?; Ok(tables) })"),
    mutant("host-message-is-a-stamp", CALLS, "crate::read_message(&tables.layout,", "crate::read_stamp(&tables.layout,"),
    mutant("host-stamp-is-a-text", CALLS, "crate::read_stamp(&tables.layout, tables.partitions(), stamp)", "crate::read_text(&tables.layout, stamp)"),
    // What comes back.
    mutant("host-refusal-positive", CALLS, REFUSED, "i64::from(refusal.number)"),
    mutant("host-refusal-is-minus-one", CALLS, REFUSED, "-1"),
    mutant("host-place-added", CALLS, REFUSED, "-i64::from(refusal.number) - refusal.place.unwrap_or(0) as i64"),
    mutant("host-place-packed", CALLS, REFUSED, "-i64::from(refusal.number) - 256 * refusal.place.map_or(0, |place| place as i64 + 1)"),
    mutant("host-17-comes-back", CALLS, REFUSED, "-i64::from(if refusal.number > 20 { 17 } else { refusal.number })"),
    mutant("host-count-plus-one", CALLS, "|count| count as i64", "|count| count as i64 + 1"),
    mutant("host-count-of-32-bits", CALLS, "|count| count as i64", "|count| i64::from(count as i32)"),
    mutant("host-print-returns-0", CALLS, "|length| length as i64", "|_| 0"),
    mutant("host-print-returns-the-buffer", CALLS, "crate::print_count(&tables.layout, number, buffer)", "crate::print_count(&tables.layout, number, buffer).map(|_| buffer.len())"),
    mutant("host-time-comes-back", CALLS, ZERO, "    time\n}"),
    mutant("host-eight-comes-back", CALLS, ZERO, "    8\n}"),
    // The time's buffer.
    mutant("host-time-high-byte-first", CALLS, WRITE, "eight.copy_from_slice(&time.to_be_bytes()),"),
    mutant("host-time-without-sign", CALLS, WRITE, "eight.copy_from_slice(&time.abs().to_le_bytes()),"),
    mutant("host-time-as-decimal", CALLS, WRITE, "eight.copy_from_slice(format!(\"{:>8}\", time % 10_000_000).as_bytes()),"),
    mutant("host-four-bytes-written", CALLS, WRITE, "eight[..4].copy_from_slice(&time.to_le_bytes()[..4]),"),
    mutant("host-16-before-12-and-13", CALLS, TIME, "let time = match result { Err(refusal) if refusal.number > 3 && buffer.len() < 8 => return refused(Refusal::new(16)),"),
    mutant("host-16-before-13", CALLS, TIME, "let time = match result { Err(Refusal { number: 13, .. }) if buffer.len() < 8 => return refused(Refusal::new(16)),"),
    mutant("host-16-before-12", CALLS, TIME, "let time = match result { Err(Refusal { number: 12, .. }) if buffer.len() < 8 => return refused(Refusal::new(16)),"),
    mutant("host-16-before-tables", CALLS, TIME, "let time = match result { _ if buffer.len() < 8 => return refused(Refusal::new(16)),"),
    mutant("host-print-16-first", CALLS, "    length(layout_of(layout)", "    if buffer.len() < 4 { return -16; }\n    length(layout_of(layout)"),
    mutant("host-stamp-16-first", CALLS, "    length(tables.and_then", "    if buffer.len() < 4 { return -16; }\n    length(tables.and_then"),
    mutant("host-nine-bytes-written", CALLS, "    0\n}", "    if let Some(ninth) = buffer.get_mut(8) { *ninth = 0; }\n    0\n}"),
    mutant("host-sign-to-the-end", CALLS, "    0\n}", "    buffer[8..].fill(if time < 0 { 255 } else { 0 });\n    0\n}"),
    mutant("host-buffer-of-9-refused", CALLS, ROOM, "if buffer.len() > 8 { return refused(Refusal::new(16)); } match buffer.get_mut(..8) {"),
    mutant("host-buffer-of-8-refused", CALLS, ROOM, "if buffer.len() < 9 { return refused(Refusal::new(16)); } match buffer.get_mut(..8) {"),
    mutant("host-buffer-of-7-written", CALLS, ROOM, "if buffer.len() == 7 { buffer.copy_from_slice(&time.to_le_bytes()[..7]); return 0; } match buffer.get_mut(..8) {"),
    mutant("host-short-buffer-written", CALLS, SHORT, "None => { let len = buffer.len(); buffer.copy_from_slice(&time.to_le_bytes()[..len]); return refused(Refusal::new(16)) }"),
    mutant("host-at-the-buffers-end", CALLS, ROOM, "let from = buffer.len().saturating_sub(8); match buffer.get_mut(from..).filter(|end| end.len() == 8) {"),
    mutant("host-refusal-clears-the-buffer", CALLS, "Err(refusal) => return refused(refusal),", "Err(refusal) => { buffer.fill(0); return refused(refusal) }"),
    mutant("host-refusal-in-the-buffer", CALLS, "Err(refusal) => return refused(refusal),", "Err(refusal) => { buffer.iter_mut().take(1).for_each(|byte| *byte = refusal.number as u8); return refused(refusal) }"),
    mutant("host-count-in-the-buffer", CALLS, "written(time, buffer)", "written(time.map(|_| e as i64), buffer)"),
];
