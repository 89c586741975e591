//! The changes to two tables.

use super::list::{mutant, Mutant};

const FILE: &str = "succession.rs";
const SESSION: &str = "script/session.rs";

/// The order.
const LAYOUT: &str = "        (Hypothesis::Layout, layout(older.layout, newer.layout)),\n";
const PARTITION: &str = "        (Hypothesis::Partition, partition(older.partitions, newer.partitions)),\n";
const SEGMENT: &str = "        (Hypothesis::Segment, segment(older.segments, newer.segments)),\n";
const FURTHER: &str = "        (Hypothesis::Further, further(older.segments, newer.segments, old.total)),\n";
const SEAM: &str = "        (Hypothesis::Seam, seam(older.segments, newer.segments, new.msf)),\n";
const LAYOUT_PARTITION: &str = "        (Hypothesis::Layout, layout(older.layout, newer.layout)),\n        (Hypothesis::Partition, partition(older.partitions, newer.partitions)),\n";
const PARTITION_SEGMENT: &str = "        (Hypothesis::Partition, partition(older.partitions, newer.partitions)),\n        (Hypothesis::Segment, segment(older.segments, newer.segments)),\n";
const SEGMENT_FURTHER: &str = "        (Hypothesis::Segment, segment(older.segments, newer.segments)),\n        (Hypothesis::Further, further(older.segments, newer.segments, old.total)),\n";
const FURTHER_SEAM: &str = "        (Hypothesis::Further, further(older.segments, newer.segments, old.total)),\n        (Hypothesis::Seam, seam(older.segments, newer.segments, new.msf)),\n";

/// Refusals.
const OLDER_FIRST: &str = "    let old = older.check().map_err(RefusedTable::Older)?;\n    let new = newer.check().map_err(RefusedTable::Newer)?;\n";
const WHOLE: &str =
    "        let total = self.partitions.check(clock.p)?;\n        self.segments.check(clock.msf, total)?;\n";

/// The hypotheses.
const ONE: &str = "    let one = older.n == newer.n\n";
const KEPT: &str = "let kept = if row < last { end == older.end[row] } else { end >= older.end[row] };";
const ROWS: &str = "    (0..=last).find(|&row| match (newer.start.get(row), newer.end.get(row)) {";
const NO_ROW: &str = "        _ => true,\n    })";
const SEGMENTS: &str = "(0..older.count.len()).find(|&row| older.row_at(row) != newer.row_at(row))";
const ABOVE: &str = "(older.count.len()..newer.count.len()).find(|&row| newer.count[row] <= total)";
const LAST: &str = "    let last = older.count.len() - 1;\n    if last + 1 < newer.count.len() && newer.steps_back_at(last, msf) {\n        Some(last)\n";

/// The horizon.
const ZERO: &str = "    if layout(older.layout, newer.layout).is_some() || partition(older.partitions, newer.partitions).is_some() {\n";
const EITHER_ROWS: &str = "let rows = olds.count.len().max(news.count.len());";
const DIFFERS: &str = "let differs = (0..rows).find(|&row| olds.row_at(row) != news.row_at(row));";
const COUNTS: &str = "[olds.count.get(row), news.count.get(row)]";
const LEAST: &str = "fold(old.total, |least, &&count| least.min(count))";

#[rustfmt::skip]
pub const MUTANTS: &[Mutant] = &[
    // The order of the names.
    mutant("pair-partition-before-layout", FILE, LAYOUT_PARTITION, "        (Hypothesis::Partition, partition(older.partitions, newer.partitions)),\n        (Hypothesis::Layout, layout(older.layout, newer.layout)),\n"),
    mutant("pair-segment-before-partition", FILE, PARTITION_SEGMENT, "        (Hypothesis::Segment, segment(older.segments, newer.segments)),\n        (Hypothesis::Partition, partition(older.partitions, newer.partitions)),\n"),
    mutant("pair-further-before-segment", FILE, SEGMENT_FURTHER, "        (Hypothesis::Further, further(older.segments, newer.segments, old.total)),\n        (Hypothesis::Segment, segment(older.segments, newer.segments)),\n"),
    mutant("pair-seam-before-further", FILE, FURTHER_SEAM, "        (Hypothesis::Seam, seam(older.segments, newer.segments, new.msf)),\n        (Hypothesis::Further, further(older.segments, newer.segments, old.total)),\n"),
    mutant("pair-last-that-fails", FILE, "hypotheses.iter().find_map(", "hypotheses.iter().rev().find_map("),
    mutant("pair-layout-not-asked", FILE, LAYOUT, ""),
    mutant("pair-partition-not-asked", FILE, PARTITION, ""),
    mutant("pair-segment-not-asked", FILE, SEGMENT, ""),
    mutant("pair-further-not-asked", FILE, FURTHER, ""),
    mutant("pair-seam-not-asked", FILE, SEAM, ""),
    mutant("pair-row-of-the-least", FILE, "    let first = hypotheses", "    let row = hypotheses.iter().filter_map(|&(_, fails)| fails).min().unwrap_or(0);\n    let hypotheses = hypotheses.map(|(hypothesis, fails)| (hypothesis, fails.map(|_| row)));\n    let first = hypotheses"),
    mutant("pair-rows-from-1", FILE, "fails.map(|row| Succession::No(hypothesis, row))", "fails.map(|row| Succession::No(hypothesis, row + usize::from(hypothesis != Hypothesis::Layout)))"),
    mutant("pair-exchanged", FILE, "    let hypotheses = [\n", "    let (older, newer) = (newer, older);\n    let hypotheses = [\n"),
    // The names and words.
    mutant("pair-name-layout", FILE, "=> \"layout\"", "=> \"partition\""),
    mutant("pair-name-further", FILE, "=> \"further\"", "=> \"segment\""),
    mutant("pair-name-seam", FILE, "=> \"seam\"", "=> \"back\""),
    mutant("pair-older-is-newer", FILE, "\"older {}\"", "\"newer {}\""),
    mutant("pair-newer-is-older", FILE, "\"newer {}\"", "\"older {}\""),
    // Refusals.
    mutant("pair-newer-checked-first", FILE, OLDER_FIRST, "    let new = newer.check().map_err(RefusedTable::Newer)?;\n    let old = older.check().map_err(RefusedTable::Older)?;\n"),
    mutant("pair-layouts-checked-first", FILE, OLDER_FIRST, "    older.layout.check().map_err(RefusedTable::Older)?;\n    newer.layout.check().map_err(RefusedTable::Newer)?;\n    let old = older.check().map_err(RefusedTable::Older)?;\n    let new = newer.check().map_err(RefusedTable::Newer)?;\n"),
    mutant("pair-stamps-checked-first", FILE, OLDER_FIRST, "    for (table, side) in [(older, RefusedTable::Older as fn(Refusal) -> RefusedTable), (newer, RefusedTable::Newer)] {\n        let clock = table.layout.check().map_err(side)?;\n        table.partitions.check(clock.p).map_err(side)?;\n    }\n    let old = older.check().map_err(RefusedTable::Older)?;\n    let new = newer.check().map_err(RefusedTable::Newer)?;\n"),
    mutant("pair-the-lesser-number-first", FILE, OLDER_FIRST, "    if let (Err(old), Err(new)) = (older.check(), newer.check()) {\n        if new.number < old.number {\n            return Err(RefusedTable::Newer(new));\n        }\n    }\n    let old = older.check().map_err(RefusedTable::Older)?;\n    let new = newer.check().map_err(RefusedTable::Newer)?;\n"),
    mutant("pair-no-places", FILE, OLDER_FIRST, "    let old = older.check().map_err(|refusal| RefusedTable::Older(Refusal::new(refusal.number)))?;\n    let new = newer.check().map_err(|refusal| RefusedTable::Newer(Refusal::new(refusal.number)))?;\n"),
    mutant("pair-newer-has-no-place", FILE, OLDER_FIRST, "    let old = older.check().map_err(RefusedTable::Older)?;\n    let new = newer.check().map_err(|refusal| RefusedTable::Newer(Refusal::new(refusal.number)))?;\n"),
    mutant("pair-segments-not-checked", FILE, WHOLE, "        let total = self.partitions.check(clock.p)?;\n        if self.segments.count.is_empty() || self.segments.time.is_empty() || self.segments.rate.is_empty() {\n            self.segments.check(clock.msf, total)?;\n        }\n"),
    mutant("pair-segments-before-partitions", FILE, WHOLE, "        let lengths = self.partitions.start.iter().zip(self.partitions.end).map(|(start, end)| end.saturating_sub(*start));\n        self.segments.check(clock.msf, lengths.fold(0, u64::saturating_add))?;\n        let total = self.partitions.check(clock.p)?;\n"),
    mutant("pair-steps-back-refused", FILE, OLDER_FIRST, "    let old = older.check().map_err(RefusedTable::Older)?;\n    let new = newer.check().map_err(RefusedTable::Newer)?;\n    if crate::steps_back(newer.layout, newer.partitions, newer.segments) == Ok(true) {\n        return Err(RefusedTable::Newer(Refusal::new(3)));\n    }\n"),
    mutant("pair-layout-is-refused", FILE, OLDER_FIRST, "    let old = older.check().map_err(RefusedTable::Older)?;\n    let new = newer.check().map_err(RefusedTable::Newer)?;\n    if layout(older.layout, newer.layout).is_some() {\n        return Err(RefusedTable::Newer(Refusal::new(1)));\n    }\n"),
    // The layout.
    mutant("pair-n-not-compared", FILE, ONE, "    let n = n.min(newer.n as usize);\n    let one = true\n"),
    mutant("pair-moduli-not-compared", FILE, "        && older.moduli[..n] == newer.moduli[..n]\n", ""),
    mutant("pair-first-modulus-alone", FILE, "older.moduli[..n] == newer.moduli[..n]", "older.moduli[0] == newer.moduli[0]"),
    mutant("pair-moduli-as-a-product", FILE, "older.moduli[..n] == newer.moduli[..n]", "older.moduli[..n].iter().product::<u64>() == newer.moduli[..n].iter().product::<u64>()"),
    mutant("pair-offsets-not-compared", FILE, "        && older.offsets[..n] == newer.offsets[..n]\n", ""),
    mutant("pair-first-offset-alone", FILE, "older.offsets[..n] == newer.offsets[..n]", "older.offsets[0] == newer.offsets[0]"),
    mutant("pair-delimiter-not-compared", FILE, "        && older.delimiter == newer.delimiter;", ";"),
    mutant("pair-all-moduli-compared", FILE, "older.moduli[..n] == newer.moduli[..n]", "older.moduli == newer.moduli"),
    mutant("pair-all-offsets-compared", FILE, "older.offsets[..n] == newer.offsets[..n]", "older.offsets == newer.offsets"),
    // Partitions.
    mutant("pair-starts-not-compared", FILE, "            start != older.start[row] || !kept\n", "            !kept\n"),
    mutant("pair-ends-not-compared", FILE, "            start != older.start[row] || !kept\n", "            start != older.start[row]\n"),
    mutant("pair-inner-ends-not-compared", FILE, KEPT, "let kept = row < last || end >= older.end[row];"),
    mutant("pair-last-end-not-compared", FILE, KEPT, "let kept = row == last || end == older.end[row];"),
    mutant("pair-last-end-must-be-kept", FILE, KEPT, "let kept = end == older.end[row];"),
    mutant("pair-last-end-must-be-greater", FILE, KEPT, "let kept = if row < last { end == older.end[row] } else { end > older.end[row] };"),
    mutant("pair-last-end-may-be-smaller", FILE, KEPT, "let kept = if row < last { end == older.end[row] } else { end <= older.end[row] };"),
    mutant("pair-any-end-may-be-greater", FILE, KEPT, "let kept = end >= older.end[row];"),
    mutant("pair-last-of-the-newer", FILE, KEPT, "let kept = if row + 1 < newer.end.len() { end == older.end[row] } else { end >= older.end[row] };"),
    mutant("pair-last-length-compared", FILE, KEPT, "let kept = if row < last { end == older.end[row] } else { end - start >= older.end[row] - older.start[row] };\n            let start = if row < last { start } else { older.start[row] };"),
    mutant("pair-lengths-compared", FILE, KEPT, "let kept = if row < last { end - start == older.end[row] - older.start[row] } else { end >= older.end[row] };\n            let start = if row < last { older.start[row] } else { start };"),
    mutant("pair-no-partition-added", FILE, ROWS, "    if newer.start.len() > last + 1 {\n        return Some(last);\n    }\n    (0..=last).find(|&row| match (newer.start.get(row), newer.end.get(row)) {"),
    mutant("pair-not-both-at-the-end", FILE, ROWS, "    if newer.start.len() > last + 1 && newer.end[last] > older.end[last] {\n        return Some(last);\n    }\n    (0..=last).find(|&row| match (newer.start.get(row), newer.end.get(row)) {"),
    mutant("pair-fewer-partitions", FILE, NO_ROW, "        _ => false,\n    })"),
    mutant("pair-missing-partition-first", FILE, ROWS, "    if newer.start.len() <= last {\n        return Some(newer.start.len());\n    }\n    (0..=last).find(|&row| match (newer.start.get(row), newer.end.get(row)) {"),
    mutant("pair-last-partition-that-fails", FILE, ROWS, "    (0..=last).rev().find(|&row| match (newer.start.get(row), newer.end.get(row)) {"),
    mutant("pair-starts-before-ends", FILE, ROWS, "    if let Some(row) = (0..=last).find(|&row| newer.start.get(row).map_or(false, |&start| start != older.start[row])) {\n        return Some(row);\n    }\n    (0..=last).find(|&row| match (newer.start.get(row), newer.end.get(row)) {"),
    mutant("pair-missing-partition-is-the-last", FILE, NO_ROW, "        _ => true,\n    }).map(|row| if row < newer.start.len() { row } else { last })"),
    mutant("pair-totals-compared", FILE, ROWS, "    if newer.end.iter().sum::<u64>() - newer.start.iter().sum::<u64>() < older.end.iter().sum::<u64>() - older.start.iter().sum::<u64>() {\n        return Some(last);\n    }\n    (0..=last).find(|&row| match (newer.start.get(row), newer.end.get(row)) {"),
    // Segments.
    mutant("pair-counts-not-compared", FILE, SEGMENTS, "(0..older.count.len()).find(|&row| older.row_at(row).map(|row| (row.1, row.2)) != newer.row_at(row).map(|row| (row.1, row.2)))"),
    mutant("pair-times-not-compared", FILE, SEGMENTS, "(0..older.count.len()).find(|&row| older.row_at(row).map(|row| (row.0, row.2)) != newer.row_at(row).map(|row| (row.0, row.2)))"),
    mutant("pair-rates-not-compared", FILE, SEGMENTS, "(0..older.count.len()).find(|&row| older.row_at(row).map(|row| (row.0, row.1)) != newer.row_at(row).map(|row| (row.0, row.1)))"),
    mutant("pair-fewer-segments", FILE, SEGMENTS, "(0..older.count.len().min(newer.count.len())).find(|&row| older.row_at(row) != newer.row_at(row))"),
    mutant("pair-last-segment-that-fails", FILE, SEGMENTS, "(0..older.count.len()).rev().find(|&row| older.row_at(row) != newer.row_at(row))"),
    mutant("pair-last-segment-not-compared", FILE, SEGMENTS, "(0..older.count.len() - 1).find(|&row| older.row_at(row) != newer.row_at(row))"),
    mutant("pair-last-rate-not-compared", FILE, SEGMENTS, "(0..older.count.len()).find(|&row| if row + 1 < older.count.len() { older.row_at(row) != newer.row_at(row) } else { older.row_at(row).map(|row| (row.0, row.1)) != newer.row_at(row).map(|row| (row.0, row.1)) })"),
    mutant("pair-counts-before-times", FILE, SEGMENTS, "(0..older.count.len()).find(|&row| older.count.get(row) != newer.count.get(row)).or_else(|| (0..older.count.len()).find(|&row| older.row_at(row) != newer.row_at(row)))"),
    mutant("pair-rows-anywhere", FILE, SEGMENTS, "(0..older.count.len()).find(|&row| !(0..newer.count.len()).any(|at| older.row_at(row) == newer.row_at(at)))"),
    // Further segments.
    mutant("pair-at-the-total", FILE, ABOVE, "(older.count.len()..newer.count.len()).find(|&row| newer.count[row] < total)"),
    mutant("pair-one-above-the-total", FILE, ABOVE, "(older.count.len()..newer.count.len()).find(|&row| newer.count[row] <= total + 1)"),
    mutant("pair-above-the-last-count", FILE, ABOVE, "(older.count.len()..newer.count.len()).find(|&row| newer.count[row] <= older.count[older.count.len() - 1] && total > 0)"),
    mutant("pair-above-the-newer-total", FILE, "further(older.segments, newer.segments, old.total)", "further(older.segments, newer.segments, new.total)"),
    mutant("pair-no-further-segment", FILE, ABOVE, "(older.count.len()..newer.count.len()).find(|_| total > 0)"),
    mutant("pair-last-further-alone", FILE, ABOVE, "(older.count.len().max(newer.count.len().max(1) - 1)..newer.count.len()).find(|&row| newer.count[row] <= total)"),
    mutant("pair-last-further-that-fails", FILE, ABOVE, "(older.count.len()..newer.count.len()).rev().find(|&row| newer.count[row] <= total)"),
    mutant("pair-further-rows-by-themselves", FILE, ABOVE, "(older.count.len()..newer.count.len()).find(|&row| newer.count[row] <= total).map(|row| row - older.count.len())"),
    mutant("pair-second-further-first", FILE, ABOVE, "(older.count.len() + 1..newer.count.len()).find(|&row| newer.count[row] <= total)"),
    // The seam.
    mutant("pair-seam-of-the-next-row", FILE, LAST, "    let last = older.count.len() - 1;\n    if last + 1 < newer.count.len() && newer.steps_back_at(last, msf) {\n        Some(last + 1)\n"),
    mutant("pair-nowhere-steps-back", FILE, LAST, "    let last = older.count.len() - 1;\n    if (0..newer.count.len() - 1).any(|row| newer.steps_back_at(row, msf)) {\n        Some(last)\n"),
    mutant("pair-nowhere-steps-back-its-row", FILE, LAST, "    let back = (0..newer.count.len() - 1).find(|&row| newer.steps_back_at(row, msf));\n    let last = back.unwrap_or(older.count.len() - 1);\n    if back.is_some() {\n        Some(last)\n"),
    mutant("pair-kept-rows-step-back", FILE, LAST, "    let last = older.count.len() - 1;\n    if (0..=last.min(newer.count.len() - 2)).any(|row| newer.count.len() > 1 && newer.steps_back_at(row, msf)) {\n        Some(last)\n"),
    mutant("pair-further-rows-step-back", FILE, LAST, "    let last = older.count.len() - 1;\n    if (last..newer.count.len() - 1).any(|row| newer.steps_back_at(row, msf)) {\n        Some(last)\n"),
    mutant("pair-seam-before-the-last", FILE, LAST, "    let last = older.count.len().max(2) - 2;\n    if last + 1 < newer.count.len() && newer.steps_back_at(last, msf) {\n        Some(last)\n"),
    mutant("pair-seam-of-the-newer-last", FILE, LAST, "    let last = newer.count.len().max(2) - 2;\n    if older.count.len() < newer.count.len() && newer.steps_back_at(last, msf) {\n        Some(last)\n"),
    mutant("pair-seam-by-the-older-row", FILE, LAST, "    let last = older.count.len() - 1;\n    let joined = [&newer.rate[..last.min(newer.rate.len())], &[10 * older.rate[last]], newer.rate.get(last + 1..).unwrap_or(&[])].concat();\n    let newer = Segments { rate: &joined[..newer.rate.len()], ..newer };\n    if last + 1 < newer.count.len() && newer.steps_back_at(last, msf) {\n        Some(last)\n"),
    mutant("pair-seam-rounded-down", FILE, LAST, "    let last = older.count.len() - 1;\n    let later: Vec<i64> = newer.time.iter().enumerate().map(|(row, &time)| if row == last + 1 { time + 1 } else { time }).collect();\n    let back = |times: &[i64]| Segments { time: times, ..newer }.steps_back_at(last, msf);\n    let exact = |row: usize| u128::from(newer.rate[last]) * u128::from(newer.count[row] - newer.count[last]) % u128::from(1_000 * msf) == 0;\n    if last + 1 < newer.count.len() && back(newer.time) && (exact(last + 1) || back(&later)) {\n        Some(last)\n"),
    mutant("pair-equal-is-a-step-back", FILE, LAST, "    let last = older.count.len() - 1;\n    let earlier: Vec<i64> = newer.time.iter().enumerate().map(|(row, &time)| if row == last + 1 { time - 1 } else { time }).collect();\n    if last + 1 < newer.count.len() && (Segments { time: &earlier, ..newer }).steps_back_at(last, msf) {\n        Some(last)\n"),
    mutant("pair-seam-by-the-first-field", FILE, "seam(older.segments, newer.segments, new.msf)", "seam(older.segments, newer.segments, 1)"),
    // The horizon.
    mutant("pair-horizon-of-another-layout", FILE, ZERO, "    if partition(older.partitions, newer.partitions).is_some() {\n"),
    mutant("pair-horizon-of-other-partitions", FILE, ZERO, "    if layout(older.layout, newer.layout).is_some() {\n"),
    mutant("pair-horizon-0-beside-a-no", FILE, ZERO, "    if succeeds(older, newer) != Ok(Succession::Yes) {\n"),
    mutant("pair-horizon-0-beside-a-seam", FILE, ZERO, "    if layout(older.layout, newer.layout).is_some() || partition(older.partitions, newer.partitions).is_some() || matches!(succeeds(older, newer), Ok(Succession::No(Hypothesis::Seam, _))) {\n"),
    mutant("pair-horizon-0-beside-partitions-added", FILE, ZERO, "    if layout(older.layout, newer.layout).is_some() || partition(older.partitions, newer.partitions).is_some() || older.partitions.start.len() != newer.partitions.start.len() {\n"),
    mutant("pair-horizon-0-beside-a-later-end", FILE, ZERO, "    if layout(older.layout, newer.layout).is_some() || partition(older.partitions, newer.partitions).is_some() || older.partitions.end[..] != newer.partitions.end[..older.partitions.end.len()] {\n"),
    mutant("pair-horizon-is-the-total", FILE, DIFFERS, "let differs = (0..rows).find(|_| false);"),
    mutant("pair-horizon-without-times", FILE, DIFFERS, "let differs = (0..rows).find(|&row| olds.row_at(row).map(|row| (row.0, row.2)) != news.row_at(row).map(|row| (row.0, row.2)));"),
    mutant("pair-horizon-without-rates", FILE, DIFFERS, "let differs = (0..rows).find(|&row| olds.row_at(row).map(|row| (row.0, row.1)) != news.row_at(row).map(|row| (row.0, row.1)));"),
    mutant("pair-horizon-without-counts", FILE, DIFFERS, "let differs = (0..rows).find(|&row| olds.row_at(row).map(|row| (row.1, row.2)) != news.row_at(row).map(|row| (row.1, row.2)));"),
    mutant("pair-horizon-at-a-rates-next-row", FILE, DIFFERS, "let differs = (0..rows).find(|&row| olds.row_at(row) != news.row_at(row)).map(|row| if olds.count.get(row) == news.count.get(row) && olds.time.get(row) == news.time.get(row) { row + 1 } else { row });"),
    mutant("pair-horizon-at-the-last-row-that-differs", FILE, DIFFERS, "let differs = (0..rows).rev().find(|&row| olds.row_at(row) != news.row_at(row));"),
    mutant("pair-horizon-at-the-row-before", FILE, DIFFERS, "let differs = (0..rows).find(|&row| olds.row_at(row) != news.row_at(row)).map(|row| row.saturating_sub(1));"),
    mutant("pair-horizon-of-common-rows", FILE, EITHER_ROWS, "let rows = olds.count.len().min(news.count.len());"),
    mutant("pair-horizon-of-the-older-rows", FILE, EITHER_ROWS, "let rows = olds.count.len();"),
    mutant("pair-horizon-of-the-newer-rows", FILE, EITHER_ROWS, "let rows = news.count.len();"),
    mutant("pair-horizon-by-the-older-count", FILE, COUNTS, "[olds.count.get(row), None]"),
    mutant("pair-horizon-by-the-newer-count", FILE, COUNTS, "[None, news.count.get(row)]"),
    mutant("pair-horizon-by-the-greater-count", FILE, COUNTS, "[olds.count.get(row).max(news.count.get(row)), None]"),
    mutant("pair-horizon-by-counts-of-both-alone", FILE, COUNTS, "[olds.count.get(row).filter(|_| row < news.count.len()), news.count.get(row).filter(|_| row < olds.count.len())]"),
    mutant("pair-horizon-beyond-the-total", FILE, LEAST, "fold(if differs.is_some() { u64::MAX } else { old.total }, |least, &&count| least.min(count))"),
    mutant("pair-horizon-by-the-newer-total", FILE, "    let (old, _) = check(older, newer)?;", "    let (_, old) = check(older, newer)?;"),
    mutant("pair-horizon-and-one", FILE, LEAST, "fold(old.total, |least, &&count| least.min(count)) + 1"),
    mutant("pair-horizon-is-the-last-that-agrees", FILE, LEAST, "fold(old.total, |least, &&count| least.min(count.saturating_sub(1)))"),
    mutant("pair-horizon-of-the-total-and-one", FILE, LEAST, "fold(old.total + u64::from(differs.is_none()), |least, &&count| least.min(count))"),
    mutant("pair-horizon-up-to-the-last-count", FILE, LEAST, "fold(if differs.is_some() { old.total } else { olds.count[rows - 1] }, |least, &&count| least.min(count))"),
    // The script.
    mutant("pair-older-forgets-the-layout", SESSION, "                self.older = self.tables.clone();\n", "                self.older = Tables { layout: self.older.layout, ..self.tables.clone() };\n"),
    mutant("pair-older-forgets-the-partitions", SESSION, "                self.older = self.tables.clone();\n", "                let Tables { start, end, .. } = self.older.clone();\n                self.older = Tables { start, end, ..self.tables.clone() };\n"),
    mutant("pair-older-forgets-the-segments", SESSION, "                self.older = self.tables.clone();\n", "                let Tables { count, time, rate, .. } = self.older.clone();\n                self.older = Tables { count, time, rate, ..self.tables.clone() };\n"),
    mutant("pair-older-once", SESSION, "                self.older = self.tables.clone();\n", "                if self.older == Tables::new() {\n                    self.older = self.tables.clone();\n                }\n"),
    mutant("pair-older-empties-the-tables", SESSION, "                self.older = self.tables.clone();\n", "                self.older = std::mem::take(&mut self.tables);\n"),
    mutant("pair-older-and-newer-exchanged", SESSION, "horizon(self.older.table(), self.tables.table())", "horizon(self.tables.table(), self.older.table())"),
    mutant("pair-succeeds-exchanged", SESSION, "succeeds(self.older.table(), self.tables.table())", "succeeds(self.tables.table(), self.older.table())"),
];
