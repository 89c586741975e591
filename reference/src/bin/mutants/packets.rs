//! The changes to packets.

use super::list::{mutant, Mutant};

const FILE: &str = "packet.rs";

/// Reading.
const LENGTH: &str = "PRIMARY + usize::from(word(packet[4], packet[5])) + 1";
const MATCHES: &str = "packet.len() != length(packet)";
const SIX: &str = "    if packet.len() <= PRIMARY ||";
const P_FIELD: &str = "    let p_field = packet[PRIMARY];\n";
const CODES: &str = "    if version != 0 || secondary != 1 || extension != 0 || time_code != 0b010 {\n";
const PAST: &str = "    if data > packet.len() {\n        return Err(Refusal::new(25));\n    }\n";
const TABLES: &str = "    let clock = two_fields(layout)?;\n    partitions.check(clock.p)?;\n";
const HEADER: &str = "    let header = Header {\n";
const TICKS: &str = "(coarse * unit + fine) * u128::from(clock.moduli[1]) / unit";
const COUNT: &str = "u64::try_from(ticks).map_err(|_| Refusal::new(11))?";
const ENCODED: &str = "partitions.encode(None, count)?";
const ANSWER: &str = "Ok(Packet { header, data, count, encoded })";
const FIELDS: &str = "    if clock.moduli.len() != 2 {\n        return Err(Refusal::new(1));";

/// Writing.
const WRITE_TABLES: &str = "    let clock = two_fields(layout)?;\n    let total = partitions.check(clock.p)?;\n";
const RANGES: &str = "    if coarse < 1 || coarse > 4 || fine > 3 ||";
const OTHERS: &str = "|| packet_type > 1 || apid > 2_047 || flags > 3 || sequence > 16_383 {";
const M: &str = "    if clock.moduli[1] != unit {\n        return Err(Refusal::new(26));";
const MOST: &str = "    if octets > MOST_DATA_OCTETS {\n        return Err(Refusal::new(25));";
const TOTAL: &str = "    if e > total {\n        return Err(Refusal::new(12));";
const LOCATE: &str = "let (_, count) = partitions.locate(e);";
const LARGE: &str = "    if seconds >> (8 * coarse) != 0 {\n        return Err(Refusal::new(9));";
const PARTS: &str = "let (seconds, subticks) = (count / unit, count % unit);";
const ROOM: &str = "    let packet = buffer.get_mut(..PRIMARY + octets).ok_or(Refusal::new(16))?;\n";
const FIRST: &str = "u16::from(packet_type) << 12 | 1 << 11 | apid";
const SECOND: &str = "u16::from(flags) << 14 | sequence";
const THIRD: &str = "(octets - 1) as u16";
const WRITTEN_P: &str = "0b010 << 4 | (coarse - 1) << 2 | fine";
const DATA: &str = "    packet[data_from..].copy_from_slice(data);\n";

/// Walking.
const TAIL: &str = "    let buffer = buffer.get_mut(..LONGEST).ok_or(Refusal::new(16))?;\n    if tail > LONGEST as u64 {\n        return Err(Refusal::new(25));";
const HELD: &str = "    let mut held = tail as usize;\n";
const FREE: &str = "    // No walk leaves a whole packet as its tail; what is answered to one is free.\n    if whole(&buffer[..held]).is_some() {\n        return Err(Refusal::new(25));\n    }\n";
const PUT_TOGETHER: &str = "        give(&buffer[..length]);\n";
const GIVE: &str = "        give(packet);\n";
const LEAVES: &str = "    buffer[..rest.len()].copy_from_slice(rest);\n    Ok(rest.len())";

#[rustfmt::skip]
pub const MUTANTS: &[Mutant] = &[
    // Lengths.
    mutant("packet-length-as-is", FILE, LENGTH, "PRIMARY + usize::from(word(packet[4], packet[5]))"),
    mutant("packet-length-low-octet-first", FILE, LENGTH, "PRIMARY + usize::from(word(packet[5], packet[4])) + 1"),
    mutant("packet-length-of-15-bits", FILE, LENGTH, "PRIMARY + usize::from(word(packet[4], packet[5]) & 0x7fff) + 1"),
    mutant("packet-length-wraps", FILE, LENGTH, "PRIMARY + usize::from(word(packet[4], packet[5]).wrapping_add(1))"),
    mutant("packet-length-of-the-whole", FILE, LENGTH, "(usize::from(word(packet[4], packet[5])) + 1).max(PRIMARY + 1)"),
    mutant("packet-length-not-compared", FILE, MATCHES, "false"),
    mutant("packet-longer", FILE, MATCHES, "packet.len() < length(packet)"),
    mutant("packet-shorter", FILE, MATCHES, "packet.len() > length(packet)"),
    mutant("packet-longer-by-one", FILE, MATCHES, "packet.len() != length(packet) && packet.len() != length(packet) + 1"),
    // Another version or time code, an extension, no secondary header.
    mutant("packet-version-not-checked", FILE, CODES, "    if secondary != 1 || extension != 0 || time_code != 0b010 {\n"),
    mutant("packet-version-high-bit", FILE, CODES, "    if version & 3 != 0 || secondary != 1 || extension != 0 || time_code != 0b010 {\n"),
    mutant("packet-version-1", FILE, CODES, "    if version > 1 || secondary != 1 || extension != 0 || time_code != 0b010 {\n"),
    mutant("packet-secondary-not-checked", FILE, CODES, "    if version != 0 || extension != 0 || time_code != 0b010 {\n"),
    mutant("packet-extension-not-checked", FILE, CODES, "    if version != 0 || secondary != 1 || time_code != 0b010 {\n"),
    mutant("packet-time-code-not-checked", FILE, CODES, "    if version != 0 || secondary != 1 || extension != 0 {\n"),
    mutant("packet-time-code-1", FILE, CODES, "    if version != 0 || secondary != 1 || extension != 0 || time_code != 0b010 && time_code != 0b001 {\n"),
    mutant("packet-time-code-6", FILE, CODES, "    if version != 0 || secondary != 1 || extension != 0 || time_code & 3 != 0b010 {\n"),
    mutant("packet-type-0", FILE, CODES, "    if packet[0] >> 4 != 0 || secondary != 1 || extension != 0 || time_code != 0b010 {\n"),
    mutant("packet-25-for-26", FILE, "time_code != 0b010 {\n        return Err(Refusal::new(26));", "time_code != 0b010 {\n        return Err(Refusal::new(25));"),
    // Header fields.
    mutant("packet-type-is-the-flag", FILE, "packet_type: packet[0] >> 4 & 1,", "packet_type: packet[0] >> 3 & 1,"),
    mutant("packet-apid-of-10-bits", FILE, "& 0x7ff", "& 0x3ff"),
    mutant("packet-apid-of-12-bits", FILE, "& 0x7ff", "& 0xfff"),
    mutant("packet-apid-low-octet-first", FILE, "word(packet[0], packet[1]) & 0x7ff", "word(packet[1], packet[0]) & 0x7ff"),
    mutant("packet-flags-of-one-bit", FILE, "flags: packet[2] >> 6,", "flags: packet[2] >> 7,"),
    mutant("packet-flags-of-three-bits", FILE, "flags: packet[2] >> 6,", "flags: packet[2] >> 5,"),
    mutant("packet-sequence-of-13-bits", FILE, "& 0x3fff", "& 0x1fff"),
    mutant("packet-sequence-of-16-bits", FILE, "& 0x3fff", "& 0xffff"),
    mutant("packet-coarse-as-is", FILE, "(p_field >> 2 & 3) + 1", "(p_field >> 2 & 3).max(1)"),
    mutant("packet-fine-off-by-one", FILE, "fine: p_field & 3,", "fine: (p_field & 3) + 1,"),
    mutant("packet-fine-less-one", FILE, "fine: p_field & 3,", "fine: (p_field & 3).saturating_sub(1),"),
    mutant("packet-octets-exchanged", FILE, "        coarse: (p_field >> 2 & 3) + 1,\n        fine: p_field & 3,", "        coarse: (p_field & 3) + 1,\n        fine: p_field >> 2 & 3,"),
    mutant("packet-time-needs-data", FILE, PAST, "    if data >= packet.len() {\n        return Err(Refusal::new(25));\n    }\n"),
    mutant("packet-26-for-a-time-past-the-data", FILE, PAST, "    if data > packet.len() {\n        return Err(Refusal::new(26));\n    }\n"),
    mutant("packet-time-past-the-data-is-11", FILE, PAST, "    if data > packet.len() {\n        return Err(Refusal::new(11));\n    }\n"),
    mutant("packet-data-from-the-p-field", FILE, ANSWER, "Ok(Packet { header, data: data - PRIMARY, count, encoded })"),
    mutant("packet-data-one-further", FILE, ANSWER, "Ok(Packet { header, data: data + 1, count, encoded })"),
    // The order of reading.
    mutant("packet-26-before-the-length", FILE, SIX, "    if packet.len() > PRIMARY && (packet[0] & 0xe8 != 0x08 || packet[PRIMARY] >> 4 != 2) {\n        return Err(Refusal::new(26));\n    }\n    if packet.len() <= PRIMARY ||"),
    mutant("packet-time-before-26", FILE, P_FIELD, "    let p_field = packet[PRIMARY];\n    if PRIMARY + 2 + usize::from(p_field >> 2 & 3) + usize::from(p_field & 3) > packet.len() {\n        return Err(Refusal::new(25));\n    }\n"),
    mutant("packet-1-before-the-length", FILE, SIX, "    two_fields(layout)?;\n    if packet.len() <= PRIMARY ||"),
    mutant("packet-1-before-26", FILE, P_FIELD, "    two_fields(layout)?;\n    let p_field = packet[PRIMARY];\n"),
    mutant("packet-1-before-a-time-past-the-data", FILE, HEADER, "    two_fields(layout)?;\n    let header = Header {\n"),
    mutant("packet-2-before-the-length", FILE, SIX, "    if let Ok(clock) = two_fields(layout) {\n        partitions.check(clock.p)?;\n    }\n    if packet.len() <= PRIMARY ||"),
    mutant("packet-2-before-26", FILE, P_FIELD, "    if let Ok(clock) = two_fields(layout) {\n        partitions.check(clock.p)?;\n    }\n    let p_field = packet[PRIMARY];\n"),
    mutant("packet-2-before-a-time-past-the-data", FILE, HEADER, "    if let Ok(clock) = two_fields(layout) {\n        partitions.check(clock.p)?;\n    }\n    let header = Header {\n"),
    mutant("packet-two-fields-after-2", FILE, TABLES, "    let clock = layout.check()?;\n    partitions.check(clock.p)?;\n    two_fields(layout)?;\n"),
    mutant("packet-11-before-2", FILE, TABLES, "    let clock = two_fields(layout)?;\n    let (coarse, fine) = (high_first(&packet[PRIMARY + 1..fine_from]), high_first(&packet[fine_from..data]));\n    let unit = 1u128 << (8 * header.fine);\n    let early = coarse * u128::from(clock.moduli[1]) + fine * u128::from(clock.moduli[1]) / unit;\n    if !partitions.start.iter().zip(partitions.end).any(|(&start, &end)| u128::from(start) <= early && early <= u128::from(end)) {\n        return Err(Refusal::new(11));\n    }\n    partitions.check(clock.p)?;\n"),
    mutant("packet-2-not-checked", FILE, TABLES, "    let clock = two_fields(layout)?;\n    if partitions.start.len() != partitions.end.len() || partitions.start.is_empty() {\n        partitions.check(clock.p)?;\n    }\n"),
    mutant("packet-2-has-no-place", FILE, TABLES, "    let clock = two_fields(layout)?;\n    partitions.check(clock.p).map_err(|_| Refusal::new(2))?;\n"),
    mutant("packet-11-has-a-place", FILE, ENCODED, "partitions.encode(None, count).map_err(|_| Refusal::at(11, data))?"),
    mutant("packet-three-fields", FILE, FIELDS, "    if clock.moduli.len() < 2 {\n        return Err(Refusal::new(1));"),
    mutant("packet-fields-are-26", FILE, FIELDS, "    if clock.moduli.len() != 2 {\n        return Err(Refusal::new(26));"),
    // Ticks.
    mutant("packet-coarse-low-octet-first", FILE, "high_first(&packet[PRIMARY + 1..fine_from])", "packet[PRIMARY + 1..fine_from].iter().rev().fold(0, |number, &octet| number << 8 | u128::from(octet))"),
    mutant("packet-fine-low-octet-first", FILE, "high_first(&packet[fine_from..data])", "packet[fine_from..data].iter().rev().fold(0, |number, &octet| number << 8 | u128::from(octet))"),
    mutant("packet-rounded-up", FILE, TICKS, "((coarse * unit + fine) * u128::from(clock.moduli[1]) + unit - 1) / unit"),
    mutant("packet-rounded-to-the-nearest", FILE, TICKS, "((coarse * unit + fine) * u128::from(clock.moduli[1]) + unit / 2) / unit"),
    mutant("packet-fine-left-out", FILE, TICKS, "coarse * u128::from(clock.moduli[1])"),
    mutant("packet-fine-are-ticks", FILE, TICKS, "coarse * u128::from(clock.moduli[1]) + fine"),
    mutant("packet-m-is-256-f", FILE, TICKS, "coarse * unit + fine"),
    mutant("packet-unit-is-256-f-less-one", FILE, TICKS, "(coarse * unit + fine) * u128::from(clock.moduli[1]) / (unit - 1).max(1)"),
    mutant("packet-m-of-the-first-field", FILE, TICKS, "(coarse * unit + fine) * u128::from(clock.moduli[0]) / unit"),
    mutant("packet-product-wraps", FILE, TICKS, "u128::from(((coarse * unit + fine) as u64).wrapping_mul(clock.moduli[1])) / unit"),
    mutant("packet-divided-first", FILE, TICKS, "(coarse * unit + fine) / unit * u128::from(clock.moduli[1])"),
    mutant("packet-ticks-wrap", FILE, COUNT, "ticks as u64"),
    mutant("packet-ticks-of-32-bits", FILE, COUNT, "u64::from(ticks as u32)"),
    mutant("packet-ticks-saturate", FILE, COUNT, "u64::try_from(ticks).unwrap_or(clock.p - 1)"),
    mutant("packet-9-for-11", FILE, COUNT, "u64::try_from(ticks).map_err(|_| Refusal::new(9))?"),
    mutant("packet-9-from-p-on", FILE, ENCODED, "if count >= clock.p { return Err(Refusal::new(9)) } else { partitions.encode(None, count)? }"),
    mutant("packet-9-above-10-15", FILE, ENCODED, "if count > Layout::LARGEST_P { return Err(Refusal::new(9)) } else { partitions.encode(None, count)? }"),
    mutant("packet-offset-added", FILE, COUNT, "u64::try_from(ticks + u128::from(clock.offsets[1])).map_err(|_| Refusal::new(11))?"),
    mutant("packet-offset-taken-off", FILE, COUNT, "u64::try_from(ticks.saturating_sub(u128::from(clock.offsets[1]))).map_err(|_| Refusal::new(11))?"),
    mutant("packet-first-offset-taken-off", FILE, COUNT, "u64::try_from(ticks.saturating_sub(u128::from(clock.offsets[0] * clock.moduli[1]))).map_err(|_| Refusal::new(11))?"),
    mutant("packet-last-partition", FILE, ENCODED, "(0..partitions.start.len()).rev().find(|&row| (partitions.start[row]..=partitions.end[row]).contains(&count)).map(|row| partitions.earlier(row) + (count - partitions.start[row])).ok_or(Refusal::new(11))?"),
    mutant("packet-end-outside", FILE, ENCODED, "(0..partitions.start.len()).find(|&row| (partitions.start[row]..partitions.end[row]).contains(&count)).map(|row| partitions.earlier(row) + (count - partitions.start[row])).ok_or(Refusal::new(11))?"),
    mutant("packet-end-to-a-later-start", FILE, ENCODED, "match (0..partitions.start.len()).find(|&row| (partitions.start[row]..partitions.end[row]).contains(&count)) { Some(row) => partitions.earlier(row) + (count - partitions.start[row]), None => partitions.encode(None, count)? }"),
    mutant("packet-first-partition-alone", FILE, ENCODED, "partitions.encode(Some(1), count)?"),
    mutant("packet-encoded-is-the-count", FILE, ANSWER, "Ok(Packet { header, data, count, encoded: encoded - encoded + count })"),
    mutant("packet-count-is-encoded", FILE, ANSWER, "Ok(Packet { header, data, count: encoded, encoded })"),
    mutant("packet-counts-exchanged", FILE, ANSWER, "Ok(Packet { header, data, count: encoded, encoded: count })"),
    // Writing: ranges.
    mutant("packet-no-coarse-octets", FILE, RANGES, "    if coarse > 4 || fine > 3 ||"),
    mutant("packet-five-coarse-octets", FILE, RANGES, "    if coarse < 1 || coarse > 5 || fine > 3 ||"),
    mutant("packet-three-coarse-octets", FILE, RANGES, "    if coarse < 1 || coarse > 3 || fine > 3 ||"),
    mutant("packet-two-coarse-octets-at-least", FILE, RANGES, "    if coarse < 2 || coarse > 4 || fine > 3 ||"),
    mutant("packet-four-fine-octets", FILE, RANGES, "    if coarse < 1 || coarse > 4 || fine > 4 ||"),
    mutant("packet-two-fine-octets", FILE, RANGES, "    if coarse < 1 || coarse > 4 || fine > 2 ||"),
    mutant("packet-type-2", FILE, OTHERS, "|| packet_type > 2 || apid > 2_047 || flags > 3 || sequence > 16_383 {"),
    mutant("packet-type-1-refused", FILE, OTHERS, "|| packet_type > 0 || apid > 2_047 || flags > 3 || sequence > 16_383 {"),
    mutant("packet-apid-2048", FILE, OTHERS, "|| packet_type > 1 || apid > 2_048 || flags > 3 || sequence > 16_383 {"),
    mutant("packet-apid-2047-refused", FILE, OTHERS, "|| packet_type > 1 || apid > 2_046 || flags > 3 || sequence > 16_383 {"),
    mutant("packet-flags-4", FILE, OTHERS, "|| packet_type > 1 || apid > 2_047 || flags > 4 || sequence > 16_383 {"),
    mutant("packet-flags-3-refused", FILE, OTHERS, "|| packet_type > 1 || apid > 2_047 || flags > 2 || sequence > 16_383 {"),
    mutant("packet-sequence-16384", FILE, OTHERS, "|| packet_type > 1 || apid > 2_047 || flags > 3 || sequence > 16_384 {"),
    mutant("packet-sequence-16383-refused", FILE, OTHERS, "|| packet_type > 1 || apid > 2_047 || flags > 3 || sequence > 16_382 {"),
    mutant("packet-fields-not-checked", FILE, OTHERS, "{"),
    mutant("packet-m-not-compared", FILE, M, "    if false {\n        return Err(Refusal::new(26));"),
    mutant("packet-m-a-multiple", FILE, M, "    if clock.moduli[1] % unit != 0 {\n        return Err(Refusal::new(26));"),
    mutant("packet-m-up-to-256-f", FILE, M, "    if clock.moduli[1] > unit {\n        return Err(Refusal::new(26));"),
    mutant("packet-m-is-1", FILE, M, "    if clock.moduli[1] != unit {\n        return Err(Refusal::new(1));"),
    mutant("packet-65536-octets-refused", FILE, MOST, "    if octets >= MOST_DATA_OCTETS {\n        return Err(Refusal::new(25));"),
    mutant("packet-65537-octets", FILE, MOST, "    if octets > MOST_DATA_OCTETS + 1 {\n        return Err(Refusal::new(25));"),
    mutant("packet-p-field-not-counted", FILE, MOST, "    if octets - 1 > MOST_DATA_OCTETS {\n        return Err(Refusal::new(25));"),
    mutant("packet-time-not-counted", FILE, MOST, "    if 1 + data.len() > MOST_DATA_OCTETS {\n        return Err(Refusal::new(25));"),
    mutant("packet-header-counted", FILE, MOST, "    if PRIMARY + octets > MOST_DATA_OCTETS {\n        return Err(Refusal::new(25));"),
    mutant("packet-16-for-25", FILE, MOST, "    if octets > MOST_DATA_OCTETS {\n        return Err(Refusal::new(16));"),
    mutant("packet-total-refused", FILE, TOTAL, "    if e >= total {\n        return Err(Refusal::new(12));"),
    mutant("packet-total-and-one", FILE, TOTAL, "    if e > total + 1 {\n        return Err(Refusal::new(12));"),
    mutant("packet-11-for-12", FILE, TOTAL, "    if e > total {\n        return Err(Refusal::new(11));"),
    mutant("packet-inner-end-as-end", FILE, LOCATE, "let (row, _) = partitions.locate(e.saturating_sub(1));\n    let row = row as usize - 1;\n    let count = partitions.start[row] + (e - partitions.earlier(row));"),
    mutant("packet-writes-the-encoded-count", FILE, LOCATE, "let count = e;"),
    mutant("packet-writes-from-the-first-start", FILE, LOCATE, "let count = partitions.start[0] + e;"),
    mutant("packet-largest-coarse-refused", FILE, LARGE, "    if (seconds + 1) >> (8 * coarse) != 0 {\n        return Err(Refusal::new(9));"),
    mutant("packet-coarse-one-too-large", FILE, LARGE, "    if seconds > 1 << (8 * coarse) {\n        return Err(Refusal::new(9));"),
    mutant("packet-coarse-wraps", FILE, LARGE, "    if false {\n        return Err(Refusal::new(9));"),
    mutant("packet-coarse-always-four", FILE, LARGE, "    if seconds >> 32 != 0 {\n        return Err(Refusal::new(9));"),
    mutant("packet-coarse-with-fine", FILE, LARGE, "    if count >> (8 * coarse) != 0 {\n        return Err(Refusal::new(9));"),
    mutant("packet-26-for-9", FILE, LARGE, "    if seconds >> (8 * coarse) != 0 {\n        return Err(Refusal::new(26));"),
    // Writing: the order.
    mutant("packet-26-before-1", FILE, WRITE_TABLES, "    if header.coarse < 1 || header.coarse > 4 || header.fine > 3 || header.packet_type > 1 || header.apid > 2_047 || header.flags > 3 || header.sequence > 16_383 {\n        return Err(Refusal::new(26));\n    }\n    let clock = two_fields(layout)?;\n    let total = partitions.check(clock.p)?;\n"),
    mutant("packet-26-before-2", FILE, WRITE_TABLES, "    let clock = two_fields(layout)?;\n    if header.coarse < 1 || header.coarse > 4 || header.fine > 3 || header.packet_type > 1 || header.apid > 2_047 || header.flags > 3 || header.sequence > 16_383 {\n        return Err(Refusal::new(26));\n    }\n    let total = partitions.check(clock.p)?;\n"),
    mutant("packet-written-two-fields-after-2", FILE, WRITE_TABLES, "    let clock = layout.check()?;\n    let total = partitions.check(clock.p)?;\n    two_fields(layout)?;\n"),
    mutant("packet-written-2-has-no-place", FILE, WRITE_TABLES, "    let clock = two_fields(layout)?;\n    let total = partitions.check(clock.p).map_err(|_| Refusal::new(2))?;\n"),
    mutant("packet-25-before-26", FILE, RANGES, "    if 1 + usize::from(coarse) + usize::from(fine) + data.len() > MOST_DATA_OCTETS {\n        return Err(Refusal::new(25));\n    }\n    if coarse < 1 || coarse > 4 || fine > 3 ||"),
    mutant("packet-12-before-26", FILE, RANGES, "    if e > total {\n        return Err(Refusal::new(12));\n    }\n    if coarse < 1 || coarse > 4 || fine > 3 ||"),
    mutant("packet-12-before-m", FILE, M, "    if e > total {\n        return Err(Refusal::new(12));\n    }\n    if clock.moduli[1] != unit {\n        return Err(Refusal::new(26));"),
    mutant("packet-12-before-25", FILE, MOST, "    if e > total {\n        return Err(Refusal::new(12));\n    }\n    if octets > MOST_DATA_OCTETS {\n        return Err(Refusal::new(25));"),
    mutant("packet-9-before-25", FILE, MOST, "    if e <= total && partitions.locate(e).1 / unit >> (8 * coarse) != 0 {\n        return Err(Refusal::new(9));\n    }\n    if octets > MOST_DATA_OCTETS {\n        return Err(Refusal::new(25));"),
    mutant("packet-9-before-12", FILE, TOTAL, "    if partitions.locate(e).1 / unit >> (8 * coarse) != 0 {\n        return Err(Refusal::new(9));\n    }\n    if e > total {\n        return Err(Refusal::new(12));"),
    mutant("packet-16-before-12", FILE, TOTAL, "    if buffer.len() < PRIMARY + octets {\n        return Err(Refusal::new(16));\n    }\n    if e > total {\n        return Err(Refusal::new(12));"),
    mutant("packet-16-before-9", FILE, LARGE, "    if buffer.len() < PRIMARY + octets {\n        return Err(Refusal::new(16));\n    }\n    if seconds >> (8 * coarse) != 0 {\n        return Err(Refusal::new(9));"),
    mutant("packet-16-before-25", FILE, MOST, "    if buffer.len() < PRIMARY + octets {\n        return Err(Refusal::new(16));\n    }\n    if octets > MOST_DATA_OCTETS {\n        return Err(Refusal::new(25));"),
    mutant("packet-16-before-26", FILE, RANGES, "    if buffer.len() < PRIMARY + 1 + usize::from(coarse) + usize::from(fine) + data.len() {\n        return Err(Refusal::new(16));\n    }\n    if coarse < 1 || coarse > 4 || fine > 3 ||"),
    // Writing: the bytes.
    mutant("packet-one-byte-of-room", FILE, ROOM, "    if buffer.len() <= PRIMARY + octets {\n        return Err(Refusal::new(16));\n    }\n    let packet = buffer.get_mut(..PRIMARY + octets).ok_or(Refusal::new(16))?;\n"),
    mutant("packet-rest-cleared", FILE, ROOM, "    if buffer.len() >= PRIMARY + octets {\n        buffer.fill(0);\n    }\n    let packet = buffer.get_mut(..PRIMARY + octets).ok_or(Refusal::new(16))?;\n"),
    mutant("packet-written-before-refused", FILE, ROOM, "    if let Some(front) = buffer.get_mut(..PRIMARY) {\n        front.fill(8);\n    }\n    let packet = buffer.get_mut(..PRIMARY + octets).ok_or(Refusal::new(16))?;\n"),
    mutant("packet-9-clears", FILE, LARGE, "    if seconds >> (8 * coarse) != 0 {\n        buffer.fill(0);\n        return Err(Refusal::new(9));"),
    mutant("packet-12-clears", FILE, TOTAL, "    if e > total {\n        buffer.fill(0);\n        return Err(Refusal::new(12));"),
    mutant("packet-26-clears", FILE, M, "    if clock.moduli[1] != unit {\n        buffer.fill(0);\n        return Err(Refusal::new(26));"),
    mutant("packet-no-flag-written", FILE, FIRST, "u16::from(packet_type) << 12 | apid"),
    mutant("packet-version-1-written", FILE, FIRST, "1 << 13 | u16::from(packet_type) << 12 | 1 << 11 | apid"),
    mutant("packet-type-not-written", FILE, FIRST, "1 << 11 | apid"),
    mutant("packet-apid-not-written", FILE, FIRST, "u16::from(packet_type) << 12 | 1 << 11"),
    mutant("packet-flags-not-written", FILE, SECOND, "sequence"),
    mutant("packet-flags-always-3", FILE, SECOND, "3 << 14 | sequence"),
    mutant("packet-sequence-not-written", FILE, SECOND, "u16::from(flags) << 14"),
    mutant("packet-length-field-octets", FILE, THIRD, "octets as u16"),
    mutant("packet-length-field-whole", FILE, THIRD, "(PRIMARY + octets - 1) as u16"),
    mutant("packet-length-field-data", FILE, THIRD, "data.len() as u16"),
    mutant("packet-length-field-low-octet-first", FILE, "&third.to_be_bytes()", "&third.to_le_bytes()"),
    mutant("packet-time-code-1-written", FILE, WRITTEN_P, "0b001 << 4 | (coarse - 1) << 2 | fine"),
    mutant("packet-extension-written", FILE, WRITTEN_P, "0b1010 << 4 | (coarse - 1) << 2 | fine"),
    mutant("packet-coarse-octets-written-as-is", FILE, WRITTEN_P, "0b010 << 4 | (coarse & 3) << 2 | fine"),
    mutant("packet-fine-octets-written-less-one", FILE, WRITTEN_P, "0b010 << 4 | (coarse - 1) << 2 | fine.saturating_sub(1)"),
    mutant("packet-written-coarse-low-octet-first", FILE, "&seconds.to_be_bytes()[8 - usize::from(coarse)..]", "&seconds.to_le_bytes()[..usize::from(coarse)]"),
    mutant("packet-written-fine-low-octet-first", FILE, "&subticks.to_be_bytes()[8 - usize::from(fine)..]", "&subticks.to_le_bytes()[..usize::from(fine)]"),
    mutant("packet-written-coarse-cut-off", FILE, "&seconds.to_be_bytes()[8 - usize::from(coarse)..]", "&seconds.to_be_bytes()[4..4 + usize::from(coarse)]"),
    mutant("packet-written-offset-added", FILE, PARTS, "let count = count + clock.offsets[1];\n    let (seconds, subticks) = (count / unit, count % unit);"),
    mutant("packet-written-first-offset-added", FILE, PARTS, "let (seconds, subticks) = (count / unit + clock.offsets[0], count % unit);"),
    mutant("packet-data-not-written", FILE, DATA, ""),
    mutant("packet-answers-the-data-octets", FILE, "Ok(packet.len())", "Ok(octets)"),
    // Walking.
    mutant("packet-tail-buffer-of-65541", FILE, TAIL, "    let lent = buffer.len();\n    if lent < LONGEST - 1 {\n        return Err(Refusal::new(16));\n    }\n    let buffer = &mut buffer[..lent.min(LONGEST)];\n    if tail > buffer.len() as u64 {\n        return Err(Refusal::new(25));"),
    mutant("packet-tail-buffer-of-65543", FILE, TAIL, "    if buffer.len() <= LONGEST {\n        return Err(Refusal::new(16));\n    }\n    let buffer = buffer.get_mut(..LONGEST).ok_or(Refusal::new(16))?;\n    if tail > LONGEST as u64 {\n        return Err(Refusal::new(25));"),
    mutant("packet-tail-buffer-exact", FILE, TAIL, "    if buffer.len() != LONGEST {\n        return Err(Refusal::new(16));\n    }\n    if tail > LONGEST as u64 {\n        return Err(Refusal::new(25));"),
    mutant("packet-25-before-16", FILE, TAIL, "    if tail > LONGEST as u64 {\n        return Err(Refusal::new(25));\n    }\n    let buffer = buffer.get_mut(..LONGEST).ok_or(Refusal::new(16))?;\n    if tail > LONGEST as u64 {\n        return Err(Refusal::new(25));"),
    mutant("packet-tail-beyond-the-buffer-is-25", FILE, TAIL, "    if tail > buffer.len() as u64 {\n        return Err(Refusal::new(25));\n    }\n    let buffer = buffer.get_mut(..LONGEST).ok_or(Refusal::new(16))?;\n    if tail > LONGEST as u64 {\n        return Err(Refusal::new(25));"),
    mutant("packet-tail-too-long-is-16", FILE, TAIL, "    let buffer = buffer.get_mut(..LONGEST).ok_or(Refusal::new(16))?;\n    if tail > LONGEST as u64 {\n        return Err(Refusal::new(16));"),
    mutant("packet-tail-up-to-the-buffer", FILE, "    let buffer = buffer.get_mut(..LONGEST).ok_or(Refusal::new(16))?;\n    if tail > LONGEST as u64 {\n        return Err(Refusal::new(25));\n    }\n    let mut held = tail as usize;\n    // No walk leaves a whole packet as its tail; what is answered to one is free.\n    if whole(&buffer[..held]).is_some() {", "    if buffer.len() < LONGEST {\n        return Err(Refusal::new(16));\n    }\n    if tail > buffer.len() as u64 {\n        return Err(Refusal::new(25));\n    }\n    let mut held = tail as usize;\n    if false {"),
    mutant("packet-tail-of-32-bits", FILE, TAIL, "    let tail = tail & 0xffff_ffff;\n    let buffer = buffer.get_mut(..LONGEST).ok_or(Refusal::new(16))?;\n    if tail > LONGEST as u64 {\n        return Err(Refusal::new(25));"),
    mutant("packet-16-clears-the-tail", FILE, TAIL, "    if buffer.len() < LONGEST {\n        buffer.fill(0x55);\n    }\n    let buffer = buffer.get_mut(..LONGEST).ok_or(Refusal::new(16))?;\n    if tail > LONGEST as u64 {\n        return Err(Refusal::new(25));"),
    mutant("packet-25-clears-the-tail", FILE, TAIL, "    let buffer = buffer.get_mut(..LONGEST).ok_or(Refusal::new(16))?;\n    if tail > LONGEST as u64 {\n        buffer.fill(0x55);\n        return Err(Refusal::new(25));"),
    mutant("packet-25-takes-the-piece", FILE, TAIL, "    let buffer = buffer.get_mut(..LONGEST).ok_or(Refusal::new(16))?;\n    if tail > LONGEST as u64 {\n        buffer[..piece.len()].copy_from_slice(piece);\n        return Err(Refusal::new(25));"),
    mutant("packet-tail-forgotten", FILE, HELD, "    let mut held = 0;\n"),
    mutant("packet-tail-one-short", FILE, HELD, "    let mut held = tail.saturating_sub(1) as usize;\n"),
    mutant("packet-tail-not-kept", FILE, LEAVES, "    Ok(0)"),
    mutant("packet-tail-not-written", FILE, LEAVES, "    Ok(rest.len())"),
    mutant("packet-tail-of-a-header-not-kept", FILE, "        if held < PRIMARY {\n            return Ok(held);", "        if held < PRIMARY {\n            return Ok(0);"),
    mutant("packet-tail-is-what-was-missing", FILE, "        if held < length {\n            return Ok(held);", "        if held < length {\n            return Ok(length - held);"),
    mutant("packet-put-together-lost", FILE, PUT_TOGETHER, ""),
    mutant("packet-put-together-twice", FILE, PUT_TOGETHER, "        give(&buffer[..length]);\n        give(&buffer[..length]);\n"),
    mutant("packet-that-ends-at-the-cut-lost", FILE, GIVE, "        if !behind.is_empty() {\n            give(packet);\n        }\n"),
    mutant("packet-that-ends-at-the-cut-twice", FILE, GIVE, "        give(packet);\n        if behind.is_empty() {\n            give(packet);\n        }\n"),
    mutant("packet-that-ends-at-the-cut-waits", FILE, "|&length| length <= bytes.len()", "|&length| length < bytes.len()"),
    mutant("packet-put-together-at-the-cut-lost", FILE, PUT_TOGETHER, "        if !rest.is_empty() {\n            give(&buffer[..length]);\n        }\n"),
    mutant("packet-put-together-at-the-cut-stays", FILE, PUT_TOGETHER, "        give(&buffer[..length]);\n        if rest.is_empty() {\n            return Ok(held);\n        }\n"),
    mutant("packet-nothing-behind-the-tail", FILE, PUT_TOGETHER, "        give(&buffer[..length]);\n        return Ok(0);\n"),
    mutant("packet-one-a-piece", FILE, "    while let Some(length) = whole(rest) {", "    if let Some(length) = whole(rest) {"),
    mutant("packet-walk-wants-version-0", FILE, GIVE, "        if packet[0] >> 5 == 0 {\n            give(packet);\n        }\n"),
    mutant("packet-walk-wants-a-secondary-header", FILE, GIVE, "        if packet[0] >> 3 & 1 == 1 {\n            give(packet);\n        }\n"),
    mutant("packet-walk-without-its-header", FILE, GIVE, "        give(&packet[PRIMARY..]);\n"),
    mutant("packet-empty-piece-refused", FILE, FREE, "    if held > 0 && piece.is_empty() {\n        return Err(Refusal::new(25));\n    }\n"),
];
