//! Packets a second time: headers as strings of bits, ticks in two parts, a dump cut anew from its beginning with each piece;
//! and what a question shows. Every fault of a question is looked for, so that two at once can be counted.

use super::raw::{faults, sums, Expected};
use super::tables::layout_faults;
use crate::packet::Header;
use crate::script::{Question, Tables, WriteQuestion};

/// What is remembered from walk to walk.
#[derive(Default)]
pub struct Memory {
    /// All pieces since the last empty tail.
    dump: Vec<u8>,
    /// How many packets of the dump were given.
    given: usize,
    /// The length of the tail, and how many pieces it came in.
    tail: usize,
    pieces: usize,
    /// Whether the last walk was refused.
    refused: bool,
}

pub fn expected(memory: &mut Memory, tables: &Tables, question: &Question) -> Expected {
    match *question {
        Question::ReadPacket(packet) => read(tables, packet),
        Question::WritePacket(question) => write(tables, question),
        Question::Walk { len, tail, piece } => walk(memory, len, tail, piece),
        _ => unreachable!("a question about packets"),
    }
}

/// A refusal with its place, and its clause.
type Fault = (String, &'static str);

fn fault(number: &str, clause: &'static str) -> Fault {
    (number.to_string(), clause)
}

/// "1 (also a clock without two fields), 2"; partitions that no layout makes good are found beside a broken layout too.
fn table_faults(tables: &Tables) -> Vec<Fault> {
    let mut found = vec![];
    let sound = layout_faults(tables).is_empty();
    if !sound {
        found.push(fault("1", ", a layout"));
    } else if tables.layout.n != 2 {
        found.push(fault("1", ", not two fields"));
    }
    let Tables { start, end, .. } = tables;
    if sound {
        found.extend(faults(tables).map(|refusal| (refusal, "")));
    } else if start.len() != end.len() || start.is_empty() || start.iter().zip(end).any(|(start, end)| start >= end) {
        found.push(fault("2", ""));
    }
    found
}

/// The first fault decides; each other one behind it is shown as the pair. Of one number the clauses are several.
fn refused(found: &[Fault], buffer: &str, mut shows: Vec<String>) -> Expected {
    let number = |fault: &Fault| fault.0.split(' ').next().unwrap_or("").to_string();
    let (refusal, clause) = &found[0];
    let alike = found.iter().take_while(|other| other.0 == *refusal).count();
    for other in &found[alike..] {
        shows.push(format!("{}{} before {}", number(&found[0]), if alike == 1 { clause } else { "" }, number(other)));
    }
    shows.dedup();
    let clause = if alike > 1 { ", several" } else { clause };
    Expected { answer: ["refused ", refusal, buffer].concat(), clause, shows }
}

fn bits(bytes: &[u8]) -> Vec<bool> {
    bytes.iter().flat_map(|byte| (0..8).rev().map(move |bit| byte & (1 << bit) > 0)).collect()
}

/// The number of a string of bits, and the bits behind it.
fn take(bits: &[bool], count: usize) -> (u128, &[bool]) {
    let (front, behind) = bits.split_at(count);
    (front.iter().fold(0, |number, &bit| 2 * number + u128::from(bit)), behind)
}

fn read(tables: &Tables, packet: &[u8]) -> Expected {
    if packet.len() < 7 {
        return refused(&[fault("25", ", under seven bytes")], "", vec![format!("{} bytes", packet.len())]);
    }
    let all = bits(packet);
    let (version, rest) = take(&all, 3);
    let (packet_type, rest) = take(rest, 1);
    let (secondary, rest) = take(rest, 1);
    let (apid, rest) = take(rest, 11);
    let (flags, rest) = take(rest, 2);
    let (sequence, rest) = take(rest, 14);
    let (length, rest) = take(rest, 16);
    let octets = (rest.len() / 8) as u128;
    let (extension, rest) = take(rest, 1);
    let (code, rest) = take(rest, 3);
    let (coarse, rest) = take(rest, 2);
    let (coarse, (fine, rest)) = (coarse as usize + 1, take(rest, 2));
    let fine = fine as usize;
    let mut found = vec![];
    let mut rule = |breaks: bool, number: &str, clause: &'static str| {
        if breaks {
            found.push(fault(number, clause));
        }
    };
    rule(length + 1 > octets, "25", ", too short");
    rule(length + 1 < octets, "25", ", too long");
    rule(version > 0, "26", ", a version");
    rule(secondary == 0, "26", ", no secondary header");
    rule(extension == 1, "26", ", an extension");
    rule(code != 2, "26", ", a time code");
    let past = 8 * (coarse + fine) > rest.len();
    rule(past, "25", ", a time past the data");
    found.extend(table_faults(tables));
    let mut shows = vec![];
    if length + 1 != octets && length.abs_diff(octets - 1) == 1 {
        shows.push("25, by one".to_string());
    }
    if past && rest.len() == 8 * (coarse + fine - 1) {
        shows.push("25, a time past the data by one".to_string());
    }
    let layout = &tables.layout;
    let broken_layout = found.iter().any(|fault| fault.0 == "1");
    if past || broken_layout {
        return refused(&found, "", shows);
    }
    // Whole seconds by the modulus, and what of the fine part is whole ticks.
    let (seconds, rest) = take(rest, 8 * coarse);
    let (part, rest) = take(rest, 8 * fine);
    let m = u128::from(layout.moduli[1]);
    let unit = 256u128.pow(fine as u32);
    let ticks = seconds * m + part * m / unit;
    let rows: Vec<(u128, u128)> =
        tables.start.iter().zip(&tables.end).map(|(&start, &end)| (start.into(), end.into())).collect();
    let holding: Vec<usize> = (0..rows.len()).filter(|&row| rows[row].0 <= ticks && ticks <= rows[row].1).collect();
    let mut show = |holds: bool, what: &str| {
        if holds {
            shows.push(what.to_string());
        }
    };
    let row = match holding[..] {
        [] => {
            found.push(fault("11", if ticks >> 64 > 0 { ", beyond 64 bits" } else { ", in none" }));
            if found.len() == 1 {
                let low = ticks % (1 << 64);
                show(rows.iter().any(|row| ticks == row.1 + 1), "11, one above an end");
                show(rows.iter().any(|row| ticks + 1 == row.0), "11, one below a start");
                let low = ticks >> 64 > 0 && rows.iter().any(|row| row.0 <= low && low <= row.1);
                show(low, "11, beyond 64 bits, the low 64 bits in a partition");
            }
            return refused(&found, "", shows);
        }
        [row, ..] => row,
    };
    if !found.is_empty() {
        return refused(&found, "", shows);
    }
    let encoded = sums(tables)[row] + ticks - rows[row].0;
    let data = 7 + coarse + fine;
    show(true, &format!("{} coarse, {} fine", coarse, fine));
    show(m == unit, "m is 256^f");
    show(m < unit, "m below 256^f");
    show(m > unit, "m above 256^f");
    show(holding.len() > 1, "the first of several partitions");
    show(row > 0, "a later partition");
    show(ticks == rows[row].0, "a start");
    show(ticks == rows[row].1, "an end");
    show(ticks == rows[row].1 && holding.iter().any(|&other| ticks == rows[other].0), "an end that is a later start");
    show(layout.offsets[0] > 0, "an offset of the first field");
    show(layout.offsets[1] > 0, "an offset of the second field");
    show(((seconds * unit + part) * m) >> 64 > 0, "a product beyond 64 bits");
    show(packet_type == 1, "type 1");
    show(!rest.is_empty(), "data after the time");
    show(rest.is_empty(), "no data after the time");
    let clause = if part * m % unit == 0 { ", a whole number of ticks" } else { ", rounded down" };
    let fields = [packet_type, apid, flags, sequence, coarse as u128, fine as u128, data as u128, ticks, encoded];
    Expected {
        answer: fields.iter().fold("ok".to_string(), |line, field| format!("{} {}", line, field)),
        clause,
        shows,
    }
}

fn write(tables: &Tables, question: WriteQuestion) -> Expected {
    let WriteQuestion { header, e, fill, len, data } = question;
    let Header { packet_type, apid, flags, sequence, coarse, fine } = header;
    let before = hex(&vec![fill; len]);
    let mut found = table_faults(tables);
    let tables_faults = found.len();
    let two = !found.iter().any(|fault| fault.0 == "1");
    let mut rule = |breaks: bool, number: &str, clause: &'static str| {
        if breaks {
            found.push(fault(number, clause));
        }
    };
    let power = |octets: u8| 256u128.checked_pow(octets.into());
    rule(packet_type & 0xfe > 0, "26", ", type");
    rule(apid >> 11 > 0, "26", ", APID");
    rule(flags >> 2 > 0, "26", ", sequence flags");
    rule(sequence >> 14 > 0, "26", ", sequence count");
    rule(!(1..=4).contains(&coarse), "26", ", coarse octets");
    rule(!(0..=3).contains(&fine), "26", ", fine octets");
    let m = u128::from(tables.layout.moduli[1]);
    rule(two && fine < 4 && power(fine) != Some(m), "26", ", m");
    let octets = 1 + u128::from(coarse) + u128::from(fine) + data.len() as u128;
    rule(octets > 65_536, "25", "");
    let mut shows = vec![];
    if tables_faults > 0 {
        return refused(&found, &[" ", &before].concat(), shows);
    }
    // The last partition that begins at e or before it; past the total the last one goes on.
    let sums = sums(tables);
    let rows = sums.len() - 1;
    let total = sums[rows];
    let e = u128::from(e);
    let row = (0..rows).rfind(|&row| sums[row] <= e).expect("the first begins at 0");
    let count = u128::from(tables.start[row]) + e - sums[row];
    let (seconds, part) = (count / m, count % m);
    let large = power(coarse).map_or(false, |beyond| seconds >= beyond);
    rule(e > total, "12", "");
    rule(large, "9", "");
    rule(6 + octets > len as u128, "16", "");
    let mut show = |holds: bool, what: &str| {
        if holds {
            shows.push(what.to_string());
        }
    };
    let by_one = found.first().map_or("", |fault| &fault.0[..]);
    show(by_one == "12" && e == total + 1, "12, by one");
    show(by_one == "9" && power(coarse) == Some(seconds), "9, by one");
    show(by_one == "16" && len as u128 + 1 == 6 + octets, "16, by one");
    show(by_one == "16" && len == 0, "16, no buffer");
    if !found.is_empty() {
        return refused(&found, &[" ", &before].concat(), shows);
    }
    show(true, &format!("{} coarse, {} fine", coarse, fine));
    show(power(coarse) == Some(seconds + 1), "the largest coarse part");
    show(row > 0 && e == sums[row], "an inner end");
    show(e == total, "the total");
    show(row > 0, "a later partition");
    show(6 + octets == len as u128, "a buffer that fits");
    show(6 + octets < len as u128, "bytes behind the packet");
    show(tables.layout.offsets[..2].iter().any(|&offset| offset > 0), "an offset");
    show(data.is_empty(), "no data");
    let mut bits = vec![];
    let mut put = |number: u128, count: usize| bits.extend((0..count).rev().map(|bit| number >> bit & 1 == 1));
    put(0, 3);
    put(packet_type.into(), 1);
    put(1, 1);
    put(apid.into(), 11);
    put(flags.into(), 2);
    put(sequence.into(), 14);
    put(octets - 1, 16);
    put(0, 1);
    put(2, 3);
    put(u128::from(coarse) - 1, 2);
    put(fine.into(), 2);
    put(seconds, 8 * usize::from(coarse));
    put(part, 8 * usize::from(fine));
    data.iter().for_each(|&octet| put(octet.into(), 8));
    let mut buffer: Vec<u8> = bits.chunks(8).map(|bits| take(bits, 8).0 as u8).collect();
    let length = buffer.len();
    buffer.resize(len, fill);
    Expected { answer: format!("ok {} {}", length, hex(&buffer)), clause: "", shows }
}

/// Bytes as a word.
fn hex(bytes: &[u8]) -> String {
    if bytes.is_empty() {
        return ".".to_string();
    }
    bytes.iter().map(|byte| format!("{:02x}", byte)).collect()
}

/// Adler-32 as two sums: of the bytes, and of each byte times how many there are from it on.
fn sum(bytes: &[u8]) -> String {
    let weighted = |(i, &byte): (usize, &u8)| (bytes.len() - i) as u64 * u64::from(byte);
    let low = 1 + bytes.iter().map(|&byte| u64::from(byte)).sum::<u64>();
    let high = bytes.len() as u64 + bytes.iter().enumerate().map(weighted).sum::<u64>();
    format!("{:04x}{:04x}", high % 65_521, low % 65_521)
}

fn walk(memory: &mut Memory, len: usize, tail: u64, piece: &[u8]) -> Expected {
    let mut found = vec![];
    let mut shows = vec![];
    let mut show = |holds: bool, what: &str| {
        if holds {
            shows.push(what.to_string());
        }
    };
    if len < 65_542 {
        found.push(fault("16", ""));
        show(len == 65_541, "16, by one");
        show(tail > len as u64, "16, a tail beyond the buffer");
    }
    if tail > 65_542 {
        found.push(fault("25", ""));
        show(len >= 65_542 && tail == 65_543, "25, by one");
        show(len > 65_542 && tail <= len as u64, "25, within a longer buffer");
    }
    if !found.is_empty() {
        memory.refused = true;
        return refused(&found, "", shows);
    }
    if tail != 0 && tail != memory.tail as u64 {
        return Expected { answer: "a tail that no walk left".to_string(), clause: "", shows };
    }
    let held = |tail: usize| match tail {
        0 => "an empty tail",
        1..=5 => "a tail within a header",
        6 => "a tail of a header",
        _ => "a tail beyond a header",
    };
    let before = tail as usize;
    show(true, held(before));
    show(before == 0 && memory.tail > 0, "a tail left behind");
    show(before > 0 && memory.refused, "after a refusal");
    show(len == 65_542, "the shortest buffer");
    show(len > 65_542, "a longer buffer");
    if tail == 0 {
        memory.dump.clear();
        memory.given = 0;
        memory.pieces = 0;
    }
    memory.dump.extend_from_slice(piece);
    memory.pieces += 1;
    // Each packet from the dump's first byte on.
    let mut packets = vec![];
    let mut rest = &memory.dump[..];
    while rest.len() >= 6 {
        let length = 7 + take(&bits(&rest[4..6]), 16).0 as usize;
        if length > rest.len() {
            break;
        }
        packets.push(&rest[..length]);
        rest = &rest[length..];
    }
    let new = &packets[memory.given..];
    show(piece.is_empty(), "an empty piece");
    show(piece.len() == 1, "a piece of one byte");
    show(new.len() == 1, "one packet");
    show(new.len() > 1, "several packets");
    show(new.is_empty(), "no packet");
    show(!new.is_empty() && rest.is_empty(), "a packet ends at the cut");
    show(new.first().map_or(false, |_| before > 0), "a packet that began in the tail");
    show(before > 0 && new.len() == 1 && rest.is_empty(), "a packet that began in the tail ends at the cut");
    show(!new.is_empty() && before > 0 && memory.pieces > 2, "a packet over several pieces");
    show(true, &format!("leaves {}", held(rest.len())));
    let mut answer = format!("ok {} {}", rest.len(), sum(rest));
    for packet in new {
        answer += &format!(" {}:{}", packet.len(), sum(packet));
    }
    if !new.is_empty() {
        memory.pieces = usize::from(!rest.is_empty());
    }
    memory.tail = rest.len();
    memory.given = packets.len();
    memory.refused = false;
    if answer.len() > 8_192 {
        answer = "an answer that is too long".to_string();
    }
    Expected { answer, clause: "", shows }
}
