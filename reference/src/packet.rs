//! "Satellite packets" (request 7): CCSDS Space Packets with a CUC time as secondary header.
//!
//! The primary header has six octets, high bit first: version 3 bits, type 1, secondary header flag 1, APID 11; sequence
//! flags 2, sequence count 14; length 16. Then come the data octets: P-field, time, data. The P-field: extension 1 bit, time
//! code 3, coarse octets less one 2, fine octets 2. The time: coarse octets, fine octets, high octet first.

use crate::layout::Clock;
use crate::{Layout, Partitions, Refusal};

/// Octets of the primary header.
pub const PRIMARY: usize = 6;
/// "65,536 data octets".
pub const MOST_DATA_OCTETS: usize = 65_536;
/// The longest packet, and the tail's "lent buffer of 65,542 bytes".
pub const LONGEST: usize = PRIMARY + MOST_DATA_OCTETS;

/// The header fields that are given, and the octets of the time.
#[derive(Clone, Copy, Debug, PartialEq, Eq)]
pub struct Header {
    /// 0 or 1.
    pub packet_type: u8,
    /// 0 to 2,047.
    pub apid: u16,
    /// Sequence flags, 0 to 3.
    pub flags: u8,
    /// Sequence count, 0 to 16,383.
    pub sequence: u16,
    /// Coarse octets, "1 to 4".
    pub coarse: u8,
    /// Fine octets, "0 to 3".
    pub fine: u8,
}

/// A packet that was read.
#[derive(Clone, Copy, Debug, PartialEq, Eq)]
pub struct Packet {
    pub header: Header,
    /// The place of the first byte after the time.
    pub data: usize,
    /// The clock count.
    pub count: u64,
    /// The encoded count.
    pub encoded: u64,
}

/// "Refusals: 25 packet of another length, 26 another version or time code, an extension or no secondary header, 25 a time
/// past the data, all before 1 (also a clock without two fields), 2 and 11."
pub fn read(layout: &Layout, partitions: Partitions, packet: &[u8]) -> Result<Packet, Refusal> {
    // "The packet's length field is the data octets less one and must match what is there"; there is at least one.
    if packet.len() <= PRIMARY || packet.len() != length(packet) {
        return Err(Refusal::new(25));
    }
    let p_field = packet[PRIMARY];
    let (version, secondary) = (packet[0] >> 5, packet[0] >> 3 & 1);
    let (extension, time_code) = (p_field >> 7, p_field >> 4 & 7);
    if version != 0 || secondary != 1 || extension != 0 || time_code != 0b010 {
        return Err(Refusal::new(26));
    }
    let header = Header {
        packet_type: packet[0] >> 4 & 1,
        apid: word(packet[0], packet[1]) & 0x7ff,
        flags: packet[2] >> 6,
        sequence: word(packet[2], packet[3]) & 0x3fff,
        coarse: (p_field >> 2 & 3) + 1,
        fine: p_field & 3,
    };
    // "a time past the data"
    let fine_from = PRIMARY + 1 + usize::from(header.coarse);
    let data = fine_from + usize::from(header.fine);
    if data > packet.len() {
        return Err(Refusal::new(25));
    }
    let clock = two_fields(layout)?;
    partitions.check(clock.p)?;
    // "the ticks are (coarse×256^f + fine)×m / 256^f rounded down"
    let (coarse, fine) = (high_first(&packet[PRIMARY + 1..fine_from]), high_first(&packet[fine_from..data]));
    let unit = 1u128 << (8 * header.fine);
    let ticks = (coarse * unit + fine) * u128::from(clock.moduli[1]) / unit;
    // Ticks beyond 64 bits are beyond every partition. "the partition is found as for a stamp without one"
    let count = u64::try_from(ticks).map_err(|_| Refusal::new(11))?;
    let encoded = partitions.encode(None, count)?;
    Ok(Packet { header, data, count, encoded })
}

/// The packet goes to the front of the buffer, the answer is its length. "Writing: 1 and 2 likewise, 26 for octets, m or a
/// header field out of range, 25 over 65,536 data octets, 12, 9 coarse too large, 16."
pub fn write(
    layout: &Layout,
    partitions: Partitions,
    header: &Header,
    e: u64,
    data: &[u8],
    buffer: &mut [u8],
) -> Result<usize, Refusal> {
    let clock = two_fields(layout)?;
    let total = partitions.check(clock.p)?;
    let Header { packet_type, apid, flags, sequence, coarse, fine } = *header;
    if coarse < 1 || coarse > 4 || fine > 3 || packet_type > 1 || apid > 2_047 || flags > 3 || sequence > 16_383 {
        return Err(Refusal::new(26));
    }
    // "Writing needs m equal to 256^f"
    let unit = 1u64 << (8 * fine);
    if clock.moduli[1] != unit {
        return Err(Refusal::new(26));
    }
    // P-field, time and data.
    let octets = 1 + usize::from(coarse) + usize::from(fine) + data.len();
    if octets > MOST_DATA_OCTETS {
        return Err(Refusal::new(25));
    }
    // "encoded count above the total"
    if e > total {
        return Err(Refusal::new(12));
    }
    // The partition is printing's.
    let (_, count) = partitions.locate(e);
    let (seconds, subticks) = (count / unit, count % unit);
    if seconds >> (8 * coarse) != 0 {
        return Err(Refusal::new(9));
    }
    let packet = buffer.get_mut(..PRIMARY + octets).ok_or(Refusal::new(16))?;
    // Version 0 and the secondary header flag 1.
    let first = u16::from(packet_type) << 12 | 1 << 11 | apid;
    let second = u16::from(flags) << 14 | sequence;
    let third = (octets - 1) as u16;
    packet[..2].copy_from_slice(&first.to_be_bytes());
    packet[2..4].copy_from_slice(&second.to_be_bytes());
    packet[4..6].copy_from_slice(&third.to_be_bytes());
    // No extension, time code 010.
    packet[6] = 0b010 << 4 | (coarse - 1) << 2 | fine;
    let fine_from = PRIMARY + 1 + usize::from(coarse);
    let data_from = fine_from + usize::from(fine);
    packet[PRIMARY + 1..fine_from].copy_from_slice(&seconds.to_be_bytes()[8 - usize::from(coarse)..]);
    packet[fine_from..data_from].copy_from_slice(&subticks.to_be_bytes()[8 - usize::from(fine)..]);
    packet[data_from..].copy_from_slice(data);
    Ok(packet.len())
}

/// The next piece of a dump: gives each whole packet in order, "by the length fields alone", and answers the length of the
/// tail, which is then at the buffer's front. A packet that lies whole in the piece is given as it lies there; only one that
/// began in the tail is put together in the buffer. "a lent buffer of 65,542 bytes (16 if shorter, then 25 for a tail said
/// to be longer than that)".
pub fn walk(buffer: &mut [u8], tail: u64, piece: &[u8], mut give: impl FnMut(&[u8])) -> Result<usize, Refusal> {
    let buffer = buffer.get_mut(..LONGEST).ok_or(Refusal::new(16))?;
    if tail > LONGEST as u64 {
        return Err(Refusal::new(25));
    }
    let mut held = tail as usize;
    // No walk leaves a whole packet as its tail; what is answered to one is free.
    if whole(&buffer[..held]).is_some() {
        return Err(Refusal::new(25));
    }
    let mut rest = piece;
    if held > 0 {
        // First the header, which has the length, then as much.
        fill(buffer, &mut held, PRIMARY, &mut rest);
        if held < PRIMARY {
            return Ok(held);
        }
        let length = length(buffer);
        fill(buffer, &mut held, length, &mut rest);
        if held < length {
            return Ok(held);
        }
        give(&buffer[..length]);
    }
    while let Some(length) = whole(rest) {
        let (packet, behind) = rest.split_at(length);
        give(packet);
        rest = behind;
    }
    buffer[..rest.len()].copy_from_slice(rest);
    Ok(rest.len())
}

/// Moves bytes from the front of the piece to those held, until so many are held or the piece ends.
fn fill(buffer: &mut [u8], held: &mut usize, wanted: usize, rest: &mut &[u8]) {
    let more = wanted.saturating_sub(*held).min(rest.len());
    let (front, behind) = rest.split_at(more);
    buffer[*held..*held + more].copy_from_slice(front);
    *held += more;
    *rest = behind;
}

/// The length of the packet at the front, if it is whole.
fn whole(bytes: &[u8]) -> Option<usize> {
    if bytes.len() < PRIMARY {
        return None;
    }
    Some(length(bytes)).filter(|&length| length <= bytes.len())
}

/// The length of a packet, by its length field: "the data octets less one".
fn length(packet: &[u8]) -> usize {
    PRIMARY + usize::from(word(packet[4], packet[5])) + 1
}

/// "1 (also a clock without two fields)".
fn two_fields(layout: &Layout) -> Result<Clock<'_>, Refusal> {
    let clock = layout.check()?;
    if clock.moduli.len() != 2 {
        return Err(Refusal::new(1));
    }
    Ok(clock)
}

fn word(high: u8, low: u8) -> u16 {
    u16::from_be_bytes([high, low])
}

/// A number of octets, high octet first.
fn high_first(octets: &[u8]) -> u128 {
    octets.iter().fold(0, |number, &octet| number << 8 | u128::from(octet))
}
