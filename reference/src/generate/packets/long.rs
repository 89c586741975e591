//! The longest packets; each line has some 131,000 bytes, so there are few.

use super::{header, layout, Draft, Writer};
use crate::packet::{Header, LONGEST};
use crate::script::{MOST_BYTES, MOST_KERNEL};

pub fn all(writer: &mut Writer) {
    writer.load_partitions(layout(&[1_000, 256], &[0, 0]), &[(0, 70_000)]);
    // So many data octets, with this length field.
    for (octets, length, label) in [
        (65_535, 0xfffe, "ok: 65,535 data octets"),
        (65_536, 0xffff, "ok: 65,536 data octets"),
        (65_536, 0xfffe, "25: a length field one too small"),
        (65_535, 0xffff, "25: a length field one too large"),
        (65_537, 0, "25: 65,537 data octets"),
    ] {
        let draft = Draft::new((2, 1), 256, 9, &vec![octets as u8; octets - 4]);
        writer.read_packet(label, &Draft { length: Some(length), ..draft }.bytes());
    }
    let fields = header(2, 1);
    for (fields, e, octets, label) in [
        (fields, 5, 65_532, "16: 65,536 data octets"),
        (fields, 5, 65_533, "25: 65,537 data octets"),
        (header(1, 1), 65_536, 65_534, "25: 65,537 data octets, coarse too large"),
        (fields, 70_001, MOST_KERNEL, "25: 65,600 bytes, above the total"),
        (Header { apid: 2_048, ..fields }, 70_001, 65_533, "26: APID, 65,537 data octets, above the total"),
    ] {
        writer.write_packet(label, fields, e, (0x11, 12), &vec![0x99; octets]);
    }
    // One byte more than a line's bytes may be.
    writer.line(["read-packet ", &"08".repeat(MOST_KERNEL + 1)].concat().as_bytes());
    walks(writer);
}

/// The longest packet in pieces of 2,000 bytes: a tail of 65,541, then the last byte and another packet.
fn walks(writer: &mut Writer) {
    let bytes: Vec<u8> = (0..LONGEST).map(|i| (i % 251) as u8).collect();
    let mut dump = [&bytes[..], &[0, 0, 0, 0, 0, 1, 2, 3], b"rest"].concat();
    dump[4..6].copy_from_slice(&[0xff, 0xff]);
    writer.walk("ok: a long packet", 0, &dump[..MOST_BYTES]);
    let mut from = MOST_BYTES;
    while from + MOST_BYTES < LONGEST {
        writer.walk("ok: a long packet", from, &dump[from..from + MOST_BYTES]);
        from += MOST_BYTES;
    }
    writer.walk("ok: all but the last byte", from, &dump[from..LONGEST - 1]);
    writer.walk("ok: nothing", LONGEST - 1, &[]);
    writer.walk("ok: the last byte and more", LONGEST - 1, &dump[LONGEST - 1..]);
}
