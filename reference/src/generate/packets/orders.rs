//! "25 [..], 26 [..], 25 a time past the data, all before 1 (also a clock without two fields), 2 and 11"; "Writing: 1 and 2
//! likewise, 26 [..], 25 [..], 12, 9 [..], 16": inputs with several faults.

use super::{broken_layouts, header, layout, Draft, Writer, BROKEN};
use crate::packet::Header;

/// A clock's modulus of 256 and 100, and partitions.
const SOUND: (&[u64], &[(u64, u64)]) = (&[100, 256], &[(0, 500), (200, 900)]);

/// Packets with faults of their own, in the order of the refusals.
fn packets() -> Vec<(&'static str, &'static str, Vec<u8>)> {
    let good = Draft::new((1, 1), 3, 0, b"data");
    let short = Draft { p_field: 0x2f, ..Draft::of(vec![0, 3]) };
    let length = |draft: &Draft| Draft { length: Some(draft.rest.len() as u16 + 1), ..draft.clone() };
    let version = |draft: &Draft| Draft { version: 5, ..draft.clone() };
    let secondary = |draft: &Draft| Draft { secondary: 0, ..draft.clone() };
    let extension = |draft: &Draft| Draft { p_field: draft.p_field | 0x80, ..draft.clone() };
    let code = |draft: &Draft| Draft { p_field: draft.p_field ^ 0x30, ..draft.clone() };
    let mut all = vec![];
    let mut add = |number, why, draft: Draft| all.push((number, why, draft.bytes()));
    // A length and each of the others.
    add("25", "a length, a version", length(&version(&good)));
    add("25", "a length, no secondary header", length(&secondary(&good)));
    add("25", "a length, an extension", length(&extension(&good)));
    add("25", "a length, a time code", length(&code(&good)));
    add("25", "a length, a time past the data", length(&short));
    add("25", "a length, a time code, a time past the data", length(&code(&short)));
    add("25", "a length", length(&good));
    // Each of 26 and a time past the data.
    add("26", "a version, a time past the data", version(&short));
    add("26", "no secondary header, a time past the data", secondary(&short));
    add("26", "an extension, a time past the data", extension(&short));
    add("26", "a time code, a time past the data", code(&short));
    add("26", "a version", version(&good));
    add("26", "no secondary header", secondary(&good));
    add("26", "an extension", extension(&good));
    add("26", "a time code", code(&good));
    add("25", "a time past the data", short);
    all
}

pub fn reading(writer: &mut Writer) {
    let good = layout(SOUND.0, &[0, 0]);
    let held = Draft::new((1, 1), 3, 0, b"data").bytes();
    // In no partition; beyond 64 bits of ticks in no clock here.
    let outside = Draft::new((4, 1), 77, 0, b"data").bytes();
    // A packet's own faults before all tables, good ones too.
    let mut clocks = vec![(good, "")];
    clocks.extend(broken_layouts().into_iter().map(|layout| (layout, ", and a layout")));
    for (layout, other) in clocks {
        writer.load_partitions(layout, SOUND.1);
        for (number, why, packet) in packets() {
            writer.read_packet(&[number, ": ", why, other].concat(), &packet);
        }
        if !other.is_empty() {
            writer.read_packet("1: a layout", &held);
            writer.read_packet("1: a layout, and a count in no partition", &outside);
        }
    }
    // Broken partitions, alone and with a broken layout.
    for (i, (start, end, place, why)) in BROKEN.iter().enumerate() {
        writer.load_lists(good, start, end);
        for (number, why, packet) in packets().into_iter().skip(i % 2).step_by(2) {
            writer.read_packet(&[number, ": ", why, ", and partitions"].concat(), &packet);
        }
        writer.read_packet(&format!("2 {}: {}", place, why), &held);
        writer.read_packet(&format!("2 {}: {}, and a count in no partition", place, why), &outside);
        for broken in broken_layouts().into_iter().skip(i % 3).step_by(3) {
            writer.load_lists(broken, start, end);
            writer.read_packet("1: a layout, and partitions", &held);
            writer.read_packet("1: a layout, partitions, a count in no partition", &outside);
        }
    }
    writer.load_partitions(good, SOUND.1);
    writer.read_packet("ok: no fault", &held);
    writer.read_packet("11: no other fault", &outside);
}

/// Headers out of range in one way each, for m = 256.
fn headers() -> Vec<(&'static str, Header)> {
    let good = header(1, 1);
    vec![
        ("type", Header { packet_type: 2, ..good }),
        ("APID", Header { apid: 2_048, ..good }),
        ("sequence flags", Header { flags: 4, ..good }),
        ("sequence count", Header { sequence: 16_384, ..good }),
        ("no coarse octets", Header { coarse: 0, ..good }),
        ("five coarse octets", Header { coarse: 5, ..good }),
        ("four fine octets", Header { fine: 4, ..good }),
        ("m is not 256^f", Header { fine: 2, ..good }),
        ("all", Header { packet_type: 255, apid: 65_535, flags: 255, sequence: 65_535, coarse: 255, fine: 255 }),
    ]
}

pub fn writing(writer: &mut Writer) {
    let good = layout(&[1_000, 256], &[0, 0]);
    // The second partition's counts need two coarse octets.
    let sound = &[(0, 500), (65_536, 70_000)];
    let (total, far) = (500 + 70_000 - 65_536, u64::MAX);
    // Encoded counts: good, 9, 12 (on from the last start they would be 9 too).
    let counts =
        [(3, ""), (600, ", coarse too large"), (total + 1, ", above the total"), (far, ", far above the total")];
    let rooms = [((0xaa, 16), ""), ((0x55, 8), ", a short buffer")];
    for (i, broken) in broken_layouts().into_iter().enumerate() {
        writer.load_partitions(broken, &[(0, 500), (200, 900)]);
        let partitions = BROKEN[i % BROKEN.len()];
        for both in [false, true] {
            let fault = if both { "1: a layout, partitions" } else { "1: a layout" };
            if both {
                writer.load_lists(broken, partitions.0, partitions.1);
            }
            for (other, fields) in [("", header(1, 1)), headers()[i % 9], headers()[(i + 4) % 9]] {
                for ((e, count), (room, short)) in [(counts[0], rooms[0]), (counts[i % 4], rooms[(i + 1) % 2])] {
                    writer.write_packet(&[fault, " ", other, count, short].concat(), fields, e, room, &[]);
                }
            }
        }
    }
    for (i, (start, end, place, why)) in BROKEN.iter().enumerate() {
        writer.load_lists(good_small(), start, end);
        for (j, (other, fields)) in headers().into_iter().chain([("", header(1, 1))]).enumerate() {
            let ((e, count), (room, short)) = (counts[(i + j) % 4], rooms[j % 2]);
            let label = format!("2 {}: {} {}{}{}", place, why, other, count, short);
            writer.write_packet(&label, fields, e, room, &[]);
        }
    }
    writer.load_partitions(good, sound);
    for (other, fields) in headers() {
        for (e, count) in counts {
            for (room, short) in rooms {
                writer.write_packet(&["26: ", other, count, short].concat(), fields, e, room, &[]);
            }
        }
    }
    for (e, count) in counts {
        for (room, short) in rooms {
            let number = match e {
                3 if short.is_empty() => "ok",
                3 => "16",
                600 => "9",
                _ => "12",
            };
            for data in [&[][..], &[7]] {
                writer.write_packet(
                    &[number, ": no header out of range", count, short].concat(),
                    header(1, 1),
                    e,
                    room,
                    data,
                );
            }
        }
    }
    // An inner end is the next start, whose coarse part is too large; the end's would fit.
    for (e, room, label) in [
        (499, 16, "ok: the last before an inner end"),
        (499, 8, "16: the last before an inner end"),
        (500, 16, "9: an inner end is the next start"),
        (500, 8, "9: an inner end is the next start, a short buffer"),
        (500, 0, "9: an inner end is the next start, no buffer"),
        (501, 8, "9: behind an inner end, a short buffer"),
        (total, 8, "9: the total, a short buffer"),
        (total + 1, 8, "12: above the total, a short buffer"),
    ] {
        for fill in [0, 0x33, 0xff] {
            writer.write_packet(label, header(1, 1), e, (fill, room), &[]);
        }
    }
}

/// As in the readings.
fn good_small() -> crate::Layout {
    layout(&[100, 256], &[0, 0])
}
