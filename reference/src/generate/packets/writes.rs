//! Writing: every range, counts and coarse octets at their edges, buffers.

use super::{header, layout, Writer, BROKEN, E15};
use crate::packet::Header;

/// A buffer for the short packets here.
const ROOM: (u8, usize) = (0xee, 32);

/// Each number at its edge and one beyond; m and the fine octets.
pub fn ranges(writer: &mut Writer) {
    writer.load_partitions(layout(&[1_000, 256], &[0, 0]), &[(0, 70_000)]);
    let good = Header { packet_type: 1, apid: 0x345, flags: 2, sequence: 0x1234, coarse: 2, fine: 1 };
    let e = 0x1_0203;
    writer.write_packet("ok: all fields", good, e, ROOM, b"data");
    for packet_type in [0, 1, 2, 3, 4, 16, 128, 255] {
        let label = if packet_type > 1 { "26: type" } else { "ok: type" };
        writer.write_packet(label, Header { packet_type, ..good }, e, ROOM, &[]);
        writer.write_packet(label, Header { packet_type, ..header(2, 1) }, e, ROOM, &[1, 2, 3]);
    }
    for apid in [0, 1, 255, 256, 1_024, 2_046, 2_047, 2_048, 2_049, 4_095, 4_096, 32_768, 65_535] {
        let label = if apid > 2_047 { "26: APID" } else { "ok: APID" };
        writer.write_packet(label, Header { apid, ..good }, e, ROOM, &[]);
        writer.write_packet(label, Header { apid, ..header(2, 1) }, e, ROOM, &[9]);
    }
    for flags in [0, 1, 2, 3, 4, 5, 8, 64, 128, 192, 255] {
        let label = if flags > 3 { "26: sequence flags" } else { "ok: sequence flags" };
        writer.write_packet(label, Header { flags, ..good }, e, ROOM, &[]);
        writer.write_packet(label, Header { flags, ..header(2, 1) }, e, ROOM, &[9, 8]);
    }
    for sequence in [0, 1, 255, 256, 8_192, 16_382, 16_383, 16_384, 16_385, 32_768, 65_535] {
        let label = if sequence > 16_383 { "26: sequence count" } else { "ok: sequence count" };
        writer.write_packet(label, Header { sequence, ..good }, e, ROOM, &[]);
        writer.write_packet(label, Header { sequence, ..header(2, 1) }, e, ROOM, &[7; 9]);
    }
    for coarse in [0, 2, 3, 4, 5, 6, 7, 8, 9, 12, 32, 64, 128, 255] {
        let label = match coarse {
            0 => "26: no coarse octets",
            2..=4 => "ok: coarse octets",
            _ => "26: over four coarse octets",
        };
        for fields in [good, header(2, 1)] {
            writer.write_packet(label, Header { coarse, ..fields }, e, ROOM, &[]);
            writer.write_packet(label, Header { coarse, ..fields }, 5, ROOM, b"..");
        }
    }
    // Every m with every number of fine octets. 256^4 is a modulus, 256^8 would be 0 or 1 in 64 bits.
    for modulus in [
        1,
        2,
        8,
        16,
        24,
        100,
        255,
        256,
        257,
        512,
        65_535,
        65_536,
        65_537,
        131_072,
        16_777_215,
        16_777_216,
        16_777_217,
        4_294_967_296,
    ] {
        writer.load_partitions(layout(&[60_000, modulus], &[0, 0]), &[(0, 60_000 * modulus.min(16_777_216) - 1)]);
        for fine in [0, 1, 2, 3, 4, 5, 8, 16, 31, 32, 128, 255] {
            let label = match fine {
                0..=3 if modulus == 1 << (8 * fine) => "ok: m is 256^f",
                0..=3 => "26: m is not 256^f",
                _ => "26: over three fine octets",
            };
            writer.write_packet(label, header(2, fine), 0, ROOM, &[0xab]);
            if fine <= 3 {
                let e = writer.random.between(1, 50_000 * modulus.min(16_777_216));
                // A buffer that is too short comes after 26.
                let len = if label.starts_with("26") { 4 } else { 32 };
                writer.write_packet(label, header(4, fine), e, (0xee, len), &[]);
            }
        }
    }
    // Four fine octets would hold 256^4, eight none.
    for (modulus, fine) in [(1 << 32, 4), (1, 8), (1, 32), (256, 9), (65_536, 34)] {
        writer.load_whole(60_000, modulus);
        for e in [0, 1, 258, 59_999] {
            writer.write_packet("26: over three fine octets", header(4, fine), e, (0xee, 60), &[]);
            writer.write_packet("26: over three fine octets", Header { fine, ..good }, e, (0xee, 60), b"..");
        }
    }
}

/// Coarse exactly fitting and one too large; which partition a count is in; 12.
pub fn counts(writer: &mut Writer) {
    for fine in 0..=3u8 {
        let first = writer.load_whole(u64::MAX, 1 << (8 * fine));
        let total = (first << (8 * fine)) - 1;
        for coarse in 1..=4u8 {
            let beyond = 1u64 << (8 * (coarse + fine));
            let step = 1 << (8 * fine);
            for (e, fits) in [
                (0, true),
                (1, true),
                (step - 1, true),
                (step, true),
                (beyond - step - 1, true),
                (beyond - step, true),
                (beyond - 1, true),
                (beyond, false),
                (beyond + 1, false),
                (beyond + step, false),
                (beyond * 2, false),
                (total - 1, false),
                (total, false),
            ] {
                if e > total {
                    continue;
                }
                let label = if fits || e < beyond { "ok: coarse fits" } else { "9: coarse too large" };
                writer.write_packet(label, header(coarse, fine), e, ROOM, &[]);
            }
            for e in [total + 1, total + 2, 1 << 63, u64::MAX - 1, u64::MAX] {
                writer.write_packet("12: above the total", header(coarse, fine), e, ROOM, &[]);
            }
            writer.write_packet("12: above the total, a short buffer", header(coarse, fine), total + 1, (9, 5), &[]);
        }
    }
    // An inner end is the next start; the total is the last end. Offsets play no part.
    for (list, offsets) in [
        (&[(0, 500), (200, 900)][..], [0, 0]),
        (&[(0, 500), (500, 900)], [0, 1]),
        (&[(500, 900), (0, 500)], [1, 0]),
        (&[(200, 900), (0, 500), (100, 2_000)], [1_000, 1_000]),
        (&[(10, 20), (15, 35), (10, 20)], [5, 7]),
        (&[(0, 100), (65_500, 65_600), (300, 400)], [0, 0]),
        (&[(65_000, 65_536), (65_535, 65_536), (0, 1)], [0, 3]),
    ] {
        writer.load_partitions(layout(&[500, 256], &offsets), list);
        let (mut sum, mut sums) = (0, vec![0, 1, 2]);
        for (start, end) in list {
            sum += end - start;
            sums.extend([sum - 1, sum, sum + 1]);
        }
        sums.dedup();
        for e in sums {
            // The partition of e, and its count.
            let (mut left, mut count) = (e, 0);
            for (row, (start, end)) in list.iter().enumerate() {
                count = start + left;
                if left < end - start || row + 1 == list.len() {
                    break;
                }
                left -= end - start;
            }
            for coarse in [1, 2] {
                let label = match e.cmp(&sum) {
                    std::cmp::Ordering::Greater => "12: above the total",
                    _ if coarse == 1 && count >= 65_536 => "9: coarse too large",
                    std::cmp::Ordering::Equal => "ok: the total",
                    _ => "ok: the partition that printing takes",
                };
                writer.write_packet(label, header(coarse, 1), e, ROOM, b"#");
            }
        }
    }
    for (start, end, place, why) in BROKEN {
        writer.load_lists(layout(&[100, 256], &[0, 0]), start, end);
        let label = format!("2 {}: {}", place, why);
        for e in [0, 1, 3, 2_000] {
            writer.write_packet(&label, header(1, 1), e, ROOM, &[]);
        }
    }
    for (moduli, label) in [
        (vec![25_600], "1: one field"),
        (vec![256], "1: one field"),
        (vec![100, 256], "ok: two fields"),
        (vec![100, 256, 1], "1: three fields"),
        (vec![100, 1, 256], "1: three fields"),
        (vec![1, 100, 256], "1: three fields"),
        (vec![100, 16, 16], "1: three fields"),
        (vec![5, 5, 4, 256], "1: four fields"),
    ] {
        writer.load_partitions(layout(&moduli, &[]), &[(0, 255)]);
        for e in [0, 77, 255] {
            writer.write_packet(label, header(1, 1), e, ROOM, &[]);
        }
    }
}

/// Buffers exactly fitting, one short and longer; what is behind the packet stays.
pub fn buffers(writer: &mut Writer) {
    for fine in 0..=3u8 {
        writer.load_whole(u64::MAX, 1 << (8 * fine));
        for coarse in 1..=4u8 {
            for octets in [0, 1, 2, 7, 30, 200] {
                let data: Vec<u8> = (0..octets).map(|_| writer.random.word() as u8).collect();
                let length = 7 + usize::from(coarse) + usize::from(fine) + octets;
                let e = writer.random.between(0, (1 << (8 * (coarse + fine)).min(49)) - 1);
                let fill = writer.random.word() as u8;
                let fields = Header { apid: 1 + u16::from(fill), sequence: 77, ..header(coarse, fine) };
                for (len, label) in [
                    (length, "ok: a buffer that fits"),
                    (length - 1, "16: one byte short"),
                    (length + 1, "ok: one byte more"),
                    (256, "ok: a long buffer"),
                    (0, "16: no buffer"),
                    (6, "16: a header's bytes"),
                    (length - octets.max(1), "16: without the data"),
                ] {
                    writer.write_packet(label, fields, e, (fill, len), &data);
                }
            }
        }
    }
    // Packets of 255 and 256 bytes, and longer ones.
    writer.load_partitions(layout(&[1_000, 256], &[0, 0]), &[(0, E15.min(70_000))]);
    for octets in [245, 246, 247, 248, 300, 600] {
        let label = if octets <= 246 { "ok: a long packet" } else { "16: a packet longer than the buffer" };
        writer.write_packet(label, header(2, 1), 0x1_0101, (1, 256), &vec![0x5a; octets]);
    }
}
