//! The readings' examples.

use super::{header, layout, Draft, Writer, E12};
use crate::packet::LONGEST;
use crate::script::Question;

pub fn all(writer: &mut Writer) {
    // Any tables: a time past the data, another time code.
    writer.read_packet("25: a time past the data", &[8, 0, 0, 0, 0, 0, 0x2f]);
    writer.read_packet("26: time code 011", &[8, 0, 0, 0, 0, 0, 0x3f]);
    // Offsets play no part.
    writer.load_partitions(layout(&[1_000, 256], &[0, 1]), &[(0, 1_000)]);
    writer.read_packet("ok: 256 ticks", &[8, 0, 0xc0, 0, 0, 2, 0x21, 1, 0]);
    // Ticks beyond 64 bits.
    writer.load_partitions(layout(&[1_000, E12], &[0, 0]), &[(0, 999_999_999_999_999)]);
    for fine in 0..4 {
        let draft = Draft::new((4, fine), 0xffff_ffff, 0, &[]);
        writer.read_packet("11: ticks beyond 64 bits", &draft.bytes());
    }
    writer.load_partitions(layout(&[100, 256], &[0, 0]), &[(0, 1_000)]);
    for len in [9, 10, 8] {
        let label = if len < 9 { "16: one byte short" } else { "ok: 5 ticks" };
        writer.write_packet(label, header(1, 1), 5, (0x77, len), &[]);
    }
    writer.read_packet("ok: read back", &[8, 0, 0, 0, 0, 2, 0x21, 0, 5]);
    // Six 0 and `abc`.
    writer.walk("ok: a packet of seven bytes and two more", 0, b"\0\0\0\0\0\0abc");
    writer.labelled("16: a short buffer", Question::Walk { len: LONGEST - 1, tail: 2, piece: b"x" });
    writer.labelled("25: a tail too long", Question::Walk { len: LONGEST, tail: LONGEST as u64 + 1, piece: b"x" });
    writer.labelled("25: also in a longer buffer", Question::Walk { len: LONGEST + 1, tail: 65_543, piece: b"x" });
    writer.walk("ok: the tail goes on", 2, b"\0\0\0\0");
    writer.walk("ok: the last byte", 6, b"!");
    writer.walk("ok: nothing", 0, b"");
}
