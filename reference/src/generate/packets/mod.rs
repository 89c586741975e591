//! Packets: every bit of a header, every clause of every refusal, every cut of a dump; then random ones.

mod any;
mod draft;
mod examples;
mod lines;
mod long;
mod orders;
mod reads;
mod walks;
mod writes;

use super::writer::Writer;
use crate::packet::{Header, LONGEST};
use crate::script::{Question, Tables, WriteQuestion, MOST_TAIL};
use crate::Layout;
pub use draft::cut;
use draft::{p_field, Draft};

const E15: u64 = Layout::LARGEST_P;
const E12: u64 = Layout::LARGEST_MSF;

/// Random lists of questions among the stored samples.
const LISTS: usize = 110;

/// All that is stored: a fixed part, then random ones.
pub fn all(writer: &mut Writer) {
    writer.line(b"# packets, examples");
    examples::all(writer);
    writer.line(b"# packets, headers");
    reads::headers(writer);
    writer.line(b"# packets, P-fields and times past the data");
    reads::p_fields(writer);
    writer.line(b"# packets, lengths");
    reads::lengths(writer);
    writer.line(b"# packets, ticks");
    reads::ticks(writer);
    writer.line(b"# packets, partitions and offsets");
    reads::partitions(writer);
    writer.line(b"# packets, clocks of other fields");
    reads::fields(writer);
    writer.line(b"# packets, written, every range");
    writes::ranges(writer);
    writer.line(b"# packets, written, counts and coarse octets");
    writes::counts(writer);
    writer.line(b"# packets, written, buffers");
    writes::buffers(writer);
    writer.line(b"# packets, two faults at once");
    orders::reading(writer);
    orders::writing(writer);
    writer.line(b"# packets, walks");
    walks::all(writer);
    writer.line(b"# packets, lines of the script itself");
    lines::all(writer);
    writer.line(b"# packets, long ones");
    long::all(writer);
    writer.line(b"# packets at random");
    for _ in 0..LISTS {
        writer.any_packets(40);
    }
}

/// Before any table.
pub fn before_tables(writer: &mut Writer) {
    let good = Draft::new((1, 0), 5, 0, &[]);
    writer.read_packet("1: before any table", &good.bytes());
    writer.read_packet("26: before any table", &Draft { secondary: 0, ..good.clone() }.bytes());
    writer.read_packet("25: before any table", &Draft { length: Some(2), ..good }.bytes());
    writer.write_packet("1: before any table", header(1, 0), 0, (7, 12), &[1, 2]);
    writer.walk("ok: no tables asked", 0, &[0, 0, 0, 0, 0, 0, 1, 2]);
    writer.walk("ok: no tables asked", 1, &[0, 0, 0, 0, 0, 9]);
}

/// Under table A's layout and 9,999 partitions of 1 to 4 ticks within 0 to 503.
pub fn most_partitions(writer: &mut Writer) {
    writer.read_packet("ok: a count in the first of the most partitions", &Draft::new((1, 0), 0, 0, &[]).bytes());
    writer.read_packet("ok: a count in one of the most partitions", &Draft::new((2, 1), 49, 0x80, &[]).bytes());
    writer.read_packet("11: a count in none of the most partitions", &Draft::new((1, 1), 50, 0x80, &[]).bytes());
    writer.write_packet("26: under the most partitions, m is 10", header(1, 1), 0, (7, 12), &[]);
}

/// Under so many partitions, too many.
pub fn too_many_partitions(writer: &mut Writer, rows: usize) {
    let label = format!("2 {}: too many partitions", rows);
    writer.read_packet(&label, &Draft::new((1, 0), 0, 0, &[]).bytes());
    writer.read_packet(&label, &Draft::new((4, 0), 1 << 31, 0, &[]).bytes());
    writer.write_packet(&label, header(1, 1), 0, (7, 12), &[]);
}

impl Writer {
    fn read_packet(&mut self, label: &str, packet: &[u8]) {
        self.labelled(label, Question::ReadPacket(packet));
    }

    /// Into a buffer of this fill and length.
    fn write_packet(&mut self, label: &str, header: Header, e: u64, (fill, len): (u8, usize), data: &[u8]) {
        self.labelled(label, Question::WritePacket(WriteQuestion { header, e, fill, len, data }));
    }

    /// Into a buffer that is long enough.
    fn walk(&mut self, label: &str, tail: usize, piece: &[u8]) {
        let len = self.random.pick(&[LONGEST, LONGEST, LONGEST + 1, MOST_TAIL]);
        self.labelled(label, Question::Walk { len, tail: tail as u64, piece });
    }

    /// A two-field clock with one partition of all counts; the first modulus is as large as may be, at most this.
    fn load_whole(&mut self, first: u64, modulus: u64) -> u64 {
        let first = first.min(E15 / modulus);
        self.load_partitions(layout(&[first, modulus], &[0, 0]), &[(0, first * modulus - 1)]);
        first
    }

    fn load_lists(&mut self, layout: Layout, start: &[u64], end: &[u64]) {
        let tables = Tables { layout, start: start.to_vec(), end: end.to_vec(), ..self.tables.clone() };
        self.load(&tables);
    }
}

/// All other fields 0.
fn header(coarse: u8, fine: u8) -> Header {
    Header { packet_type: 0, apid: 0, flags: 0, sequence: 0, coarse, fine }
}

/// Delimiter 1.
fn layout(moduli: &[u64], offsets: &[u64]) -> Layout {
    let (mut all_moduli, mut all_offsets) = ([0; 10], [0; 10]);
    all_moduli[..moduli.len()].copy_from_slice(moduli);
    all_offsets[..offsets.len()].copy_from_slice(offsets);
    Layout { n: moduli.len() as u64, moduli: all_moduli, offsets: all_offsets, delimiter: 1 }
}

/// Partitions that are refused with a layout of P from 20,000 to 100,000, the place and why.
const BROKEN: &[(&[u64], &[u64], usize, &str)] = &[
    (&[], &[], 0, "no partitions"),
    (&[0], &[], 0, "no ends"),
    (&[], &[500, 900], 0, "no starts"),
    (&[0], &[500, 900], 1, "starts are shortest"),
    (&[0, 200, 300], &[500, 900], 2, "ends are shortest"),
    (&[500, 200], &[500, 900], 0, "the first starts at its end"),
    (&[0, 901], &[500, 900], 1, "the second starts above its end"),
    (&[0, 200], &[100_000, 900], 0, "the first ends above P"),
    (&[0, 200, 7, 1], &[500, 900, 7, 200_000], 2, "the third starts at its end, the fourth ends above P"),
];

/// Layouts that are refused.
fn broken_layouts() -> Vec<Layout> {
    let good = layout(&[100, 256], &[0, 0]);
    vec![
        Layout { n: 0, ..good },
        Layout { n: 11, ..good },
        Layout { delimiter: 0, ..good },
        Layout { delimiter: 6, ..good },
        layout(&[0, 256], &[]),
        layout(&[E15, 256], &[]),
        layout(&[1 << 56, 256], &[]),
        layout(&[1, E12 + 1], &[]),
        layout(&[100, 256], &[1_001, 0]),
        layout(&[100, 256], &[0, 1_001]),
        // Good ones without two fields.
        layout(&[25_600], &[]),
        layout(&[100, 256, 1], &[]),
        layout(&[100, 16, 16], &[]),
        layout(&[1, 100, 256], &[]),
        layout(&[100, 1, 256], &[]),
        layout(&[10, 10, 1, 1, 1, 1, 1, 1, 1, 256], &[]),
    ]
}
