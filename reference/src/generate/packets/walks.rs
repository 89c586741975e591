//! Walks: every cut of a small dump, pieces of every size, tails and buffers at their edges.

use super::Writer;
use crate::packet::LONGEST;
use crate::script::{Question, MOST_TAIL};

/// A packet of so many bytes, with octets that differ.
fn packet(seed: u8, length: usize) -> Vec<u8> {
    let field = (length - 7) as u16;
    let mut bytes: Vec<u8> = (0..length).map(|i| (i as u8).wrapping_mul(37).wrapping_add(seed)).collect();
    bytes[4..6].copy_from_slice(&field.to_be_bytes());
    bytes
}

fn dump(lengths: &[usize]) -> Vec<u8> {
    lengths
        .iter()
        .enumerate()
        .flat_map(|(i, &length)| packet((i as u8).wrapping_mul(29).wrapping_add(3), length))
        .collect()
}

impl Writer {
    /// The next piece, behind the tail.
    fn goes_on(&mut self, label: &str, piece: &[u8]) {
        let tail = self.tail.len();
        self.walk(label, tail, piece);
    }

    /// A dump from an empty tail, cut at these places.
    fn walk_cut(&mut self, label: &str, dump: &[u8], cuts: &[usize]) {
        let mut from = 0;
        for &to in cuts.iter().chain([&dump.len()]) {
            let tail = if from == 0 { 0 } else { self.tail.len() };
            self.walk(label, tail, &dump[from..to]);
            from = to;
        }
    }

    fn refused_walk(&mut self, label: &str, len: usize, tail: u64) {
        self.labelled(label, Question::Walk { len, tail, piece: b"never looked at" });
    }
}

pub fn all(writer: &mut Writer) {
    cuts(writer);
    pieces(writer);
    refusals(writer);
}

fn cuts(writer: &mut Writer) {
    // Three packets and the front of a fourth: every cut, then every two cuts around the second header.
    let mut small = dump(&[7, 9, 12]);
    small.extend_from_slice(&packet(200, 8)[..7]);
    for cut in 0..=small.len() {
        writer.walk_cut("ok: one cut", &small, &[cut]);
    }
    for first in 5..=17 {
        for second in first..=17 {
            writer.walk_cut("ok: two cuts", &small, &[first, second]);
        }
    }
    // Every byte a piece, with empty pieces between.
    let singles: Vec<usize> = (1..small.len()).collect();
    writer.walk_cut("ok: pieces of one byte", &small, &singles);
    let pairs: Vec<usize> = (2..2 * small.len()).map(|i| i / 2).collect();
    writer.walk_cut("ok: pieces of one byte and of none", &small, &pairs);
    // Length fields whose two octets are parted.
    let wide = dump(&[7 + 255, 7 + 256, 7 + 257, 7 + 512, 8]);
    for cut in [262, 525, 789] {
        for at in 3..=8 {
            writer.walk_cut("ok: a cut in a header", &wide, &[cut + at]);
        }
    }
    for step in [1_000, 300, 263, 100] {
        let places: Vec<usize> = (1..wide.len()).filter(|place| place % step == 0).collect();
        writer.walk_cut("ok: a packet in several pieces", &wide, &places);
    }
    // Ends at a cut, exactly.
    let even = dump(&[10, 10, 10, 10]);
    for places in [&[10][..], &[20], &[10, 20], &[10, 20, 30], &[30], &[10, 10, 20], &[5, 10, 15, 20]] {
        writer.walk_cut("ok: a packet ends at the cut", &even, places);
        writer.goes_on("ok: nothing more", &[]);
    }
    // Bytes that are no good packets, but have length fields.
    for octet in [0, 1, 0x20, 0x80, 0xe8] {
        let odd: Vec<u8> = [octet; 4].iter().chain(&[0, 2]).chain(&[octet; 3]).copied().collect();
        writer.walk_cut("ok: by the length field alone", &[&odd[..], &odd].concat(), &[11]);
    }
}

fn pieces(writer: &mut Writer) {
    // As many packets as a piece can hold, 285 and 5 bytes more; then the rest of the next.
    let many = dump(&[7; 300]);
    writer.walk("ok: 285 packets", 0, &many[..2_000]);
    writer.goes_on("ok: the others", &many[2_000..]);
    // From sums that were 0: an empty tail and zeros.
    writer.walk("ok: zeros", 0, &[0; 70]);
    writer.walk("ok: zeros and some more", 0, &[0; 76]);
    writer.goes_on("ok: a last zero", &[0]);
    // Packets longer than several pieces, with others behind them.
    for length in [300, 1_999, 2_000, 2_001, 3_500] {
        let long = dump(&[7, length, 8, 11, 30]);
        for size in [97, 700, 1_000, 1_999, 2_000] {
            if size < 700 && length > 300 {
                continue;
            }
            let places: Vec<usize> = (1..long.len()).filter(|place| place % size == 0).collect();
            writer.walk_cut("ok: a packet over several pieces", &long, &places);
        }
    }
    // A tail that is left behind: from 0 again.
    for front in [1, 5, 6, 7, 40] {
        writer.walk("ok: a tail left behind", 0, &packet(9, 60)[..front]);
        writer.walk("ok: from an empty tail again", 0, &dump(&[9, 8]));
        writer.walk("ok: a tail left behind", 0, &packet(9, 60)[..front]);
        writer.walk("ok: from an empty tail again", 0, &[]);
    }
    // A longer tail, then a shorter one: what stands behind it is free.
    writer.walk("ok: a long tail", 0, &packet(1, 900)[..800]);
    writer.walk("ok: a short tail", 0, &packet(2, 20)[..5]);
    writer.goes_on("ok: no old bytes", &packet(2, 20)[5..19]);
    writer.goes_on("ok: no old bytes", &packet(2, 20)[19..]);
}

fn refusals(writer: &mut Writer) {
    const LAST: u64 = LONGEST as u64;
    let whole = packet(77, 30);
    for held in [0, 3, 6, 29] {
        writer.walk("ok: before refusals", 0, &whole[..held]);
        let tail = held as u64;
        for len in [0, 1, held, 7, 256, 2_000, 65_535, 65_536, LONGEST - 2, LONGEST - 1] {
            writer.refused_walk("16: a short buffer", len, tail);
            writer.refused_walk("16: a short buffer, an empty tail", len, 0);
        }
        for far in [LAST + 1, LAST + 2, MOST_TAIL as u64, 65_536 * 2, 1 << 32, (1 << 32) + tail, 1 << 63, u64::MAX] {
            for len in [LONGEST, LONGEST + 1, MOST_TAIL] {
                writer.refused_walk("25: a tail too long", len, far);
            }
            for len in [LONGEST - 1, 65_536, 0] {
                writer.refused_walk("16: a short buffer, and a tail too long", len, far);
            }
        }
        // A tail longer than the buffer, and not too long.
        for (len, far) in [(LONGEST - 1, LAST), (5, 6), (0, 1), (2_000, LAST), (0, LAST), (LONGEST - 1, LAST - 1)] {
            writer.refused_walk("16: a short buffer, and a tail beyond it", len, far);
        }
        writer.goes_on("ok: refusals left the tail", &whole[held..]);
    }
    // Every good length of the buffer, in turn.
    for (i, len) in [LONGEST, LONGEST + 1, LONGEST + 2, MOST_TAIL - 1, MOST_TAIL].into_iter().enumerate() {
        for (tail, piece) in [(0, &whole[..20 + i]), (20 + i as u64, &whole[20 + i..])] {
            writer.labelled("ok: a buffer long enough", Question::Walk { len, tail, piece });
        }
    }
}
