//! Random packets, written ones and walks.

use super::{layout, p_field, Draft, Writer, E12, E15};
use crate::generate::broken::*;
use crate::generate::tables::{fill, p, set_partitions, sound, total};
use crate::packet::{Header, LONGEST};
use crate::random::Random;
use crate::script::{Question, Tables, WriteQuestion, MOST_BYTES, MOST_TAIL};

const LAST: u64 = LONGEST as u64;

impl Writer {
    /// Packets of every kind under some tables, in the main sound ones of two fields; sometimes other tables or a bad line
    /// between.
    pub fn any_packets(&mut self, most: usize) {
        self.any_packet_tables();
        for _ in 0..most / 2 + self.random.below(most) {
            match self.random.below(100) {
                0..=1 => self.any_packet_tables(),
                2..=4 => self.any_broken_packet_tables(),
                5 if self.random.chance(30) => self.any_bad_packet_line(),
                6 if self.raw && self.random.below(20) == 0 => self.any_long_packet(),
                6..=39 => self.any_read_packet(),
                // Where m is no power of 256 nothing can be written.
                40..=69 if !self.any_power() && self.random.chance(80) => self.any_read_packet(),
                40..=69 => self.any_write_packet(),
                _ => self.any_walk(),
            }
        }
    }

    fn any_power(&self) -> bool {
        (0..4).any(|fine| self.tables.layout.moduli[1] == 1 << (8 * fine))
    }

    fn any_read_packet(&mut self) {
        let (random, tables) = (&mut self.random, &self.tables);
        let modulus = tables.layout.moduli[1].max(1);
        let fine = random.below(4);
        let unit = 1u128 << (8 * fine);
        // The time of a count, or any time.
        let count = any_count(random, tables);
        let coarse = count / modulus;
        let part = u128::from(count % modulus) * unit;
        let least = (part + u128::from(modulus) - 1) / u128::from(modulus);
        let most = unit as u64 - 1;
        let (mut coarse, mut part) = (coarse.min(0xffff_ffff), (least as u64).min(most));
        match random.below(16) {
            0 => coarse = random.magnitude(0xffff_ffff),
            1 => coarse = random.near(coarse) & 0xffff_ffff,
            2..=3 => part = random.near(part) & most,
            4 => part = random.between(0, most),
            5 => part = most,
            _ => {}
        }
        let least = (1..4).find(|octets| coarse >> (8 * octets) == 0).unwrap_or(4);
        let octets = random.between(least, 4) as usize;
        let data: Vec<u8> = (0..random.pick(&[0, 0, 1, 2, 5, 19])).map(|_| random.word() as u8).collect();
        let mut draft = Draft::new((octets, fine), coarse, part, &data);
        draft.packet_type = random.between(0, 1) as u16;
        draft.apid = random.magnitude(2_047) as u16;
        draft.flags = random.between(0, 3) as u16;
        draft.sequence = random.magnitude(16_383) as u16;
        for _ in 0..random.pick(&[0, 0, 0, 0, 0, 0, 1, 2]) {
            match random.below(8) {
                0 => draft.version = random.between(1, 7) as u16,
                1 => draft.secondary = 0,
                2 => draft.p_field |= 0x80,
                3 => draft.p_field ^= random.pick(&[0x10, 0x20, 0x30, 0x40, 0x50, 0x60, 0x70]),
                4 => draft.rest.truncate(random.below(octets + fine)),
                5 => draft.length = Some(random.near(draft.rest.len() as u64) as u16),
                6 => draft.length = Some(random.word() as u16),
                _ => {
                    let any = random.word() as u8;
                    draft.p_field = random.pick(&[draft.p_field | 15, p_field((octets, fine)), any]);
                }
            }
        }
        let mut packet = draft.bytes();
        match random.below(40) {
            0 => packet.truncate(random.below(9)),
            1 => packet.push(random.word() as u8),
            _ => {}
        }
        self.labelled("at random", Question::ReadPacket(&packet));
    }

    fn any_write_packet(&mut self) {
        let (random, tables) = (&mut self.random, &self.tables);
        let modulus = tables.layout.moduli[1];
        let fits = (0..4).find(|fine| modulus == 1 << (8 * fine));
        let any = random.between(0, 3);
        let mut header = Header {
            packet_type: random.between(0, 1) as u8,
            apid: random.magnitude(2_047) as u16,
            flags: random.between(0, 3) as u8,
            sequence: random.magnitude(16_383) as u16,
            coarse: random.pick(&[1, 2, 3, 4, 4, 4]),
            fine: fits.filter(|_| random.below(16) > 0).unwrap_or(any) as u8,
        };
        if random.below(8) == 0 {
            match random.below(6) {
                0 => header.packet_type = random.pick(&[2, 3, 255]),
                1 => header.apid = random.pick(&[2_048, 2_049, 65_535, 2_047]),
                2 => header.flags = random.pick(&[4, 5, 255, 3]),
                3 => header.sequence = random.pick(&[16_384, 16_385, 65_535, 16_383]),
                4 => header.coarse = random.pick(&[0, 5, 6, 255]),
                _ => header.fine = random.pick(&[4, 5, 8, 255]),
            }
        }
        let total = total(tables);
        let size = random.magnitude(total);
        let sums = 0..random.below(tables.start.len().min(tables.end.len()) + 1);
        let edge = sums.fold(0u64, |sum, row| sum.saturating_add(tables.end[row].saturating_sub(tables.start[row])));
        // As large as coarse may be, and around it.
        let beyond = 1u64 << (8 * (header.coarse % 5 + header.fine % 4)).min(63);
        let far = total.saturating_add(random.magnitude(1 << 40));
        let (near, edge, beyond) = (random.near(total), random.near(edge), random.near(beyond).min(total));
        let e = random.pick(&[size, size, total - size, size, near, edge, edge, beyond, beyond, far]);
        let data: Vec<u8> = (0..random.pick(&[0, 0, 1, 2, 6, 21])).map(|_| random.word() as u8).collect();
        let length = 7 + u64::from(header.coarse) + u64::from(header.fine) + data.len() as u64;
        let any = random.between(0, 64);
        let near = random.near(length);
        let len = random.pick(&[length, length, length + 3, length + 1, near, any, 64]).min(256) as usize;
        let fill = random.word() as u8;
        self.labelled("at random", Question::WritePacket(WriteQuestion { header, e, fill, len, data: &data }));
    }

    /// As long as packets may be, and around it.
    fn any_long_packet(&mut self) {
        let random = &mut self.random;
        let octets = random.between(65_526, 65_538) as usize;
        let (coarse, fine) = (random.between(1, 4) as u8, random.between(0, 3) as u8);
        let data: Vec<u8> = (0..octets).map(|_| random.word() as u8).collect();
        if random.chance(50) {
            let (high, low) = (random.magnitude(0xff_ffff), random.below(4));
            let mut draft = Draft::new((usize::from(coarse), usize::from(fine)), high, 0, &data);
            draft.length = Some((draft.rest.len() as u64).min(0xffff).wrapping_sub(low as u64 / 3) as u16);
            self.labelled("at random", Question::ReadPacket(&draft.bytes()));
        } else {
            let header = Header { packet_type: 1, apid: 5, flags: 2, sequence: 9, coarse, fine };
            let e = random.magnitude(E15);
            self.labelled(
                "at random",
                Question::WritePacket(WriteQuestion { header, e, fill: 7, len: 200, data: &data }),
            );
        }
    }

    /// The tail goes on, or an empty one begins.
    fn any_walk(&mut self) {
        let random = &mut self.random;
        let held = self.tail.len();
        // In a stored script packets stay short.
        let (longest, most) = if self.raw { (LAST, MOST_BYTES as u64) } else { (120, 60) };
        // What is missing of the tail's header or packet.
        let missing = match self.tail[..] {
            [_, _, _, _, high, low, ..] => 7 + usize::from(high) * 256 + usize::from(low) - held,
            _ => 6 - held,
        };
        let begins = held == 0 || missing as u64 > longest || random.below(if self.raw { 60 } else { 12 }) == 0;
        let (front, missing) = if begins { (&[][..], 0) } else { (&self.tail[..], missing) };
        let mut piece = vec![];
        if missing > 0 {
            let part = random.below(missing + 1).min(MOST_BYTES);
            let whole = missing.min(MOST_BYTES);
            let len = random.pick(&[0, 1, part, whole, whole, whole, missing.saturating_sub(1).min(MOST_BYTES)]);
            // A length field that begins in the piece stays small, most often.
            let small = front.len() < 6 && random.below(8) > 0;
            piece = (0..len).map(|i| if small && front.len() + i == 4 { 0 } else { random.word() as u8 }).collect();
        }
        if piece.len() == missing && random.below(4) > 0 {
            let wanted = random.magnitude(most) as usize;
            while piece.len() < wanted {
                let octets = if random.below(8) > 0 { random.magnitude(24) } else { random.magnitude(longest - 7) };
                let mut packet: Vec<u8> = (0..4).map(|_| random.word() as u8).collect();
                packet.extend_from_slice(&(octets as u16).to_be_bytes());
                let octets = (octets as usize + 1).min(MOST_BYTES);
                packet.extend((0..octets).map(|_| random.word() as u8));
                piece.extend_from_slice(&packet);
            }
            // Cut anywhere, or at the last packet's end.
            if random.chance(60) {
                piece.truncate(piece.len().min(wanted));
            }
            piece.truncate(MOST_BYTES);
        }
        let far = random.pick(&[LAST + 1, LAST + 2, MOST_TAIL as u64, 1 << 32, u64::MAX]);
        let (tail, held) = (if begins { 0 } else { held as u64 }, held as u64);
        let (long, short) = (random.between(LAST, MOST_TAIL as u64), random.magnitude(LAST - 1));
        let (len, tail) = match random.below(30) {
            0 => (random.pick(&[LAST - 1, LAST - 2, 65_536, short]), random.pick(&[0, held, LAST, far])),
            1 => (random.pick(&[LAST, MOST_TAIL as u64, long]), far),
            _ => (random.pick(&[LAST, LAST, MOST_TAIL as u64, long]), tail),
        };
        self.labelled("at random", Question::Walk { len: len as usize, tail, piece: &piece });
    }

    /// Sound ones of two fields, in the main.
    fn any_packet_tables(&mut self) {
        let random = &mut self.random;
        if random.below(12) == 0 {
            let mut tables = sound(random);
            while tables.start.len() > 8 {
                tables = sound(random);
            }
            self.load_raw(tables);
            return;
        }
        let size = random.magnitude(E12 - 1) + 1;
        let power = 1 << (8 * random.below(4));
        let near = random.near(power).max(1);
        let modulus = random.pick(&[power, power, power, power, near, 10, 1_000, 1_000_000, E12, size]);
        let most = E15 / modulus;
        let (any, small) = (random.magnitude(most - 1) + 1, random.between(1, most.min(1_000)));
        let first = random.pick(&[most, any, any, small, most.min(1 << 32), most.min(256)]);
        let mut tables = Tables::new();
        tables.layout = fill(random, &[first, modulus]);
        if p(&tables.layout) < 2 {
            tables.layout = layout(&[100, 256], &[0, 0]);
        }
        set_partitions(random, &mut tables);
        tables.start.truncate(8);
        tables.end.truncate(8);
        self.load_raw(tables);
    }

    /// A rule broken, for a few questions.
    fn any_broken_packet_tables(&mut self) {
        let good = self.tables.clone();
        let mut tables = good.clone();
        let random = &mut self.random;
        if random.below(3) == 0 {
            let rule = random.below(LAYOUT_RULES);
            break_layout(random, &mut tables, rule);
        } else {
            let rule = random.below(PARTITION_RULES);
            break_partitions(random, &mut tables, rule);
        }
        self.load_raw(tables);
        for _ in 0..self.random.between(1, 4) {
            if self.random.chance(50) {
                self.any_read_packet();
            } else {
                self.any_write_packet();
            }
        }
        self.load_raw(good);
    }
}

/// At a partition's edge, within one, or anywhere.
fn any_count(random: &mut Random, tables: &Tables) -> u64 {
    let rows = tables.start.len().min(tables.end.len());
    if rows == 0 {
        return random.magnitude(E15);
    }
    let row = random.below(rows);
    let (start, end) = (tables.start[row], tables.end[row]);
    let (low, high) = (start.min(end), start.max(end));
    let within = random.between(low, high);
    let edge = random.pick(&[start, end]);
    let near = random.near(edge);
    let size = random.magnitude(E15);
    random.pick(&[start, end, within, within, within, near, near, size])
}
