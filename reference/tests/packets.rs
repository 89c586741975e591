//! Request 7: satellite packets.

mod common;

use common::{err, err_at, layout, plain};
use reference::packet::{self, Header, Packet, LONGEST};
use reference::random::Random;
use reference::{print_stamp, read_stamp, Layout, Partitions, Refusal};

const E12: u64 = 1_000_000_000_000;

fn hex(digits: &str) -> Vec<u8> {
    let digits: Vec<u8> = digits.bytes().filter(|&digit| digit != b' ').collect();
    digits.chunks(2).map(|pair| u8::from_str_radix(std::str::from_utf8(pair).unwrap(), 16).unwrap()).collect()
}

fn one<'a>(start: &'a [u64; 1], end: &'a [u64; 1]) -> Partitions<'a> {
    Partitions { start, end }
}

fn counts(result: Result<Packet, Refusal>) -> Result<(u64, u64), Refusal> {
    result.map(|packet| (packet.count, packet.encoded))
}

fn header(coarse: u8, fine: u8) -> Header {
    Header { packet_type: 0, apid: 0, flags: 0, sequence: 0, coarse, fine }
}

/// The packet alone, written to a buffer that is long enough.
fn written(layout: &Layout, partitions: Partitions, header: Header, e: u64, data: &[u8]) -> Result<Vec<u8>, Refusal> {
    let mut buffer = vec![0x77; LONGEST + 3];
    let len = packet::write(layout, partitions, &header, e, data, &mut buffer);
    let front = len.unwrap_or(0);
    assert!(buffer[front..].iter().all(|&byte| byte == 0x77));
    buffer.truncate(front);
    len.map(|_| buffer)
}

/// "25 packet of another length, 26 [..], 25 a time past the data, all before 1 [..], 2 and 11"
#[test]
fn refusals_of_reading() {
    let (good, partitions) = (plain(&[1_000, 256]), one(&[0], &[1_000]));
    let read = |digits: &str| counts(packet::read(&good, partitions, &hex(digits)));
    assert_eq!(read("08 00 00 00 00 00 2F"), err(25));
    assert_eq!(read("08 00 00 00 00 00 3F"), err(26));
    for len in 0..7 {
        assert_eq!(counts(packet::read(&good, partitions, &vec![0; len])), err(25));
    }
    // One coarse octet: a length field one too small, right, one too large.
    assert_eq!(read("08 00 00 00 00 00 20 02"), err(25));
    assert_eq!(read("08 00 00 00 00 01 20 02"), Ok((512, 512)));
    assert_eq!(read("08 00 00 00 00 02 20 02"), err(25));
    // A length comes before a version, a version before a time past the data.
    assert_eq!(read("28 00 00 00 00 02 20 02"), err(25));
    assert_eq!(read("28 00 00 00 00 01 24 02"), err(26));
    assert_eq!(read("08 00 00 00 00 01 24 02"), err(25));
    assert_eq!(read("00 00 00 00 00 01 20 02"), err(26));
    assert_eq!(read("08 00 00 00 00 01 A0 02"), err(26));
    assert_eq!(read("08 00 00 00 00 01 10 02"), err(26));
    assert_eq!(read("08 00 00 00 00 01 20 04"), err(11));
    // All before 1, also a clock without two fields; then 2 with its place, then 11.
    let three = plain(&[1_000, 16, 16]);
    assert_eq!(counts(packet::read(&three, partitions, &hex("08 00 00 00 00 02 20 02"))), err(25));
    assert_eq!(counts(packet::read(&three, partitions, &hex("08 00 00 00 00 01 30 02"))), err(26));
    assert_eq!(counts(packet::read(&three, partitions, &hex("08 00 00 00 00 01 20 02"))), err(1));
    assert_eq!(counts(packet::read(&plain(&[256_000]), partitions, &hex("08 00 00 00 00 01 20 02"))), err(1));
    let broken = Partitions { start: &[0, 7], end: &[5, 7] };
    assert_eq!(counts(packet::read(&three, broken, &hex("08 00 00 00 00 01 20 02"))), err(1));
    assert_eq!(counts(packet::read(&good, broken, &hex("08 00 00 00 00 01 20 02"))), err_at(2, 1));
    assert_eq!(counts(packet::read(&good, broken, &hex("08 00 00 00 00 00 20"))), err(25));
}

#[test]
fn header_fields() {
    let (clock, partitions) = (plain(&[1_000, 256]), one(&[0], &[1_000]));
    let read = |digits: &str| packet::read(&clock, partitions, &hex(digits)).unwrap();
    let packet = read("1D 55 AA AB 00 05 21 01 02 64 61 74");
    let header = Header { packet_type: 1, apid: 0x555, flags: 2, sequence: 0x2aab, coarse: 1, fine: 1 };
    assert_eq!(packet, Packet { header, data: 9, count: 258, encoded: 258 });
    // Four coarse and three fine octets: 2F.
    let packet = read("08 00 00 00 00 07 2F 00 00 00 01 80 00 00");
    assert_eq!((packet.header.coarse, packet.header.fine, packet.data), (4, 3, 14));
    assert_eq!(packet.count, 256 + 128);
}

/// Ticks are the clock count; offsets play no part.
#[test]
fn ticks() {
    let clock = layout(&[1_000, 256], &[0, 1], 1);
    let packet = packet::read(&clock, one(&[0], &[1_000]), &hex("08 00 C0 00 00 02 21 01 00")).unwrap();
    assert_eq!((packet.header.flags, packet.header.sequence), (3, 0));
    assert_eq!((packet.count, packet.encoded), (256, 256));
    // Rounded down: 1/256 and 255/256 of 1,000 ticks.
    let clock = layout(&[1_000, 1_000], &[1_000, 1_000], 1);
    let read = |digits: &str| counts(packet::read(&clock, one(&[3], &[999_999]), &hex(digits)));
    assert_eq!(read("08 00 00 00 00 02 21 00 01"), Ok((3, 0)));
    assert_eq!(read("08 00 00 00 00 02 21 02 FF"), Ok((2_996, 2_993)));
    assert_eq!(read("08 00 00 00 00 02 21 00 00"), err(11));
    // A second modulus of 10^12, as far as 64 bits and beyond.
    let clock = plain(&[1_000, E12]);
    let all = one(&[0], &[1_000 * E12 - 1]);
    let read = |digits: &str| counts(packet::read(&clock, all, &hex(digits)));
    assert_eq!(read("08 00 00 00 00 04 26 03 E7 FF FF"), Ok((999_999_984_741_210, 999_999_984_741_210)));
    assert_eq!(read("08 00 00 00 00 05 27 03 E7 FF FF FF"), Ok((999_999_999_940_395, 999_999_999_940_395)));
    assert_eq!(read("08 00 00 00 00 02 24 03 E8"), err(11));
    assert_eq!(read("08 00 00 00 00 04 2C FF FF FF FF"), err(11));
    // The low 64 bits of these ticks are 926,290,448,384.
    assert_eq!(read("08 00 00 00 00 04 2C 01 19 79 99"), err(11));
}

/// "the partition is found as for a stamp without one"
#[test]
fn partitions_as_for_a_stamp() {
    let clock = plain(&[10, 100]);
    let partitions = Partitions { start: &[0, 200, 500, 100], end: &[500, 700, 600, 800] };
    for count in 0..=900u64 {
        let stamp = format!("{}.{}", count / 100, count % 100);
        let packet = [8, 0, 0, 0, 0, 2, 0x21, (count / 100) as u8, ((count % 100 * 256 + 99) / 100) as u8];
        let read = packet::read(&clock, partitions, &packet);
        assert_eq!(read.map(|packet| packet.encoded), read_stamp(&clock, partitions, stamp.as_bytes()), "{}", count);
        assert!(read.map_or(true, |packet| packet.count == count));
    }
}

#[test]
fn refusals_of_writing() {
    let (clock, partitions) = (plain(&[100, 256]), one(&[0], &[1_000]));
    let write = |header: Header, e: u64| written(&clock, partitions, header, e, &[]);
    assert_eq!(write(header(1, 1), 5), Ok(hex("08 00 00 00 00 02 21 00 05")));
    let good = header(1, 1);
    for bad in [
        Header { packet_type: 2, ..good },
        Header { apid: 2_048, ..good },
        Header { flags: 4, ..good },
        Header { sequence: 16_384, ..good },
        Header { coarse: 0, ..good },
        Header { coarse: 5, ..good },
        Header { fine: 4, ..good },
        Header { fine: 0, ..good },
        Header { fine: 2, ..good },
    ] {
        // 26 comes before 25, 12 and 16.
        assert_eq!(write(bad, 5), err(26));
        assert_eq!(packet::write(&clock, partitions, &bad, 1_001, &[0; 70_000], &mut []), err(26));
    }
    let most = Header { packet_type: 1, apid: 2_047, flags: 3, sequence: 16_383, coarse: 4, fine: 1 };
    assert_eq!(write(most, 1_000), Ok(hex("1F FF FF FF 00 05 2D 00 00 00 03 E8")));
    // P-field and time are data octets.
    let sizes = |data: usize| written(&clock, partitions, header(2, 1), 5, &vec![9; data]).map(|packet| packet.len());
    assert_eq!(sizes(65_532), Ok(65_542));
    assert_eq!(sizes(65_533), err(25));
    // 25, 12, 9, 16 in this order; 1 and 2 before all.
    let far = one(&[65_536], &[70_000]);
    let clock = plain(&[1_000, 256]);
    assert_eq!(packet::write(&clock, far, &good, u64::MAX, &[0; 65_534], &mut []), err(25));
    assert_eq!(packet::write(&clock, far, &good, 4_465, &[], &mut []), err(12));
    assert_eq!(packet::write(&clock, far, &good, 4_464, &[], &mut []), err(9));
    assert_eq!(packet::write(&clock, far, &header(2, 1), 4_464, &[], &mut [0; 9]), err(16));
    assert_eq!(packet::write(&clock, far, &header(2, 1), 4_464, &[], &mut [0; 10]), Ok(10));
    let broken = Partitions { start: &[0, 7], end: &[5, 7] };
    assert_eq!(packet::write(&clock, broken, &header(9, 9), 9, &[], &mut []), err_at(2, 1));
    assert_eq!(packet::write(&plain(&[5]), broken, &header(9, 9), 9, &[], &mut []), err(1));
    // A second modulus of 256^4 has no fine octets.
    let clock = plain(&[10, 1 << 32]);
    for fine in 0..=8 {
        assert_eq!(written(&clock, partitions, header(1, fine), 5, &[]), err(26));
    }
    // No fine octets: m is 1.
    assert_eq!(
        written(&plain(&[1_001, 1]), partitions, header(2, 0), 1_000, b"!"),
        Ok(hex("08 00 00 00 00 03 24 03 E8 21"))
    );
}

/// "a written packet reads back as the same clock count, and as the same encoded count where no earlier partition holds it"
#[test]
fn a_written_packet_reads_back() {
    let mut random = Random::new(7);
    let (mut same, mut earlier, mut large) = (0, 0, 0);
    for _ in 0..40_000 {
        let fine = random.between(0, 3) as u8;
        let modulus = 1u64 << (8 * fine);
        let first = random.magnitude(1_000_000_000_000_000 / modulus - 2) + 2;
        let clock = layout(&[first, modulus], &[random.magnitude(1_000), random.magnitude(1_000)], 1);
        let p = first * modulus;
        let rows = random.between(1, 4);
        let (mut start, mut end) = (vec![], vec![]);
        for _ in 0..rows {
            let low = random.between(0, p - 2);
            let high = (low + 1 + random.magnitude(p - 2 - low)).min(p - 1);
            start.push(low);
            end.push(high);
        }
        let partitions = Partitions { start: &start, end: &end };
        let total: u64 = (0..start.len()).map(|row| end[row] - start[row]).sum();
        if total > 1_000_000_000_000_000 {
            continue;
        }
        let e = random.between(0, total);
        let header = Header {
            packet_type: random.between(0, 1) as u8,
            apid: random.between(0, 2_047) as u16,
            flags: random.between(0, 3) as u8,
            sequence: random.between(0, 16_383) as u16,
            coarse: random.between(1, 4) as u8,
            fine,
        };
        let data: Vec<u8> = (0..random.below(12)).map(|_| random.word() as u8).collect();
        let written = match written(&clock, partitions, header, e, &data) {
            Ok(written) => written,
            Err(refusal) => {
                assert_eq!(refusal, Refusal::new(9));
                large += 1;
                continue;
            }
        };
        let read = packet::read(&clock, partitions, &written).unwrap();
        assert_eq!(read.header, header);
        assert_eq!(written[read.data..], data);
        // The partition and count are printing's.
        let mut row = 0;
        let mut left = e;
        while row + 1 < start.len() && left >= end[row] - start[row] {
            left -= end[row] - start[row];
            row += 1;
        }
        assert_eq!(read.count, start[row] + left);
        let mut stamp = [0; 80];
        let len = print_stamp(&clock, partitions, e, &mut stamp).unwrap();
        assert!(stamp[..len].starts_with(format!("{}/", row + 1).as_bytes()));
        if (0..row).any(|row| start[row] <= read.count && read.count <= end[row]) {
            assert!(read.encoded <= e);
            earlier += 1;
        } else {
            assert_eq!(read.encoded, e);
            same += 1;
        }
    }
    assert!(same > 5_000 && earlier > 500 && large > 500, "{} {} {}", same, earlier, large);
}

/// Packets and tail of a dump in pieces, from an empty tail; the buffer is of any length that is enough.
fn walked(dump: &[u8], cuts: &[usize]) -> (Vec<Vec<u8>>, Vec<u8>) {
    let mut buffer = vec![0xee; LONGEST + cuts.len() % 3];
    let (mut packets, mut tail, mut from) = (vec![], 0, 0);
    for &to in cuts.iter().chain([&dump.len()]) {
        tail = packet::walk(&mut buffer, tail as u64, &dump[from..to], |packet| packets.push(packet.to_vec())).unwrap();
        from = to;
    }
    (packets, buffer[..tail].to_vec())
}

#[test]
fn walking() {
    let (packets, tail) = walked(b"\0\0\0\0\0\0abc", &[]);
    assert_eq!((packets, tail), (vec![b"\0\0\0\0\0\0a".to_vec()], b"bc".to_vec()));
    let mut buffer = [5; LONGEST + 9];
    let none = |_: &[u8]| panic!("no packet");
    assert_eq!(packet::walk(&mut buffer[..LONGEST - 1], 0, &[0; 7], none), err(16));
    assert_eq!(packet::walk(&mut buffer[..LONGEST - 1], u64::MAX, &[0; 7], none), err(16));
    for tail in [65_543, 65_551, u64::MAX] {
        assert_eq!(packet::walk(&mut buffer, tail, &[0; 7], none), err(25));
    }
    assert!(buffer.iter().all(|&byte| byte == 5));
    assert_eq!(packet::walk(&mut buffer, 3, &[5, 0, 9], none), Ok(6));
    assert_eq!(packet::walk(&mut buffer, 0, &[], none), Ok(0));
}

/// A packet that lies whole in the piece is given as it lies there.
#[test]
fn whole_packets_are_not_copied() {
    let dump = [0; 70];
    let mut buffer = [0; LONGEST];
    let range = dump.as_ptr_range();
    let mut given = 0;
    packet::walk(&mut buffer, 0, &dump, |packet| {
        assert!(range.contains(&packet.as_ptr()));
        given += 1;
    })
    .unwrap();
    assert_eq!(given, 10);
}

/// "the same wherever the dump is cut"
#[test]
fn the_same_wherever_it_is_cut() {
    let mut random = Random::new(8);
    for round in 0..300 {
        let mut dump = vec![];
        let mut lengths = vec![];
        for _ in 0..random.between(1, 12) {
            let octets = if round % 10 == 0 { random.magnitude(65_535) } else { random.magnitude(40) } as usize + 1;
            let mut packet: Vec<u8> = (0..6 + octets).map(|_| random.word() as u8).collect();
            packet[4..6].copy_from_slice(&((octets - 1) as u16).to_be_bytes());
            lengths.push(packet.len());
            dump.extend_from_slice(&packet);
        }
        // The front of one more.
        let more = random.below(7).min(5);
        dump.extend((0..more).map(|_| random.word() as u8));
        let (packets, tail) = walked(&dump, &[]);
        assert_eq!(packets.iter().map(Vec::len).collect::<Vec<_>>(), lengths);
        assert_eq!([packets.concat(), tail.clone()].concat(), dump);
        assert_eq!(tail.len(), more);
        for pieces in [1, 2, 5, 40] {
            let mut cuts: Vec<usize> = (0..pieces).map(|_| random.below(dump.len() + 1)).collect();
            cuts.sort_unstable();
            assert!(walked(&dump, &cuts) == (packets.clone(), tail.clone()), "{:?}", cuts);
        }
        if dump.len() < 200 {
            for cut in 0..=dump.len() {
                assert!(walked(&dump, &[cut]) == (packets.clone(), tail.clone()), "{}", cut);
            }
            assert!(walked(&dump, &(0..dump.len()).collect::<Vec<_>>()) == (packets.clone(), tail.clone()));
        }
    }
}

/// The longest packet, all but its last byte in the tail.
#[test]
fn the_longest_packet() {
    let mut dump = vec![1; LONGEST];
    dump[4..6].copy_from_slice(&[0xff, 0xff]);
    let (packets, tail) = walked(&dump[..LONGEST - 1], &[6, 40_000]);
    assert_eq!((packets.len(), tail.len()), (0, 65_541));
    let (packets, tail) = walked(&dump, &[LONGEST - 1]);
    assert_eq!((packets[0].len(), tail.len()), (65_542, 0));
}
