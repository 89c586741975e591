//! Reading: every bit of a header, every P-field, lengths, ticks, partitions and clocks at their edges.

use super::{layout, p_field, Draft, Writer, BROKEN, E12, E15};

/// Each bit of the primary header set alone and cleared alone.
pub fn headers(writer: &mut Writer) {
    writer.load_partitions(layout(&[1_000, 256], &[3, 5]), &[(0, 1_000), (700, 70_000)]);
    let zeros = Draft::new((1, 1), 2, 200, &[]);
    let ones = Draft { packet_type: 1, apid: 2_047, flags: 3, sequence: 16_383, ..Draft::new((2, 1), 258, 7, b"data") };
    for base in [zeros, ones] {
        let base = base.bytes();
        writer.read_packet("ok: every other bit alike", &base);
        for bit in 0..48 {
            let mut packet = base.clone();
            packet[bit / 8] ^= 0x80 >> (bit % 8);
            let label = match bit {
                0..=2 => "26: a version",
                3 => "ok: the type alone",
                4 => "26: no secondary header",
                5..=15 => "ok: a bit of the APID alone",
                16..=17 => "ok: a bit of the sequence flags alone",
                18..=31 => "ok: a bit of the sequence count alone",
                _ => "25: a bit of the length field",
            };
            writer.read_packet(label, &packet);
        }
    }
    // All versions; all types, flags and some numbers together.
    for version in 1..8 {
        let draft = Draft { version, ..Draft::new((1, 1), 1, 2, &[3]) };
        writer.read_packet("26: a version", &draft.bytes());
        writer.read_packet("26: a version, no secondary header", &Draft { secondary: 0, ..draft }.bytes());
    }
    for packet_type in 0..2 {
        for flags in 0..4 {
            for (apid, sequence) in [(0, 0), (1, 16_383), (2_047, 0), (0x555, 0x2aaa), (0x2aa, 0x1555)] {
                let draft = Draft::new((1, 1), 4, 1, b"xyz");
                let draft = Draft { packet_type, apid, flags, sequence, ..draft };
                writer.read_packet("ok: other fields", &draft.bytes());
            }
        }
    }
}

/// Every P-field; every number of octets with every number of data octets around it.
pub fn p_fields(writer: &mut Writer) {
    writer.load_partitions(layout(&[1_000, 256], &[0, 0]), &[(0, 1_000)]);
    for p_field in 0..=255 {
        let label = match p_field >> 4 {
            0b0010 => "ok: a P-field",
            0b1010 => "26: an extension",
            0b0000..=0b0111 => "26: a time code",
            _ => "26: an extension, a time code",
        };
        // The time 0, whatever its octets.
        let draft = Draft { p_field, ..Draft::of(vec![0; 7]) };
        writer.read_packet(label, &draft.bytes());
        if p_field >> 4 != 2 {
            // Also where the time would be past the data.
            let short = Draft { p_field, ..Draft::of(vec![]) };
            writer.read_packet(label, &short.bytes());
        }
    }
    // Each octet another, in clocks with m = 256^f and others.
    for coarse in 1..=4 {
        for fine in 0..=3 {
            for modulus in [1 << (8 * fine), 1_000] {
                writer.load_whole(u64::MAX, modulus);
                for from in [1, 0x81] {
                    let octets: Vec<u8> = (from..from + 9).collect();
                    // Four coarse octets from 81 are past every partition but of the smallest ticks.
                    let ticks = octets[..coarse].iter().fold(0, |sum, &octet| sum << 8 | u64::from(octet)) * modulus;
                    let label = if ticks < E15 - modulus { "ok: octets in order" } else { "11: octets in order" };
                    for octets in [&octets[..coarse + fine], &octets[..8], &octets[..9]] {
                        let draft = Draft { p_field: p_field((coarse, fine)), ..Draft::of(octets.to_vec()) };
                        writer.read_packet(label, &draft.bytes());
                    }
                }
            }
            // As many data octets as the time needs, fewer and more.
            for octets in 1..=9 {
                let draft = Draft { p_field: p_field((coarse, fine)), ..Draft::of(vec![0; octets - 1]) };
                let label = match octets.cmp(&(1 + coarse + fine)) {
                    std::cmp::Ordering::Less => "25: a time past the data",
                    std::cmp::Ordering::Equal => "ok: no data after the time",
                    std::cmp::Ordering::Greater => "ok: data after the time",
                };
                writer.read_packet(label, &draft.bytes());
            }
        }
    }
}

/// Fewer than seven bytes; a length field that does not match.
pub fn lengths(writer: &mut Writer) {
    writer.load_partitions(layout(&[1_000, 256], &[0, 0]), &[(0, 200_000)]);
    let good = Draft::new((2, 1), 300, 9, b"behind the time").bytes();
    for len in 0..7 {
        writer.read_packet("25: under seven bytes", &good[..len]);
        writer.read_packet("25: under seven bytes", &vec![0; len]);
        writer.read_packet("25: under seven bytes", &vec![0xff; len]);
        // A length field that would say so many.
        let mut short = good[..len].to_vec();
        for (place, octet) in [(4, 0xff), (5, (len as u8).wrapping_sub(7))] {
            if place < len {
                short[place] = octet;
            }
        }
        writer.read_packet("25: under seven bytes", &short);
    }
    for octets in [2, 3, 4, 5, 8, 17, 100, 255, 256, 257, 258, 300, 512, 513] {
        let draft = Draft::new((1, 0), 7, 0, &vec![0x55; octets - 2]);
        let right = octets as u16 - 1;
        writer.read_packet("ok: a length that matches", &draft.bytes());
        for (length, why) in [
            (right.wrapping_sub(1), "one too small"),
            (right + 1, "one too large"),
            (right + 2, "the data octets and one"),
            (right + 6, "the whole packet less one"),
            (right + 7, "the whole packet"),
            (right.wrapping_add(256), "256 too large"),
            (right.wrapping_sub(256), "256 too small"),
            (right.swap_bytes(), "low octet first"),
            (0, "0"),
            (0xffff, "the largest"),
        ] {
            if length != right {
                let draft = Draft { length: Some(length), ..draft.clone() };
                writer.read_packet(&["25: a length field ", why].concat(), &draft.bytes());
            }
        }
        // A byte cut off, a byte more.
        let mut packet = draft.bytes();
        packet.push(0);
        writer.read_packet("25: a byte more", &packet);
        packet.truncate(packet.len() - 2);
        writer.read_packet("25: a byte less", &packet);
    }
}

/// Rounded down at every edge; ticks beyond every partition and beyond 64 bits.
pub fn ticks(writer: &mut Writer) {
    for modulus in [
        1,
        2,
        3,
        7,
        10,
        100,
        255,
        256,
        257,
        800,
        1_000,
        65_535,
        65_536,
        65_537,
        1_000_000,
        16_777_215,
        16_777_216,
        16_777_217,
        4_294_967_296,
        999_999_999_999,
        E12,
    ] {
        let first = writer.load_whole(1 << 32, modulus);
        for fine in 0..=3 {
            let unit = 1u128 << (8 * fine);
            let mut cases = vec![(0, 0), (0, unit as u64 - 1), (first - 1, unit as u64 - 1), (first - 1, 0)];
            // The least fine part of a tick, and the one before it.
            for tick in [1, modulus / 2, modulus - 1] {
                let least = (u128::from(tick) * unit + u128::from(modulus) - 1) / u128::from(modulus);
                let coarse = writer.random.between(0, first - 1);
                cases.extend([(coarse, least as u64), (coarse, (least as u64).saturating_sub(1))]);
            }
            for (coarse, fine_part) in cases.into_iter().filter(|case| u128::from(case.1) < unit) {
                let octets = (1..=4).find(|octets| coarse >> (8 * octets) == 0).unwrap_or(4);
                let exact = u128::from(fine_part) * u128::from(modulus) % unit == 0;
                let label = if exact { "ok: a whole number of ticks" } else { "ok: rounded down" };
                writer.read_packet(label, &Draft::new((octets, fine as usize), coarse, fine_part, &[]).bytes());
            }
            // One past the largest coarse part.
            if first < 1 << 32 {
                let draft = Draft::new((4, fine as usize), first, 0, &[9]);
                writer.read_packet("11: one coarse step past P", &draft.bytes());
            }
        }
    }
    writer.load_whole(u64::MAX, E12);
    for fine in 0..=3 {
        // A little above a multiple of 2^64 / 10^12 the low 64 bits of the ticks are below 10^15.
        let turns = (1..8).map(|turn| (turn << 64) / 1_000_000_000_000u128 + 1 + turn % 3).map(|coarse| coarse as u64);
        for coarse in turns.chain([18_446_744, 0x8000_0000, 0xffff_fffe, 0xffff_ffff]) {
            let label = if coarse == 18_446_744 { "11: ticks past P" } else { "11: ticks beyond 64 bits" };
            let most = (1 << (8 * fine)) - 1;
            writer.read_packet(label, &Draft::new((4, fine), coarse, 0, &[]).bytes());
            writer.read_packet(label, &Draft::new((4, fine), coarse, most, b"1").bytes());
        }
        // Ticks that fit; with fine octets the products do not.
        for coarse in [2, 18, 19, 255, 999] {
            writer.read_packet("ok: ticks within 64 bits", &Draft::new((2, fine), coarse, 0, &[]).bytes());
        }
    }
    // Low 32 and 40 bits that a partition holds.
    writer.load_partitions(layout(&[1 << 20, 256], &[0, 0]), &[(5, 6)]);
    for coarse in [0, 1 << 24, 1 << 31, 0xffff_ffff] {
        for fine in [4, 5, 6, 7] {
            let held = coarse == 0 && (5..=6).contains(&fine);
            let label = if held { "ok: at a partition's edge" } else { "11: low bits alone" };
            writer.read_packet(label, &Draft::new((4, 1), coarse, fine, &[]).bytes());
        }
    }
}

/// Which partition holds the count; offsets play no part.
pub fn partitions(writer: &mut Writer) {
    const LISTS: &[&[(u64, u64)]] = &[
        &[(0, 500), (200, 900)],
        &[(0, 500), (500, 900)],
        &[(500, 900), (0, 500)],
        &[(200, 900), (0, 500), (100, 2_000)],
        &[(300, 301), (301, 302), (302, 303)],
        &[(302, 303), (301, 302), (300, 301)],
        &[(10, 20), (30, 40), (15, 35)],
        &[(0, 1), (700, 1_000), (0, 1_000)],
        &[(256, 512)],
        &[(600, 700), (600, 700), (500, 700)],
        &[(5, 9), (9, 12), (12, 13), (13, 600), (600, 601)],
        &[(1_000, 2_000), (2_000, 2_001), (3_000, 3_500), (2_001, 2_999)],
    ];
    for (i, list) in LISTS.iter().enumerate() {
        for offsets in [[0, 0], [0, 1], [1, 0], [1_000, 1_000], [5, 7]] {
            writer.load_partitions(layout(&[500, 256], &offsets), list);
            let mut edges: Vec<u64> = list.iter().flat_map(|&(start, end)| [start, end]).collect();
            let near: Vec<u64> = edges.iter().flat_map(|&edge| [edge.saturating_sub(1), edge + 1]).collect();
            edges.extend(near);
            edges.extend([0, 1, 250, 256, 400]);
            edges.sort_unstable();
            edges.dedup();
            // All with no offset, some with others.
            let step = if offsets == [0, 0] { 1 } else { 3 };
            for &count in edges.iter().skip(i % step).step_by(step) {
                let holds = |&&(start, end): &&(u64, u64)| start <= count && count <= end;
                let label = match list.iter().filter(holds).count() {
                    0 => "11: in none",
                    1 => "ok: in one partition",
                    _ => "ok: the first of several partitions",
                };
                writer.read_packet(label, &Draft::new((2, 1), count / 256, count % 256, b"?").bytes());
            }
        }
    }
    // The last of the fields and of the partitions' rules, one by one.
    for (start, end, place, why) in BROKEN {
        writer.load_lists(layout(&[100, 256], &[0, 0]), start, end);
        for coarse in [0, 1, 3] {
            let label = format!("2 {}: {}", place, why);
            writer.read_packet(&label, &Draft::new((1, 1), coarse, 9, &[]).bytes());
        }
    }
}

/// Clocks of one to three fields and more.
pub fn fields(writer: &mut Writer) {
    for modulus in [1, 256, 1_000] {
        for (moduli, label) in [
            (vec![1_000 * modulus], "1: one field"),
            (vec![1_000, modulus], "ok: two fields"),
            (vec![1_000, modulus, 1], "1: three fields"),
            (vec![1, 1_000, modulus], "1: three fields"),
            (vec![1_000, 1, modulus], "1: three fields"),
            (vec![100, 10, modulus], "1: three fields"),
            (vec![10, 10, 10, modulus], "1: four fields"),
            (vec![10, 10, 10, 1, 1, 1, 1, 1, 1, modulus], "1: ten fields"),
        ] {
            writer.load_partitions(layout(&moduli, &[]), &[(0, 1_000 * modulus - 1)]);
            for fine in 0..=2 {
                writer.read_packet(label, &Draft::new((1, fine), 7, 0, &[1]).bytes());
            }
        }
    }
    // Slots behind the second are not looked at.
    let mut junk = layout(&[1_000, 256], &[0, 0]);
    for slot in 2..10 {
        junk.moduli[slot] = [0, u64::MAX, 1 << 63][slot % 3];
        junk.offsets[slot] = u64::MAX;
    }
    for n in [1, 2, 3, 10] {
        writer.load_partitions(crate::Layout { n, ..junk }, &[(0, 900)]);
        let label = if n == 2 { "ok: two fields, anything behind them" } else { "1: slots that came into use" };
        writer.read_packet(label, &Draft::new((1, 1), 3, 77, &[]).bytes());
        writer.read_packet(label, &Draft::new((1, 0), 2, 0, &[]).bytes());
    }
}
