//! A packet before it is put together, and a dump cut by its length fields.

/// Every field may be any number that fits its bits.
#[derive(Clone)]
pub struct Draft {
    pub version: u16,
    pub packet_type: u16,
    pub secondary: u16,
    pub apid: u16,
    pub flags: u16,
    pub sequence: u16,
    /// None for what is there.
    pub length: Option<u16>,
    pub p_field: u8,
    /// What stands behind the P-field.
    pub rest: Vec<u8>,
}

impl Draft {
    /// A good packet with so many octets and this time, the other fields 0.
    pub fn new(octets: (usize, usize), coarse: u64, fine: u64, data: &[u8]) -> Draft {
        let rest = [&coarse.to_be_bytes()[8 - octets.0..], &fine.to_be_bytes()[8 - octets.1..], data].concat();
        Draft { p_field: p_field(octets), ..Draft::of(rest) }
    }

    /// With P-field 20.
    pub fn of(rest: Vec<u8>) -> Draft {
        let (version, packet_type, secondary, apid, flags, sequence) = (0, 0, 1, 0, 0, 0);
        Draft { version, packet_type, secondary, apid, flags, sequence, length: None, p_field: 0x20, rest }
    }

    pub fn bytes(&self) -> Vec<u8> {
        let first = self.version * 8_192 + self.packet_type * 4_096 + self.secondary * 2_048 + self.apid;
        let second = self.flags * 16_384 + self.sequence;
        let third = self.length.unwrap_or(self.rest.len() as u16);
        let words = [first, second, third].map(u16::to_be_bytes).concat();
        [&words[..], &[self.p_field], &self.rest].concat()
    }
}

/// Without extension, time code 010.
pub fn p_field((coarse, fine): (usize, usize)) -> u8 {
    (0x20 + 4 * (coarse - 1) + fine) as u8
}

/// The lengths of the whole packets at the front of a dump.
pub fn cut(dump: &[u8]) -> Vec<usize> {
    let (mut lengths, mut from) = (vec![], 0);
    while let [_, _, _, _, high, low, rest @ ..] = &dump[from..] {
        let octets = usize::from(*high) * 256 + usize::from(*low) + 1;
        if octets > rest.len() {
            break;
        }
        lengths.push(6 + octets);
        from += 6 + octets;
    }
    lengths
}
