//! Bad lines about packets, and good ones at the protocol's limits.

use super::{header, layout, Draft, Writer};
use crate::script::MOST_BYTES;

/// Lines that are none of the protocol's, or have a number outside its range.
#[rustfmt::skip]
const BAD: &[&[u8]] = &[
    b"packet", b"read-packet", b"read-packet ", b" read-packet 0800", b"read-packet  0800", b"read-packet 0800 ", b"read-packet 080",
    b"read-packet 0800 0000", b"read-packet 08G0", b"read-packet 080000000001200A", b"read-packet 0x0800", b"read-packet ..",
    b"read-packet .08", b"Read-packet 0800", b"read_packet 0800", b"read-packets 0800", b"readpacket 0800", b"read-packet\t0800",
    b"read-packet 0800000000012005\r", b"read-packet -08", b"READ-PACKET .", b"read-packet 8",
    b"write-packet", b"write-packet ", b"write-packet 0 0 0 0 1 1 5 0 16", b"write-packet 0 0 0 0 1 1 5 0 16 ", b"write-packet 0 0 0 0 1 1 5 0 16 . .",
    b"write-packet 0 0 0 0 1 1 5 0 16 0 .", b"write-packet 0 0 0 0 1 1 5 16 .", b"write-packet 0 0 0 0 1 1 5 0 .", b"write-packet  0 0 0 0 1 1 5 0 16 .",
    b"write-packet 256 0 0 0 1 1 5 0 16 .", b"write-packet 0 65536 0 0 1 1 5 0 16 .", b"write-packet 0 0 256 0 1 1 5 0 16 .",
    b"write-packet 0 0 0 65536 1 1 5 0 16 .", b"write-packet 0 0 0 0 256 1 5 0 16 .", b"write-packet 0 0 0 0 257 1 5 0 16 .",
    b"write-packet 0 0 0 0 1 256 5 0 16 .", b"write-packet 0 0 0 0 1 257 5 0 16 .", b"write-packet 0 0 0 0 1 1 18446744073709551616 0 16 .",
    b"write-packet 0 0 0 0 1 1 18446744073709551621 0 16 .", b"write-packet 0 0 0 0 1 1 5 256 16 .", b"write-packet 0 0 0 0 1 1 5 0 257 .",
    b"write-packet -1 0 0 0 1 1 5 0 16 .", b"write-packet 0 -1 0 0 1 1 5 0 16 .", b"write-packet 0 0 -1 0 1 1 5 0 16 .", b"write-packet 0 0 0 -1 1 1 5 0 16 .",
    b"write-packet 0 0 0 0 -1 1 5 0 16 .", b"write-packet 0 0 0 0 1 -1 5 0 16 .", b"write-packet 0 0 0 0 1 1 -5 0 16 .", b"write-packet 0 0 0 0 1 1 5 -1 16 .",
    b"write-packet 0 0 0 0 1 1 5 0 -1 .", b"write-packet 18446744073709551616 0 0 0 1 1 5 0 16 .", b"write-packet 0 18446744073709551616 0 0 1 1 5 0 16 .",
    b"write-packet 0 0 0 0 1 1 5 0 18446744073709551632 .", b"write-packet 0 0 0 0 1 1 5 0 16 5", b"write-packet 0 0 0 0 1 1 5 0 16 5G",
    b"write-packet 0 0 0 0 1 1 5 0 16 AB", b"write-packet 0 0 0 0 1 1 5 0 16 .\r", b"Write-packet 0 0 0 0 1 1 5 0 16 .", b"write_packet 0 0 0 0 1 1 5 0 16 .",
    b"write-packet 0x0 0 0 0 1 1 5 0 16 .", b"write-packet . 0 0 0 1 1 5 0 16 .", b"write-packet 0 +1 0 0 1 1 5 0 16 .", b"write-packets 0 0 0 0 1 1 5 0 16 .",
    b"walk", b"walk ", b"walk 65542", b"walk 65542 0", b"walk 65542 0 ", b"walk 65542 0 . ", b"walk 65542 0 . .", b"walk 65542 0 0 .", b"walk  65542 0 .",
    b" walk 65542 0 .", b"walk 65601 0 .", b"walk 65601 65601 .", b"walk 131072 0 .", b"walk 4295032838 0 .", b"walk 18446744073709551616 0 .",
    b"walk 18446744073709617158 0 .", b"walk -1 0 .", b"walk 65542 -1 .", b"walk 65542 18446744073709551616 .", b"walk 65542 18446744073709551619 00",
    b"walk 65542 0 0", b"walk 65542 0 000", b"walk 65542 0 0G", b"walk 65542 0 0A", b"walk 65542 0 .00", b"walk 65542 0 00 00", b"walk . 0 00", b"walk 65542 . 00",
    b"walk 65542 0 00\r", b"walk\t65542 0 00", b"Walk 65542 0 00", b"walks 65542 0 00", b"walk-on 65542 0 00", b"walk 65542,0 00", b"walk 0x10006 0 00", b"walk 1e5 0 00",
    b"walk +65542 0 00", b"walk 65542. 0 00",
];

impl Writer {
    pub fn any_bad_packet_line(&mut self) {
        let line = self.random.pick(BAD);
        self.line(line);
    }
}

/// Every bad line, between questions that show that nothing was changed.
pub fn all(writer: &mut Writer) {
    writer.load_partitions(layout(&[1_000, 256], &[0, 0]), &[(0, 70_000)]);
    writer.walk("ok: before bad lines", 0, &[1, 2, 3]);
    for (i, line) in BAD.iter().enumerate() {
        writer.line(line);
        let e = i as u64 * 300;
        match i % 3 {
            0 => writer.read_packet("ok: a bad line changes nothing", &Draft::new((1, 1), i as u64, 7, &[]).bytes()),
            1 => writer.write_packet("ok: a bad line changes nothing", header(2, 1), e, (i as u8, 12), &[]),
            _ => {
                let tail = writer.tail.len();
                writer.walk("ok: a bad line changes nothing", tail, &[0, i as u8, 0]);
            }
        }
    }
    // Pieces as long as they may be, and one byte longer.
    let tail = writer.tail.len();
    writer.walk("ok: a piece of 1,999 bytes", tail, &[0; MOST_BYTES - 1]);
    let tail = writer.tail.len();
    writer.line(format!("walk 65542 {} {}", tail, "00".repeat(MOST_BYTES + 1)).as_bytes());
    writer.walk("ok: a piece of 2,000 bytes", tail, &[0; MOST_BYTES]);
    // Leading zeros, as many as a line may have; the largest numbers.
    let good = |writer: &mut Writer, label: &str, line: &str| {
        writer.questions += 1;
        if !writer.raw {
            writer.line(["# ", label].concat().as_bytes());
        }
        writer.line(line.as_bytes());
    };
    let zeros = "0".repeat(300);
    for zeros in ["0", "00000000000000000000000000000", &zeros] {
        let number = |number: &str| [" ", zeros, number].concat();
        let numbers = |numbers: &[&str]| numbers.iter().map(|digits| number(digits)).collect::<String>();
        let line = |numbers: String, hex: &str| ["write-packet", &numbers, " ", hex].concat();
        let (most, bytes) = (["1", "2047", "3", "16383", "2", "1", "70000", "255", "12"], "ff");
        good(writer, "16: leading zeros", &line(numbers(&most), "ffffff"));
        good(writer, "ok: leading zeros", &line(numbers(&most), bytes));
        let most = ["255", "65535", "255", "65535", "255", "255", "18446744073709551615", "255", "256"];
        good(writer, "26: leading zeros, the largest numbers", &line(numbers(&most), bytes));
        let least = ["0", "0", "0", "0", "0", "0", "0", "0", "0"];
        good(writer, "26: leading zeros, the least numbers", &line(numbers(&least), "."));
        let far = "18446744073709551615";
        good(writer, "25: leading zeros", &["walk", &numbers(&["65600", far]), " 00"].concat());
        good(writer, "16: leading zeros", &["walk", &numbers(&["65541", far]), " ."].concat());
    }
}
