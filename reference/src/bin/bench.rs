//! The benchmark's questions, asked of the reference. Without a word it asks few of each and prints their checksums; with the
//! word `time` it asks many and prints nanoseconds a call behind each checksum. The proved program `bench` does the same. With
//! the word `host` in front it asks the questions of the proved program `bench_host`: those of the C calls. With the word
//! `packets` in front it asks those of `bench_dump`: packets, and dumps of them. With the word `tables` in front it asks
//! whether a newer table succeeds an older one, and where their horizon is.

use std::fmt::Write;

use reference::host::{self, LayoutSlices, PartitionSlices, SegmentSlices};
use reference::packet::{self, Header, LONGEST};
use reference::quotient::{down, down_by_bits, up, up_by_bits};
use reference::{count_at, microseconds, print_count, print_stamp, read_kernel, read_message, read_stamp, read_text};
use reference::{horizon, steps_back, succeeds, time_of, Layout, Partitions, RawCounter, Segments, Succession, Table};

extern "C" {
    /// C's `clock`: microseconds of processor time. The proved program reads the same.
    fn clock() -> i64;
}

/// The same, and the compiler cannot know it: else it would divide by constants.
fn unknown<T>(value: &T) -> &T {
    unsafe { std::ptr::read_volatile(&value) }
}

/// "Moduli 65536, 60, 800, offsets 0, 0, 1": one field count is 48,000 ticks.
const LAYOUT: Layout = Layout {
    n: 3,
    moduli: [65_536, 60, 800, 0, 0, 0, 0, 0, 0, 0],
    offsets: [0, 0, 1, 0, 0, 0, 0, 0, 0, 0],
    delimiter: 2,
};
const LAST: u64 = 65_536 * 60 * 800 - 1;
/// "1,000×MSF".
const UNIT: u64 = 48_000_000;
const TEXTS: usize = 256;

/// The clock of the packets: its time has four coarse octets and two fine ones. It has as many ticks as the other.
const PACKET_LAYOUT: Layout =
    Layout { n: 2, moduli: [48_000, 65_536, 0, 0, 0, 0, 0, 0, 0, 0], offsets: [0; 10], delimiter: 1 };
const PACKETS: usize = 256;
/// The largest encoded count, however many partitions there are.
const ENCODED: u64 = LAST - 20_000;
/// The dump, and the bytes of one walk: the dump over and over.
const DUMP: usize = 1 << 20;
const WALKED: usize = 64 * DUMP;
/// The shortest packet.
const SHORTEST: usize = 7;

/// How many segments, and how often they are asked where it is timed.
const SEGMENTS: [(u64, u64); 3] = [(1, 5_000_000), (100, 1_000_000), (10_000, 10_000)];

/// Pseudo-random numbers below 2^31.
fn next(x: u64) -> u64 {
    (x * 1_103_515_245 + 12_345) % 2_147_483_648
}

/// A number up to `most` made of one below 2^31.
fn scaled(x: u64, most: u64) -> u64 {
    x * (most / 65_536) / 32_768
}

fn mixed(sum: u64, answer: u64) -> u64 {
    (sum * 31 + answer % 1_000_000_007) % 1_000_000_007
}

/// A table's segments: `rows` of them, as long as each other, with ticks of some 20 ns, or `scale` times that, and a gap
/// after each.
struct Rows {
    scale: u64,
    count: Vec<u64>,
    time: Vec<i64>,
    rate: Vec<u64>,
}

impl Rows {
    fn new(rows: u64, scale: u64) -> Rows {
        let each = LAST / rows;
        Rows {
            scale,
            count: (0..rows).map(|i| i * each).collect(),
            time: (0..rows).map(|i| (i * each * 21 * scale) as i64).collect(),
            rate: (0..rows).map(|i| (960_000_000 + i % 7) * scale).collect(),
        }
    }

    fn segments(&self) -> Segments<'_> {
        Segments { count: &self.count, time: &self.time, rate: &self.rate }
    }

    /// The last time.
    fn latest(&self) -> u64 {
        self.time[self.time.len() - 1] as u64 + 20 * self.scale * (LAST - self.count[self.count.len() - 1])
    }
}

/// `1/ddddd:dd:ddd`, 14 bytes, and a trailer that says so.
fn messages() -> Vec<u8> {
    let mut all = Vec::new();
    let mut x = 1;
    for _ in 0..TEXTS {
        x = next(x);
        let count = scaled(x, LAST);
        let text = format!("1/{:05}:{:02}:{:03}", count / 48_000, count / 800 % 60, count % 800 + 1);
        all.extend_from_slice(text.as_bytes());
        all.extend_from_slice(&[0, 14]);
    }
    all
}

/// Messages of a stamp and its trailer. Each stamp names its partition, one of those of `partition_lines`.
fn partition_messages(rows: u64, ticks: u64) -> Vec<Vec<u8>> {
    let mut x = 1;
    let message = |_| {
        x = next(x);
        let encoded = scaled(x, rows * ticks);
        let row = encoded / ticks;
        let count = encoded + row;
        let text = format!("{}/{:05}:{:02}:{:03}", 1 + row, count / 48_000, count / 800 % 60, count % 800 + 1);
        [text.as_bytes(), &[0, text.len() as u8]].concat()
    };
    (0..TEXTS).map(message).collect()
}

/// A list for the C calls: eight bytes a number, low byte first.
fn list(numbers: &[u64]) -> Vec<u8> {
    numbers.iter().flat_map(|number| number.to_le_bytes()).collect()
}

/// The layout's lists for the C calls.
struct LayoutLists {
    moduli: Vec<u8>,
    offsets: Vec<u8>,
}

impl LayoutLists {
    fn new() -> LayoutLists {
        LayoutLists { moduli: list(&LAYOUT.moduli[..3]), offsets: list(&LAYOUT.offsets[..3]) }
    }

    /// As unknown to the compiler as the layout itself.
    fn slices(&self) -> LayoutSlices<'_> {
        let layout = unknown(&LAYOUT);
        let (moduli, offsets) = (unknown(&self.moduli), unknown(&self.offsets));
        LayoutSlices { n: layout.n, delimiter: layout.delimiter.into(), moduli, offsets }
    }
}

/// What a C call returned, that is not refused.
fn returned(answer: i64) -> u64 {
    u64::try_from(answer).unwrap()
}

/// A print's length and last byte.
fn printed(length: u64, buffer: &[u8]) -> u64 {
    length * 256 + u64::from(buffer[length as usize - 1])
}

/// The kernel text of a clock -77 with so many segments and partitions.
fn kernel_text(segments: u64, partitions: u64) -> Vec<u8> {
    let mut text = String::from(
        "KPL/SCLK\n\\begindata\nSCLK_KERNEL_ID = ( @2026-11-16 )\nSCLK_DATA_TYPE_77 = ( 1 )\n\
         SCLK01_TIME_SYSTEM_77 = ( 2 )\nSCLK01_N_FIELDS_77 = ( 3 )\nSCLK01_MODULI_77 = ( 65536 60 800 )\n\
         SCLK01_OFFSETS_77 = ( 0 0 1 )\nSCLK01_OUTPUT_DELIM_77 = ( 2 )\nSCLK_PARTITION_START_77 = (\n",
    );
    for i in 0..partitions {
        writeln!(text, "  {:010}", i).unwrap();
    }
    text += ")\nSCLK_PARTITION_END_77 = (\n";
    for i in 0..partitions {
        let end = LAST - i;
        writeln!(text, "  {}.{:09}E+09", end / 1_000_000_000, end % 1_000_000_000).unwrap();
    }
    text += ")\nSCLK01_COEFFICIENTS_77 = (\n";
    for i in 0..segments {
        let (time, rate) = (i * 63_000_000_007, 960_000_000 + i % 7);
        let (seconds, ns) = (time / 1_000_000_000, time % 1_000_000_000);
        let (first, others) = (rate / 100_000_000, rate % 100_000_000);
        writeln!(text, "  {:014} {:07}.{:09} {}.{:08}E-04", i * 3_000_000_000, seconds, ns, first, others).unwrap();
    }
    text += ")\n\\begintext\n";
    text.into_bytes()
}

fn line(name: &str, times: u64, timed: bool, mut ask: impl FnMut(u64) -> u64) {
    let start = unsafe { clock() };
    let mut sum = 0;
    let mut x = 1;
    for _ in 0..times {
        x = next(x);
        sum = mixed(sum, ask(x));
    }
    let each = (unsafe { clock() } - start) as u64 * 1_000 / times;
    if timed {
        println!("{name} {times} {sum} {each}");
    } else {
        println!("{name} {times} {sum}");
    }
}

fn main() {
    let mut words = std::env::args().skip(1).peekable();
    let host = words.next_if_eq("host").is_some();
    let packets = words.next_if_eq("packets").is_some();
    let tables = words.next_if_eq("tables").is_some();
    let timed = words.next().as_deref() == Some("time");
    if host {
        host_lines(timed);
    } else if packets {
        packet_lines(timed);
    } else if tables {
        table_lines(timed);
    } else {
        lines(timed);
    }
}

/// How often a question is asked.
fn often(timed: bool, many: u64, few: u64) -> u64 {
    if timed {
        many
    } else {
        few
    }
}

fn lines(timed: bool) {
    let many = |timed_times: u64, times: u64| often(timed, timed_times, times);
    let partitions = Partitions { start: &[0, 0], end: &[LAST, LAST] };
    let one = Partitions { start: &[0], end: &[LAST] };

    let messages = messages();
    line("read-stamp", many(5_000_000, 1_000), timed, |x| {
        let at = (x as usize % TEXTS) * 16;
        read_stamp(unknown(&LAYOUT), partitions, &messages[at..at + 14]).unwrap()
    });
    line("print-stamp", many(5_000_000, 1_000), timed, |x| {
        let mut buffer = [0; 32];
        let length = print_stamp(unknown(&LAYOUT), partitions, scaled(x, LAST + LAST), &mut buffer).unwrap();
        length as u64 * 256 + buffer[length - 1] as u64
    });
    for (names, rows, times) in [
        (["raw-reset-2", "raw-read-2"], 2, many(5_000_000, 1_000)),
        (["raw-reset-9999", "raw-read-9999"], 9_999, many(20_000, 100)),
    ] {
        // Each two ticks shorter than the one before. Each question has a counter of its own that is about to roll over.
        let (start, end): (Vec<u64>, Vec<u64>) = (0..rows).map(|i| (i, LAST - i)).unzip();
        let rolling = |x: u64, count| RawCounter::at(u32::MAX - (x % 1_000) as u32, count);
        line(names[0], times, timed, |x| {
            let mut counter = rolling(x, 0);
            let partitions = Partitions { start: &start, end: &end };
            let count = counter.reset(unknown(&LAYOUT), partitions, 1 + x % rows, x as u32).unwrap();
            count ^ u64::from(counter.raw)
        });
        line(names[1], times, timed, |x| {
            let mut counter = rolling(x, scaled(x, LAST));
            let partitions = Partitions { start: &start, end: &end };
            let count = counter.read(unknown(&LAYOUT), partitions, (x % 777) as u32).unwrap();
            count ^ u64::from(counter.raw)
        });
    }
    line("microseconds", many(20_000_000, 1_000), timed, |x| microseconds(x as u32, (x % 1_000_000) as u32).unwrap());
    quotient_lines("ms", 1, many(5_000_000, 1_000), timed);
    quotient_lines("s", 1_000, many(5_000_000, 1_000), timed);
    for (n, times) in SEGMENTS {
        let rows = Rows::new(n, 1);
        let segments = rows.segments();
        time_lines(["time-of", "count-at"], &n.to_string(), &rows, many(times, 100), timed);
        if n == 1 {
            time_lines(["time-of", "count-at"], "1-s", &Rows::new(n, 1_000), many(times, 100), timed);
        }
        if n == 100 {
            line("stamp-time-100", many(times, 100), timed, |x| {
                let at = (x as usize % TEXTS) * 16;
                let count = read_stamp(unknown(&LAYOUT), one, &messages[at..at + 14]).unwrap();
                let time = time_of(unknown(&LAYOUT), one, segments, count).unwrap();
                count ^ (time as u64) ^ (1 << 63)
            });
            line("message-time-100", many(times, 100), timed, |x| {
                let at = (x as usize % TEXTS) * 16;
                let count = read_message(unknown(&LAYOUT), one, &messages[at..at + 16]).unwrap();
                let time = time_of(unknown(&LAYOUT), one, segments, count).unwrap();
                count ^ (time as u64) ^ (1 << 63)
            });
        }
        if n == 10_000 {
            line("steps-back-10000", many(times, 100), timed, |_| {
                if steps_back(unknown(&LAYOUT), one, segments).unwrap() {
                    1
                } else {
                    2
                }
            });
        }
    }

    let (mut moduli, mut offsets) = ([0; 10], [0; 10]);
    let (mut starts, mut ends) = (vec![0; 10_000], vec![0; 10_000]);
    let (mut counts, mut times, mut rates) = (vec![0; 10_001], vec![0; 10_001], vec![0; 10_001]);
    for (name, segments, partitions, asked) in [
        ("read-kernel-100", 100, 99, many(20_000, 20)),
        ("read-kernel-10000", 10_000, 9_999, many(200, 2)),
        ("read-kernel-10001", 10_001, 9_999, many(200, 2)),
    ] {
        let text = kernel_text(segments, partitions);
        line(name, asked, timed, |x| {
            let result = read_kernel(
                &unknown(&text)[..],
                -77,
                &mut moduli,
                &mut offsets,
                &mut starts,
                &mut ends,
                &mut counts,
                &mut times,
                &mut rates,
            );
            let (row, segment) = ((x % partitions) as usize, (x % segments) as usize);
            match result {
                Ok(kernel) => {
                    let line = counts[segment] + times[segment] as u64 + rates[segment];
                    kernel.n * 1_000_003 + starts[row] + ends[row] + line
                }
                Err(refusal) => u64::from(refusal.number),
            }
        });
    }
}

/// The quotient of count to time and that of time to count, by division and bit by bit, where a first-field count takes 0.96
/// of this unit: ms with a scale of 1, s with one of 1,000.
fn quotient_lines(unit: &str, scale: u64, times: u64, timed: bool) {
    let rate = |x: u64| 960_000_000 * scale + x % 7;
    let ticks = |x| scaled(x, LAST);
    let elapsed = |x| scaled(x, 20 * LAST * scale);
    line(&format!("quotient-up-{unit}"), times, timed, |x| up(rate(x), ticks(x), *unknown(&UNIT)));
    line(&format!("quotient-up-{unit}-bits"), times, timed, |x| up_by_bits(rate(x), ticks(x), *unknown(&UNIT)));
    line(&format!("quotient-down-{unit}"), times, timed, |x| down(elapsed(x), *unknown(&UNIT), rate(x)));
    line(&format!("quotient-down-{unit}-bits"), times, timed, |x| down_by_bits(elapsed(x), *unknown(&UNIT), rate(x)));
}

/// Count to time and time to count under these segments, one partition.
fn time_lines(names: [&str; 2], table: &str, rows: &Rows, times: u64, timed: bool) {
    let one = Partitions { start: &[0], end: &[LAST] };
    let (segments, latest) = (rows.segments(), rows.latest());
    line(&format!("{}-{table}", names[0]), times, timed, |x| {
        (time_of(unknown(&LAYOUT), one, segments, scaled(x, LAST)).unwrap() as u64) ^ (1 << 63)
    });
    line(&format!("{}-{table}", names[1]), times, timed, |x| {
        count_at(unknown(&LAYOUT), one, segments, scaled(x, latest) as i64).unwrap()
    });
}

/// The C calls, each beside the inner call. `lines` has count to time and time to count too, so they have other names here.
fn host_lines(timed: bool) {
    text_lines(often(timed, 5_000_000, 1_000), timed);
    for (rows, many, few) in [(1, 5_000_000, 1_000), (100, 1_000_000, 100), (9_999, 10_000, 100)] {
        partition_lines(rows, often(timed, many, few), timed);
    }
    for (n, times) in SEGMENTS {
        let rows = Rows::new(n, 1);
        let times = often(timed, times, 100);
        time_lines(["table-time-of", "table-count-at"], &n.to_string(), &rows, times, timed);
        c_time_lines(n, &rows, times, timed);
    }
}

/// The C calls of count to time and time to count under the same segments, one partition.
fn c_time_lines(n: u64, rows: &Rows, times: u64, timed: bool) {
    let latest = rows.latest();
    let layout = LayoutLists::new();
    let (start, end) = (list(&[0]), list(&[LAST]));
    let partitions = PartitionSlices { starts: &start, ends: &end };
    let (count, rate) = (list(&rows.count), list(&rows.rate));
    let time: Vec<u8> = rows.time.iter().flat_map(|time| time.to_le_bytes()).collect();
    let segments = SegmentSlices { counts: &count, times: &time, rates: &rate };
    line(&format!("c-time-of-{n}"), times, timed, |x| {
        let mut buffer = [0; 8];
        assert!(host::time_of(layout.slices(), partitions, segments, scaled(x, LAST), &mut buffer) == 0);
        u64::from_le_bytes(buffer) ^ (1 << 63)
    });
    line(&format!("c-count-at-{n}"), times, timed, |x| {
        returned(host::count_at(layout.slices(), partitions, segments, scaled(x, latest) as i64))
    });
}

/// Clock text and counts, by the inner calls and the C calls.
fn text_lines(times: u64, timed: bool) {
    let layout = LayoutLists::new();
    let messages = partition_messages(1, LAST - 1);
    // Without the partition in front and the trailer.
    let text = |x: u64| &messages[x as usize % TEXTS][2..14];
    line("read-text", times, timed, |x| read_text(unknown(&LAYOUT), text(x)).unwrap());
    line("c-read-text", times, timed, |x| returned(host::read_text(layout.slices(), text(x))));
    line("print-count", times, timed, |x| {
        let mut buffer = [0; 32];
        let length = print_count(unknown(&LAYOUT), scaled(x, LAST), &mut buffer).unwrap();
        printed(length as u64, &buffer)
    });
    line("c-print-count", times, timed, |x| {
        let mut buffer = [0; 32];
        let length = host::print_count(layout.slices(), scaled(x, LAST), &mut buffer);
        printed(returned(length), &buffer)
    });
}

/// So many partitions, of so many ticks each; one is left out before the next.
fn equal_partitions(rows: u64) -> (u64, Vec<u64>, Vec<u64>) {
    let ticks = LAST / rows - 1;
    let start: Vec<u64> = (0..rows).map(|i| i * (ticks + 1)).collect();
    let end = start.iter().map(|start| start + ticks).collect();
    (ticks, start, end)
}

/// Stamps and messages under so many partitions, by the inner calls and the C calls.
fn partition_lines(rows: u64, times: u64, timed: bool) {
    let (ticks, start, end) = equal_partitions(rows);
    let total = rows * ticks;
    let (starts, ends) = (list(&start), list(&end));
    let partitions = Partitions { start: &start, end: &end };
    let slices = PartitionSlices { starts: &starts, ends: &ends };
    let layout = LayoutLists::new();
    let messages = partition_messages(rows, ticks);
    let message = |x: u64| &messages[x as usize % TEXTS][..];
    let stamp = |x: u64| &message(x)[..message(x).len() - 2];
    line(&format!("read-stamp-{rows}"), times, timed, |x| read_stamp(unknown(&LAYOUT), partitions, stamp(x)).unwrap());
    line(&format!("read-message-{rows}"), times, timed, |x| {
        read_message(unknown(&LAYOUT), partitions, message(x)).unwrap()
    });
    line(&format!("print-stamp-{rows}"), times, timed, |x| {
        let mut buffer = [0; 32];
        let length = print_stamp(unknown(&LAYOUT), partitions, scaled(x, total), &mut buffer).unwrap();
        printed(length as u64, &buffer)
    });
    line(&format!("c-read-stamp-{rows}"), times, timed, |x| {
        returned(host::read_stamp(layout.slices(), slices, stamp(x)))
    });
    line(&format!("c-read-message-{rows}"), times, timed, |x| {
        returned(host::read_message(layout.slices(), slices, message(x)))
    });
    line(&format!("c-print-stamp-{rows}"), times, timed, |x| {
        let mut buffer = [0; 32];
        let length = host::print_stamp(layout.slices(), slices, scaled(x, total), &mut buffer);
        printed(returned(length), &buffer)
    });
}

/// Packets under two partitions and under as many as there may be, then dumps.
fn packet_lines(timed: bool) {
    let payload = bytes(1_024);
    for (rows, many, few) in [(2, 5_000_000, 1_000), (9_999, 20_000, 100)] {
        let times = often(timed, many, few);
        let (_, start, end) = equal_partitions(rows);
        let partitions = Partitions { start: &start, end: &end };
        read_line(&format!("read-packet-{rows}"), partitions, &payload[..100], times, timed);
        write_line(&format!("write-packet-{rows}"), partitions, &payload[..100], times, timed);
        if rows == 2 {
            write_line("write-packet-1k", partitions, &payload, often(timed, 1_000_000, 1_000), timed);
        }
    }
    walk_line("walk-mixed", &dump(SHORTEST, true), often(timed, 1_000, 1), timed);
    walk_line("walk-1k", &dump(1_024, false), often(timed, 1_000, 1), timed);
    walk_line("walk-7", &dump(SHORTEST, false), often(timed, 20, 1), timed);
}

/// Pseudo-random bytes.
fn bytes(count: usize) -> Vec<u8> {
    let mut x = 1;
    let byte = |_| {
        x = next(x);
        (x / 65_536) as u8
    };
    (0..count).map(byte).collect()
}

fn header(x: u64) -> Header {
    let fine = *unknown(&2);
    let (packet_type, apid) = ((x / 65_536 % 2) as u8, (x / 256 % 2_048) as u16);
    Header {
        packet_type,
        apid,
        flags: (x / 1_024 % 4) as u8,
        sequence: (x / 65_536 % 16_384) as u16,
        coarse: fine + 2,
        fine,
    }
}

fn read_line(name: &str, partitions: Partitions, payload: &[u8], times: u64, timed: bool) {
    let mut x = 1;
    let packet = |_| {
        x = next(x);
        let mut buffer = [0; 113];
        packet::write(&PACKET_LAYOUT, partitions, &header(x), scaled(x, ENCODED), payload, &mut buffer).unwrap();
        buffer
    };
    let packets: Vec<[u8; 113]> = (0..PACKETS).map(packet).collect();
    line(name, times, timed, |x| {
        let packet = &packets[x as usize / 65_536 % PACKETS];
        let read = packet::read(unknown(&PACKET_LAYOUT), *unknown(&partitions), packet).unwrap();
        let Header { packet_type, apid, flags, sequence, coarse, fine } = read.header;
        let words =
            (u64::from(packet_type) << 40) + (u64::from(flags) << 32) + (u64::from(apid) << 16) + u64::from(sequence);
        let octets = u64::from(coarse) * 16 + u64::from(fine);
        read.count + read.encoded + words + octets + read.data as u64
    });
}

fn write_line(name: &str, partitions: Partitions, payload: &[u8], times: u64, timed: bool) {
    let mut buffer = [0; 2_048];
    line(name, times, timed, |x| {
        let (layout, partitions) = (unknown(&PACKET_LAYOUT), *unknown(&partitions));
        let length = packet::write(layout, partitions, &header(x), scaled(x, ENCODED), payload, &mut buffer).unwrap();
        let (byte, last) = (buffer[(x / 65_536 % 64) as usize], buffer[length - 1]);
        length as u64 * 65_536 + u64::from(byte) * 256 + u64::from(last)
    });
}

/// 1 MiB of packets of `least` bytes; or, where they are mixed, most of up to 4,095 more, every 64th the longest there is.
fn dump(least: usize, mixed: bool) -> Vec<u8> {
    let mut dump = bytes(DUMP);
    let mut x = 1;
    let (mut at, mut i) = (0, 0);
    while at < DUMP {
        x = next(x);
        let drawn = match (mixed, i % 64) {
            (false, _) => least,
            (true, 63) => LONGEST,
            (true, 15 | 31 | 47) => least,
            (true, _) => least + (x / 32_768 % 4_096) as usize,
        };
        // What would be too short for another packet goes with it.
        let left = DUMP - at;
        let length = match left {
            _ if left >= drawn + SHORTEST => drawn,
            _ if left > LONGEST => left - SHORTEST,
            _ => left,
        };
        dump[at + 4..at + 6].copy_from_slice(&((length - SHORTEST) as u16).to_be_bytes());
        at += length;
        i += 1;
    }
    dump
}

/// The dump is walked over and over, in pieces of up to 64 KiB that end with it. Of each packet its length and three of its
/// bytes are looked at.
fn walk_line(name: &str, dump: &[u8], times: u64, timed: bool) {
    let mut buffer = vec![0; LONGEST];
    line(name, times, timed, |question| {
        let mut x = question;
        let (mut sum, mut tail, mut at, mut left) = (0u64, 0, 0, WALKED);
        while left > 0 {
            x = next(x);
            let end = (at + 1 + (x / 32_768) as usize).min(dump.len());
            let tell = |packet: &[u8]| {
                let [first, middle, last] = [0, packet.len() / 2, packet.len() - 1].map(|i| u64::from(packet[i]));
                let told = (first * 65_536 + middle * 256 + last) * 1_048_576 + packet.len() as u64;
                sum = sum.wrapping_mul(3).wrapping_add(told);
            };
            tail = packet::walk(&mut buffer, tail, &unknown(&dump)[at..end], tell).unwrap() as u64;
            left -= end - at;
            at = if end == dump.len() { 0 } else { end };
        }
        sum.wrapping_add(tail)
    });
}

/// Two tables, the newer with as many partitions and segments as there may be. The older has the first half of its rows, or it
/// is a copy of it.
fn table_lines(timed: bool) {
    let (_, start, end) = equal_partitions(9_999);
    let rows = Rows::new(10_000, 1);
    let newer =
        Table { layout: &LAYOUT, partitions: Partitions { start: &start, end: &end }, segments: rows.segments() };
    let copy = (start.clone(), end.clone(), Rows::new(10_000, 1));
    let equal =
        Table { layout: &LAYOUT, partitions: Partitions { start: &copy.0, end: &copy.1 }, segments: copy.2.segments() };
    let segments = copy.2.segments();
    let half = Table {
        layout: &LAYOUT,
        partitions: Partitions { start: &copy.0[..4_999], end: &copy.1[..4_999] },
        segments: Segments {
            count: &segments.count[..5_000],
            time: &segments.time[..5_000],
            rate: &segments.rate[..5_000],
        },
    };
    let times = often(timed, 5_000, 100);
    for (older, which) in [(half, "longer"), (equal, "equal")] {
        line(&format!("succeeds-{which}"), times, timed, |_| match succeeds(*unknown(&older), *unknown(&newer)) {
            Ok(Succession::Yes) => 1,
            Ok(Succession::No(_, row)) => 2 + row as u64,
            Err(_) => 0,
        });
        line(&format!("horizon-{which}"), times, timed, |_| horizon(*unknown(&older), *unknown(&newer)).unwrap());
    }
}
