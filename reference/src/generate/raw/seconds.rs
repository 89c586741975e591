//! Microseconds: each subtick's first and last, the carry, 24.

use super::Writer;

const LAST: u32 = u32::MAX;

pub fn all(writer: &mut Writer) {
    for seconds in [0, 1, 255, 256, 1 << 24, LAST / 2, LAST - 1, LAST] {
        for us in [0, 1, 1_951, 1_952, 1_953, 5_858, 5_859, 499_999, 500_000, 994_140, 994_141, 998_045, 998_046] {
            writer.microseconds("ok: not carried", seconds, us);
        }
        for us in [998_047, 998_048, 999_998, 999_999] {
            let label = if seconds == LAST { "ok: carried to second 2^32" } else { "ok: carried" };
            writer.microseconds(label, seconds, us);
        }
        for us in [1_000_000, 1_000_001, 1_001_952, (1 << 20) - 1, 1 << 20, 1 << 31, LAST - 1, LAST] {
            writer.microseconds("24: over 999,999", seconds, us);
        }
    }
    // The first microsecond of each subtick is the least with 512×us + 1,000,256 at or above 2,000,000×subtick.
    let first = |subtick: u32| (2_000_000 * subtick - 1_000_256 + 511) / 512;
    for subtick in 1..=256 {
        let seconds = writer.random.magnitude(u64::from(LAST)) as u32;
        writer.microseconds("ok: a subtick's last microsecond", seconds, first(subtick) - 1);
        writer.microseconds("ok: a subtick's first microsecond", seconds, first(subtick));
    }
}
