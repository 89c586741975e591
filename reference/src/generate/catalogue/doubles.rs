//! Doubles of every class in every place.

use crate::generate::doubles::CLASSES;
use crate::generate::writer::Writer;
use crate::script::Question;
use crate::DoubleSegment;

const E15: u64 = 1_000_000_000_000_000;
const E12: u64 = 1_000_000_000_000;

pub fn all(writer: &mut Writer) {
    let good = DoubleSegment { count: 0.0, time: 100.0, rate: 1.0 };
    for bits in CLASSES {
        let double = f64::from_bits(*bits);
        for segment in [
            good,
            DoubleSegment { count: double, ..good },
            DoubleSegment { time: double, ..good },
            DoubleSegment { rate: double, ..good },
            DoubleSegment { count: double, time: double, rate: double },
        ] {
            for given in [0, 512, E15] {
                writer.ask(Question::Forward { segment, msf: 256, given });
            }
            for given in [100.0, 102.0, f64::MAX, double] {
                writer.ask(Question::Back { segment, msf: 256, given });
            }
        }
    }
    for msf in [0, 1, 2, 256, E12 - 1, E12, E12 + 1, 1 << 53, u64::MAX] {
        for number in [0, 1, 512, E15 - 1, E15, E15 + 1, (1 << 53) + 1, u64::MAX] {
            writer.ask(Question::Forward { segment: good, msf, given: number });
            writer.ask(Question::Back { segment: good, msf, given: number as f64 });
        }
        for rate in [1, 2, 3, 255, 1 << 52, (1 << 52) + 1] {
            let segment = DoubleSegment { rate: f64::from_bits(rate), ..good };
            writer.ask(Question::Forward { segment, msf, given: 3 });
            writer.ask(Question::Back { segment, msf, given: 100.0 });
        }
    }
    for _ in 0..150 {
        writer.any_forward();
        writer.any_back();
    }
}
