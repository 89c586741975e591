//! Random questions of the double form.

use crate::random::Random;
use crate::DoubleSegment;

const E15: u64 = 1_000_000_000_000_000;
const E12: u64 = 1_000_000_000_000;

/// Bits of every class: zeros, subnormals, the ends of the normals, ones, infinities, NaNs.
pub const CLASSES: &[u64] = &[
    0x0000_0000_0000_0000,
    0x8000_0000_0000_0000,
    0x0000_0000_0000_0001,
    0x8000_0000_0000_0001,
    0x0008_0000_0000_0000,
    0x000f_ffff_ffff_ffff,
    0x800f_ffff_ffff_ffff,
    0x0010_0000_0000_0000,
    0x8010_0000_0000_0000,
    0x3ca0_0000_0000_0000,
    0x3ff0_0000_0000_0000,
    0xbff0_0000_0000_0000,
    0x3fef_ffff_ffff_ffff,
    0x3ff0_0000_0000_0001,
    0x430c_6bf5_2634_0000,
    0x430c_6bf5_2634_0004,
    0x4340_0000_0000_0000,
    0x4340_0000_0000_0001,
    0x7fe0_0000_0000_0000,
    0x7fef_ffff_ffff_ffff,
    0xffef_ffff_ffff_ffff,
    0x7ff0_0000_0000_0000,
    0xfff0_0000_0000_0000,
    0x7ff0_0000_0000_0001,
    0x7ff8_0000_0000_0000,
    0xfff8_0000_0000_0001,
    0xffff_ffff_ffff_ffff,
];

fn class(random: &mut Random) -> f64 {
    f64::from_bits(random.pick(CLASSES))
}

fn not_finite(random: &mut Random) -> f64 {
    f64::from_bits(random.pick(&CLASSES[21..]))
}

/// A finite double: whole, with a fraction, or any bits.
fn finite(random: &mut Random) -> f64 {
    let whole = random.magnitude(E15) as f64;
    let fraction = whole / random.between(1, 1_000) as f64;
    let any = f64::from_bits(random.word());
    let one = random.pick(&[0.0, whole, whole, fraction, fraction, if any.is_finite() { any } else { 1.5 }]);
    if random.chance(30) {
        -one
    } else {
        one
    }
}

/// Above 0: near one second, or of any size.
fn rate(random: &mut Random) -> f64 {
    let near = 1.0 + (random.word() as i32) as f64 * 1e-12;
    let fraction = random.between(1, 1 << 30) as f64 / random.between(1, 1 << 30) as f64;
    let any = finite(random).abs();
    let one = random.pick(&[1.0, near, near, fraction, any, f64::from_bits(1 << 52)]);
    if one > 0.0 {
        one
    } else {
        0.25
    }
}

fn msf(random: &mut Random) -> u64 {
    let any = random.magnitude(E12).max(1);
    random.pick(&[1, 10, 256, 65_536, 48_000, E12, E12 - 1, any, any])
}

/// A segment that is fine.
fn sound(random: &mut Random) -> (DoubleSegment, u64) {
    let segment = DoubleSegment { count: finite(random), time: finite(random), rate: rate(random) };
    (segment, msf(random))
}

/// A fault that both ways can have.
fn fault(random: &mut Random, segment: &mut DoubleSegment, msf: &mut u64) {
    match random.below(7) {
        0 => *msf = 0,
        1 => *msf = random.pick(&[E12 + 1, E12 + 1, 2 * E12, u64::MAX]),
        2 => segment.count = not_finite(random),
        3 => segment.time = not_finite(random),
        4 => segment.rate = not_finite(random),
        5 => segment.rate = random.pick(&[0.0, -0.0, -1.0, -f64::from_bits(1), f64::MIN]),
        _ => {
            segment.rate = f64::from_bits(random.between(1, 3));
            *msf = random.pick(&[2, 6, 8, 256, E12]);
        }
    }
}

pub fn forward(random: &mut Random) -> (DoubleSegment, u64, u64) {
    let (mut segment, mut msf) = sound(random);
    // A count that is not after the one given.
    let mut given = random.magnitude(E15);
    if segment.count > given as f64 {
        given = (segment.count.min(1e15) as u64).saturating_add(random.magnitude(1_000)).min(E15);
    }
    if segment.count > given as f64 {
        segment.count = given as f64;
    }
    match random.below(16) {
        0..=4 => fault(random, &mut segment, &mut msf),
        5 => given = random.pick(&[E15 + 1, E15 + 1, 2 * E15, u64::MAX]),
        6 => segment.count = random.pick(&[given as f64 + 1.0, given as f64 + 0.125, 1e300]),
        7 => segment.count = given as f64,
        8 => {
            // The product or the sum passes the largest double.
            segment.rate = f64::MAX;
            msf = random.pick(&[1, 1, 2]);
            segment.time = random.pick(&[0.0, f64::MAX, f64::MIN]);
            given = random.between(2, 9);
            segment.count = random.pick(&[0.0, given as f64 - 1.0]);
        }
        9 => {
            segment = DoubleSegment { count: class(random), time: class(random), rate: class(random) };
            given = random.pick(&[0, 1, E15, E15 + 1]);
        }
        10 => given = random.pick(&[E15 - 1, E15]),
        _ => {}
    }
    (segment, msf, given)
}

pub fn back(random: &mut Random) -> (DoubleSegment, u64, f64) {
    let (mut segment, mut msf) = sound(random);
    let later = rate(random) * random.magnitude(1 << 40) as f64;
    let mut given = segment.time + later;
    if !given.is_finite() {
        given = segment.time;
    }
    match random.below(16) {
        0..=4 => fault(random, &mut segment, &mut msf),
        5 => given = not_finite(random),
        6 => {
            given = random.pick(&[segment.time - 1.0, segment.time - segment.time.abs() * 0.5, f64::MIN]);
        }
        7 => given = segment.time,
        8 => {
            // The difference, the quotient or the sum passes the largest double.
            segment.time = random.pick(&[0.0, f64::MIN]);
            segment.rate = random.pick(&[0.5, 1.0, 1e-300]);
            segment.count = random.pick(&[0.0, f64::MAX]);
            given = f64::MAX;
        }
        9 => {
            segment = DoubleSegment { count: class(random), time: class(random), rate: class(random) };
            given = class(random);
        }
        10 => {
            // Zeros with signs.
            segment.count = random.pick(&[0.0, -0.0]);
            segment.time = random.pick(&[0.0, -0.0]);
            given = random.pick(&[0.0, -0.0]);
        }
        _ => {}
    }
    (segment, msf, given)
}
