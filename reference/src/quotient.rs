//! The quotient of a two-word product, by the language's division and bit by bit. The benchmark compares them.

use crate::time::round_up;

/// a×b / d, rounded up, for d above 0 and a quotient that fits 64 bits.
#[inline]
pub fn up(a: u64, b: u64, d: u64) -> u64 {
    round_up(u128::from(a) * u128::from(b), u128::from(d)) as u64
}

/// a×b / d, rounded down, for d above 0 and a quotient that fits 64 bits.
#[inline]
pub fn down(a: u64, b: u64, d: u64) -> u64 {
    (u128::from(a) * u128::from(b) / u128::from(d)) as u64
}

/// a×b / d, rounded up, bit by bit, for 0 < d <= 2^63 and a quotient that fits 64 bits.
#[inline]
pub fn up_by_bits(a: u64, b: u64, d: u64) -> u64 {
    let (quotient, rest) = by_bits(a, b, d);
    debug_assert!(quotient < u64::MAX || rest == 0);
    quotient + u64::from(rest != 0)
}

/// a×b / d, rounded down, bit by bit, for 0 < d <= 2^63 and a quotient that fits 64 bits.
#[inline]
pub fn down_by_bits(a: u64, b: u64, d: u64) -> u64 {
    by_bits(a, b, d).0
}

/// The quotient rounded down, and the rest. Non-restoring: d is taken away also where it is more than there is; the next step
/// then adds it.
#[inline]
fn by_bits(a: u64, b: u64, d: u64) -> (u64, u64) {
    let product = u128::from(a) * u128::from(b);
    debug_assert!(0 < d && d <= 1 << 63 && product >> 64 < u128::from(d));
    // The quotient's leading zeros, by the lengths. Without them the upper word is below d still: it has a digit less.
    let zeros = product.leading_zeros().saturating_sub(d.leading_zeros() + 1).min(64);
    let product = product << zeros;
    let mut rest = ((product >> 64) as u64).wrapping_sub(d) as i64;
    // The dividend's digits leave at the top, the quotient's come in at the bottom, each a step late. The first one is the 0
    // of the rest above.
    let mut word = product as u64;
    let d = d as i64;
    // The fastest shape tried: d or -d is chosen beside the shift, so a step waits for a shift and an addition only.
    for _ in 0..64 - zeros {
        let digit = (word >> 63) as i64;
        let below = rest < 0;
        word = (word << 1) + u64::from(!below);
        let more = (rest << 1).wrapping_add(d.wrapping_add(digit));
        let less = (rest << 1).wrapping_sub(d.wrapping_sub(digit));
        rest = if below { more } else { less };
    }
    let below = rest < 0;
    word = (word << 1) + u64::from(!below);
    (word, if below { rest.wrapping_add(d) } else { rest } as u64)
}

#[cfg(test)]
mod tests {
    use super::*;
    use crate::random::Random;

    const MOST: u64 = u64::MAX;
    const HALF: u64 = 1 << 63;

    /// Does the quotient fit, rounded down and rounded up? What fits is compared.
    fn fit(a: u64, b: u64, d: u64) -> [bool; 2] {
        let (product, divisor) = (u128::from(a) * u128::from(b), u128::from(d));
        let floor = product / divisor;
        let ceiling = floor + u128::from(product % divisor != 0);
        let fit = [floor, ceiling].map(|quotient| quotient <= u128::from(MOST));
        if fit[0] {
            assert!(u128::from(down(a, b, d)) == floor, "{a} {b} {d}: down");
            assert!(u128::from(down_by_bits(a, b, d)) == floor, "{a} {b} {d}: down by bits");
        }
        if fit[1] {
            assert!(u128::from(up(a, b, d)) == ceiling, "{a} {b} {d}: up");
            assert!(u128::from(up_by_bits(a, b, d)) == ceiling, "{a} {b} {d}: up by bits");
        }
        fit
    }

    #[test]
    fn edges() {
        let powers = [0, 1, 2, 16, 31, 32, 33, 48, 61, 62, 63].map(|bits| 1 << bits);
        let near =
            powers.iter().flat_map(|power| [power - 1, *power, power + 1]).chain([10, 48_000_000, MOST - 1, MOST]);
        let near: Vec<u64> = near.collect();
        let mut fits = 0;
        for &a in &near {
            for &b in &near {
                for &d in near.iter().filter(|&&d| 0 < d && d <= HALF) {
                    fits += u64::from(fit(a, b, d)[1]);
                }
            }
        }
        assert!(fits > 25_000, "{fits}");
    }

    #[test]
    fn by_hand() {
        for (a, b, d, floor, ceiling) in [
            (0, 0, 1, 0, 0),
            (0, MOST, HALF, 0, 0),
            (1, 1, 1, 1, 1),
            (1, 1, 2, 0, 1),
            (1, 1, HALF, 0, 1),
            (HALF, 1, HALF, 1, 1),
            (HALF - 1, 1, HALF, 0, 1),
            // Products that just fill one word, and the next.
            (MOST, 1, 1, MOST, MOST),
            (MOST, 1, 2, HALF - 1, HALF),
            (MOST, 1, HALF, 1, 2),
            (1 << 32, 1 << 32, HALF, 2, 2),
            (1 << 32, 1 << 32, 3, 6_148_914_691_236_517_205, 6_148_914_691_236_517_206),
            // 2^64 - 1, and one less with a rest.
            (MOST, HALF, HALF, MOST, MOST),
            (MOST, HALF - 1, HALF - 1, MOST, MOST),
            (MOST - 2, HALF + 1, HALF, MOST - 1, MOST),
        ] {
            assert!(fit(a, b, d) == [true, true], "{a} {b} {d}");
            assert!([down_by_bits(a, b, d), up_by_bits(a, b, d)] == [floor, ceiling], "{a} {b} {d}");
        }
        // 2^64 - 1 with a rest: rounded up it does not fit.
        assert!(fit(MOST - 1, HALF + 1, HALF) == [true, false] && down_by_bits(MOST - 1, HALF + 1, HALF) == MOST);
        assert!(fit(MOST, HALF + 1, HALF) == [false, false]);
    }

    /// Every mix of lengths, each with three random numbers.
    #[test]
    fn lengths() {
        let mut random = Random::new(6);
        let mut fits = 0;
        for a in 0..=64 {
            for b in 0..=64 {
                for d in 1..=64 {
                    let mut of = |bits| match bits {
                        0 => 0,
                        _ => (random.word() | HALF) >> (64 - bits),
                    };
                    fits += u64::from(fit(of(a), of(b), of(d).min(HALF))[1]);
                }
            }
        }
        assert!(fits > 200_000, "{fits}");
    }
}
