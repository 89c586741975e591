//! "Layout."

use crate::Refusal;

/// "A clock has n cascading fields, n from 1 to 10. Each has a modulus of at least 1 and an offset from 0 to
/// 1,000. [..] The output delimiter is a code". "Slots after the n-th are not looked at."
#[derive(Clone, Copy, Debug, PartialEq, Eq)]
pub struct Layout {
    pub n: u64,
    pub moduli: [u64; 10],
    pub offsets: [u64; 10],
    pub delimiter: u8,
}

/// An accepted layout and what follows from it.
pub(crate) struct Clock<'a> {
    /// The first n.
    pub moduli: &'a [u64],
    pub offsets: &'a [u64],
    /// For each field "the product of the later moduli".
    pub weights: [u64; Layout::MOST_FIELDS],
    /// "P, the product of the moduli".
    pub p: u64,
    /// "MSF, the product of all moduli but the first (1 if n is 1)".
    pub msf: u64,
    /// The byte of the delimiter's code.
    pub mark: u8,
}

impl Layout {
    pub const MOST_FIELDS: usize = 10;
    pub const LARGEST_P: u64 = 1_000_000_000_000_000;
    pub const LARGEST_MSF: u64 = 1_000_000_000_000;
    pub const LARGEST_OFFSET: u64 = 1_000;

    /// Refusal 1: the layout "break[s] the rules above".
    pub(crate) fn check(&self) -> Result<Clock<'_>, Refusal> {
        // "n from 1 to 10"
        if self.n < 1 || self.n > Self::MOST_FIELDS as u64 {
            return Err(Refusal::new(1));
        }
        let n = self.n as usize;
        let (moduli, offsets) = (&self.moduli[..n], &self.offsets[..n]);
        // "an offset from 0 to 1,000"
        if offsets.iter().any(|&offset| offset > Self::LARGEST_OFFSET) {
            return Err(Refusal::new(1));
        }
        // "a modulus of at least 1"; "P, the product of the moduli, is at most 10^15": no partial product is above P.
        let mut weights = [1; Self::MOST_FIELDS];
        let mut product: u64 = 1;
        for i in (0..n).rev() {
            weights[i] = product;
            product = match product.checked_mul(moduli[i]) {
                Some(p) if (1..=Self::LARGEST_P).contains(&p) => p,
                _ => return Err(Refusal::new(1)),
            };
        }
        // "MSF [..] is at most 10^12"
        let msf = weights[0];
        if msf > Self::LARGEST_MSF {
            return Err(Refusal::new(1));
        }
        // "1 `.`, 2 `:`, 3 `-`, 4 `,`, 5 blank"
        let mark = match self.delimiter {
            1 => b'.',
            2 => b':',
            3 => b'-',
            4 => b',',
            5 => b' ',
            _ => return Err(Refusal::new(1)),
        };
        Ok(Clock { moduli, offsets, weights, p: product, msf, mark })
    }
}
