//! Adler-32, as RFC 1950 has it.

const BASE: u32 = 65_521;

/// In eight lower-case hexadecimal digits.
pub fn sum(bytes: &[u8]) -> String {
    let (mut low, mut high) = (1, 0);
    for &byte in bytes {
        low = (low + u32::from(byte)) % BASE;
        high = (high + low) % BASE;
    }
    format!("{:08x}", high << 16 | low)
}
