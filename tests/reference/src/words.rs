//! Little-endian numbers in bytes, and arithmetic modulo 2^32.

/// Counters and events run modulo this number.
const MODULUS: u64 = 4_294_967_296;

/// The number in the `width` bytes from `at` on, lowest byte first.
pub fn number(bytes: &[u8], at: usize, width: usize) -> u64 {
    let bytes = &bytes[at..at + width];
    bytes.iter().rev().fold(0, |n, &byte| n * 256 + u64::from(byte))
}

/// Whether bit `k` of `n` is set. In line, the division is a shift.
#[inline]
pub fn bit(n: u64, k: u32) -> bool {
    n / 2_u64.pow(k) % 2 == 1
}

/// a plus b, modulo 2^32.
pub fn plus(a: u64, b: u64) -> u64 {
    (a + b) % MODULUS
}

/// a minus b, modulo 2^32.
pub fn minus(a: u64, b: u64) -> u64 {
    (a + MODULUS - b) % MODULUS
}
