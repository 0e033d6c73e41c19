//! The whole numbers modulo 257.

pub const MODULUS: u32 = 257;

/// The inverse of x stands at x; 0 has the inverse 0.
pub static INVERSE: [u32; 257] = {
    let mut table = [0; 257];
    let mut x = 1;
    while x < 257 {
        // By Fermat, x to the power of 255.
        let mut power = 1;
        let mut i = 0;
        while i < 255 {
            power = power * x % MODULUS;
            i += 1;
        }
        table[x as usize] = power;
        x += 1;
    }
    table
};

/// The value at a point of the polynomial with these coefficients, the constant term first. At most four coefficients below 257 at a point below 32 come to less
/// than 2^24, so that one division is enough.
pub fn value(coefficients: impl DoubleEndedIterator<Item = u32>, point: u32) -> u32 {
    coefficients.rev().fold(0, |rest, c| c + point * rest) % MODULUS
}
