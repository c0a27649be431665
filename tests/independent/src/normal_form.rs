// Convert and Degree: docs/SPECIFICATION.md, 'Convert' and 'Degree'.
use crate::refusal::{POINTS, Refusal, bytes, lengths, require, taps};

// Whether the exponent u lies within the point a: no one of u is a zero of a.
pub fn within(u: usize, a: usize) -> bool {
    u & !a == 0
}

// The number of ones of the exponent u.
pub fn weight(u: usize) -> usize {
    (0..9).filter(|i| u >> i & 1 == 1).count()
}

// The checks that Convert and Degree make, in order.
fn check(mask: &[u8], n: usize) -> Result<(), Refusal> {
    lengths(&[(mask.len(), POINTS)])?;
    taps(n)?;
    bytes(mask, n)
}

// Byte a becomes the sum modulo 2 of the old bytes at all u within a.
pub fn convert(mask: &mut [u8], n: usize) -> Result<(), u8> {
    check(mask, n)?;
    let old = mask.to_vec();
    for (a, byte) in mask.iter_mut().enumerate().take(1 << n) {
        let ones = (0..1 << n).filter(|u| old[*u] == 1 && within(*u, a)).count();
        *byte = (ones % 2) as u8;
    }
    Ok(())
}

// The largest weight of an exponent with coefficient 1.
pub fn degree(coefficients: &[u8], n: usize) -> Result<u32, u8> {
    check(coefficients, n)?;
    let chosen = (0..1 << n).filter(|u| coefficients[*u] == 1);
    let largest = chosen.map(weight).max();
    require(largest.is_some(), Refusal::ZeroPolynomial)?;
    Ok(largest.unwrap_or(0) as u32)
}
