// The largest weight of an exponent with coefficient 1 in Rust, by the steps of the proved weight and by the compiler's
// count of ones.

// The number of ones, by the steps of the proved library.
fn weight(u: u16) -> u16 {
    let pairs = u - (u >> 1 & 0x5555);
    let nibbles = (pairs & 0x3333) + (pairs >> 2 & 0x3333);
    let sums = (nibbles & 0x00ff) + (nibbles >> 8);
    (sums & 0x000f) + (sums >> 4)
}

// The exponents with coefficient 1.
fn exponents(coefficients: &[u8]) -> impl Iterator<Item = u16> {
    coefficients.iter().zip(0..).filter(|(x, _)| **x == 1).map(|(_, u)| u)
}

// The largest weight, by the steps of the proved weight.
pub fn by_steps(coefficients: &[u8]) -> u32 {
    exponents(coefficients).map(weight).fold(0, u16::max).into()
}

// The largest weight, by the compiler's count.
pub fn by_count(coefficients: &[u8]) -> u32 {
    exponents(coefficients).map(u16::count_ones).fold(0, u32::max)
}
