// The bits of a certificate: docs/SPECIFICATION.md, 'Certificate'.
use crate::refusal::POINTS;

// The points that the certificate names for the point a, rising.
pub fn named(certificate: &[u64], a: usize) -> impl Iterator<Item = usize> {
    let row = &certificate[8 * a..8 * a + 8];
    (0..POINTS).filter(move |q| row[q / 64] >> (q % 64) & 1 == 1)
}

// The certificate names the point q for the point a if it did not, and does not if it did.
pub fn turn(certificate: &mut [u64], a: usize, q: usize) {
    certificate[8 * a + q / 64] ^= 1 << (q % 64);
}
