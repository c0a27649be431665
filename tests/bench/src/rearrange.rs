// Rearrange of the proved library in Rust, by the same steps: the old points of all points by doubling, from the last tap
// to the first, and each mask gathered from them.

// The old point of each point of n taps: a point with one bit more in front has one bit more in its old point.
fn old_points(n: usize, wiring: &[u8]) -> [u16; 512] {
    let mut old = [0; 512];
    for (k, tap) in wiring.iter().rev().enumerate() {
        let (lower, upper) = old.split_at_mut(1 << k);
        let bit = 1 << (n - usize::from(*tap));
        upper.iter_mut().zip(lower).for_each(|(with, without)| *with = bit | *without);
    }
    old
}

// The byte at each point of n taps becomes that at its old point.
fn gather(mask: &mut [u8], old: &[u16; 512], n: usize) {
    let mut new = [0; 512];
    new[..1 << n].iter_mut().zip(old).for_each(|(x, a)| *x = mask[usize::from(*a)]);
    mask.copy_from_slice(&new);
}

// Rearrange of a set and a table of n taps.
pub fn rearrange(set: &mut [u8], table: &mut [u8], n: usize, wiring: &[u8]) {
    let old = old_points(n, wiring);
    gather(set, &old, n);
    gather(table, &old, n);
}
