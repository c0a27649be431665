// Rearrange: docs/SPECIFICATION.md, 'Rearrange'. From the old points on: each is taken apart into its taps, these are put
// together in the order of the wiring, and its byte goes to the point that they make.
use crate::filter::Filter;
use crate::refusal::{POINTS, Refusal, require};

// Tap i of the point a of n taps: x1 is the highest bit.
pub fn tap(n: usize, a: usize, i: usize) -> bool {
    a >> (n - i) & 1 == 1
}

// The new point that the old point a of n taps becomes: entry i of the wiring is the old tap that becomes tap i.
pub fn new_point(n: usize, wiring: &[u8], a: usize) -> usize {
    wiring.iter().fold(0, |b, old| 2 * b + usize::from(tap(n, a, usize::from(*old))))
}

// Whether the list names each of the taps 1 to n once: sorted it is 1, 2 and so on to n.
pub fn is_wiring(n: usize, list: &[u8]) -> bool {
    let mut taps = list.to_vec();
    taps.sort();
    taps.into_iter().map(usize::from).eq(1..=n)
}

// The wiring that undoes this one: its places, sorted by the taps that it names there.
pub fn inverse(wiring: &[u8]) -> Vec<u8> {
    let mut places: Vec<(u8, u8)> = wiring.iter().copied().zip(1..).collect();
    places.sort();
    places.into_iter().map(|(_, place)| place).collect()
}

// The mask of n taps with its taps rearranged.
pub fn rearranged(mask: &[u8], n: usize, wiring: &[u8]) -> Vec<u8> {
    let mut new = vec![0; POINTS];
    (0..1 << n).for_each(|a| new[new_point(n, wiring, a)] = mask[a]);
    new
}

// Rearrange.
pub fn rearrange(set: &mut [u8], table: &mut [u8], n: usize, wiring: &[u8]) -> Result<(), u8> {
    let filter = Filter { n, set, table };
    filter.check_lengths()?;
    filter.check()?;
    require(is_wiring(n, wiring), Refusal::Wiring)?;
    for mask in [set, table] {
        mask.copy_from_slice(&rearranged(mask, n, wiring));
    }
    Ok(())
}
