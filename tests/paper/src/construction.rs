// The weightwise perfectly balanced function of Carlet, Méaux and Rotella (docs/SPECIFICATION.md, 'Sources') of two, four,
// eight .. taps.
use independent::rearrange::tap;

// Of two taps the first; of twice as many the sum of that of each half and of the product of the first half.
fn value(taps: &[bool]) -> bool {
    let (first, second) = taps.split_at(taps.len() / 2);
    match taps {
        [x, _] => *x,
        _ => value(first) ^ value(second) ^ first.iter().all(|x| *x),
    }
}

// Its value at the point a of eight taps.
pub fn construction(a: usize) -> bool {
    value(&[1, 2, 3, 4, 5, 6, 7, 8].map(|i| tap(8, a, i)))
}
