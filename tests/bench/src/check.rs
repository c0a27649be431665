// Check of the proved library in Rust, by the same steps: for each point outside the part the choice of the points that
// are named and the point itself is turned into its sums over supersets, a bit for each exponent, by one step for each
// variable, and those of the columns must be zero.
use crate::elimination::Row;
use crate::judge::part_mask;
use independent::filter::Filter;

// The places below each variable inside a word: how far off its partner is, and which have one.
const STEPS: [(u32, u64); 6] = [
    (1, 0x5555_5555_5555_5555),
    (2, 0x3333_3333_3333_3333),
    (4, 0x0f0f_0f0f_0f0f_0f0f),
    (8, 0x00ff_00ff_00ff_00ff),
    (16, 0x0000_ffff_0000_ffff),
    (32, 0x0000_0000_ffff_ffff),
];

// The places chosen, as bits.
fn pack(chosen: impl Fn(usize) -> bool) -> Row {
    std::array::from_fn(|k| (0..64).rev().fold(0, |word, i| word * 2 + u64::from(chosen(k * 64 + i))))
}

// Whether no place has a one in both.
fn apart(x: &Row, y: &Row) -> bool {
    x.iter().zip(y).all(|(x, y)| x & y == 0)
}

// Each bit becomes the sum of the bits at all places within which its place lies.
fn superset_sums(mut x: Row) -> Row {
    for (shift, mask) in STEPS {
        x.iter_mut().for_each(|word| *word ^= *word >> shift & mask);
    }
    for h in [1, 2, 4] {
        (0..8).filter(|k| k & h == 0).for_each(|k| x[k] ^= x[k + h]);
    }
    x
}

// Whether the points named for the point a are right, where a lies outside the part.
fn sum_right(named: &Row, a: usize, others: &Row, columns: &Row) -> bool {
    let mut choice = *named;
    choice[a / 64] ^= 1 << (a % 64);
    apart(named, others) && apart(&superset_sums(choice), columns)
}

// Whether the numbers are a certificate of the side at degree d.
pub fn check(filter: Filter, side: u8, d: usize, certificate: &[u64]) -> bool {
    let part = part_mask(filter, side);
    let others = pack(|q| part[q] != 1);
    let columns = pack(|u| u >> filter.n == 0 && u.count_ones() as usize <= d);
    let mut rows = certificate.as_chunks().0.iter().enumerate();
    rows.all(|(a, row)| {
        let outside = filter.set[a] == 1 && part[a] != 1;
        if outside { sum_right(row, a, &others, &columns) } else { *row == [0; 8] }
    })
}
