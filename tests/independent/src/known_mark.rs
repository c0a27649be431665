// Sets whose marks are known without a rank, for tests.
use crate::random::Random;
use crate::rank::points_of;
use crate::samples::{NO_POINT, of_weights};

// A set of n taps, and its mark, if it has one.
pub struct KnownMark {
    pub n: usize,
    pub set: Vec<u8>,
    pub mark: Option<usize>,
}

// How many choices of k out of n there are.
fn choices(n: usize, k: usize) -> usize {
    (0..k).fold(1, |count, i| count * (n - i) / (i + 1))
}

// The rank at degree d of the points of n taps and weight k, by a formula; a test holds it against the ranks.
pub fn rank_of_weight(n: usize, k: usize, d: usize) -> usize {
    choices(n, d.min(k).min(n - k))
}

impl KnownMark {
    // The points of weight k.
    fn of_weight(n: usize, k: usize) -> KnownMark {
        let exceeds = |d: &usize| 2 * rank_of_weight(n, k, *d) > choices(n, k);
        let mark = (0..=n).find(exceeds).expect("at n the rank is the number of points");
        KnownMark { n, set: of_weights(n, 1 << k), mark: Some(mark) }
    }
}

impl Random {
    // A flat, which is all points, a subspace moved, or one point, by kind. Its 2^m points are all points of m taps in
    // other coordinates, and a change of coordinates keeps degrees. Of m taps half of the exponents weigh at most
    // m / 2, rounded down, if m is odd, and more than half do if m is even.
    fn flat(&mut self, n: usize, kind: usize) -> KnownMark {
        let set = self.set(n, kind);
        let m = points_of(&set).len().ilog2() as usize;
        KnownMark { n, set, mark: Some(m.div_ceil(2)) }
    }

    // Such sets of n taps: every weight, flats of each kind, and no point, whose ranks do not exceed its number of points.
    pub fn known_marks(&mut self, n: usize) -> Vec<KnownMark> {
        let flats = [0, 3, 3, 3, 3, 4].map(|kind| self.flat(n, kind));
        let no_point = KnownMark { n, set: self.set(n, NO_POINT), mark: None };
        (0..=n).map(|k| KnownMark::of_weight(n, k)).chain(flats).chain([no_point]).collect()
    }
}
