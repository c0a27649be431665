// Masks, filters and files for tests.
use crate::filter_file::Triple;
use crate::normal_form::{convert, weight};
use crate::random::Random;
use crate::rank::points_of;
use crate::refusal::POINTS;

// The kind of set that has no point.
pub const NO_POINT: usize = 6;

// Every kind of set and every kind of table: `Random::set` and `Random::table` say what they are.
pub const SETS: [usize; 7] = [0, 1, 2, 3, 4, 5, NO_POINT];
pub const TABLES: [usize; 6] = [0, 1, 2, 3, 4, 5];

impl Random {
    // A mask of n taps in which about `share` of every eight points are chosen.
    pub fn mask(&mut self, n: usize, share: usize) -> Vec<u8> {
        mask_of(n, |_| self.below(8) < share)
    }

    // Masks of n taps, cut or extended with zeros to the length: a good one, none, and ones that break the 0/1/0 rule
    // at the first place, the last below N, the first from N on and the last.
    pub fn lent_masks(&mut self, n: usize, length: usize) -> Vec<Vec<u8>> {
        let (n, size) = (n.min(9), 1 << n.min(9));
        let mut masks = vec![self.mask(n, 4), vec![0; POINTS]];
        for (place, value) in [(0, 2), (size - 1, 255), (size, 1), (POINTS - 1, 2)] {
            let mut mask = self.mask(n, 4);
            mask[place.min(POINTS - 1)] = value;
            masks.push(mask);
        }
        masks.iter_mut().for_each(|mask| mask.resize(length, 0));
        masks
    }

    // A triple that a file can say: n, points as the set, none at least one time in nine, and points as the table.
    pub fn triple(&mut self, n: usize) -> Triple {
        let (for_set, for_table) = (self.below(9), self.below(9));
        let [set, table] = [for_set, for_table].map(|share| points_of(&self.mask(n, share)));
        Triple { n, set, table }
    }

    // A set of n taps: the whole cube, one weight, some weights, a subspace moved, one point, points at random, at least
    // one, or no point, by kind.
    pub fn set(&mut self, n: usize, kind: usize) -> Vec<u8> {
        let (point, share) = (self.below(1 << n), 1 + self.below(8));
        let weights = self.number() as usize | 1 << weight(point);
        match kind % SETS.len() {
            0 => mask_of(n, |_| true),
            1 => of_weights(n, 1 << weight(point)),
            2 => of_weights(n, weights),
            3 => self.subspace(n, point),
            4 => mask_of(n, |a| a == point),
            5 => {
                let mut set = self.mask(n, share);
                set[point] = 1;
                set
            }
            _ => mask_of(n, |_| false),
        }
    }

    // The sums of a point and some of a few random numbers.
    fn subspace(&mut self, n: usize, point: usize) -> Vec<u8> {
        let mut points = vec![point];
        for _ in 0..1 + self.below(n) {
            let step = self.below(1 << n);
            points.extend(points.clone().iter().map(|a| a ^ step));
        }
        mask_of(n, |a| points.contains(&a))
    }

    // A table of n taps: majority, zero, one, of low degree, at random, or one at a single point, by kind.
    pub fn table(&mut self, n: usize, kind: usize) -> Vec<u8> {
        let (degree, share) = (1 + self.below(2), 1 + self.below(7));
        match kind % TABLES.len() {
            0 => mask_of(n, |a| 2 * weight(a) > n),
            1 => mask_of(n, |_| false),
            2 => mask_of(n, |_| true),
            3 => {
                let mut low = mask_of(n, |u| weight(u) <= degree && self.below(2) == 1);
                convert(&mut low, n).expect("coefficients of n taps");
                low
            }
            4 => self.mask(n, share),
            _ => {
                let point = self.below(1 << n);
                mask_of(n, |a| a == point)
            }
        }
    }
}

// Every kind of set with every kind of table.
pub fn kinds() -> Vec<(usize, usize)> {
    pairs(&SETS, &TABLES)
}

// The mask of the points of n taps that are chosen.
pub fn mask_of(n: usize, mut chosen: impl FnMut(usize) -> bool) -> Vec<u8> {
    let mut mask = vec![0; POINTS];
    for (a, x) in mask.iter_mut().enumerate().take(1 << n) {
        *x = chosen(a).into();
    }
    mask
}

// Every mask of n taps, of which there are few; the first marks no point.
pub fn masks(n: usize) -> Vec<Vec<u8>> {
    (0..1usize << (1 << n)).map(|bits| mask_of(n, |a| bits >> a & 1 == 1)).collect()
}

// The mask of the points of n taps whose weights are chosen: bit w for the weight w.
pub fn of_weights(n: usize, chosen: usize) -> Vec<u8> {
    mask_of(n, |a| chosen >> weight(a) & 1 == 1)
}

// Copies of the bytes: cut before the place, with its byte dropped, and with each of the values put in its stead and before
// it. At the end there is no byte to drop.
pub fn damaged(bytes: &[u8], place: usize, values: &[u8]) -> Vec<Vec<u8>> {
    let (before, from) = bytes.split_at(place);
    let behind = from.get(1..).unwrap_or_default();
    let put = values.iter().flat_map(|value| [behind, from].map(|rest| [before, &[*value], rest].concat()));
    [before.to_vec(), [before, behind].concat()].into_iter().chain(put).collect()
}

// How often each number was answered, 0 for acceptance.
pub struct Tally([usize; 256]);

impl Default for Tally {
    // Nothing was answered.
    fn default() -> Tally {
        Tally([0; 256])
    }
}

impl Tally {
    // Counts the answer, and gives its number.
    pub fn count<T>(&mut self, answer: Result<T, u8>) -> u8 {
        let number = answer.err().unwrap_or(0);
        self.0[number as usize] += 1;
        number
    }

    // The numbers answered so often or more.
    pub fn numbers(&self, least: usize) -> Vec<usize> {
        (0..256).filter(|k| self.0[*k] >= least).collect()
    }
}

// Every pair of an item of the first list and an item of the second.
pub fn pairs<A: Copy, B: Copy>(first: &[A], second: &[B]) -> Vec<(A, B)> {
    first.iter().flat_map(|a| second.iter().map(|b| (*a, *b))).collect()
}

// The file of the sheet in docs/SPECIFICATION.md, 'Sheet': two taps, all points, f = x1x2.
pub const PRINTED_FILE: [u8; 8] = [0x02, 0x04, 0x00, 0x01, 0x01, 0x01, 0x01, 0x03];

// The files that docs/SPECIFICATION.md, 'Cases', lists, each with its refusal number, or 0 for one that is read.
pub const LISTED_FILES: [(&[u8], u8); 14] = [
    (&[], 2),
    (&[0x80], 2),
    (&[0x80, 0x80], 3),
    (&[0x82, 0x00], 3),
    (&[0x00], 4),
    (&[0x0a], 4),
    (&[0x09], 2),
    (&[0x01, 0x03], 5),
    (&[0x01, 0x00], 2),
    (&[0x02, 0x01, 0x04], 5),
    (&[0x02, 0x02, 0x01, 0x00], 5),
    (&[0x01, 0x01, 0x00, 0x00, 0x00], 7),
    (&[0x01, 0x01, 0x00, 0x00], 0),
    (&[0x01, 0x00, 0x00], 0),
];
