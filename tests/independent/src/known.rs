// Filters whose sides' own degrees are known without a Judge, for tests.
use crate::filter::Filter;
use crate::random::Random;
use crate::samples::{NO_POINT, TABLES, mask_of};

// A filter, and side 1's own degree and side 0's.
pub struct Known {
    n: usize,
    set: Vec<u8>,
    table: Vec<u8>,
    pub own_degrees: [Option<usize>; 2],
}

impl Known {
    // The filter as it is lent.
    pub fn filter(&self) -> Filter<'_> {
        Filter { n: self.n, set: &self.set, table: &self.table }
    }

    // The same with f + 1 for f, which exchanges the sides.
    fn exchanged(&self) -> Known {
        let (n, [one, zero]) = (self.n, self.own_degrees);
        Known { n, set: self.set.clone(), table: mask_of(n, |a| self.table[a] == 0), own_degrees: [zero, one] }
    }
}

impl Random {
    // A table that is 0 on a set of this kind, and anything elsewhere. The polynomial 1 is zero on part 1, which has no
    // point; part 0 is the set, and what is zero on it is one nowhere on the set.
    fn constant(&mut self, n: usize, kind: usize) -> Known {
        let set = self.set(n, kind);
        let table = mask_of(n, |a| set[a] == 0 && self.below(2) == 1);
        Known { n, set, table, own_degrees: [Some(0), None] }
    }

    // A table that is 1 at a single one of all points. Of x1 and x1 + 1 one is zero there; what is one there alone is a
    // product of n such, xi or xi + 1 for each i.
    fn single(&mut self, n: usize) -> Known {
        let p = self.below(1 << n);
        let (set, table) = (mask_of(n, |_| true), mask_of(n, |a| a == p));
        Known { n, set, table, own_degrees: [Some(1), Some(n)] }
    }

    // A table of this kind on no point. No polynomial is one somewhere on the set.
    fn on_no_point(&mut self, n: usize, kind: usize) -> Known {
        Known { n, set: self.set(n, NO_POINT), table: self.table(n, kind), own_degrees: [None; 2] }
    }

    // Such filters of n taps, with a set of every kind, each also with its sides exchanged.
    pub fn known(&mut self, n: usize) -> Vec<Known> {
        let mut filters = vec![self.single(n)];
        filters.extend([0, 1, 2, 3, 4, 5].map(|kind| self.constant(n, kind)));
        filters.extend(TABLES.map(|kind| self.on_no_point(n, kind)));
        filters.into_iter().flat_map(|known| [known.exchanged(), known]).collect()
    }
}
