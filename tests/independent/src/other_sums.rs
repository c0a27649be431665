// Certificates with other sums than those of Certify, for tests. Points of the part whose rows sum to zero are a
// dependency: added to a right sum, it makes another that is as right.
use crate::certificate::turn;
use crate::filter::Filter;
use crate::random::Random;
use crate::rank::row;
use crate::span::{Bits, relations};

// A basis of the dependencies of the rows of a side's part at degree d.
pub struct Dependencies(pub Vec<Bits>);

impl Dependencies {
    // Those of the filter.
    pub fn of(filter: Filter, side: u8, d: usize) -> Dependencies {
        Dependencies(relations(filter.part(side).into_iter().map(|q| (q, row(d, q)))))
    }

    // The sum of some of them, drawn at random.
    pub fn drawn(&self, random: &mut Random) -> Bits {
        let some = self.0.iter().filter(|_| random.below(2) == 1);
        some.fold(Bits::default(), |sum, dependency| sum.plus(*dependency))
    }
}

impl Random {
    // The certificate of the side at degree d with a dependency drawn at random added to each of its sums.
    pub fn other_sums(&mut self, filter: Filter, side: u8, d: usize, certificate: &[u64]) -> Vec<u64> {
        let (mut other, dependencies) = (certificate.to_vec(), Dependencies::of(filter, side, d));
        for a in filter.part(1 - side) {
            dependencies.drawn(self).places().for_each(|q| turn(&mut other, a, q));
        }
        other
    }
}
