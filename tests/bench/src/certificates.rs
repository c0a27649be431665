// The certificates that Check is timed on: what Certify writes, and the same with at least twice as many points in each
// sum.
use independent::certificate::{named, turn};
use independent::filter::Filter;
use independent::other_sums::Dependencies;
use independent::random::Random;
use independent::span::Bits;

// A certificate of the side at degree d.
#[derive(Clone)]
pub struct Certificate<'a> {
    pub filter: Filter<'a>,
    pub side: u8,
    pub d: usize,
    pub numbers: Vec<u64>,
}

// What Certify writes of the filter, unless it refuses.
fn certified(filter: Filter<'_>, side: u8, d: usize) -> Option<Certificate<'_>> {
    let mut numbers = vec![0; 4096];
    library::certify(filter, side, d, &mut [0; 8192], &mut numbers).ok()?;
    Some(Certificate { filter, side, d, numbers })
}

// What Certify writes of the filter, of each side at each degree at which it accepts.
pub fn certificates(filter: Filter<'_>) -> impl Iterator<Item = Certificate<'_>> {
    (0..=filter.n).flat_map(move |d| [1, 0].into_iter().filter_map(move |side| certified(filter, side, d)))
}

// The sum with dependencies added until it has at least twice as many points: one drawn at random, then each that
// brings more points, and so again.
fn longer(random: &mut Random, own: Bits, dependencies: &Dependencies) -> Bits {
    let mut sum = own;
    while sum.count() < 2 * own.count() {
        sum = sum.plus(dependencies.drawn(random));
        for dependency in &dependencies.0 {
            let other = sum.plus(*dependency);
            sum = if other.count() > sum.count() { other } else { sum };
        }
    }
    sum
}

impl<'a> Certificate<'a> {
    // The same with at least twice as many points in each sum.
    pub fn with_longer_sums(&self, random: &mut Random) -> Certificate<'a> {
        let (mut longest, dependencies) = (self.clone(), Dependencies::of(self.filter, self.side, self.d));
        for a in self.filter.part(1 - self.side) {
            let own: Bits = named(&self.numbers, a).collect();
            let added = longer(random, own, &dependencies).plus(own);
            added.places().for_each(|q| turn(&mut longest.numbers, a, q));
        }
        longest
    }

    // The same with one bit changed, drawn at random.
    pub fn damaged(&self, random: &mut Random) -> Certificate<'a> {
        let mut damaged = self.clone();
        turn(&mut damaged.numbers, random.below(512), random.below(512));
        damaged
    }

    // How many points a sum has, in the mean.
    pub fn points(&self) -> f64 {
        let points: u32 = self.numbers.iter().map(|number| number.count_ones()).sum();
        f64::from(points) / self.filter.part(1 - self.side).len() as f64
    }
}
