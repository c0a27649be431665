// The degrees that Judge of the proved library finds on a slice.
use crate::slice::Slice;
use std::time::{Duration, Instant};

// How often each degree was found, and the time that Judge took for each table.
#[derive(Default)]
pub struct Degrees {
    counts: [usize; 10],
    times: Vec<Duration>,
}

// The degree of the table on the slice, and the time that Judge took.
pub fn degree(slice: &Slice, table: &[u8]) -> (usize, Duration) {
    let (mut workspace, [mut one, mut zero, mut kept], mut report) = ([0; 8192], [[0; 512]; 3], [0; 36]);
    let start = Instant::now();
    let judged = library::judge(slice.filter(table), &mut workspace, &mut one, &mut zero, &mut kept, &mut report);
    (judged.expect("accepted").degree.expect("a slice has a point"), start.elapsed())
}

impl Degrees {
    // The degrees of the tables on the slice.
    pub fn new(slice: &Slice, tables: impl Iterator<Item = Vec<u8>>) -> Degrees {
        let mut found = Degrees::default();
        for table in tables {
            let (degree, time) = degree(slice, &table);
            found.counts[degree] += 1;
            found.times.push(time);
        }
        found.times.sort();
        found
    }

    // How many tables there were.
    pub fn total(&self) -> usize {
        self.times.len()
    }

    // The share of the tables that have the degree.
    pub fn share(&self, degree: usize) -> f64 {
        self.counts[degree] as f64 / self.total() as f64
    }

    // The median of the microseconds that Judge took: what else the machine does hardly moves it.
    pub fn microseconds(&self) -> f64 {
        self.times[self.total() / 2].as_secs_f64() * 1e6
    }
}

// The mean degree where the degrees from 0 on have these shares.
pub fn mean(shares: &[f64]) -> f64 {
    shares.iter().enumerate().map(|(degree, share)| degree as f64 * share).sum()
}
