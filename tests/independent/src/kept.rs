// The kept points of an elimination: docs/SPECIFICATION.md, 'Elimination'. A point is kept if its row is no sum of rows of
// smaller points. Of few taps every sum is made; of more the columns are added: a row is such a sum unless some sum of
// columns is one at its point and zero at the smaller ones. So the kept points are the smallest at which sums of columns
// are one. Neither way takes the steps of the elimination.
use crate::annihilator::FEW_TAPS;
use crate::normal_form::within;
use crate::rank::{columns, row};
use crate::refusal::POINTS;
use crate::span::{Bits, Span};

// The points that are kept of these at degree d, by the sums of rows of the smaller ones. The row of a point that is not
// kept brings no other sum.
pub fn kept_of_sums(points: &[usize], d: usize) -> Vec<usize> {
    let (mut sums, mut kept) = (vec![Bits::default()], Vec::new());
    for a in points {
        let row = row(d, *a);
        if !sums.contains(&row) {
            let others: Vec<Bits> = sums.iter().map(|sum| sum.plus(row)).collect();
            sums.extend(others);
            kept.push(*a);
        }
    }
    kept
}

// The same by the sums of columns of n taps. A point has its place from the end of a vector, so that the smallest point at
// which a sum is one is its highest place.
pub fn kept_of_columns(points: &[usize], n: usize, d: usize) -> Vec<usize> {
    let place = |a: usize| POINTS - 1 - a;
    let column = |u: usize| points.iter().filter(|a| within(u, **a)).map(|a| place(*a)).collect();
    let sums: Span = columns(n, d).into_iter().map(|u| (u, column(u))).collect();
    sums.highest_places().rev().map(place).collect()
}

// The points that are kept of these, which rise, at degree d of n taps, rising.
pub fn kept_points(points: &[usize], n: usize, d: usize) -> Vec<usize> {
    if n <= FEW_TAPS { kept_of_sums(points, d) } else { kept_of_columns(points, n, d) }
}
