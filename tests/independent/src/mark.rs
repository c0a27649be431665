// The mark of a set of points, the first d at which twice the rank exceeds the number of points, if there is one:
// docs/SPECIFICATION.md, 'Judge'. Polynomials up to degree d have 2^r different tables on m points of rank r, and there
// are 2^m tables in all. Of few taps those are counted, and of more a basis of the polynomials that are zero on the
// points; neither way looks at a rank, nor at whether there is a point.
use crate::annihilator::{FEW_TAPS, zero_on};
use crate::normal_form::within;
use crate::rank::columns;
use std::collections::BTreeSet;

// How many different tables the polynomials of n taps up to degree d have on the points. A table is a number with a bit
// for each point; an exponent more brings the sum of its own table and each that is there without it.
fn count_tables(points: &[usize], n: usize, d: usize) -> usize {
    let mut tables = BTreeSet::from([0]);
    for u in columns(n, d) {
        let own = points.iter().fold(0, |bits, a| 2 * bits + usize::from(within(u, *a)));
        let sums: Vec<usize> = tables.iter().map(|table| table ^ own).collect();
        tables.extend(sums);
    }
    tables.len()
}

// The mark by the tables: the first d at which the square of their number exceeds the number of all tables.
pub fn mark_of_tables(n: usize, points: &[usize]) -> Option<usize> {
    (0..=n).find(|d| count_tables(points, n, *d).pow(2) > 1 << points.len())
}

// The same by bases: two polynomials have one table on the points exactly if they differ by one that is zero there. So
// the number of tables is a power of 2: that of the exponents up to degree d less the size of a basis of those.
pub fn mark_of_bases(n: usize, points: &[usize]) -> Option<usize> {
    (0..=n).find(|d| 2 * (columns(n, *d).len() - zero_on(points, n, *d).len()) > points.len())
}

// The mark of the points, if they have one.
pub fn mark(n: usize, points: &[usize]) -> Option<usize> {
    if n <= FEW_TAPS { mark_of_tables(n, points) } else { mark_of_bases(n, points) }
}
