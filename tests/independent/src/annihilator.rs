// Annihilators, and the lowest degree of one: docs/SPECIFICATION.md, 'Words'. A polynomial is given by its exponents.
// Of few taps every polynomial is tried, and of more those of a basis; neither way looks at a rank.
use crate::normal_form::{weight, within};
use crate::rank::column_vectors;
use crate::span::{Bits, relations};

// Up to so many taps every polynomial is tried: there are 256 of three.
pub const FEW_TAPS: usize = 3;

// Whether the polynomial is one at the point a.
fn is_one(exponents: &[usize], a: usize) -> bool {
    exponents.iter().filter(|u| within(**u, a)).count() % 2 == 1
}

// Whether the polynomial is zero on the part and one somewhere on the set.
fn annihilates(exponents: &[usize], set: &[usize], part: &[usize]) -> bool {
    set.iter().any(|a| is_one(exponents, *a)) && !part.iter().any(|a| is_one(exponents, *a))
}

// A basis of the polynomials of n taps up to degree d that are zero on the points.
pub fn zero_on(points: &[usize], n: usize, d: usize) -> Vec<Bits> {
    relations(column_vectors(points, n, d))
}

// The lowest degree of an annihilator, if there is one, among all polynomials of n taps.
pub fn lowest_of_all(n: usize, set: &[usize], part: &[usize]) -> Option<usize> {
    let chosen = |choice: usize| (0..1 << n).filter(|u| choice >> u & 1 == 1).collect::<Vec<usize>>();
    let annihilators = (0..1 << (1 << n)).map(chosen).filter(|exponents| annihilates(exponents, set, part));
    annihilators.filter_map(|exponents| exponents.into_iter().map(weight).max()).min()
}

// The same: the first d at which a basis of the polynomials up to degree d that are zero on the part has one. Where all
// of the basis are zero on the set, so is every sum of them.
pub fn lowest_of_bases(n: usize, set: &[usize], part: &[usize]) -> Option<usize> {
    let mut bases = (0..=n).map(|d| zero_on(part, n, d));
    bases.position(|basis| basis.iter().any(|g| annihilates(&g.places().collect::<Vec<usize>>(), set, part)))
}

// The lowest degree of an annihilator, if there is one.
pub fn lowest_degree(n: usize, set: &[usize], part: &[usize]) -> Option<usize> {
    if n <= FEW_TAPS { lowest_of_all(n, set, part) } else { lowest_of_bases(n, set, part) }
}
