// Judge, Certify and Hand over: docs/SPECIFICATION.md, 'Judge' to 'Hand over'.
use crate::annihilator::lowest_degree;
use crate::certificate::turn;
use crate::filter::Filter;
use crate::kept::kept_points;
use crate::mark::mark;
use crate::rank::{choose, column_vectors, points_of, ranking, row, row_span};
use crate::refusal::{CERTIFICATE, POINTS, Refusal, WORKSPACE, lengths, require, taps};
use crate::span::{Bits, Span};

// What Judge answers: for each d the ranks of S, part 1 and part 0; the degree and the side, where there is one; the
// additions; side 1's own degree and side 0's, and the mark of S, where there is one.
#[derive(Clone, Debug, PartialEq, Eq)]
pub struct Judgement {
    pub ranks: [[usize; 3]; 10],
    pub degree: Option<usize>,
    pub side: Option<u8>,
    pub additions: u32,
    pub own_degrees: [Option<usize>; 2],
    pub mark: Option<usize>,
}

// The witness of a part that differs from the points at degree d: the exponents chosen.
fn witness(points: &[usize], part: &[usize], n: usize, d: usize) -> Bits {
    let rows = row_span(part, d);
    let outside = points.iter().find(|a| rows.express(row(d, **a)).is_none());
    let p = *outside.expect("the side differs");
    let kept: Span = column_vectors(&[part, &[p]].concat(), n, d).collect();
    kept.express(Bits::from_iter([p])).expect("the row of p is not a sum of rows of the part")
}

// Judge.
pub fn judge(
    filter: Filter,
    workspace: &mut [u64],
    one: &mut [u8],
    zero: &mut [u8],
    kept: &mut [u8],
) -> Result<Judgement, u8> {
    filter.check_lengths()?;
    lengths(&[(workspace.len(), WORKSPACE), (one.len(), POINTS), (zero.len(), POINTS), (kept.len(), POINTS)])?;
    filter.check()?;
    let n = filter.n;
    workspace.fill(0);
    let lists = [points_of(filter.set), filter.part(1), filter.part(0)];
    let (mut ranks, mut additions) = ([[0; 3]; 10], 0);
    for (d, i) in (0..=n).flat_map(|d| [(d, 0), (d, 1), (d, 2)]) {
        let found = ranking(&lists[i], n, d);
        ranks[d][i] = found.rank;
        additions += found.additions;
    }
    let differs = |d: usize, i: usize| ranks[d][i] != ranks[d][0];
    let degree = (0..=n).find(|d| differs(*d, 1) || differs(*d, 2));
    for (i, buffer) in [(1, one), (2, zero)] {
        let found = degree.filter(|k| differs(*k, i)).map(|k| witness(&lists[0], &lists[i], n, k));
        choose(buffer, found.iter().flat_map(|exponents| exponents.places()));
    }
    choose(kept, degree.into_iter().flat_map(|k| kept_points(&lists[0], n, k)));
    let side = degree.map(|k| differs(k, 1).into());
    let own_degrees = [1, 2].map(|i| lowest_degree(n, &lists[0], &lists[i]));
    Ok(Judgement { ranks, degree, side, additions, own_degrees, mark: mark(n, &lists[0]) })
}

// Certify.
pub fn certify(filter: Filter, side: u8, d: usize, workspace: &mut [u64], certificate: &mut [u64]) -> Result<(), u8> {
    filter.check_lengths()?;
    lengths(&[(workspace.len(), WORKSPACE), (certificate.len(), CERTIFICATE)])?;
    filter.check()?;
    require(d <= filter.n, Refusal::Degree)?;
    require(side <= 1, Refusal::Side)?;
    workspace.fill(0);
    let rows = row_span(&filter.part(side), d);
    require(rows.rank() == row_span(&points_of(filter.set), d).rank(), Refusal::RanksDiffer)?;
    certificate.fill(0);
    for a in filter.part(1 - side) {
        let sum = rows.express(row(d, a)).expect("the ranks are equal");
        sum.places().for_each(|q| turn(certificate, a, q));
    }
    Ok(())
}

// Hand over.
pub fn hand_over<'a>(n: usize, side: u8, one: &'a [u8], zero: &'a [u8]) -> &'a [u8] {
    let good = taps(n).is_ok() && side <= 1 && one.len() == POINTS && zero.len() == POINTS;
    match side {
        _ if !good => &[],
        1 => &one[..1 << n],
        _ => &zero[..1 << n],
    }
}
