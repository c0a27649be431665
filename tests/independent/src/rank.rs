// Rank: docs/SPECIFICATION.md, 'Rank'. The rank by columns in order of number, the additions by the specified steps, the
// kept points by sums of rows or of columns.
use crate::kept::kept_points;
use crate::normal_form::{weight, within};
use crate::refusal::{POINTS, Refusal, WORKSPACE, bytes, lengths, require, taps};
use crate::span::{Bits, Span};

// The exponents of n taps and weight at most d, by weight and by number within a weight.
pub fn columns(n: usize, d: usize) -> Vec<usize> {
    let mut exponents: Vec<usize> = (0..1 << n).filter(|u| weight(*u) <= d).collect();
    exponents.sort_by_key(|u| (weight(*u), *u));
    exponents
}

// The points of a mask, rising.
pub fn points_of(mask: &[u8]) -> Vec<usize> {
    (0..mask.len()).filter(|a| mask[*a] == 1).collect()
}

// The mask becomes 1 at the points and 0 elsewhere.
pub fn choose(mask: &mut [u8], points: impl IntoIterator<Item = usize>) {
    mask.fill(0);
    points.into_iter().for_each(|a| mask[a] = 1);
}

// The exponents of weight at most d within the point a, in order of number.
pub fn row(d: usize, a: usize) -> Bits {
    (0..=a).filter(|u| within(*u, a) && weight(*u) <= d).collect()
}

// The columns of the points at degree d, in graded order, each after its exponent: the points within which that lies.
pub fn column_vectors(points: &[usize], n: usize, d: usize) -> impl Iterator<Item = (usize, Bits)> {
    columns(n, d).into_iter().map(move |u| (u, points.iter().copied().filter(|a| within(u, *a)).collect()))
}

// The span of the rows of the points at degree d, each under its point.
pub fn row_span(points: &[usize], d: usize) -> Span {
    points.iter().map(|a| (*a, row(d, *a))).collect()
}

// The rank and the additions of an elimination.
#[derive(Clone, Copy, Debug, PartialEq, Eq)]
pub struct Ranking {
    pub rank: usize,
    pub additions: u32,
}

// The elimination as docs/SPECIFICATION.md, 'Elimination', words it, on rows in graded order.
pub fn eliminate(points: &[usize], n: usize, d: usize) -> Ranking {
    let columns = columns(n, d);
    let mut kept: Vec<(usize, Vec<bool>)> = Vec::new();
    let mut additions = 0;
    for a in points {
        let mut row: Vec<bool> = columns.iter().map(|u| within(*u, *a)).collect();
        for (first, kept_row) in &kept {
            if row[*first] {
                row.iter_mut().zip(kept_row).for_each(|(x, y)| *x ^= *y);
                additions += 1;
            }
        }
        if let Some(first) = row.iter().position(|x| *x) {
            kept.push((first, row));
        }
    }
    Ranking { rank: kept.len(), additions }
}

// The rank found by both roads, which agree, and the additions.
pub fn ranking(points: &[usize], n: usize, d: usize) -> Ranking {
    let by_words = eliminate(points, n, d);
    assert_eq!(row_span(points, d).rank(), by_words.rank, "two ranks of {points:?}, n = {n}, d = {d}");
    by_words
}

// Rank.
pub fn rank(mask: &[u8], n: usize, d: usize, workspace: &mut [u64], kept: &mut [u8]) -> Result<Ranking, u8> {
    lengths(&[(mask.len(), POINTS), (workspace.len(), WORKSPACE), (kept.len(), POINTS)])?;
    taps(n)?;
    bytes(mask, n)?;
    require(d <= n, Refusal::Degree)?;
    workspace.fill(0);
    let points = points_of(mask);
    choose(kept, kept_points(&points, n, d));
    Ok(ranking(&points, n, d))
}
