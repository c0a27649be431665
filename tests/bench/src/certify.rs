// Certify of the proved library in Rust, by the same steps: the mask of the part's kept points, an elimination of these in
// which the combination of each kept row stands in the place of its point, and the sums of the points outside the part, up
// to the first of which something is left.
use crate::elimination::{Basis, POINTS, Row, add, column_count, first_columns, has, keep_points, prepare};
use crate::judge::part_mask;
use independent::filter::Filter;

// The row of the point a is reduced by the kept rows. In its place comes the sum of what is given and of the combinations
// of the rows added, each of which stands in the place of its point. What is left of the row.
fn combine(basis: &Basis, a: usize, mut sum: Row, columns: usize, rows: &mut [Row]) -> Row {
    let mut v = first_columns(&rows[a], columns);
    for (row, c, q) in basis.named_rows() {
        if has(&v, c) {
            add(&mut v, row);
            add(&mut sum, &rows[q]);
        }
    }
    rows[a] = sum;
    v
}

// The elimination of the mask's points; the combination of each stands in its place.
fn eliminate_combining<'a>(mask: &[u8], columns: usize, kept: &'a mut [Row], rows: &mut [Row]) -> Basis<'a> {
    let mut basis = Basis::new(kept);
    for q in (0..POINTS).filter(|q| mask[*q] == 1) {
        let mut sum = [0; 8];
        sum[q / 64] = 1 << (q % 64);
        let left = combine(&basis, q, sum, columns, rows);
        basis.name(q);
        basis.keep(left);
    }
    basis
}

// Certify of a filter, or 12 where the ranks differ; the workspace is zero at exit.
pub fn certify(filter: Filter, side: u8, d: usize, workspace: &mut [u64], certificate: &mut [u64]) -> Result<(), u8> {
    let (columns, part, mut marks) = (column_count(filter.n, d), part_mask(filter, side), [0; POINTS]);
    let (kept, rows) = prepare(filter.n, workspace);
    keep_points(&part, columns, kept, rows, &mut marks);
    let basis = eliminate_combining(&marks, columns, kept, rows);
    let is_outside = |a: usize| filter.set[a] == 1 && part[a] != 1;
    let equal = (0..POINTS).all(|a| !is_outside(a) || combine(&basis, a, [0; 8], columns, rows) == [0; 8]);
    if equal {
        let sums = certificate.as_chunks_mut().0.iter_mut().zip(rows).enumerate();
        sums.for_each(|(a, (sum, row))| *sum = if is_outside(a) { *row } else { [0; 8] });
    }
    workspace.fill(0);
    if equal { Ok(()) } else { Err(12) }
}
