// Judge of the proved library in Rust, by the same steps: rows made once, an elimination with all columns for each part and
// the set, the ranks at each degree from its pivots, each side's first difference, the mark, the mask of the set's kept
// points from the pivots, and by back substitution the witness of each side that differs at the first of both.
use crate::elimination::{
    Basis, Row, column_count, eliminate, eliminate_tallied, exponents, first_columns, has, prepare, rows_of,
};
use independent::filter::Filter;
use independent::judgement::Judgement;

// The mask of the points of the set where the table is the side.
pub fn part_mask(filter: Filter, side: u8) -> [u8; 512] {
    std::array::from_fn(|a| u8::from(filter.set[a] == 1 && filter.table[a] == side))
}

// The row that is odd with the last kept row and even with the others, with ones at their pivots only.
fn solve_last(basis: &Basis) -> Row {
    let (mut x, mut wanted) = ([0; 8], true);
    for (row, c) in basis.rows().rev() {
        let common = row.iter().zip(&x).fold(0, |sum, (y, z)| sum ^ (y & z));
        let odd = wanted ^ (common.count_ones() % 2 == 1);
        x[usize::from(c / 64)] |= u64::from(odd) << (c % 64);
        wanted = false;
    }
    x
}

// The witness against a part of the set that differs at degree d, into zeros.
fn write_witness(witness: &mut [u8], [set, part]: [&[u8]; 2], n: usize, d: usize, kept: &mut [Row], rows: &[Row]) {
    let columns = column_count(n, d);
    let mut basis = eliminate(part, columns, kept, rows);
    if rows_of(set, rows).any(|(_, row)| basis.take(first_columns(row, columns))) {
        let row = solve_last(&basis);
        exponents(n).zip(0..).for_each(|(u, c)| witness[usize::from(u)] = has(&row, c).into());
    }
}

// The ranks of the set and of both parts at each degree up to n, and all additions.
#[derive(Default)]
struct Found {
    ranks: [[usize; 3]; 10],
    additions: u32,
}

impl Found {
    // The elimination of the mask finds the ranks in place i. The columns of a degree are the first ones, and a kept row
    // whose pivot is past them is zero in them.
    fn take<'a>(&mut self, i: usize, mask: &[u8], columns: &[usize], kept: &'a mut [Row], rows: &[Row]) -> Basis<'a> {
        let (basis, tally) = eliminate_tallied(mask, kept, rows);
        for (line, columns) in self.ranks.iter_mut().zip(columns) {
            line[i] = basis.pivots_below(*columns);
            self.additions += tally[..*columns].iter().sum::<u32>();
        }
        basis
    }
}

// The first degree at which twice the rank of the set exceeds the number of its points, which is its rank at n, if there
// is one.
fn mark(ranks: &[[usize; 3]; 10], n: usize) -> Option<usize> {
    (0..=n).find(|d| 2 * ranks[*d][0] > ranks[n][0])
}

// Judge of a filter; the workspace is zero at exit.
pub fn judge(filter: Filter, workspace: &mut [u64], one: &mut [u8], zero: &mut [u8], marks: &mut [u8]) -> Judgement {
    let (n, set) = (filter.n, filter.set);
    let (part_one, part_zero) = (part_mask(filter, 1), part_mask(filter, 0));
    let (kept, rows) = prepare(n, workspace);
    let (columns, mut found): ([usize; 10], _) = (std::array::from_fn(|d| column_count(n, d)), Found::default());
    found.take(1, &part_one, &columns[..=n], kept, rows);
    found.take(2, &part_zero, &columns[..=n], kept, rows);
    let of_set = found.take(0, set, &columns[..=n], kept, rows);
    let Found { ranks, additions } = found;
    let own_degrees = [1, 2].map(|i| ranks.iter().position(|line| line[i] != line[0]));
    let degree = own_degrees.into_iter().flatten().min();
    of_set.mark_below(degree.map_or(0, |k| columns[k]), marks);
    for (witness, part, rank) in [(one, &part_one, 1), (zero, &part_zero, 2)] {
        witness.fill(0);
        if let Some(k) = degree.filter(|k| ranks[*k][rank] != ranks[*k][0]) {
            write_witness(witness, [set, part], n, k, kept, rows);
        }
    }
    workspace.fill(0);
    let side = degree.map(|k| u8::from(ranks[k][1] != ranks[k][0]));
    Judgement { ranks, degree, side, additions, own_degrees, mark: mark(&ranks, n) }
}
