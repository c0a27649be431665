// The elimination of the proved kernel in Rust: packed rows of eight words, made once; kept rows with stored pivots.
use independent::rank::Ranking;

pub const POINTS: usize = 512;

pub type Row = [u64; 8];

const ORDER: [u16; POINTS] = graded_order();

// The graded order, by weight and by number within a weight.
const fn graded_order() -> [u16; POINTS] {
    let mut order = [0; POINTS];
    let (mut count, mut w) = (0, 0);
    while w <= 9 {
        let mut u = 0u16;
        while u < 512 {
            if u.count_ones() == w {
                order[count] = u;
                count += 1;
            }
            u += 1;
        }
        w += 1;
    }
    order
}

// The exponents of n taps in graded order.
pub fn exponents(n: usize) -> impl Iterator<Item = u16> {
    ORDER.into_iter().filter(move |u| *u >> n == 0)
}

// The number of columns of n taps at degree d.
pub fn column_count(n: usize, d: usize) -> usize {
    (0..1usize << n).filter(|u| u.count_ones() as usize <= d).count()
}

// The row of the point a at the given columns.
fn make_row(columns: &[u16; POINTS], a: usize) -> Row {
    let a = a as u16;
    std::array::from_fn(|k| {
        let listed = columns[k * 64..(k + 1) * 64].iter().rev();
        listed.fold(0, |word, u| word * 2 + u64::from(u & a == *u))
    })
}

// Row a becomes the row of the point a of n taps, from the last one down: where a is the common bits of two later
// points, the common ones of their rows.
fn make_rows(columns: &[u16; POINTS], n: usize, rows: &mut [Row]) {
    let (size, low) = (1 << n, 1 << (n / 2));
    for a in (0..size).rev() {
        let l = a & (low - 1);
        let (p, q) = (a - l + (low - 1), size - low + l);
        rows[a] = if a < p && a < q {
            let (x, y) = (rows[p], rows[q]);
            std::array::from_fn(|k| x[k] & y[k])
        } else {
            make_row(columns, a)
        };
    }
}

// The first `columns` entries of the row.
pub fn first_columns(row: &Row, columns: usize) -> Row {
    std::array::from_fn(|k| match columns.saturating_sub(k * 64) {
        left @ 0..64 => row[k] & ((1 << left) - 1),
        _ => row[k],
    })
}

// Whether the row has a one in the column c.
pub fn has(row: &Row, c: u16) -> bool {
    row[usize::from(c / 64) % 8] >> (c % 64) & 1 == 1
}

// Adds the row to v.
pub fn add(v: &mut Row, row: &Row) {
    v.iter_mut().zip(row).for_each(|(x, y)| *x ^= y);
}

// The kept rows of an elimination, the first column of each that has a one, its point, and the additions made.
pub struct Basis<'a> {
    kept: &'a mut [Row],
    pivots: [u16; POINTS],
    points: [u16; POINTS],
    pub rank: usize,
    pub additions: u32,
}

impl<'a> Basis<'a> {
    // No row is kept yet; the rows kept later go to these places.
    pub fn new(places: &'a mut [Row]) -> Basis<'a> {
        Basis { kept: places, pivots: [0; POINTS], points: [0; POINTS], rank: 0, additions: 0 }
    }

    // The kept rows with their pivots, in the order kept.
    pub fn rows(&self) -> impl DoubleEndedIterator<Item = (&Row, u16)> + ExactSizeIterator {
        self.kept[..self.rank].iter().zip(self.pivots[..self.rank].iter().copied())
    }

    // Keeps the reduced row v if it is not zero; whether it is kept.
    pub fn keep(&mut self, v: Row) -> bool {
        let Some(k) = v.iter().position(|word| *word != 0) else { return false };
        (self.kept[self.rank], self.pivots[self.rank]) = (v, (k * 64) as u16 + v[k].trailing_zeros() as u16);
        self.rank += 1;
        true
    }

    // What is left of the row when it is reduced by the kept rows; `added` is told the pivot of each row added.
    fn reduce(&self, mut v: Row, mut added: impl FnMut(u16)) -> Row {
        for (row, c) in self.rows() {
            if has(&v, c) {
                add(&mut v, row);
                added(c);
            }
        }
        v
    }

    // Takes a row: it is reduced by the kept rows, and kept if it is not zero; whether it is kept.
    pub fn take(&mut self, v: Row) -> bool {
        let mut additions = 0;
        let left = self.reduce(v, |_| additions += 1);
        self.additions += additions;
        self.keep(left)
    }

    // Takes a row, and tallies each addition at the pivot of the row added.
    fn take_tallied(&mut self, v: Row, tally: &mut [u32; POINTS]) {
        let left = self.reduce(v, |c| tally[usize::from(c) % POINTS] += 1);
        self.keep(left);
    }

    // The point is that of the next row taken, if that is kept.
    pub fn name(&mut self, a: usize) {
        self.points[self.rank] = a as u16;
    }

    // The kept rows with their pivots and points, in the order kept.
    pub fn named_rows(&self) -> impl Iterator<Item = (&Row, u16, usize)> {
        self.rows().zip(&self.points).map(|((row, c), a)| (row, c, usize::from(*a)))
    }

    // How many of the pivots are among the first `columns` columns.
    pub fn pivots_below(&self, columns: usize) -> usize {
        self.pivots[..self.rank].iter().filter(|c| usize::from(**c) < columns).count()
    }

    // The mask becomes 1 at the points of the rows with pivots among the first `columns` columns, and 0 elsewhere.
    pub fn mark_below(&self, columns: usize, mask: &mut [u8]) {
        mask.fill(0);
        let named = self.pivots[..self.rank].iter().zip(&self.points);
        named.filter(|(c, _)| usize::from(**c) < columns).for_each(|(_, a)| mask[usize::from(*a)] = 1);
    }
}

// The mask's points with their rows.
pub fn rows_of<'a>(mask: &'a [u8], rows: &'a [Row]) -> impl Iterator<Item = (usize, &'a Row)> {
    mask.iter().zip(rows.iter().enumerate()).filter(|(x, _)| **x == 1).map(|(_, named)| named)
}

// The elimination of the mask's points, with their rows at the first `columns` columns.
pub fn eliminate<'a>(mask: &[u8], columns: usize, kept: &'a mut [Row], rows: &[Row]) -> Basis<'a> {
    let mut basis = Basis::new(kept);
    for (a, row) in rows_of(mask, rows) {
        basis.name(a);
        basis.take(first_columns(row, columns));
    }
    basis
}

// The elimination of the mask's points with all columns, and at each column how often the row with that pivot is added.
pub fn eliminate_tallied<'a>(mask: &[u8], kept: &'a mut [Row], rows: &[Row]) -> (Basis<'a>, [u32; POINTS]) {
    let (mut basis, mut tally) = (Basis::new(kept), [0; POINTS]);
    for (a, row) in rows_of(mask, rows) {
        basis.name(a);
        basis.take_tallied(*row, &mut tally);
    }
    (basis, tally)
}

// The places of the kept rows, and the rows of all points of n taps at degree n: the halves of the workspace.
pub fn prepare(n: usize, workspace: &mut [u64]) -> (&mut [Row], &mut [Row]) {
    let mut listed = [u16::MAX; POINTS];
    listed.iter_mut().zip(exponents(n)).for_each(|(place, u)| *place = u);
    let (kept, rows) = workspace.as_chunks_mut().0.split_at_mut(POINTS);
    make_rows(&listed, n, rows);
    (kept, rows)
}

// The elimination of the mask's points; the other mask becomes that of the kept points.
pub fn keep_points(mask: &[u8], columns: usize, kept: &mut [Row], rows: &[Row], marks: &mut [u8]) -> Ranking {
    let basis = eliminate(mask, columns, kept, rows);
    basis.mark_below(POINTS, marks);
    Ranking { rank: basis.rank, additions: basis.additions }
}

// The rank of the mask's points of n taps at degree d, and the mask of the kept points; the workspace is zero at exit.
pub fn rank(mask: &[u8], n: usize, d: usize, workspace: &mut [u64], marks: &mut [u8]) -> Ranking {
    let (kept, rows) = prepare(n, workspace);
    let ranking = keep_points(mask, column_count(n, d), kept, rows, marks);
    workspace.fill(0);
    ranking
}
