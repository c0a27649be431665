// A filter as it is lent, and the checks that every operation over a set and a table makes.
use crate::rank::points_of;
use crate::refusal::{POINTS, Refusal, bytes, lengths, taps};

// What the operations over a set and a table are asked about, as it is lent.
#[derive(Clone, Copy, Debug)]
pub struct Filter<'a> {
    pub n: usize,
    pub set: &'a [u8],
    pub table: &'a [u8],
}

impl Filter<'_> {
    // Refusal 1 unless the set and the table are 512 long.
    pub fn check_lengths(&self) -> Result<(), Refusal> {
        lengths(&[(self.set.len(), POINTS), (self.table.len(), POINTS)])
    }

    // The checks of n, the set and the table, in order.
    pub fn check(&self) -> Result<(), Refusal> {
        taps(self.n)?;
        bytes(self.set, self.n)?;
        bytes(self.table, self.n)
    }

    // The points of S where the table has this value.
    pub fn part(&self, side: u8) -> Vec<usize> {
        points_of(self.set).into_iter().filter(|a| self.table[*a] == side).collect()
    }
}
