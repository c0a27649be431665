// Check: docs/SPECIFICATION.md, 'Check'. By rows: those of the points that a certificate names are summed, and the sum
// is compared with the row of the point that they are named for.
use crate::certificate::named;
use crate::filter::Filter;
use crate::rank::row;
use crate::refusal::{CERTIFICATE, POINTS, Refusal, lengths, require};
use crate::span::Bits;

// What a certificate of a side at degree d is held against: the filter, the side, and the rows of its points.
pub struct Standard<'a> {
    filter: Filter<'a>,
    side: u8,
    rows: Vec<Bits>,
}

impl<'a> Standard<'a> {
    // That of a filter, a side and a degree which pass the checks.
    pub fn of(filter: Filter<'a>, side: u8, d: usize) -> Standard<'a> {
        Standard { filter, side, rows: (0..1 << filter.n).map(|a| row(d, a)).collect() }
    }

    // Whether the certificate is right about the point a: for a point of S outside the part it names points of the part
    // whose rows sum to its row, and for any other all its numbers are 0.
    pub fn right_at(&self, certificate: &[u64], a: usize) -> bool {
        let Filter { set, table, .. } = self.filter;
        if set[a] == 0 || table[a] == self.side {
            return certificate[8 * a..8 * a + 8].iter().all(|number| *number == 0);
        }
        let named: Vec<usize> = named(certificate, a).collect();
        named.iter().all(|q| set[*q] == 1 && table[*q] == self.side)
            && named.iter().fold(Bits::default(), |sum, q| sum.plus(self.rows[*q])) == self.rows[a]
    }

    // Whether it is right about every point.
    pub fn right(&self, certificate: &[u64]) -> bool {
        (0..POINTS).all(|a| self.right_at(certificate, a))
    }
}

// Check: yes or no.
pub fn check(filter: Filter, side: u8, d: usize, certificate: &[u64]) -> Result<bool, u8> {
    filter.check_lengths()?;
    lengths(&[(certificate.len(), CERTIFICATE)])?;
    filter.check()?;
    require(d <= filter.n, Refusal::Degree)?;
    require(side <= 1, Refusal::Side)?;
    Ok(Standard::of(filter, side, d).right(certificate))
}
