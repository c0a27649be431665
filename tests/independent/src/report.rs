// Judge as it is exported, with the numbers that it answers in a lent report: docs/SPECIFICATION.md, 'Library'.
use crate::filter::Filter;
use crate::judgement::{self, Judgement};
use crate::refusal::{REPORT, lengths};

// The numbers for no degree, no mark and no own degree of a side, and for no side.
const NO_DEGREE: u32 = 10;
const NO_SIDE: u32 = 2;

// The report of a judgement: the ranks of each degree, then the degree, the side, the additions, side 1's own degree, side
// 0's, and the mark.
pub fn numbers(found: &Judgement) -> Vec<u32> {
    let degree = |degree: Option<usize>| degree.map_or(NO_DEGREE, |d| d as u32);
    let (ranks, [one, zero]) = (found.ranks.as_flattened().iter(), found.own_degrees.map(degree));
    let side = found.side.map_or(NO_SIDE, u32::from);
    let last = [degree(found.degree), side, found.additions, one, zero, degree(found.mark)];
    ranks.map(|rank| *rank as u32).chain(last).collect()
}

// Judge.
pub fn judge(
    filter: Filter,
    workspace: &mut [u64],
    one: &mut [u8],
    zero: &mut [u8],
    kept: &mut [u8],
    report: &mut [u32],
) -> Result<Judgement, u8> {
    lengths(&[(report.len(), REPORT)])?;
    let found = judgement::judge(filter, workspace, one, zero, kept)?;
    report.copy_from_slice(&numbers(&found));
    Ok(found)
}
