use independent::filter::Filter;
use independent::judgement::Judgement;

unsafe extern "C" {
    fn ekthavrul_judge(
        set: *const u8,
        set_length: usize,
        table: *const u8,
        table_length: usize,
        n: usize,
        workspace: *mut u64,
        workspace_length: usize,
        one: *mut u8,
        one_length: usize,
        zero: *mut u8,
        zero_length: usize,
        kept: *mut u8,
        kept_length: usize,
        report: *mut u32,
        report_length: usize,
    ) -> u8;
}

// Where the numbers of the report stand, as include/ekthavrul.h says.
const RANKS_AT: [usize; 3] = [0, 1, 2];
const RANKS_OF_DEGREE: usize = 3;
const DEGREE_AT: usize = 30;
const SIDE_AT: usize = 31;
pub const ADDITIONS_AT: usize = 32;
const OWN_DEGREES_AT: [usize; 2] = [33, 34];
const MARK_AT: usize = 35;

// The numbers for no degree, no mark and no own degree of a side, and for no side.
const NO_DEGREE: u32 = 10;
const NO_SIDE: u32 = 2;

// A degree, a mark or a side's own degree, which is at most n, or none.
fn degree(number: u32, n: usize) -> Option<usize> {
    let degree = (number != NO_DEGREE).then_some(number as usize);
    assert!(degree.is_none_or(|d| d <= n), "{number} is no degree of {n} taps");
    degree
}

// A side, or none.
fn side(number: u32) -> Option<u8> {
    assert!(number <= NO_SIDE, "{number} is no side");
    (number != NO_SIDE).then_some(number as u8)
}

// What a report of n taps says: each of its numbers is read.
fn judgement(report: &[u32], n: usize) -> Judgement {
    Judgement {
        ranks: std::array::from_fn(|d| RANKS_AT.map(|i| report[RANKS_OF_DEGREE * d + i] as usize)),
        degree: degree(report[DEGREE_AT], n),
        side: side(report[SIDE_AT]),
        additions: report[ADDITIONS_AT],
        own_degrees: OWN_DEGREES_AT.map(|i| degree(report[i], n)),
        mark: degree(report[MARK_AT], n),
    }
}

// Judge: what the report says where it is accepted.
pub fn judge(
    filter: Filter,
    workspace: &mut [u64],
    one: &mut [u8],
    zero: &mut [u8],
    kept: &mut [u8],
    report: &mut [u32],
) -> Result<Judgement, u8> {
    let status = unsafe {
        ekthavrul_judge(
            filter.set.as_ptr(),
            filter.set.len(),
            filter.table.as_ptr(),
            filter.table.len(),
            filter.n,
            workspace.as_mut_ptr(),
            workspace.len(),
            one.as_mut_ptr(),
            one.len(),
            zero.as_mut_ptr(),
            zero.len(),
            kept.as_mut_ptr(),
            kept.len(),
            report.as_mut_ptr(),
            report.len(),
        )
    };
    crate::outcome(status, (), ()).map(|()| judgement(report, filter.n))
}
