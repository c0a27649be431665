// The contenders in C; no_c.rs stands in the stead of this file where there was no compiler.
use crate::contenders::{Certify, Check, Judge, LargestWeight, Rank, Rearrange};
use independent::judgement::Judgement;
use independent::rank::Ranking;

unsafe extern "C" {
    fn c_rank(mask: *const u8, n: usize, d: usize, workspace: *mut u64, kept: *mut u8, additions: *mut u32) -> usize;
    fn c_judge(
        set: *const u8,
        table: *const u8,
        n: usize,
        workspace: *mut u64,
        one: *mut u8,
        zero: *mut u8,
        kept: *mut u8,
        ranks: *mut [[usize; 3]; 10],
        degree: *mut usize,
        side: *mut u8,
        additions: *mut u32,
        own_degrees: *mut [usize; 2],
        mark: *mut usize,
    );
    fn c_certify(
        set: *const u8,
        table: *const u8,
        n: usize,
        side: u8,
        d: usize,
        workspace: *mut u64,
        certificate: *mut u64,
    ) -> u8;
    fn c_check(set: *const u8, table: *const u8, n: usize, side: u8, d: usize, certificate: *const u64) -> u8;
    fn c_largest_weight(coefficients: *const u8) -> u32;
    fn c_largest_count(coefficients: *const u8) -> u32;
    fn c_rearrange(set: *mut u8, table: *mut u8, n: usize, wiring: *const u8);
}

// Rank.
pub const RANK: Option<Rank> = Some(|mask, n, d, workspace, kept| {
    assert_eq!((mask.len(), workspace.len(), kept.len()), (512, 8192, 512));
    let mut additions = 0;
    let rank = unsafe { c_rank(mask.as_ptr(), n, d, workspace.as_mut_ptr(), kept.as_mut_ptr(), &mut additions) };
    Ranking { rank, additions }
});

// Judge.
pub const JUDGE: Option<Judge> = Some(|filter, workspace, one, zero, kept| {
    assert_eq!((filter.set.len(), filter.table.len()), (512, 512));
    assert_eq!((workspace.len(), one.len(), zero.len(), kept.len()), (8192, 512, 512, 512));
    let (n, set, table) = (filter.n, filter.set.as_ptr(), filter.table.as_ptr());
    let (workspace, one, zero, kept) = (workspace.as_mut_ptr(), one.as_mut_ptr(), zero.as_mut_ptr(), kept.as_mut_ptr());
    let (mut ranks, mut additions, mut side) = ([[0; 3]; 10], 0, 0);
    let (mut degree, mut own_degrees, mut mark) = (0, [0; 2], 0);
    unsafe {
        c_judge(
            set,
            table,
            n,
            workspace,
            one,
            zero,
            kept,
            &mut ranks,
            &mut degree,
            &mut side,
            &mut additions,
            &mut own_degrees,
            &mut mark,
        )
    };
    let found = |d: usize| (d < ranks.len()).then_some(d);
    let (degree, own_degrees, mark) = (found(degree), own_degrees.map(found), found(mark));
    Judgement { ranks, degree, side: (side < 2).then_some(side), additions, own_degrees, mark }
});

// Certify.
pub const CERTIFY: Option<Certify> = Some(|filter, side, d, workspace, certificate| {
    assert_eq!((filter.set.len(), filter.table.len()), (512, 512));
    assert_eq!((workspace.len(), certificate.len()), (8192, 4096));
    let (set, table, workspace) = (filter.set.as_ptr(), filter.table.as_ptr(), workspace.as_mut_ptr());
    let status = unsafe { c_certify(set, table, filter.n, side, d, workspace, certificate.as_mut_ptr()) };
    if status == 0 { Ok(()) } else { Err(status) }
});

// Check.
pub const CHECK: Option<Check> = Some(|filter, side, d, certificate| {
    assert_eq!((filter.set.len(), filter.table.len(), certificate.len()), (512, 512, 4096));
    let (set, table) = (filter.set.as_ptr(), filter.table.as_ptr());
    unsafe { c_check(set, table, filter.n, side, d, certificate.as_ptr()) == 1 }
});

// The largest weight of an exponent, by the steps of the proved weight.
pub const LARGEST_WEIGHT: Option<LargestWeight> = Some(|coefficients| {
    assert_eq!(coefficients.len(), 512);
    unsafe { c_largest_weight(coefficients.as_ptr()) }
});

// The same by the compiler's count.
pub const LARGEST_COUNT: Option<LargestWeight> = Some(|coefficients| {
    assert_eq!(coefficients.len(), 512);
    unsafe { c_largest_count(coefficients.as_ptr()) }
});

// Rearrange.
pub const REARRANGE: Option<Rearrange> = Some(|set, table, n, wiring| {
    assert_eq!((set.len(), table.len(), wiring.len()), (512, 512, n));
    unsafe { c_rearrange(set.as_mut_ptr(), table.as_mut_ptr(), n, wiring.as_ptr()) }
});
