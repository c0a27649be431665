// The ranks by M4RI; no_m4ri.rs stands in the stead of this file where M4RI is not installed.
use crate::contenders::RankSum;
use std::ffi::c_void;
use std::time::{Duration, Instant};

unsafe extern "C" {
    fn m4ri_build(mask: *const u8, n: usize, d: usize) -> *mut c_void;
    fn m4ri_echelonize(matrix: *mut c_void) -> usize;
}

// The sum of the ranks of the set and of its parts at each degree; the time to build the matrices, and to echelonize them.
pub const RANK_SUM: Option<RankSum> = Some(|masks, n| {
    let (mut sum, mut build, mut echelonize) = (0, Duration::ZERO, Duration::ZERO);
    for (d, mask) in (0..=n).flat_map(|d| masks.map(|mask| (d, mask))) {
        let start = Instant::now();
        let matrix = unsafe { m4ri_build(mask.as_ptr(), n, d) };
        let built = Instant::now();
        sum += unsafe { m4ri_echelonize(matrix) };
        build += built - start;
        echelonize += built.elapsed();
    }
    (sum, [build, echelonize])
});
