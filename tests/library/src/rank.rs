use independent::rank::Ranking;

unsafe extern "C" {
    fn ekthavrul_rank(
        mask: *const u8,
        mask_length: usize,
        n: usize,
        d: usize,
        workspace: *mut u64,
        workspace_length: usize,
        kept: *mut u8,
        kept_length: usize,
        rank: *mut usize,
        additions: *mut u32,
    ) -> u8;
}

const UNWRITTEN: Ranking = Ranking { rank: 0xdead_beef, additions: 0xdead_beef };

// Rank.
pub fn rank(mask: &[u8], n: usize, d: usize, workspace: &mut [u64], kept: &mut [u8]) -> Result<Ranking, u8> {
    let mut answer = UNWRITTEN;
    let status = unsafe {
        ekthavrul_rank(
            mask.as_ptr(),
            mask.len(),
            n,
            d,
            workspace.as_mut_ptr(),
            workspace.len(),
            kept.as_mut_ptr(),
            kept.len(),
            &mut answer.rank,
            &mut answer.additions,
        )
    };
    crate::outcome(status, UNWRITTEN, answer)
}
