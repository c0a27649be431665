use independent::filter::Filter;

unsafe extern "C" {
    fn ekthavrul_check(
        set: *const u8,
        set_length: usize,
        table: *const u8,
        table_length: usize,
        n: usize,
        side: u8,
        d: usize,
        certificate: *const u64,
        certificate_length: usize,
        yes: *mut u8,
    ) -> u8;
}

const UNWRITTEN: u8 = 0xa5;

// Check, lent a byte that it does not answer, between two others that stay as they are: whether the answer is yes.
pub fn check(filter: Filter, side: u8, d: usize, certificate: &[u64]) -> Result<bool, u8> {
    let mut bytes = [UNWRITTEN; 3];
    let status = unsafe {
        ekthavrul_check(
            filter.set.as_ptr(),
            filter.set.len(),
            filter.table.as_ptr(),
            filter.table.len(),
            filter.n,
            side,
            d,
            certificate.as_ptr(),
            certificate.len(),
            bytes.as_mut_ptr().add(1),
        )
    };
    let [before, yes, behind] = bytes;
    assert_eq!([before, behind], [UNWRITTEN; 2], "Check wrote beside its answer");
    let answer = crate::outcome(status, UNWRITTEN, yes)?;
    assert!(answer <= 1, "{answer} is neither yes nor no");
    Ok(answer == 1)
}
