use independent::filter::Filter;

unsafe extern "C" {
    fn ekthavrul_certify(
        set: *const u8,
        set_length: usize,
        table: *const u8,
        table_length: usize,
        n: usize,
        side: u8,
        d: usize,
        workspace: *mut u64,
        workspace_length: usize,
        certificate: *mut u64,
        certificate_length: usize,
    ) -> u8;
}

// Certify.
pub fn certify(filter: Filter, side: u8, d: usize, workspace: &mut [u64], certificate: &mut [u64]) -> Result<(), u8> {
    let status = unsafe {
        ekthavrul_certify(
            filter.set.as_ptr(),
            filter.set.len(),
            filter.table.as_ptr(),
            filter.table.len(),
            filter.n,
            side,
            d,
            workspace.as_mut_ptr(),
            workspace.len(),
            certificate.as_mut_ptr(),
            certificate.len(),
        )
    };
    crate::outcome(status, (), ())
}
