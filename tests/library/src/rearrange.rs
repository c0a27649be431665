unsafe extern "C" {
    fn ekthavrul_rearrange(
        set: *mut u8,
        set_length: usize,
        table: *mut u8,
        table_length: usize,
        n: usize,
        wiring: *const u8,
        wiring_length: usize,
    ) -> u8;
}

// Rearrange.
pub fn rearrange(set: &mut [u8], table: &mut [u8], n: usize, wiring: &[u8]) -> Result<(), u8> {
    let (set_length, table_length) = (set.len(), table.len());
    let (set, table) = (set.as_mut_ptr(), table.as_mut_ptr());
    let status = unsafe { ekthavrul_rearrange(set, set_length, table, table_length, n, wiring.as_ptr(), wiring.len()) };
    crate::outcome(status, (), ())
}
