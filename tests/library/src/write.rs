use independent::filter::Filter;

unsafe extern "C" {
    fn ekthavrul_write(
        set: *const u8,
        set_length: usize,
        table: *const u8,
        table_length: usize,
        n: usize,
        output: *mut u8,
        output_length: usize,
        length: *mut usize,
    ) -> u8;
}

const UNWRITTEN: usize = 0xdead_beef;

// Write.
pub fn write(filter: Filter, output: &mut [u8]) -> Result<usize, u8> {
    let mut length = UNWRITTEN;
    let status = unsafe {
        ekthavrul_write(
            filter.set.as_ptr(),
            filter.set.len(),
            filter.table.as_ptr(),
            filter.table.len(),
            filter.n,
            output.as_mut_ptr(),
            output.len(),
            &mut length,
        )
    };
    crate::outcome(status, UNWRITTEN, length)
}
