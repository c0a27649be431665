unsafe extern "C" {
    fn ekthavrul_read(
        file: *const u8,
        file_length: usize,
        set: *mut u8,
        set_length: usize,
        table: *mut u8,
        table_length: usize,
        n: *mut usize,
    ) -> u8;
}

const UNWRITTEN: usize = 0xdead_beef;

// Read.
pub fn read(file: &[u8], set: &mut [u8], table: &mut [u8]) -> Result<usize, u8> {
    let mut n = UNWRITTEN;
    let status = unsafe {
        ekthavrul_read(file.as_ptr(), file.len(), set.as_mut_ptr(), set.len(), table.as_mut_ptr(), table.len(), &mut n)
    };
    crate::outcome(status, UNWRITTEN, n)
}
