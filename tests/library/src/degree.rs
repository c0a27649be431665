unsafe extern "C" {
    fn ekthavrul_degree(coefficients: *const u8, length: usize, n: usize, degree: *mut u32) -> u8;
}

const UNWRITTEN: u32 = 0xdead_beef;

// Degree.
pub fn degree(coefficients: &[u8], n: usize) -> Result<u32, u8> {
    let mut degree = UNWRITTEN;
    let status = unsafe { ekthavrul_degree(coefficients.as_ptr(), coefficients.len(), n, &mut degree) };
    crate::outcome(status, UNWRITTEN, degree)
}
