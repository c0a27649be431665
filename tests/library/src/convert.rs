unsafe extern "C" {
    fn ekthavrul_convert(bytes: *mut u8, length: usize, n: usize) -> u8;
}

// Convert.
pub fn convert(bytes: &mut [u8], n: usize) -> Result<(), u8> {
    let status = unsafe { ekthavrul_convert(bytes.as_mut_ptr(), bytes.len(), n) };
    crate::outcome(status, (), ())
}
