unsafe extern "C" {
    fn ekthavrul_hand_over(
        n: usize,
        side: u8,
        one: *const u8,
        one_length: usize,
        zero: *const u8,
        zero_length: usize,
        copy: *mut u8,
        copy_length: usize,
    ) -> usize;
}

// Hand over: the length of the part, whose bytes go to the front of the copy as far as it has room.
pub fn hand_over(n: usize, side: u8, one: &[u8], zero: &[u8], copy: &mut [u8]) -> usize {
    let (one_length, zero_length, copy_length) = (one.len(), zero.len(), copy.len());
    let (one, zero, copy) = (one.as_ptr(), zero.as_ptr(), copy.as_mut_ptr());
    unsafe { ekthavrul_hand_over(n, side, one, one_length, zero, zero_length, copy, copy_length) }
}
