//! The calls of the crate `measured`, which are in an archive of their own: complete of each code. A slice is passed as
//! pointer and count.

extern "C" {
    fn measured_complete(
        count: usize,
        word: *mut u8,
        word_bytes: usize,
        first: *const u8,
        first_bytes: usize,
        second: *const u8,
        second_bytes: usize,
    ) -> u64;
    fn measured_complete_16200(count: usize, word: *mut u8, word_bytes: usize) -> u64;
    fn measured_complete_5940(count: usize, word: *mut u8, word_bytes: usize) -> u64;
}

pub fn complete(count: usize, word: &mut [u8], first: &[u8], second: &[u8]) -> u64 {
    unsafe {
        measured_complete(
            count,
            word.as_mut_ptr(),
            word.len(),
            first.as_ptr(),
            first.len(),
            second.as_ptr(),
            second.len(),
        )
    }
}

/// The calls of a coax code.
pub struct CoaxCalls {
    complete: unsafe extern "C" fn(usize, *mut u8, usize) -> u64,
}

pub const COAX_16200: CoaxCalls = CoaxCalls { complete: measured_complete_16200 };
pub const COAX_5940: CoaxCalls = CoaxCalls { complete: measured_complete_5940 };

impl CoaxCalls {
    pub fn complete(&self, count: usize, word: &mut [u8]) -> u64 {
        unsafe { (self.complete)(count, word.as_mut_ptr(), word.len()) }
    }
}
