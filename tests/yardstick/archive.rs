//! The calls of the archive, as include/birdovesta.h has them: five of the fibre code, four of each coax code. A slice
//! is passed as pointer and count. A stream is lent as its state, of 400 bytes.

extern "C" {
    fn birdovesta_encode(
        bits: usize,
        payload: *const u8,
        payload_bytes: usize,
        delimiter: usize,
        first: *const u8,
        first_bytes: usize,
        second: *const u8,
        second_bytes: usize,
        line: *mut u8,
        line_bytes: usize,
    ) -> u64;
    fn birdovesta_check_word(
        bits: usize,
        word: *const u8,
        word_bytes: usize,
        first: *const u8,
        first_bytes: usize,
        second: *const u8,
        second_bytes: usize,
    ) -> u64;
    fn birdovesta_check_line(
        bits: usize,
        line: *const u8,
        line_bytes: usize,
        delimiter: usize,
        first: *const u8,
        first_bytes: usize,
        second: *const u8,
        second_bytes: usize,
    ) -> u64;
    fn birdovesta_stream_piece(
        stream: *mut u8,
        stream_bytes: usize,
        bits: usize,
        piece: *const u8,
        piece_bytes: usize,
        first: *const u8,
        first_bytes: usize,
        second: *const u8,
        second_bytes: usize,
    ) -> u64;
    fn birdovesta_stream_finish(
        stream: *mut u8,
        stream_bytes: usize,
        delimiter: usize,
        first: *const u8,
        first_bytes: usize,
        second: *const u8,
        second_bytes: usize,
        tail: *mut u8,
        tail_bytes: usize,
    ) -> u64;
    fn birdovesta_encode_16200(
        bits: usize,
        payload: *const u8,
        payload_bytes: usize,
        word: *mut u8,
        word_bytes: usize,
    ) -> u64;
    fn birdovesta_check_16200(bits: usize, word: *const u8, word_bytes: usize) -> u64;
    fn birdovesta_stream_piece_16200(
        stream: *mut u8,
        stream_bytes: usize,
        bits: usize,
        piece: *const u8,
        piece_bytes: usize,
    ) -> u64;
    fn birdovesta_stream_finish_16200(
        stream: *mut u8,
        stream_bytes: usize,
        parity: *mut u8,
        parity_bytes: usize,
    ) -> u64;
    fn birdovesta_encode_5940(
        bits: usize,
        payload: *const u8,
        payload_bytes: usize,
        word: *mut u8,
        word_bytes: usize,
    ) -> u64;
    fn birdovesta_check_5940(bits: usize, word: *const u8, word_bytes: usize) -> u64;
    fn birdovesta_stream_piece_5940(
        stream: *mut u8,
        stream_bytes: usize,
        bits: usize,
        piece: *const u8,
        piece_bytes: usize,
    ) -> u64;
    fn birdovesta_stream_finish_5940(stream: *mut u8, stream_bytes: usize, parity: *mut u8, parity_bytes: usize)
        -> u64;
}

pub fn encode(bits: usize, payload: &[u8], delimiter: usize, first: &[u8], second: &[u8], line: &mut [u8]) -> u64 {
    unsafe {
        birdovesta_encode(
            bits,
            payload.as_ptr(),
            payload.len(),
            delimiter,
            first.as_ptr(),
            first.len(),
            second.as_ptr(),
            second.len(),
            line.as_mut_ptr(),
            line.len(),
        )
    }
}

pub fn check_word(bits: usize, word: &[u8], first: &[u8], second: &[u8]) -> u64 {
    unsafe {
        birdovesta_check_word(
            bits,
            word.as_ptr(),
            word.len(),
            first.as_ptr(),
            first.len(),
            second.as_ptr(),
            second.len(),
        )
    }
}

pub fn check_line(bits: usize, line: &[u8], delimiter: usize, first: &[u8], second: &[u8]) -> u64 {
    unsafe {
        birdovesta_check_line(
            bits,
            line.as_ptr(),
            line.len(),
            delimiter,
            first.as_ptr(),
            first.len(),
            second.as_ptr(),
            second.len(),
        )
    }
}

pub fn piece(stream: &mut [u8], bits: usize, piece: &[u8], first: &[u8], second: &[u8]) -> u64 {
    unsafe {
        birdovesta_stream_piece(
            stream.as_mut_ptr(),
            stream.len(),
            bits,
            piece.as_ptr(),
            piece.len(),
            first.as_ptr(),
            first.len(),
            second.as_ptr(),
            second.len(),
        )
    }
}

pub fn finish(stream: &mut [u8], delimiter: usize, first: &[u8], second: &[u8], tail: &mut [u8]) -> u64 {
    unsafe {
        birdovesta_stream_finish(
            stream.as_mut_ptr(),
            stream.len(),
            delimiter,
            first.as_ptr(),
            first.len(),
            second.as_ptr(),
            second.len(),
            tail.as_mut_ptr(),
            tail.len(),
        )
    }
}

/// The calls of a coax code.
pub struct CoaxCalls {
    encode: unsafe extern "C" fn(usize, *const u8, usize, *mut u8, usize) -> u64,
    check: unsafe extern "C" fn(usize, *const u8, usize) -> u64,
    piece: unsafe extern "C" fn(*mut u8, usize, usize, *const u8, usize) -> u64,
    finish: unsafe extern "C" fn(*mut u8, usize, *mut u8, usize) -> u64,
}

pub const COAX_16200: CoaxCalls = CoaxCalls {
    encode: birdovesta_encode_16200,
    check: birdovesta_check_16200,
    piece: birdovesta_stream_piece_16200,
    finish: birdovesta_stream_finish_16200,
};

pub const COAX_5940: CoaxCalls = CoaxCalls {
    encode: birdovesta_encode_5940,
    check: birdovesta_check_5940,
    piece: birdovesta_stream_piece_5940,
    finish: birdovesta_stream_finish_5940,
};

impl CoaxCalls {
    pub fn encode(&self, bits: usize, payload: &[u8], word: &mut [u8]) -> u64 {
        unsafe { (self.encode)(bits, payload.as_ptr(), payload.len(), word.as_mut_ptr(), word.len()) }
    }

    pub fn check(&self, bits: usize, word: &[u8]) -> u64 {
        unsafe { (self.check)(bits, word.as_ptr(), word.len()) }
    }

    pub fn piece(&self, stream: &mut [u8], bits: usize, piece: &[u8]) -> u64 {
        unsafe { (self.piece)(stream.as_mut_ptr(), stream.len(), bits, piece.as_ptr(), piece.len()) }
    }

    pub fn finish(&self, stream: &mut [u8], parity: &mut [u8]) -> u64 {
        unsafe { (self.finish)(stream.as_mut_ptr(), stream.len(), parity.as_mut_ptr(), parity.len()) }
    }
}
