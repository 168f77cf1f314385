//! Complete and the stream of paper 01, as amended by W4 and W9, in plain Rust, by the definitions: what paper.rs
//! leaves out. It shares no code with the proved crates, and is unproved.
//! There are no lists here, as in paper.rs; with any pair of them the same is in lists.rs. What a stream is, and what
//! 17, 12 and 7 refuse of it, is here for all three codes.
//!
//!   complete        the parity of a full word, written in place
//!   fill_parity     the same of a word that is not refused
//!   Columns         the checks that each place is in
//!   FIBRE           the code number of paper 01's code; coax.rs has those of its own
//!   Stream          its code number, the bits held, and the 384 bytes of running checks
//!   Stream::read, state     the stream that a state of 400 bytes is, and the state of a stream
//!   on_state        a call on a state as C lends it, of any size
//!   Stream::refusal_of_state    by what any call refuses the stream itself
//!   Stream::refusal_of_piece, refusal_of_finish     what a piece and the finish refuse, but for their lists
//!   Stream::piece   adds a piece, bit by bit
//!   Stream::finish  the tail, where it is written; the stream is fresh again, of the same code
//!   Stream::take_parity     the parity whose own checks are those held; the stream is fresh again

use crate::paper::*;

pub const FIBRE: u64 = 1;
/// A state: 8 bytes of code number and 8 of bits held, both low byte first, then the running checks.
pub const STATE_BYTES: usize = 400;
const HELD_FROM: usize = 8;
const CHECKS_FROM: usize = 16;
const CHECK_BYTES: usize = STATE_BYTES - CHECKS_FROM;
const PARITY_FROM: usize = PAYLOAD_PLACES / 8;

pub fn complete(code: &Code, k: usize, word: &mut [u8]) -> Answer {
    if let Some(n) = refusal_of_word(k, word) {
        return Answer::Refused(n);
    }
    if (k..PAYLOAD_PLACES).any(|place| bit(word, place) == 1) {
        return Answer::Refused(8);
    }
    fill_parity(code, word);
    Answer::Fine
}

/// Only bytes 1,824 to 2,207 are written.
pub fn fill_parity(code: &Code, word: &mut [u8]) {
    word[PARITY_FROM..].fill(0);
    let parity = code.parity_with(&code.checks(word));
    word[PARITY_FROM..].copy_from_slice(&parity);
}

pub struct Columns {
    pub checks_of: Vec<Vec<usize>>,
}

impl Columns {
    pub fn new(code: &Code) -> Columns {
        let mut checks_of = vec![Vec::new(); PLACES];
        for (check, row) in code.places.iter().enumerate() {
            for &place in row {
                checks_of[place].push(check);
            }
        }
        Columns { checks_of }
    }
}

#[derive(Clone)]
pub struct Stream {
    pub number: u64,
    pub held: usize,
    pub checks: Vec<u8>,
}

/// Low byte first.
fn number_in(bytes: &[u8]) -> u64 {
    bytes.iter().rev().fold(0, |sum, &byte| sum << 8 | u64::from(byte))
}

/// What a call on a state answers: 17 where that has not 400 bytes, else what is answered of the stream that it is. The
/// stream is put back then.
pub fn on_state<T: Default>(state: &mut [u8], call: impl FnOnce(&mut Stream) -> (Answer, T)) -> (Answer, T) {
    match Stream::read(state) {
        Some(mut stream) => {
            let told = call(&mut stream);
            state.copy_from_slice(&stream.state());
            told
        }
        None => (Answer::Refused(17), T::default()),
    }
}

impl Stream {
    pub fn fresh(number: u64) -> Stream {
        Stream { number, held: 0, checks: vec![0; CHECK_BYTES] }
    }

    /// None where refusal 17 is due.
    pub fn read(state: &[u8]) -> Option<Stream> {
        if state.len() != STATE_BYTES {
            return None;
        }
        let number = number_in(&state[..HELD_FROM]);
        let held = number_in(&state[HELD_FROM..CHECKS_FROM]) as usize;
        Some(Stream { number, held, checks: state[CHECKS_FROM..].to_vec() })
    }

    pub fn state(&self) -> Vec<u8> {
        let mut state = Vec::new();
        for number in [self.number, self.held as u64] {
            state.extend((0..8).map(|byte| (number >> (8 * byte)) as u8));
        }
        state.extend(&self.checks);
        state
    }

    /// By a call of the code with this number, with so many payload bits at most and so many checks in use.
    pub fn refusal_of_state(&self, number: u64, most: usize, in_use: usize) -> Option<u64> {
        if self.number != number {
            return Some(12);
        }
        if self.held > most || unused_set(&self.checks, in_use) {
            return Some(7);
        }
        None
    }

    pub fn refusal_of_piece(&self, count: usize, bytes: &[u8]) -> Option<u64> {
        if let Some(n) = self.refusal_of_state(FIBRE, PAYLOAD_MOST, CHECKS) {
            return Some(n);
        }
        if bytes.len() != bytes_for(count) {
            return Some(2);
        }
        if unused_set(bytes, count) {
            return Some(3);
        }
        if count > PAYLOAD_MOST - self.held {
            return Some(6);
        }
        None
    }

    pub fn piece(&mut self, columns: &Columns, count: usize, bytes: &[u8]) -> Answer {
        if let Some(n) = self.refusal_of_piece(count, bytes) {
            return Answer::Refused(n);
        }
        for place in (0..count).filter(|&place| bit(bytes, place) == 1) {
            for &check in &columns.checks_of[self.held + place] {
                flip(&mut self.checks, check);
            }
        }
        self.held += count;
        Answer::Fine
    }

    pub fn refusal_of_finish(&self, delimiter: usize, room: usize) -> Option<u64> {
        if let Some(n) = self.refusal_of_state(FIBRE, PAYLOAD_MOST, CHECKS) {
            return Some(n);
        }
        if let Some(n) = refusal_of_count(self.held) {
            return Some(n);
        }
        if delimiter > DELIMITER_MOST {
            return Some(4);
        }
        if room < bytes_for(line_bits(0)) {
            return Some(5);
        }
        None
    }

    pub fn finish(&mut self, code: &Code, delimiter: usize, room: usize) -> (Answer, Vec<u8>) {
        if let Some(n) = self.refusal_of_finish(delimiter, room) {
            return (Answer::Refused(n), Vec::new());
        }
        let mut word = vec![0; PARITY_FROM];
        word.extend(self.take_parity(code));
        (Answer::Fine, line_word(0, &word, delimiter))
    }

    pub fn take_parity(&mut self, code: &Code) -> Vec<u8> {
        let checks: Vec<bool> = (0..CHECKS).map(|check| bit(&self.checks, check) == 1).collect();
        *self = Stream::fresh(FIBRE);
        code.parity_with(&checks)
    }
}
