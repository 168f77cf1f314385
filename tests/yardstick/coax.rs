//! The two coax codes of W8, as amended by W9, in plain Rust, by the definitions: what the archives must answer. One
//! implementation, over the block size and the table. It shares no code with the proved crates, has its own copy of
//! source document 001's tables, and finds the parity by Gaussian elimination. It is slow, and unproved.
//!
//!   Coax            the sizes of a code in bits, the checks of each place, the inverse of the parity part
//!   Coax::code_16200, code_5940     the two codes
//!   word_bytes, parity_bytes        what a word and its parity alone take
//!   call, word_refusals             names and refusals, for the programs that compare
//!   has_one         whether a check's row has a one at a place
//!   checks_of       the checks that a place is in
//!   checks          all checks of a word
//!   parity_with     the parity whose own checks are those given
//!   full_word       the word of a payload
//!   encode, check, complete, piece, finish      the operations

use crate::coax_tables::*;
use crate::paper::{bit, bytes_for, flip, inverse, product, put, unused_set, Answer, Set, EMPTY};
use crate::stream::Stream;

pub struct Coax {
    /// The bits of a word are also the code's name.
    pub places: usize,
    /// The number that its streams have.
    pub number: u64,
    pub payload: usize,
    pub parity: usize,
    pub block: usize,
    pub table: &'static [&'static [i16]],
    checks_of: Vec<Vec<usize>>,
    parity_from: Vec<Set>,
}

impl Coax {
    pub fn code_16200() -> Coax {
        Coax::new(2, 360, &TABLE_16200)
    }

    pub fn code_5940() -> Coax {
        Coax::new(3, 180, &TABLE_5940)
    }

    /// The last block columns are parity, as many as there are block rows.
    fn new(number: u64, block: usize, table: &'static [&'static [i16]]) -> Coax {
        let (places, parity) = (block * table[0].len(), block * table.len());
        let (checks_of, parity_from) = (Vec::new(), Vec::new());
        let payload = places - parity;
        let mut code = Coax { places, number, payload, parity, block, table, checks_of, parity_from };
        let checks_of = |place| (0..parity).filter(|&check| code.has_one(check, place)).collect();
        code.checks_of = (0..places).map(checks_of).collect();
        let mut own = vec![EMPTY; parity];
        for (column, checks) in code.checks_of[code.payload..].iter().enumerate() {
            for &check in checks {
                own[check][column / 64] |= 1 << (column % 64);
            }
        }
        code.parity_from = inverse(&own).expect("the parity part has an inverse");
        code
    }

    /// The name of a call of this code.
    pub fn call(&self, name: &str) -> String {
        format!("{} {}", self.places, name)
    }

    /// The refusals of check and complete, in their order. 3 arises only where a word has unused bits.
    pub fn word_refusals(&self) -> &'static [u64] {
        if self.places % 8 > 0 {
            &[1, 2, 3]
        } else {
            &[1, 2]
        }
    }

    pub fn word_bytes(&self) -> usize {
        bytes_for(self.places)
    }

    pub fn parity_bytes(&self) -> usize {
        bytes_for(self.parity)
    }

    /// Local row r of a block has its one at local column (r + a) mod the block size, where a is the block's entry and
    /// is not -1.
    pub fn has_one(&self, check: usize, place: usize) -> bool {
        let entry = self.table[check / self.block][place / self.block];
        entry >= 0 && (check % self.block + entry as usize) % self.block == place % self.block
    }

    pub fn checks_of(&self, place: usize) -> &[usize] {
        &self.checks_of[place]
    }

    /// All checks of a word, check n as element n.
    pub fn checks(&self, word: &[u8]) -> Vec<bool> {
        let mut checks = vec![false; self.parity];
        for place in (0..self.places).filter(|&place| bit(word, place) == 1) {
            for &check in &self.checks_of[place] {
                checks[check] = !checks[check];
            }
        }
        checks
    }

    /// The parity alone, from bit 0 on, whose own checks are those given.
    pub fn parity_with(&self, checks: &[bool]) -> Vec<u8> {
        product(&self.parity_from, checks)
    }

    /// The word with the one parity that makes every check hold, whatever its parity was.
    fn completed(&self, word: &[u8]) -> Vec<u8> {
        let mut later = word.to_vec();
        for place in self.payload..self.places {
            put(&mut later, place, 0);
        }
        let parity = self.parity_with(&self.checks(&later));
        for place in 0..self.parity {
            put(&mut later, self.payload + place, bit(&parity, place));
        }
        later
    }

    /// The word of a payload.
    pub fn full_word(&self, u: &[u8]) -> Vec<u8> {
        let mut word = u.to_vec();
        word.resize(self.word_bytes(), 0);
        self.completed(&word)
    }

    /// The encoder's answer, and the word where it is written.
    pub fn encode(&self, bits: usize, u: &[u8], room: usize) -> (Answer, Vec<u8>) {
        let refused = |n| (Answer::Refused(n), Vec::new());
        if bits != self.payload {
            return refused(1);
        }
        if u.len() != bytes_for(self.payload) {
            return refused(2);
        }
        if room < self.word_bytes() {
            return refused(5);
        }
        (Answer::Fine, self.full_word(u))
    }

    /// What check and complete refuse.
    fn refusal_of_word(&self, bits: usize, word: &[u8]) -> Option<Answer> {
        if bits != self.payload {
            return Some(Answer::Refused(1));
        }
        if word.len() != self.word_bytes() {
            return Some(Answer::Refused(2));
        }
        if unused_set(word, self.places) {
            return Some(Answer::Refused(3));
        }
        None
    }

    pub fn check(&self, bits: usize, word: &[u8]) -> Answer {
        if let Some(refused) = self.refusal_of_word(bits, word) {
            return refused;
        }
        let checks = self.checks(word);
        match checks.iter().position(|&fails| fails) {
            Some(row) => Answer::Check(row, checks.iter().filter(|&&fails| fails).count()),
            None => Answer::Fine,
        }
    }

    /// Only parity bits are written.
    pub fn complete(&self, bits: usize, word: &mut [u8]) -> Answer {
        if let Some(refused) = self.refusal_of_word(bits, word) {
            return refused;
        }
        let later = self.completed(word);
        word.copy_from_slice(&later);
        Answer::Fine
    }

    pub fn piece(&self, stream: &mut Stream, count: usize, bytes: &[u8]) -> Answer {
        if let Some(n) = stream.refusal_of_state(self.number, self.payload, self.parity) {
            return Answer::Refused(n);
        }
        if bytes.len() != bytes_for(count) {
            return Answer::Refused(2);
        }
        if unused_set(bytes, count) {
            return Answer::Refused(3);
        }
        if count > self.payload - stream.held {
            return Answer::Refused(6);
        }
        for place in (0..count).filter(|&place| bit(bytes, place) == 1) {
            for &check in &self.checks_of[stream.held + place] {
                flip(&mut stream.checks, check);
            }
        }
        stream.held += count;
        Answer::Fine
    }

    /// The finish's answer, and the parity where it is written.
    pub fn finish(&self, stream: &mut Stream, room: usize) -> (Answer, Vec<u8>) {
        let refused = |n| (Answer::Refused(n), Vec::new());
        if let Some(n) = stream.refusal_of_state(self.number, self.payload, self.parity) {
            return refused(n);
        }
        if stream.held != self.payload {
            return refused(1);
        }
        if room < self.parity_bytes() {
            return refused(5);
        }
        let checks: Vec<bool> = (0..self.parity).map(|check| bit(&stream.checks, check) == 1).collect();
        *stream = Stream::fresh(self.number);
        (Answer::Fine, self.parity_with(&checks))
    }
}
