//! Paper 01, as amended by W4, in plain Rust, by the definitions. It shares no code with the proved crates, has its own
//! copy of Table 142-1, and finds the parity by Gaussian elimination. It is slow, and unproved.
//! Both interleavers keep the order here, as paper 01 says, and there are no lists. So its words are those that the
//! plain pair of lists must give. What the archive must answer for any pair is in lists.rs, over the same code.
//!
//!   bit, flip, put  bit n of a run of bytes, and the run with it inverted, or with another in its place
//!   part            so many bits of a run, from a place on
//!   bytes_for       the bytes that a run of b bits takes
//!   line_bits       the bits of the line word of K payload bits
//!   line_word       the line word of a full word and a delimiter
//!   refusal_of_count, unused_set    what refusals 1, 10 and 3 ask
//!   refusal_of_encode, refusal_of_word, refusal_of_line     what each call refuses, but for its lists
//!   delimiter_verdict   the verdict on a line word whose sent parity is right
//!   has_one         whether a check's row has a one at a place
//!   Set, inverse, product   rows of bits: the inverse of a square of them, and their product with a column
//!   Code            the places of each check, and the inverse of the parity part
//!   Code::checks    all checks of a full word
//!   Code::check_verdict the verdict on a full word in which no shortened place is 1
//!   Code::parity_with   the parity whose own checks are those given
//!   Code::full_word the full word of a payload
//!   Code::encode, check_word, check_line    the three calls, with no lists
//!   Answer          what a call answers; `number` is its number at the C boundary

use crate::table::TABLE;

const BLOCK: usize = 256;
pub const CHECKS: usize = 3072;
pub const PLACES: usize = 17664;
pub const PAYLOAD_PLACES: usize = 14592;
pub const PAYLOAD_MOST: usize = 14392;
pub const DATA_BLOCK: usize = 257;
pub const SENT: usize = 2560;
pub const DELIMITER_BITS: usize = 10;
pub const DELIMITER_MOST: usize = 1023;
pub const WORD_BYTES: usize = 2208;

#[derive(Clone, Copy, PartialEq, Debug)]
pub enum Answer {
    Fine,
    Refused(u64),
    Shortened(usize),
    /// The lowest failing row, and how many rows fail.
    Check(usize, usize),
    Parity(usize),
    Delimiter(usize),
}

impl Answer {
    pub fn number(self) -> u64 {
        match self {
            Answer::Fine => 0,
            Answer::Refused(n) => n,
            Answer::Shortened(place) => (1 << 32) + place as u64,
            Answer::Check(row, count) => (2 << 32) + ((count as u64) << 16) + row as u64,
            Answer::Parity(place) => (3 << 32) + place as u64,
            Answer::Delimiter(place) => (4 << 32) + place as u64,
        }
    }
}

pub fn bit(bytes: &[u8], place: usize) -> u8 {
    bytes[place / 8] >> (place % 8) & 1
}

pub fn flip(bytes: &mut [u8], place: usize) {
    bytes[place / 8] ^= 1 << (place % 8);
}

pub fn put(bytes: &mut [u8], place: usize, value: u8) {
    if bit(bytes, place) != value {
        flip(bytes, place);
    }
}

pub fn part(bytes: &[u8], from: usize, count: usize) -> Vec<u8> {
    let mut part = vec![0; bytes_for(count)];
    for place in (0..count).filter(|&place| bit(bytes, from + place) == 1) {
        flip(&mut part, place);
    }
    part
}

pub fn bytes_for(bits: usize) -> usize {
    bits / 8 + usize::from(bits % 8 > 0)
}

/// K may be any number here, so the sum stops at the largest.
pub fn line_bits(k: usize) -> usize {
    k.saturating_add(SENT + DELIMITER_BITS)
}

/// The row of check 256(i-1) + r has a one at local column (r + a) mod 256 of block column j, where a is
/// entry Ci of table line j and is not -1.
pub fn has_one(check: usize, place: usize) -> bool {
    let entry = TABLE[place / BLOCK][check / BLOCK];
    entry >= 0 && (check % BLOCK + entry as usize) % BLOCK == place % BLOCK
}

/// The first K bits of a full word, its sent parity, then the delimiter, lowest bit first.
pub fn line_word(k: usize, word: &[u8], delimiter: usize) -> Vec<u8> {
    let mut line = vec![0; bytes_for(line_bits(k))];
    for place in 0..k {
        put(&mut line, place, bit(word, place));
    }
    for place in 0..SENT {
        put(&mut line, k + place, bit(word, PAYLOAD_PLACES + place));
    }
    for place in 0..DELIMITER_BITS {
        put(&mut line, k + SENT + place, (delimiter >> place & 1) as u8);
    }
    line
}

/// The number by which a payload count is refused, if it is.
pub fn refusal_of_count(k: usize) -> Option<u64> {
    if k == 0 || k > PAYLOAD_MOST {
        return Some(1);
    }
    if k % DATA_BLOCK != 0 {
        return Some(10);
    }
    None
}

/// Whether a bit past the run of so many is 1.
pub fn unused_set(bytes: &[u8], bits: usize) -> bool {
    (bits..bytes.len() * 8).any(|place| bit(bytes, place) == 1)
}

/// The number by which the encoder refuses, if it does.
pub fn refusal_of_encode(k: usize, u: &[u8], delimiter: usize, room: usize) -> Option<u64> {
    if let Some(n) = refusal_of_count(k) {
        return Some(n);
    }
    if u.len() != bytes_for(k) {
        return Some(2);
    }
    if unused_set(u, k) {
        return Some(3);
    }
    if delimiter > DELIMITER_MOST {
        return Some(4);
    }
    if room < bytes_for(line_bits(k)) {
        return Some(5);
    }
    None
}

/// The same of the full-word check, and of complete but for refusal 8.
pub fn refusal_of_word(k: usize, word: &[u8]) -> Option<u64> {
    if let Some(n) = refusal_of_count(k) {
        return Some(n);
    }
    if word.len() != WORD_BYTES {
        return Some(2);
    }
    None
}

/// The same of the line check.
pub fn refusal_of_line(k: usize, line: &[u8], delimiter: usize) -> Option<u64> {
    if let Some(n) = refusal_of_count(k) {
        return Some(n);
    }
    if line.len() != bytes_for(line_bits(k)) {
        return Some(2);
    }
    if unused_set(line, line_bits(k)) {
        return Some(3);
    }
    if delimiter > DELIMITER_MOST {
        return Some(4);
    }
    None
}

/// The lowest bit of a line word's delimiter that differs from the one given, or accepted.
pub fn delimiter_verdict(k: usize, line: &[u8], delimiter: usize) -> Answer {
    let differs = |&place: &usize| usize::from(bit(line, k + SENT + place)) != delimiter >> place & 1;
    match (0..DELIMITER_BITS).find(differs) {
        Some(place) => Answer::Delimiter(place),
        None => Answer::Fine,
    }
}

/// A set of numbers below 3,072.
pub type Set = [u64; CHECKS / 64];

pub const EMPTY: Set = [0; CHECKS / 64];

fn holds(set: &[u64], n: usize) -> bool {
    set[n / 64] >> (n % 64) & 1 == 1
}

/// The inverse of a square matrix over 0 and 1, of at most 3,072 rows, both as rows of bits, or None if there is none.
pub fn inverse(rows: &[Set]) -> Option<Vec<Set>> {
    const HALF: usize = CHECKS / 64;
    let mut both: Vec<[u64; 2 * HALF]> = Vec::new();
    for (n, row) in rows.iter().enumerate() {
        let mut wide = [0; 2 * HALF];
        wide[..HALF].copy_from_slice(row);
        wide[HALF + n / 64] = 1 << (n % 64);
        both.push(wide);
    }
    for column in 0..rows.len() {
        let found = (column..rows.len()).find(|&n| holds(&both[n], column))?;
        both.swap(column, found);
        let pivot = both[column];
        for (n, row) in both.iter_mut().enumerate() {
            if n != column && holds(row, column) {
                for (word, other) in row.iter_mut().zip(&pivot) {
                    *word ^= other;
                }
            }
        }
    }
    let right = |row: &[u64; 2 * HALF]| {
        let mut half = [0; HALF];
        half.copy_from_slice(&row[HALF..]);
        half
    };
    Some(both.iter().map(right).collect())
}

/// A matrix, as rows of bits, times a column of bits.
pub fn product(rows: &[Set], column: &[bool]) -> Vec<u8> {
    let mut set = EMPTY;
    for (n, _) in column.iter().enumerate().filter(|(_, &value)| value) {
        set[n / 64] |= 1 << (n % 64);
    }
    let mut bytes = vec![0; bytes_for(rows.len())];
    for (place, row) in rows.iter().enumerate() {
        let sum = row.iter().zip(&set).fold(0, |sum, (a, b)| sum ^ (a & b));
        put(&mut bytes, place, (sum.count_ones() % 2) as u8);
    }
    bytes
}

pub struct Code {
    pub places: Vec<Vec<usize>>,
    parity_from: Vec<Set>,
}

impl Code {
    pub fn new() -> Code {
        let row = |check| (0..PLACES).filter(|&place| has_one(check, place)).collect();
        let places: Vec<Vec<usize>> = (0..CHECKS).map(row).collect();
        let mut own = vec![EMPTY; CHECKS];
        for (check, row) in places.iter().enumerate() {
            for place in row.iter().filter(|&&place| place >= PAYLOAD_PLACES) {
                let column = place - PAYLOAD_PLACES;
                own[check][column / 64] |= 1 << (column % 64);
            }
        }
        let parity_from = inverse(&own).expect("the parity part has an inverse");
        Code { places, parity_from }
    }

    fn fails(&self, word: &[u8], check: usize) -> bool {
        self.places[check].iter().fold(0, |sum, &place| sum ^ bit(word, place)) == 1
    }

    /// All checks of a full word, check n as element n.
    pub fn checks(&self, word: &[u8]) -> Vec<bool> {
        (0..CHECKS).map(|check| self.fails(word, check)).collect()
    }

    /// The 384 bytes of parity whose own checks are those given.
    pub fn parity_with(&self, checks: &[bool]) -> Vec<u8> {
        product(&self.parity_from, checks)
    }

    /// The first K bits of u, zeros, then the one parity that makes every check hold.
    pub fn full_word(&self, k: usize, u: &[u8]) -> Vec<u8> {
        let mut word = vec![0; WORD_BYTES];
        for place in 0..k {
            put(&mut word, place, bit(u, place));
        }
        let parity = self.parity_with(&self.checks(&word));
        word[PAYLOAD_PLACES / 8..].copy_from_slice(&parity);
        word
    }

    /// The lowest failing row and how many fail, or accepted.
    pub fn check_verdict(&self, word: &[u8]) -> Answer {
        let failing: Vec<usize> = (0..CHECKS).filter(|&check| self.fails(word, check)).collect();
        match failing.first() {
            Some(&row) => Answer::Check(row, failing.len()),
            None => Answer::Fine,
        }
    }

    /// The encoder's answer, and the line word where it is written.
    pub fn encode(&self, k: usize, u: &[u8], delimiter: usize, room: usize) -> (Answer, Vec<u8>) {
        if let Some(n) = refusal_of_encode(k, u, delimiter, room) {
            return (Answer::Refused(n), Vec::new());
        }
        (Answer::Fine, line_word(k, &self.full_word(k, u), delimiter))
    }

    pub fn check_word(&self, k: usize, word: &[u8]) -> Answer {
        if let Some(n) = refusal_of_word(k, word) {
            return Answer::Refused(n);
        }
        match (k..PAYLOAD_PLACES).find(|&place| bit(word, place) == 1) {
            Some(place) => Answer::Shortened(place),
            None => self.check_verdict(word),
        }
    }

    pub fn check_line(&self, k: usize, line: &[u8], delimiter: usize) -> Answer {
        if let Some(n) = refusal_of_line(k, line, delimiter) {
            return Answer::Refused(n);
        }
        let word = self.full_word(k, line);
        let differs = |&place: &usize| bit(line, k + place) != bit(&word, PAYLOAD_PLACES + place);
        match (0..SENT).find(differs) {
            Some(place) => Answer::Parity(place),
            None => delimiter_verdict(k, line, delimiter),
        }
    }
}
