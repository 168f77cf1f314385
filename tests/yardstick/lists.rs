//! W2 in plain Rust, by the definitions: what the fibre calls must answer for any two lists. It picks single bits,
//! place by place, and shares no code with the proved crates. What it says of an inner word's checks is paper.rs's, and
//! what it says of a stream without lists stream.rs's. It is slow, and unproved.
//!
//!   Lists           the two lists as they are lent: two bytes an entry, low byte first
//!   reordering      the entries of a list, where it is a reordering of so many places
//!   Lists::read     both, or None where refusal 16 is due
//!   padded, inner_payload   the padded payload, and the same in inner order
//!   outer_word      the padded payload, then its parity in outgoing order
//!   encode, check_word, check_line, complete, piece, finish     the operations

use crate::paper::*;
use crate::stream::{fill_parity, Columns, Stream};

const PARITY_FROM: usize = PAYLOAD_PLACES / 8;

#[derive(Clone)]
pub struct Lists {
    pub first: Vec<u8>,
    pub second: Vec<u8>,
}

/// What two lists say: entry t is element t.
pub struct Orders {
    pub first: Vec<usize>,
    pub second: Vec<usize>,
}

/// Two bytes for each place, and each place is named once.
pub fn reordering(list: &[u8], places: usize) -> Option<Vec<usize>> {
    if list.len() != 2 * places {
        return None;
    }
    let entries: Vec<usize> = list.chunks_exact(2).map(|two| usize::from(two[0]) + 256 * usize::from(two[1])).collect();
    let mut named = vec![0u8; places];
    for &place in &entries {
        *named.get_mut(place)? += 1;
    }
    if named.iter().all(|&times| times == 1) {
        Some(entries)
    } else {
        None
    }
}

impl Lists {
    pub fn read(&self) -> Option<Orders> {
        let first = reordering(&self.first, PAYLOAD_PLACES)?;
        let second = reordering(&self.second, CHECKS)?;
        Some(Orders { first, second })
    }
}

/// The first K bits of u, then zeros.
pub fn padded(k: usize, u: &[u8]) -> Vec<u8> {
    let mut padded = vec![0; PAYLOAD_PLACES / 8];
    for place in 0..k {
        put(&mut padded, place, bit(u, place));
    }
    padded
}

/// Inner place t is padded place first t.
pub fn inner_payload(orders: &Orders, padded: &[u8]) -> Vec<u8> {
    let mut inner = vec![0; PAYLOAD_PLACES / 8];
    for (t, &place) in orders.first.iter().enumerate() {
        put(&mut inner, t, bit(padded, place));
    }
    inner
}

/// Outgoing parity bit t is inner parity bit second t.
fn outgoing(orders: &Orders, parity: &[u8]) -> Vec<u8> {
    let mut outgoing = vec![0; CHECKS / 8];
    for (t, &place) in orders.second.iter().enumerate() {
        put(&mut outgoing, t, bit(parity, place));
    }
    outgoing
}

/// Where a line word's parts are taken from: the padded payload, then the parity in outgoing order.
pub fn outer_word(code: &Code, orders: &Orders, k: usize, u: &[u8]) -> Vec<u8> {
    let mut outer = padded(k, u);
    let inner = code.full_word(PAYLOAD_PLACES, &inner_payload(orders, &outer));
    outer.extend(outgoing(orders, &inner[PARITY_FROM..]));
    outer
}

/// The lowest inner place that is shortened, and is 1.
fn shortened(orders: &Orders, k: usize, word: &[u8]) -> Option<usize> {
    (0..PAYLOAD_PLACES).find(|&t| orders.first[t] >= k && bit(word, t) == 1)
}

/// The encoder's answer, and the line word where it is written.
pub fn encode(code: &Code, lists: &Lists, k: usize, u: &[u8], delimiter: usize, room: usize) -> (Answer, Vec<u8>) {
    let orders = match lists.read() {
        Some(orders) => orders,
        None => return (Answer::Refused(16), Vec::new()),
    };
    if let Some(n) = refusal_of_encode(k, u, delimiter, room) {
        return (Answer::Refused(n), Vec::new());
    }
    (Answer::Fine, line_word(k, &outer_word(code, &orders, k, u), delimiter))
}

/// The word is in inner order.
pub fn check_word(code: &Code, lists: &Lists, k: usize, word: &[u8]) -> Answer {
    let orders = match lists.read() {
        Some(orders) => orders,
        None => return Answer::Refused(16),
    };
    if let Some(n) = refusal_of_word(k, word) {
        return Answer::Refused(n);
    }
    match shortened(&orders, k, word) {
        Some(place) => Answer::Shortened(place),
        None => code.check_verdict(word),
    }
}

/// The place of a parity bit is the outgoing one.
pub fn check_line(code: &Code, lists: &Lists, k: usize, line: &[u8], delimiter: usize) -> Answer {
    let orders = match lists.read() {
        Some(orders) => orders,
        None => return Answer::Refused(16),
    };
    if let Some(n) = refusal_of_line(k, line, delimiter) {
        return Answer::Refused(n);
    }
    let outer = outer_word(code, &orders, k, line);
    match (0..SENT).find(|&place| bit(line, k + place) != bit(&outer, PAYLOAD_PLACES + place)) {
        Some(place) => Answer::Parity(place),
        None => delimiter_verdict(k, line, delimiter),
    }
}

/// The word is in inner order, before and later.
pub fn complete(code: &Code, lists: &Lists, k: usize, word: &mut [u8]) -> Answer {
    let orders = match lists.read() {
        Some(orders) => orders,
        None => return Answer::Refused(16),
    };
    if let Some(n) = refusal_of_word(k, word) {
        return Answer::Refused(n);
    }
    if shortened(&orders, k, word).is_some() {
        return Answer::Refused(8);
    }
    fill_parity(code, word);
    Answer::Fine
}

/// Each inner place whose padded place is in the piece takes its bit from there.
pub fn piece(columns: &Columns, lists: &Lists, stream: &mut Stream, count: usize, bytes: &[u8]) -> Answer {
    let orders = match lists.read() {
        Some(orders) => orders,
        None => return Answer::Refused(16),
    };
    if let Some(n) = stream.refusal_of_piece(count, bytes) {
        return Answer::Refused(n);
    }
    let from = stream.held;
    for (t, &place) in orders.first.iter().enumerate() {
        if (from..from + count).contains(&place) && bit(bytes, place - from) == 1 {
            for &check in &columns.checks_of[t] {
                flip(&mut stream.checks, check);
            }
        }
    }
    stream.held += count;
    Answer::Fine
}

/// The finish's answer, and the tail where it is written.
pub fn finish(code: &Code, lists: &Lists, stream: &mut Stream, delimiter: usize, room: usize) -> (Answer, Vec<u8>) {
    let orders = match lists.read() {
        Some(orders) => orders,
        None => return (Answer::Refused(16), Vec::new()),
    };
    if let Some(n) = stream.refusal_of_finish(delimiter, room) {
        return (Answer::Refused(n), Vec::new());
    }
    let mut outer = vec![0; PARITY_FROM];
    outer.extend(outgoing(&orders, &stream.take_parity(code)));
    (Answer::Fine, line_word(0, &outer, delimiter))
}
