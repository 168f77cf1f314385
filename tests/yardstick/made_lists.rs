//! How lists are made for cases: pairs of reorderings, and lists that are none.
//!
//!   PAIRS           the kinds of pairs; the first one is the plain pair, which changes nothing
//!   Pair            two lists, and their kind
//!   Pair::plain, made, any_made, any    the plain pair; one of a kind; one of any kind but plain; any
//!   Pair::swapped   the plain pair but for two places of each list
//!   FAULTS          the kinds of lists that are no reordering
//!   LISTS           which of the two lists are at fault
//!   Pair::spoilt, any_spoilt    a pair with such a fault in one list or in both, of a kind or of any

use crate::lists::Lists;
use crate::paper::{CHECKS, PAYLOAD_PLACES};
use crate::random::Random;

const BLOCK: usize = 256;

pub const PAIRS: [&str; 8] =
    ["plain", "shuffled", "reversed", "one swap", "blocks exchanged", "turned", "first alone", "second alone"];

pub const FAULTS: [&str; 15] = [
    "empty",
    "a byte short",
    "an entry short",
    "a byte long",
    "an entry long",
    "the other's length",
    "an entry twice",
    "no place 0",
    "no last place",
    "an entry of the length",
    "an entry of 65535",
    "an entry's high bit",
    "all entries alike",
    "high byte first",
    "counted from 1",
];

pub const LISTS: [&str; 3] = ["first", "second", "both"];

/// A pair with a fault is none of PAIRS: its kind is `at fault`.
#[derive(Clone)]
pub struct Pair {
    pub kind: &'static str,
    pub lists: Lists,
}

fn bytes_of(entries: &[usize]) -> Vec<u8> {
    entries.iter().flat_map(|&entry| (entry as u16).to_le_bytes()).collect()
}

fn in_order(places: usize) -> Vec<usize> {
    (0..places).collect()
}

fn shuffled(random: &mut Random, places: usize) -> Vec<usize> {
    let mut entries = in_order(places);
    for n in (1..places).rev() {
        entries.swap(n, random.below(n + 1));
    }
    entries
}

/// Two places of a list that are not the same, often the first or the last one or both.
fn two(random: &mut Random, places: usize) -> (usize, usize) {
    let one = match random.below(4) {
        0 => return (0, places - 1),
        1 => 0,
        2 => places - 1,
        _ => random.below(places),
    };
    (one, (one + 1 + random.below(places - 1)) % places)
}

fn entries(random: &mut Random, kind: &str, places: usize) -> Vec<usize> {
    let mut entries = in_order(places);
    match kind {
        "shuffled" => return shuffled(random, places),
        "reversed" => entries.reverse(),
        "one swap" => {
            let (one, other) = two(random, places);
            entries.swap(one, other);
        }
        "blocks exchanged" => {
            let blocks = shuffled(random, places / BLOCK);
            return blocks.iter().flat_map(|block| BLOCK * block..BLOCK * (block + 1)).collect();
        }
        "turned" => entries.rotate_left(1 + random.below(places - 1)),
        _ => {}
    }
    entries
}

/// The list with another entry at a place.
fn with_entry(list: &[u8], at: usize, entry: usize) -> Vec<u8> {
    let mut list = list.to_vec();
    list[2 * at..2 * at + 2].copy_from_slice(&(entry as u16).to_le_bytes());
    list
}

fn entry(list: &[u8], at: usize) -> usize {
    usize::from(u16::from_le_bytes([list[2 * at], list[2 * at + 1]]))
}

/// A reordering with a fault of a kind put in.
fn spoil(random: &mut Random, list: &[u8], fault: &str) -> Vec<u8> {
    let places = list.len() / 2;
    let (one, other) = two(random, places);
    let naming = |place: usize| (0..places).find(|&at| entry(list, at) == place).expect("each place is named");
    let mut longer = list.to_vec();
    match fault {
        "empty" => Vec::new(),
        "a byte short" => list[..list.len() - 1].to_vec(),
        // of one place fewer it is a reordering
        "an entry short" => {
            let at = naming(places - 1);
            longer.drain(2 * at..2 * at + 2);
            longer
        }
        "a byte long" => {
            longer.push(random.below(256) as u8);
            longer
        }
        // of one place more it is a reordering
        "an entry long" => {
            longer.extend((places as u16).to_le_bytes());
            longer
        }
        "the other's length" => bytes_of(&in_order(if places == CHECKS { PAYLOAD_PLACES } else { CHECKS })),
        "an entry twice" => with_entry(list, one, entry(list, other)),
        "no place 0" => with_entry(list, naming(0), 1 + random.below(places - 1)),
        "no last place" => with_entry(list, naming(places - 1), random.below(places - 1)),
        "an entry of the length" => with_entry(list, one, places),
        "an entry of 65535" => with_entry(list, one, 65535),
        // the rest of its bits are right
        "an entry's high bit" => with_entry(list, one, entry(list, one) + (1 << (14 + random.below(2)))),
        "all entries alike" => bytes_of(&vec![one; places]),
        "high byte first" => list.chunks(2).flat_map(|two| [two[1], two[0]]).collect(),
        "counted from 1" => bytes_of(&(0..places).map(|at| entry(list, at) + 1).collect::<Vec<_>>()),
        _ => panic!("{} is no fault of a list", fault),
    }
}

impl Pair {
    pub fn plain() -> Pair {
        Pair::made(&mut Random(0), PAIRS[0])
    }

    pub fn made(random: &mut Random, kind: &'static str) -> Pair {
        let (first, second) = match kind {
            "first alone" => ("shuffled", "plain"),
            "second alone" => ("plain", "shuffled"),
            _ => (kind, kind),
        };
        let first = bytes_of(&entries(random, first, PAYLOAD_PLACES));
        let second = bytes_of(&entries(random, second, CHECKS));
        Pair { kind, lists: Lists { first, second } }
    }

    pub fn swapped(first: (usize, usize), second: (usize, usize)) -> Pair {
        let swapped = |places: usize, (one, other): (usize, usize)| {
            let mut entries = in_order(places);
            entries.swap(one, other);
            bytes_of(&entries)
        };
        let lists = Lists { first: swapped(PAYLOAD_PLACES, first), second: swapped(CHECKS, second) };
        Pair { kind: "one swap", lists }
    }

    /// The kinds by turns.
    pub fn any_made(random: &mut Random, n: usize) -> Pair {
        Pair::made(random, PAIRS[1 + n % (PAIRS.len() - 1)])
    }

    pub fn any(random: &mut Random) -> Pair {
        let kind = PAIRS[random.below(PAIRS.len())];
        Pair::made(random, kind)
    }

    pub fn spoilt(&self, random: &mut Random, list: &str, fault: &str) -> Pair {
        let mut lists = self.lists.clone();
        if list != "second" {
            lists.first = spoil(random, &lists.first, fault);
        }
        if list != "first" {
            lists.second = spoil(random, &lists.second, fault);
        }
        Pair { kind: "at fault", lists }
    }

    pub fn any_spoilt(random: &mut Random) -> Pair {
        let pair = Pair::any(random);
        let (list, fault) = (LISTS[random.below(LISTS.len())], FAULTS[random.below(FAULTS.len())]);
        pair.spoilt(random, list, fault)
    }
}
