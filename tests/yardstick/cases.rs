//! What the programs share that compare an archive with the yardstick over seeded cases.
//!
//!   Lent            bytes to be lent, with guard bytes on both sides
//!   LentLists       the two lists, lent like this to be read
//!   State           a stream's state, the yardstick's and the one that is lent like this
//!   Cases           what was reached, how many cases there were, and how many were wrong
//!   Cases::judge, compare   one case, by its answer or by its number alone
//!   Cases::end      says all that, and ends the program
//!   name_of, before, all_pairs      the names of what is reached
//!   sets_of         every set of faults
//!   clear_from, damage, payload, faulty_run     how inputs are made
//!   faulty_word, other_count                    those of a coax code
//!   any_count, faulty_count, faulty_delimiter   those of the fibre code
//!   too_many_held, faulty_counts                those of a stream
//!   other_numbers, counts_too_large, OTHER_SIZES    what a stream's state must not have
//!   faulty_state                                such a state

use crate::paper::*;
use crate::random::Random;
use crate::stream::Stream;

pub const GUARD: usize = 64;
const SEED: u64 = 142;

/// Bytes to be lent, with guard bytes on both sides.
pub struct Lent {
    pub all: Vec<u8>,
}

impl Lent {
    pub fn new(random: &mut Random, bytes: &[u8]) -> Lent {
        let mut all = random.bytes(GUARD);
        all.extend(bytes);
        all.extend(random.bytes(GUARD));
        Lent { all }
    }

    pub fn part(&mut self) -> &mut [u8] {
        let end = self.all.len() - GUARD;
        &mut self.all[GUARD..end]
    }

    /// All bytes, with other ones where the lent part begins.
    pub fn with(&self, bytes: &[u8]) -> Vec<u8> {
        let mut all = self.all.clone();
        all[GUARD..GUARD + bytes.len()].copy_from_slice(bytes);
        all
    }
}

/// Nobody writes to them, so they must stay as they are.
pub struct LentLists {
    first: Lent,
    second: Lent,
    before: [Vec<u8>; 2],
}

impl LentLists {
    pub fn new(random: &mut Random, first: &[u8], second: &[u8]) -> LentLists {
        let (first, second) = (Lent::new(random, first), Lent::new(random, second));
        let before = [first.all.clone(), second.all.clone()];
        LentLists { first, second, before }
    }

    /// The first, and the second.
    pub fn parts(&mut self) -> (&[u8], &[u8]) {
        (self.first.part(), self.second.part())
    }

    pub fn same(&self) -> bool {
        self.first.all == self.before[0] && self.second.all == self.before[1]
    }
}

/// After each call every byte of the lent one is compared.
pub struct State {
    pub ours: Vec<u8>,
    lent: Lent,
}

impl State {
    pub fn new(random: &mut Random, ours: Vec<u8>) -> State {
        let lent = Lent::new(random, &ours);
        State { ours, lent }
    }

    /// 0 where it has another size.
    pub fn held(&self) -> usize {
        Stream::read(&self.ours).map_or(0, |stream| stream.held)
    }

    /// Whether it is the fresh one of the code with this number, byte by byte.
    pub fn is_fresh(&self, number: u8) -> bool {
        let mut fresh = [0; 400];
        fresh[0] = number;
        self.ours == fresh
    }

    /// The host writes to it.
    pub fn put(&mut self, bytes: Vec<u8>) {
        self.lent.all = self.lent.with(&bytes);
        self.ours = bytes;
    }

    /// A call on the lent one, made when ours is as it must be later: what is told, and whether each byte is as it must
    /// be. A difference is told once, and not at every later call.
    pub fn call(&mut self, call: impl FnOnce(&mut [u8]) -> u64) -> (u64, bool) {
        let later = self.lent.with(&self.ours);
        let told = call(self.lent.part());
        let same = self.lent.all == later;
        self.lent.all = later;
        (told, same)
    }
}

pub struct Cases {
    pub random: Random,
    /// What was reached and how often, in the order in which it is printed.
    reached: Vec<(String, usize)>,
    cases: usize,
    wrong: usize,
}

impl Cases {
    /// The names are all that must be reached. Another seed than the usual one can be the program's only argument.
    pub fn new(names: Vec<String>) -> Cases {
        let seed = std::env::args().nth(1).map_or(SEED, |word| word.parse().expect("a seed is a number"));
        let reached = names.into_iter().map(|name| (name, 0)).collect();
        Cases { random: Random(seed), reached, cases: 0, wrong: 0 }
    }

    pub fn reach(&mut self, name: &str) {
        let entry = self.reached.iter_mut().find(|entry| entry.0 == name);
        entry.unwrap_or_else(|| panic!("{} is not in the list", name)).1 += 1;
    }

    pub fn complain(&mut self, what: &str) {
        self.wrong += 1;
        if self.wrong <= 20 {
            println!("wrong: {}", what);
        }
    }

    /// One case: the yardstick's answer, the one that the case was made for (if it was made for one), the
    /// archive's, and whether every lent byte is as it must be.
    pub fn judge(&mut self, case: &str, ours: Answer, made_for: Option<Answer>, told: u64, bytes_right: bool) {
        if let Some(meant) = made_for.filter(|&meant| meant != ours) {
            self.complain(&format!("yardstick, {}\n  {:?}, not {:?}", case, ours, meant));
        }
        self.compare(case, ours.number(), told, bytes_right);
    }

    /// One case by its number alone.
    pub fn compare(&mut self, case: &str, expected: u64, told: u64, bytes_right: bool) {
        self.cases += 1;
        if told != expected {
            self.complain(&format!("{}\n  told {}, not {}", case, told, expected));
        } else if !bytes_right {
            self.complain(&format!("{}\n  told {}, bytes differ", case, told));
        }
    }

    /// The exit status is 1 if anything was wrong, or never reached.
    pub fn end(self) -> ! {
        let mut missed = 0;
        for (name, count) in &self.reached {
            println!("{}: {}", name, count);
            missed += usize::from(*count == 0);
        }
        if missed > 0 {
            println!("{} never reached", missed);
        }
        println!("{} cases, {} wrong", self.cases, self.wrong);
        std::process::exit(i32::from(missed > 0 || self.wrong > 0))
    }
}

/// The name of an answer, of a code with so many checks.
pub fn name_of(call: &str, answer: Answer, checks: usize) -> String {
    match answer {
        Answer::Fine if call.ends_with("word") || call.ends_with("line") => format!("{} accepted", call),
        Answer::Fine if call.ends_with("piece") => format!("{} held", call),
        Answer::Fine => format!("{} written", call),
        Answer::Refused(n) => format!("{} refusal {}", call, n),
        Answer::Shortened(_) => format!("{} shortened", call),
        Answer::Check(_, 1) => format!("{} check, 1 row", call),
        Answer::Check(_, count) if count == checks => format!("{} check, every row", call),
        Answer::Check(_, _) => format!("{} check, more rows", call),
        Answer::Parity(_) => format!("{} parity", call),
        Answer::Delimiter(_) => format!("{} delimiter", call),
    }
}

/// Two faults at once, the first of which is told.
pub fn before(call: &str, faults: &[u64]) -> String {
    format!("{} {} before {}", call, faults[0], faults[1])
}

/// Every two refusals of an order.
pub fn all_pairs(call: &str, order: &[u64]) -> Vec<String> {
    sets_of(order).iter().filter(|faults| faults.len() == 2).map(|faults| before(call, faults)).collect()
}

/// Every set of an order's refusals but the empty one, each set in that order.
pub fn sets_of(order: &[u64]) -> Vec<Vec<u64>> {
    let chosen = |set: u64| order.iter().enumerate().filter(|(n, _)| set >> n & 1 == 1).map(|(_, &k)| k).collect();
    (1u64..1 << order.len()).map(chosen).collect()
}

/// The bytes with every bit from a place on made 0.
pub fn clear_from(bytes: &mut [u8], place: usize) {
    if let Some(byte) = bytes.get_mut(place / 8) {
        *byte &= (1u8 << (place % 8)) - 1;
    }
    for byte in bytes.iter_mut().skip(place / 8 + 1) {
        *byte = 0;
    }
}

/// Inverts a few bits of places from..to.
pub fn damage(random: &mut Random, bytes: &mut [u8], from: usize, to: usize) {
    for _ in 0..1 + random.below(3) {
        flip(bytes, from + random.below(to - from));
    }
}

/// A payload of so many bits: zeros, ones, one bit alone, or (most often) random.
pub fn payload(random: &mut Random, bits: usize) -> Vec<u8> {
    let mut bytes = vec![0; bytes_for(bits)];
    match random.below(8) {
        0 => {}
        1 => bytes.fill(255),
        2 => flip(&mut bytes, random.below(bits)),
        _ => bytes = random.bytes(bytes_for(bits)),
    }
    clear_from(&mut bytes, bits);
    bytes
}

/// A run of this many bits: too many or too few bytes if faults has 2; an unused bit set if it has 3.
pub fn faulty_run(random: &mut Random, faults: &[u64], bits: usize) -> Vec<u8> {
    let mut count = bytes_for(bits);
    while faults.contains(&2) && (count == bytes_for(bits) || count > 4000) {
        count = match random.below(4) {
            0 => bytes_for(bits).wrapping_sub(1),
            1 => bytes_for(bits).saturating_add(1),
            2 => 0,
            _ => random.below(3000),
        };
    }
    let mut bytes = random.bytes(count);
    clear_from(&mut bytes, bits);
    if faults.contains(&3) {
        let place = bits.saturating_add(random.below(8 - bits % 8));
        if place / 8 < count {
            flip(&mut bytes, place);
        }
        if faults.contains(&2) && count > 0 {
            bytes[count - 1] |= 128;
        }
    }
    bytes
}

/// A word of a coax code: too long or too short if faults has 2, an unused bit set if it has 3. What is too long may
/// have ones past the word, also where a word has no unused bits.
pub fn faulty_word(random: &mut Random, faults: &[u64], places: usize) -> Vec<u8> {
    if faults.contains(&2) && random.below(2) == 0 {
        return faulty_run(random, &[2, 3], places);
    }
    faulty_run(random, faults, places)
}

/// A count of bits that is not the only right one: near it, a size of another code, or so large that it is the right
/// one again where only some of its bits are looked at.
pub fn other_count(random: &mut Random, right: usize) -> usize {
    let others = [0, 1, right - 1, right + 1, right - 8, right + 8, 5040, 5940, 14392, 14400, 14592, 16200, 17664];
    let count = match random.below(8) {
        0 => (1 << 16) + right,
        1 => (1 << 32) + right,
        2 => (1 << 63) + right,
        3 => usize::MAX - random.below(3000),
        4 => random.below(20000),
        _ => others[random.below(others.len())],
    };
    if count == right {
        other_count(random, right)
    } else {
        count
    }
}

/// A payload count of whole data blocks, each remainder by 8 in turn: the least, any, or the largest. A data block has
/// 1 bit more than a multiple of 8, so the remainder is also that of the number of blocks.
pub fn any_count(random: &mut Random, n: usize) -> usize {
    let (remainder, size) = (n % 8, n / 8 % 3);
    let least = if remainder == 0 { 8 } else { remainder };
    let most = PAYLOAD_MOST / DATA_BLOCK - (8 - remainder) % 8;
    let blocks = match size {
        0 => least,
        1 => least + 8 * random.below((most - least) / 8 + 1),
        _ => most,
    };
    DATA_BLOCK * blocks
}

/// A payload count with a broken block: 1 more or 1 less than whole blocks, blocks of 256 bits, or any.
pub fn broken_count(random: &mut Random) -> usize {
    let blocks = 1 + random.below(PAYLOAD_MOST / DATA_BLOCK - 1);
    match random.below(5) {
        0 => 1,
        1 => DATA_BLOCK * blocks + 1,
        2 => DATA_BLOCK * blocks - 1,
        3 => (DATA_BLOCK - 1) * blocks,
        _ => DATA_BLOCK * blocks + 1 + random.below(DATA_BLOCK - 1),
    }
}

/// A payload count: 0 or too large if faults has 1; not of whole data blocks if it has 10, else of whole ones; one
/// whose run of bits has unused bits if it has 3.
pub fn faulty_count(random: &mut Random, n: usize, faults: &[u64], huge: bool, run: fn(usize) -> usize) -> usize {
    loop {
        let k = if faults.contains(&1) {
            match random.below(if huge { 7 } else { 3 }) {
                0 => 0,
                1 => PAYLOAD_MOST + 1,
                2 => PAYLOAD_MOST + 1 + random.below(300),
                3 => (1 << 16) + 1 + random.below(PAYLOAD_MOST),
                4 => (1 << 32) + 1 + random.below(PAYLOAD_MOST),
                5 => (1 << 63) + 1 + random.below(PAYLOAD_MOST),
                _ => usize::MAX - random.below(3000),
            }
        } else if faults.contains(&10) {
            broken_count(random)
        } else {
            let n = n + random.below(24);
            any_count(random, n)
        };
        let blocks_as_meant = faults.contains(&10) == (k % DATA_BLOCK != 0);
        if blocks_as_meant && !(faults.contains(&3) && run(k) % 8 == 0) {
            return k;
        }
    }
}

/// A delimiter, too large if faults has 4.
pub fn faulty_delimiter(random: &mut Random, faults: &[u64]) -> usize {
    if !faults.contains(&4) {
        return match random.below(4) {
            0 => 0,
            1 => DELIMITER_MOST,
            _ => random.below(DELIMITER_MOST + 1),
        };
    }
    match random.below(5) {
        0 => DELIMITER_MOST + 1,
        1 => DELIMITER_MOST + 1 + random.below(5000),
        2 => (1 << 16) + random.below(1024),
        3 => (1 << 32) + random.below(1024),
        _ => usize::MAX,
    }
}

/// A count of bits held that is above the payload's most.
pub fn too_many_held(random: &mut Random, most: usize) -> usize {
    match random.below(8) {
        0 => most + 1,
        1 => most + 1 + random.below(4000),
        2 => (1 << 16) + random.below(most + 1),
        3 => (1 << 32) + random.below(most + 1),
        4 => (1 << 63) + random.below(most + 1),
        5 => usize::MAX - random.below(100),
        _ => {
            let counts = counts_too_large(most);
            counts[random.below(counts.len())]
        }
    }
}

/// Such counts: just above, the sizes of other codes, those that are allowed but for any one high bit, the largest.
pub fn counts_too_large(most: usize) -> Vec<usize> {
    let mut counts = vec![most + 1, most + 8, most + DATA_BLOCK, 14392, 14393, 14400, 14401, 14592];
    counts.extend((0..64).flat_map(|at| [1 << at, (1 << at) + DATA_BLOCK, (1 << at) + most]));
    counts.extend([usize::MAX - most, usize::MAX - 1, usize::MAX]);
    counts.retain(|&count| count > most);
    counts
}

/// Code numbers that are not the right one: the other codes', unknown ones, and the right one with any bit inverted, so
/// also with another high byte alone.
pub fn other_numbers(right: u64) -> Vec<u64> {
    let mut numbers = vec![1, 2, 3, 0, 4, 255, 256, 257, (1 << 32) + 1, (1 << 56) + 1, 1 << 63, u64::MAX];
    numbers.extend((0..64).map(|at| right ^ 1 << at));
    numbers.retain(|&number| number != right);
    numbers
}

/// Sizes that a state must not have: some of its parts', near 400, and 400 where only some bits of it are looked at.
pub const OTHER_SIZES: [usize; 14] = [0, 1, 8, 16, 225, 383, 384, 385, 399, 401, 448, 656, 800, 65936];

/// The state of a stream, with a number that is not its own if faults has 12, and cut off or made longer if it has 17.
/// Where it is not cut off, its other faults are still to be seen in it.
pub fn faulty_state(random: &mut Random, faults: &[u64], mut stream: Stream) -> Vec<u8> {
    if faults.contains(&12) {
        let numbers = other_numbers(stream.number);
        // the two other codes' come first
        let choice = if random.below(3) == 0 { 2 } else { numbers.len() };
        stream.number = numbers[random.below(choice)];
    }
    let mut state = stream.state();
    if faults.contains(&17) {
        let size = if random.below(2) == 0 { 399 + 2 * random.below(2) } else { OTHER_SIZES[random.below(13)] };
        state.resize(size, [0, 255][random.below(2)]);
    }
    state
}

/// The bits held and those of a piece: too many held if faults has 7, too many together if it has 6, unused bits in the
/// last byte if it has 3. Whoever holds too many has too many together.
pub fn faulty_counts(random: &mut Random, faults: &[u64], most: usize) -> (usize, usize) {
    loop {
        let held = if faults.contains(&7) { too_many_held(random, most) } else { random.below(most + 1) };
        let left = most.saturating_sub(held);
        let count = if !faults.contains(&6) {
            random.below(if faults.contains(&7) { 3000 } else { left + 1 })
        } else if faults.contains(&2) && random.below(2) == 0 {
            // as long as it likes, as its bytes are not all there
            [1 << 16, 1 << 32, usize::MAX - held.min(20000), usize::MAX][random.below(4)]
        } else {
            left + 1 + random.below(300)
        };
        if !faults.contains(&3) || count % 8 > 0 {
            return (held, count);
        }
    }
}
