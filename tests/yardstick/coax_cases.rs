//! The cases of a coax code for encode and check. Its other operations are compared by coax_streams.rs.

use crate::archive::CoaxCalls;
use crate::cases::*;
use crate::coax::Coax;
use crate::paper::{bit, bytes_for, flip, Answer};

/// The refusals of encode, in its order. Those of the check are the code's.
const ENCODE: [u64; 3] = [1, 2, 5];

/// How many cases of each kind are tried.
const FINE_EACH: usize = 120;
const DAMAGED_EACH: usize = 60;
const REFUSED_EACH: usize = 24;

/// What W8 and source document 001 say of a code: the bits of payload and parity; the blocks that are not zero, in all
/// and in the parity columns; the checks of some places.
struct Facts {
    sizes: (usize, usize),
    present: (usize, usize),
    checks: [(usize, &'static [usize]); 4],
}

const FACTS_16200: Facts = Facts {
    sizes: (14400, 1800),
    present: (169, 9),
    checks: [(0, &[267, 446, 946, 1547]), (14399, &[199, 690, 1016, 1741]), (14400, &[217, 614]), (16199, &[1799])],
};

const FACTS_5940: Facts = Facts {
    sizes: (5040, 900),
    present: (131, 9),
    checks: [(0, &[38, 306, 477, 692, 848]), (5039, &[275, 401, 701, 738]), (5040, &[158, 259]), (5939, &[880])],
};

/// All that must be reached, in the order in which it is printed.
pub fn names(code: &Coax) -> Vec<String> {
    let (encode, word) = (code.call("encode"), code.call("word"));
    let mut names = vec![format!("{} written", encode), format!("{} accepted", word)];
    names.extend(["1 row", "more rows", "every row"].map(|rows| format!("{} check, {}", word, rows)));
    let orders: [(&str, &[u64]); 2] = [(&encode, &ENCODE), (&word, code.word_refusals())];
    for (call, order) in orders {
        names.extend(order.iter().map(|n| format!("{} refusal {}", call, n)));
    }
    for (call, order) in orders {
        names.extend(all_pairs(call, order));
    }
    names.extend(["to spare", "one short"].map(|room| format!("{} with room {}", encode, room)));
    names
}

struct Comparison<'a> {
    code: &'a Coax,
    calls: &'a CoaxCalls,
    cases: &'a mut Cases,
}

impl Comparison<'_> {
    fn judge(&mut self, call: &str, bits: usize, ours: Answer, meant: Option<Answer>, told: u64, bytes_right: bool) {
        self.cases.reach(&name_of(call, ours, self.code.parity));
        self.cases.judge(&format!("{}, {} bits", call, bits), ours, meant, told, bytes_right);
    }

    fn encode(&mut self, bits: usize, u: &[u8], room: usize, made_for: Answer) {
        let call = self.code.call("encode");
        let (ours, written) = self.code.encode(bits, u, room);
        let mut payload = Lent::new(&mut self.cases.random, u);
        let old = self.cases.random.bytes(room);
        let mut word = Lent::new(&mut self.cases.random, &old);
        let payload_later = payload.all.clone();
        let word_later = word.with(&written);
        let told = self.calls.encode(bits, payload.part(), word.part());
        let bytes_right = payload.all == payload_later && word.all == word_later;
        if ours == Answer::Fine && room > written.len() {
            self.cases.reach(&format!("{} with room to spare", call));
        }
        if ours == Answer::Refused(5) && room + 1 == self.code.word_bytes() {
            self.cases.reach(&format!("{} with room one short", call));
        }
        self.judge(&call, bits, ours, Some(made_for), told, bytes_right);
    }

    fn check(&mut self, bits: usize, bytes: &[u8], made_for: Option<Answer>) {
        let ours = self.code.check(bits, bytes);
        let mut word = Lent::new(&mut self.cases.random, bytes);
        let later = word.all.clone();
        let told = self.calls.check(bits, word.part());
        let bytes_right = word.all == later;
        self.judge(&self.code.call("word"), bits, ours, made_for, told, bytes_right);
    }

    /// The check of a word with the right count of bits.
    fn judge_word(&mut self, word: &[u8], made_for: Option<Answer>) {
        self.check(self.code.payload, word, made_for);
    }

    fn word(&mut self) -> Vec<u8> {
        let u = payload(&mut self.cases.random, self.code.payload);
        self.code.full_word(&u)
    }

    /// A word of which these rows fail, and no other.
    fn failing_word(&mut self, rows: &[usize]) -> Vec<u8> {
        let mut checks = vec![false; self.code.parity];
        for &row in rows {
            checks[row] = true;
        }
        let mut word = self.word();
        for (byte, more) in word[self.code.payload / 8..].iter_mut().zip(self.code.parity_with(&checks)) {
            *byte ^= more;
        }
        word
    }

    fn below(&mut self, limit: usize) -> usize {
        self.cases.random.below(limit)
    }

    /// The first and the last place of each block, and any.
    fn places_of_blocks(&mut self, until: usize) -> Vec<usize> {
        let size = self.code.block;
        let random = &mut self.cases.random;
        (0..until).step_by(size).flat_map(|from| [from, from + size - 1, from + random.below(size)]).collect()
    }

    fn fine(&mut self) {
        let (bits, needed) = (self.code.payload, self.code.word_bytes());
        for n in 0..FINE_EACH {
            let u = match n {
                0 => vec![0; bytes_for(bits)],
                1 => vec![255; bytes_for(bits)],
                _ => payload(&mut self.cases.random, bits),
            };
            let spare = if n % 2 == 0 { 0 } else { 1 + self.below(80) };
            self.encode(bits, &u, needed + spare, Answer::Fine);
            let word = self.code.full_word(&u);
            self.judge_word(&word, Some(Answer::Fine));
        }
        for place in self.places_of_blocks(bits) {
            let mut u = vec![0; bytes_for(bits)];
            flip(&mut u, place);
            self.encode(bits, &u, needed, Answer::Fine);
        }
    }

    /// Words with one place alone, in the table's terms.
    fn single_places(&mut self) {
        for place in self.places_of_blocks(self.code.places) {
            let mut word = vec![0; self.code.word_bytes()];
            flip(&mut word, place);
            let rows: Vec<usize> = (0..self.code.parity).filter(|&row| self.code.has_one(row, place)).collect();
            self.judge_word(&word, Some(Answer::Check(rows[0], rows.len())));
        }
    }

    fn damaged(&mut self) {
        let (code, rows) = (self.code, self.code.parity);
        for n in 0..DAMAGED_EACH {
            let mut word = self.word();
            damage(&mut self.cases.random, &mut word, 0, code.payload);
            self.judge_word(&word, None);

            let mut word = self.word();
            damage(&mut self.cases.random, &mut word, code.payload, code.places);
            self.judge_word(&word, None);

            // one check alone fails
            let edges = [0, 1, code.block - 1, code.block, rows - code.block - 1, rows - code.block, rows - 1];
            let row = if n % 8 < 7 { edges[n % 8] } else { self.below(rows) };
            let word = self.failing_word(&[row]);
            self.judge_word(&word, Some(Answer::Check(row, 1)));

            // all rows from one to another fail: 2, some, or every one
            let from = [row.min(rows - 2), row, 0][n % 3];
            let to = [from + 2, row + 1 + self.below(rows - row), rows][n % 3];
            let word = self.failing_word(&(from..to).collect::<Vec<_>>());
            self.judge_word(&word, Some(Answer::Check(from, to - from)));

            // of some rows, far apart, each fails
            let some: Vec<usize> = (row..rows).step_by(1 + self.below(rows)).collect();
            let word = self.failing_word(&some);
            self.judge_word(&word, Some(Answer::Check(row, some.len())));

            // bytes with no meaning
            let mut word = self.cases.random.bytes(code.word_bytes());
            clear_from(&mut word, code.places);
            self.judge_word(&word, None);

            // an unused bit, though every check holds
            if code.places % 8 > 0 {
                let mut word = self.word();
                flip(&mut word, code.places + n % (8 - code.places % 8));
                self.judge_word(&word, Some(Answer::Refused(3)));
            }
        }
    }

    // Refusals: every set of faults, so also every pair whose order could be swapped.

    fn refused_encodes(&mut self) {
        let (right, needed) = (self.code.payload, self.code.word_bytes());
        for faults in sets_of(&ENCODE) {
            for n in 0..REFUSED_EACH {
                let bits = if faults.contains(&1) { other_count(&mut self.cases.random, right) } else { right };
                // the bytes that the bits take are no excuse for another count
                let run = if n % 2 == 0 && bits < 20000 { bits } else { right };
                let u = faulty_run(&mut self.cases.random, &faults, run);
                let room = if faults.contains(&5) {
                    [needed - 1, 0, self.below(needed)][n % 3]
                } else {
                    needed + [0, self.below(80)][n % 2]
                };
                if faults.len() == 2 {
                    self.cases.reach(&before(&self.code.call("encode"), &faults));
                }
                self.encode(bits, &u, room, Answer::Refused(faults[0]));
            }
        }
    }

    fn refused_words(&mut self) {
        for faults in sets_of(self.code.word_refusals()) {
            for _ in 0..REFUSED_EACH {
                let right = self.code.payload;
                let bits = if faults.contains(&1) { other_count(&mut self.cases.random, right) } else { right };
                let word = faulty_word(&mut self.cases.random, &faults, self.code.places);
                if faults.len() == 2 {
                    self.cases.reach(&before(&self.code.call("word"), &faults));
                }
                self.check(bits, &word, Some(Answer::Refused(faults[0])));
            }
        }
    }

    fn yardstick_itself(&mut self) {
        let (code, facts) = (self.code, if self.code.places == 16200 { &FACTS_16200 } else { &FACTS_5940 });
        let in_range = |entry: &i16| (-1..code.block as i16).contains(entry);
        let entries = |from: usize| code.table.iter().flat_map(move |row| &row[from..]);
        let present = |from: usize| entries(from).filter(|&&entry| entry != -1).count();
        let counted = (present(0), present(code.payload / code.block));
        if !entries(0).all(in_range) || (code.payload, code.parity) != facts.sizes || counted != facts.present {
            self.cases.complain(&format!("yardstick, facts of the table of {}", code.places));
        }
        for (place, expected) in facts.checks {
            if code.checks_of(place) != expected {
                self.cases.complain(&format!("yardstick, {}, checks of place {}", code.places, place));
            }
        }
        // the rows of a word, one by one
        let word = self.word();
        let ones: Vec<usize> = (0..code.places).filter(|&place| bit(&word, place) == 1).collect();
        let fails = |row: usize| ones.iter().filter(|&&place| code.has_one(row, place)).count() % 2 == 1;
        if (0..code.parity).any(fails) {
            self.cases.complain(&format!("yardstick, {}, a row of a word fails", code.places));
        }
    }
}

pub fn run(code: &Coax, calls: &CoaxCalls, cases: &mut Cases) {
    let mut comparison = Comparison { code, calls, cases };
    comparison.yardstick_itself();
    comparison.fine();
    comparison.single_places();
    comparison.damaged();
    comparison.refused_encodes();
    comparison.refused_words();
}
