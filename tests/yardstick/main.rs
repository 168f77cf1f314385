//! Compares the archive with the yardstick over seeded cases: the answer's number, and every byte that was lent, with
//! guard bytes on both sides. The cases of the fibre code (paper.rs, lists.rs) are here, those of the coax codes
//! (coax.rs) in coax_cases.rs; streams have programs of their own. Prints how often each answer was reached and ends
//! with `N cases, M wrong`. The exit status is 1 if anything differs, or if some answer was never reached.
//! An answer that names a kind of lists is counted where it tells them from no lists at all: with the plain pair the
//! answer and the bytes must be those of paper 01, and with another pair they are counted where they are others.
//! Another seed than the usual one can be given as the only argument.

#[allow(dead_code)]
mod archive;
#[allow(dead_code)]
mod cases;
#[allow(dead_code)]
mod coax;
mod coax_cases;
mod coax_tables;
#[allow(dead_code)]
mod lists;
mod made_lists;
#[allow(dead_code)]
mod paper;
mod random;
#[allow(dead_code)]
mod stream;
mod table;

use cases::*;
use coax::Coax;
use lists::Orders;
use made_lists::*;
use paper::*;

/// The refusals of each call, in its order.
const ENCODE: [u64; 7] = [16, 1, 10, 2, 3, 4, 5];
const WORD: [u64; 4] = [16, 1, 10, 2];
const LINE: [u64; 6] = [16, 1, 10, 2, 3, 4];
const ORDERS: [(&str, &[u64]); 3] = [("encode", &ENCODE), ("word", &WORD), ("line", &LINE)];

/// How many cases of each kind are tried.
const FINE_EACH: usize = 16;
const DAMAGED_EACH: usize = 60;
const REFUSED_EACH: usize = 16;

/// All that must be reached, in the order in which it is printed.
fn names() -> Vec<String> {
    let mut names = vec!["encode written".to_string()];
    for verdict in ["word accepted", "word shortened"] {
        names.push(verdict.to_string());
    }
    for verdict in ["word check, 1 row", "word check, more rows", "word check, every row"] {
        names.push(verdict.to_string());
    }
    for verdict in ["line accepted", "line parity", "line delimiter"] {
        names.push(verdict.to_string());
    }
    for (call, order) in ORDERS {
        names.extend(order.iter().map(|n| format!("{} refusal {}", call, n)));
    }
    for (call, order) in ORDERS {
        names.extend(all_pairs(call, order));
    }
    for other in ["word shortened before check", "word shortened, checks hold", "line parity before delimiter"] {
        names.push(other.to_string());
    }
    for room in ["encode with room to spare", "encode with room one short"] {
        names.push(room.to_string());
    }
    for (call, _) in ORDERS {
        names.extend((0..8).map(|remainder| fine_by_remainder(call, remainder)));
    }
    // the check of a full word only tests the second list
    let of_word = PAIRS.iter().filter(|&&kind| kind != "second alone");
    names.extend(PAIRS.iter().map(|kind| of_kind("encode", Answer::Fine, kind)));
    for answer in [Answer::Fine, Answer::Shortened(0), Answer::Check(0, 2)] {
        names.extend(of_word.clone().map(|kind| of_kind("word", answer, kind)));
    }
    for answer in [Answer::Fine, Answer::Parity(0), Answer::Delimiter(0)] {
        names.extend(PAIRS.iter().map(|kind| of_kind("line", answer, kind)));
    }
    for (call, _) in ORDERS {
        names.extend(LISTS.iter().map(|list| with_fault(call, list)));
        names.extend(FAULTS.iter().map(|fault| with_fault(call, fault)));
    }
    names
}

fn fine_by_remainder(call: &str, remainder: usize) -> String {
    format!("{} fine, K mod 8 is {}", call, remainder)
}

/// The name of an answer with a kind of lists.
fn of_kind(call: &str, answer: Answer, kind: &str) -> String {
    let answer = match answer {
        Answer::Check(_, _) => format!("{} check", call),
        _ => name_of(call, answer, CHECKS),
    };
    format!("{}, {}", answer, kind)
}

/// The name of a refusal by what is the matter with the lists.
fn with_fault(call: &str, fault: &str) -> String {
    format!("{} 16, {}", call, fault)
}

struct Comparison {
    code: Code,
    cases: Cases,
}

/// What a call is judged by: its name, the payload count and the lists, the yardstick's answer, and whether paper 01
/// gives that too, with all bytes, for no lists.
struct Call<'a> {
    name: &'a str,
    k: usize,
    pair: &'a Pair,
    ours: Answer,
    as_without: bool,
}

impl Comparison {
    fn judge(&mut self, call: Call, made_for: Option<Answer>, told: u64, bytes_right: bool) {
        let Call { name, k, pair, ours, as_without } = call;
        let plain = pair.kind == PAIRS[0];
        self.cases.reach(&name_of(name, ours, CHECKS));
        if ours == Answer::Fine {
            self.cases.reach(&fine_by_remainder(name, k % 8));
        }
        if plain && !as_without {
            self.cases.complain(&format!("yardstick, {} K {}\n  the plain pair is not as no lists", name, k));
        }
        if plain == as_without && !matches!(ours, Answer::Refused(_)) {
            self.cases.reach(&of_kind(name, ours, pair.kind));
        }
        self.cases.judge(&format!("{} K {}, lists {}", name, k, pair.kind), ours, made_for, told, bytes_right);
    }

    fn lend(&mut self, pair: &Pair) -> LentLists {
        LentLists::new(&mut self.cases.random, &pair.lists.first, &pair.lists.second)
    }

    fn encode(&mut self, pair: &Pair, k: usize, u: &[u8], delimiter: usize, room: usize, made_for: Option<Answer>) {
        let (ours, word) = lists::encode(&self.code, &pair.lists, k, u, delimiter, room);
        let as_without = (ours, word.clone()) == self.code.encode(k, u, delimiter, room);
        let mut lists = self.lend(pair);
        let mut payload = Lent::new(&mut self.cases.random, u);
        let old = self.cases.random.bytes(room);
        let mut line = Lent::new(&mut self.cases.random, &old);
        let payload_later = payload.all.clone();
        let line_later = line.with(&word);
        let (first, second) = lists.parts();
        let told = archive::encode(k, payload.part(), delimiter, first, second, line.part());
        let bytes_right = payload.all == payload_later && line.all == line_later && lists.same();
        if ours == Answer::Fine && room > word.len() {
            self.cases.reach("encode with room to spare");
        }
        if ours == Answer::Refused(5) && room + 1 == bytes_for(line_bits(k)) {
            self.cases.reach("encode with room one short");
        }
        self.judge(Call { name: "encode", k, pair, ours, as_without }, made_for, told, bytes_right);
    }

    fn check_word(&mut self, pair: &Pair, k: usize, bytes: &[u8], made_for: Option<Answer>) {
        let ours = lists::check_word(&self.code, &pair.lists, k, bytes);
        let as_without = ours == self.code.check_word(k, bytes);
        let mut lists = self.lend(pair);
        let mut word = Lent::new(&mut self.cases.random, bytes);
        let later = word.all.clone();
        let (first, second) = lists.parts();
        let told = archive::check_word(k, word.part(), first, second);
        let bytes_right = word.all == later && lists.same();
        if let Answer::Shortened(_) = ours {
            let fails = self.code.checks(bytes).contains(&true);
            self.cases.reach(if fails { "word shortened before check" } else { "word shortened, checks hold" });
        }
        self.judge(Call { name: "word", k, pair, ours, as_without }, made_for, told, bytes_right);
    }

    fn check_line(&mut self, pair: &Pair, k: usize, bytes: &[u8], delimiter: usize, made_for: Option<Answer>) {
        let ours = lists::check_line(&self.code, &pair.lists, k, bytes, delimiter);
        let as_without = ours == self.code.check_line(k, bytes, delimiter);
        let mut lists = self.lend(pair);
        let mut line = Lent::new(&mut self.cases.random, bytes);
        let later = line.all.clone();
        let (first, second) = lists.parts();
        let told = archive::check_line(k, line.part(), delimiter, first, second);
        let bytes_right = line.all == later && lists.same();
        self.judge(Call { name: "line", k, pair, ours, as_without }, made_for, told, bytes_right);
    }

    /// Any payload count, each remainder by 8 in turn.
    fn any_count(&mut self, n: usize) -> usize {
        any_count(&mut self.cases.random, n)
    }

    fn payload(&mut self, k: usize) -> Vec<u8> {
        payload(&mut self.cases.random, k)
    }

    fn delimiter(&mut self) -> usize {
        faulty_delimiter(&mut self.cases.random, &[])
    }

    fn line_of(&mut self, orders: &Orders, k: usize, delimiter: usize) -> Vec<u8> {
        let u = self.payload(k);
        line_word(k, &lists::outer_word(&self.code, orders, k, &u), delimiter)
    }

    /// A full word of any payload, in inner order.
    fn word_of(&mut self, orders: &Orders, k: usize) -> Vec<u8> {
        let u = self.payload(k);
        let inner = lists::inner_payload(orders, &lists::padded(k, &u));
        self.code.full_word(PAYLOAD_PLACES, &inner)
    }

    /// A full word of K bits of which these rows fail, and no other.
    fn failing_word(&mut self, orders: &Orders, k: usize, rows: &[usize]) -> Vec<u8> {
        let mut checks = vec![false; CHECKS];
        for &row in rows {
            checks[row] = true;
        }
        let mut word = self.word_of(orders, k);
        for (byte, more) in word[PAYLOAD_PLACES / 8..].iter_mut().zip(self.code.parity_with(&checks)) {
            *byte ^= more;
        }
        word
    }

    fn damage(&mut self, bytes: &mut [u8], from: usize, to: usize) {
        damage(&mut self.cases.random, bytes, from, to);
    }

    /// Inverts a few bits of these places.
    fn damage_of(&mut self, bytes: &mut [u8], places: &[usize]) {
        for _ in 0..1 + self.cases.random.below(3) {
            flip(bytes, places[self.cases.random.below(places.len())]);
        }
    }

    // Cases without a fault: each with the plain pair, and with one of another kind.

    fn fine(&mut self) {
        for n in 0..FINE_EACH * 24 {
            for pair in [Pair::plain(), Pair::any_made(&mut self.cases.random, n / 24)] {
                let orders = pair.lists.read().expect("both are reorderings");
                let k = self.any_count(n);
                let u = self.payload(k);
                let delimiter = self.delimiter();
                let spare = if n % 2 == 0 { 0 } else { 1 + self.cases.random.below(80) };
                self.encode(&pair, k, &u, delimiter, bytes_for(line_bits(k)) + spare, Some(Answer::Fine));
                let word = self.word_of(&orders, k);
                self.check_word(&pair, k, &word, Some(Answer::Fine));
                let line = self.line_of(&orders, k, delimiter);
                self.check_line(&pair, k, &line, delimiter, Some(Answer::Fine));
            }
        }
    }

    /// One swap in each list, where it matters most: the last payload place and the first shortened one, the last sent
    /// parity bit and the first punctured one.
    fn swapped_at_the_edge(&mut self) {
        for n in 0..24 {
            let k = self.any_count(n);
            let pair = Pair::swapped((k - 1, k), (SENT - 1, SENT));
            let single = |place: usize| {
                let mut word = vec![0; WORD_BYTES];
                flip(&mut word, place);
                word
            };
            self.check_word(&pair, k, &single(k - 1), Some(Answer::Shortened(k - 1)));
            let rows: Vec<usize> = (0..CHECKS).filter(|&row| has_one(row, k)).collect();
            self.check_word(&pair, k, &single(k), Some(Answer::Check(rows[0], rows.len())));

            // a payload of which only the last bit is set: it goes to inner place K
            let mut u = vec![0; bytes_for(k)];
            flip(&mut u, k - 1);
            let word = self.code.full_word(PAYLOAD_PLACES, &single(k));
            self.check_word(&pair, k, &word, Some(Answer::Fine));
            let delimiter = self.delimiter();
            self.encode(&pair, k, &u, delimiter, bytes_for(line_bits(k)), Some(Answer::Fine));
            let mut line = vec![0; bytes_for(line_bits(k))];
            flip(&mut line, k - 1);
            for place in 0..SENT {
                let inner = if place == SENT - 1 { SENT } else { place };
                put(&mut line, k + place, bit(&word, PAYLOAD_PLACES + inner));
            }
            for place in 0..DELIMITER_BITS {
                put(&mut line, k + SENT + place, (delimiter >> place & 1) as u8);
            }
            self.check_line(&pair, k, &line, delimiter, Some(Answer::Fine));
            flip(&mut line, k + SENT - 1);
            self.check_line(&pair, k, &line, delimiter, Some(Answer::Parity(SENT - 1)));
        }
    }

    // Damaged words, with the same pairs.

    fn damaged(&mut self) {
        for n in 0..DAMAGED_EACH {
            for pair in [Pair::plain(), Pair::any_made(&mut self.cases.random, n)] {
                self.damaged_words(n, &pair);
                self.damaged_lines(n, &pair);
            }
        }
    }

    fn damaged_words(&mut self, n: usize, pair: &Pair) {
        let orders = &pair.lists.read().expect("both are reorderings");
        let k = self.any_count(n);
        // the inner places, lowest first, that take a payload bit, and those that are shortened
        let (carrying, shortened): (Vec<usize>, Vec<usize>) = (0..PAYLOAD_PLACES).partition(|&t| orders.first[t] < k);

        let mut word = self.word_of(orders, k);
        self.damage_of(&mut word, &carrying);
        self.check_word(pair, k, &word, None);

        let mut word = self.word_of(orders, k);
        self.damage(&mut word, PAYLOAD_PLACES, PLACES);
        self.check_word(pair, k, &word, None);

        // a punctured place alone: it counts in a full word
        let mut word = self.word_of(orders, k);
        let punctured = orders.second[SENT + self.cases.random.below(CHECKS - SENT)];
        flip(&mut word, PAYLOAD_PLACES + punctured);
        self.check_word(pair, k, &word, None);

        // one check alone fails
        let row = [0, 1, 255, 256, 2815, 2816, 3071, self.cases.random.below(CHECKS)][n % 8];
        let word = self.failing_word(orders, k, &[row]);
        self.check_word(pair, k, &word, Some(Answer::Check(row, 1)));

        // all rows from one to another fail: 2, some, or every one
        let from = [row.min(CHECKS - 2), row, 0][n % 3];
        let to = [from + 2, row + 1 + self.cases.random.below(CHECKS - row), CHECKS][n % 3];
        let word = self.failing_word(orders, k, &(from..to).collect::<Vec<_>>());
        self.check_word(pair, k, &word, Some(Answer::Check(from, to - from)));

        // of some rows, far apart, each fails
        let rows: Vec<usize> = (row..CHECKS).step_by(1 + self.cases.random.below(CHECKS)).collect();
        let word = self.failing_word(orders, k, &rows);
        self.check_word(pair, k, &word, Some(Answer::Check(row, rows.len())));

        // shortened, and checks fail: the lowest, the highest, any
        let at = [0, shortened.len() - 1, self.cases.random.below(shortened.len())][n % 3];
        let place = shortened[at];
        let mut word = self.word_of(orders, k);
        flip(&mut word, place);
        self.check_word(pair, k, &word, Some(Answer::Shortened(place)));
        self.damage_of(&mut word, &carrying);
        self.damage(&mut word, PAYLOAD_PLACES, PLACES);
        self.check_word(pair, k, &word, Some(Answer::Shortened(place)));
        self.damage_of(&mut word, &shortened);
        self.check_word(pair, k, &word, None);

        // shortened, though every check holds
        let mut inner = self.word_of(orders, k);
        flip(&mut inner, place);
        if at + 1 < shortened.len() {
            self.damage_of(&mut inner, &shortened[at + 1..]);
        }
        let word = self.code.full_word(PAYLOAD_PLACES, &inner);
        self.check_word(pair, k, &word, Some(Answer::Shortened(place)));

        // bytes with no meaning
        let word = self.cases.random.bytes(WORD_BYTES);
        self.check_word(pair, k, &word, None);
    }

    fn damaged_lines(&mut self, n: usize, pair: &Pair) {
        let orders = &pair.lists.read().expect("both are reorderings");
        let k = self.any_count(n);
        let delimiter = self.delimiter();
        let mut line = self.line_of(orders, k, delimiter);
        self.damage(&mut line, 0, k);
        self.check_line(pair, k, &line, delimiter, None);

        let place = [0, SENT - 1, self.cases.random.below(SENT)][n % 3];
        let mut line = self.line_of(orders, k, delimiter);
        flip(&mut line, k + place);
        self.check_line(pair, k, &line, delimiter, Some(Answer::Parity(place)));
        self.damage(&mut line, k, k + SENT);
        self.check_line(pair, k, &line, delimiter, None);

        let at = [0, DELIMITER_BITS - 1, self.cases.random.below(DELIMITER_BITS)][n % 3];
        let mut line = self.line_of(orders, k, delimiter);
        flip(&mut line, k + SENT + at);
        self.check_line(pair, k, &line, delimiter, Some(Answer::Delimiter(at)));
        flip(&mut line, k + place);
        self.cases.reach("line parity before delimiter");
        self.check_line(pair, k, &line, delimiter, Some(Answer::Parity(place)));

        let line = self.line_of(orders, k, delimiter);
        let other = self.delimiter();
        self.check_line(pair, k, &line, other, None);

        // bytes with no meaning
        let mut line = self.cases.random.bytes(bytes_for(line_bits(k)));
        clear_from(&mut line, line_bits(k));
        self.check_line(pair, k, &line, delimiter, None);
    }

    // Refusals: every set of faults, so also every pair whose order could be swapped.

    fn faulty_count(&mut self, n: usize, faults: &[u64], huge: bool, run: fn(usize) -> usize) -> usize {
        faulty_count(&mut self.cases.random, n, faults, huge, run)
    }

    fn faulty_run(&mut self, faults: &[u64], bits: usize) -> Vec<u8> {
        faulty_run(&mut self.cases.random, faults, bits)
    }

    fn faulty_delimiter(&mut self, faults: &[u64]) -> usize {
        faulty_delimiter(&mut self.cases.random, faults)
    }

    /// A pair of any kind, with a fault of any kind if faults has 16.
    fn faulty_pair(&mut self, faults: &[u64]) -> Pair {
        if faults.contains(&16) {
            Pair::any_spoilt(&mut self.cases.random)
        } else {
            Pair::any(&mut self.cases.random)
        }
    }

    /// The case of a call that has all these faults, and no other.
    fn refused(&mut self, call: &str, pair: &Pair, n: usize, faults: &[u64]) {
        match call {
            "encode" => self.refused_encode(pair, n, faults),
            "word" => self.refused_word(pair, n, faults),
            _ => self.refused_line(pair, n, faults),
        }
        if faults.len() == 2 {
            self.cases.reach(&before(call, faults));
        }
    }

    fn refused_encode(&mut self, pair: &Pair, n: usize, faults: &[u64]) {
        let huge = faults.contains(&2) && faults.contains(&5);
        let k = self.faulty_count(n, faults, huge, |k| k);
        let u = self.faulty_run(faults, k);
        let delimiter = self.faulty_delimiter(faults);
        let needed = bytes_for(line_bits(k));
        let room = if faults.contains(&5) {
            [needed - 1, 0, self.cases.random.below(needed)][n % 3].min(4000)
        } else {
            needed + [0, self.cases.random.below(80)][n % 2]
        };
        self.encode(pair, k, &u, delimiter, room, Some(Answer::Refused(faults[0])));
    }

    fn refused_word(&mut self, pair: &Pair, n: usize, faults: &[u64]) {
        let k = self.faulty_count(n, faults, true, |_| PLACES);
        let word = self.faulty_run(faults, PLACES);
        self.check_word(pair, k, &word, Some(Answer::Refused(faults[0])));
    }

    fn refused_line(&mut self, pair: &Pair, n: usize, faults: &[u64]) {
        let k = self.faulty_count(n, faults, faults.contains(&2), line_bits);
        let line = self.faulty_run(faults, line_bits(k));
        let delimiter = self.faulty_delimiter(faults);
        self.check_line(pair, k, &line, delimiter, Some(Answer::Refused(faults[0])));
    }

    fn all_refused(&mut self) {
        for (call, order) in ORDERS {
            for faults in sets_of(order) {
                for n in 0..REFUSED_EACH {
                    let pair = self.faulty_pair(&faults);
                    self.refused(call, &pair, n, &faults);
                }
            }
        }
    }

    /// Every fault of either list and of both, alone and together with each other fault of the call.
    fn lists_at_fault(&mut self) {
        for (call, order) in ORDERS {
            for list in LISTS {
                for (n, fault) in FAULTS.iter().enumerate() {
                    for other in order {
                        let both = [16, *other];
                        let faults = if *other == 16 { &both[..1] } else { &both[..] };
                        let pair = Pair::any(&mut self.cases.random);
                        let pair = pair.spoilt(&mut self.cases.random, list, fault);
                        self.refused(call, &pair, n, faults);
                        self.cases.reach(&with_fault(call, list));
                        self.cases.reach(&with_fault(call, fault));
                    }
                }
            }
        }
    }

    /// What paper 01 says of the table and of single places, and W2 of the lists, told of the yardstick itself.
    fn yardstick_itself(&mut self) {
        let present = |line: &[i16; 12]| line.iter().filter(|&&entry| entry != -1).count();
        let in_range = table::TABLE.iter().flatten().all(|entry| (-1..=255).contains(entry));
        let all: usize = table::TABLE.iter().map(present).sum();
        let of_parity: usize = table::TABLE[57..].iter().map(present).sum();
        if !in_range || all != 275 || of_parity != 53 {
            self.cases.complain("yardstick, facts of the table");
        }
        let lessons: [(usize, &[usize]); 5] = [
            (0, &[176, 919, 1655, 2304, 2607, 3019]),
            (255, &[175, 918, 1654, 2559, 2606, 3018]),
            (256, &[256, 677, 1110, 1490, 1930, 2096]),
            (14391, &[311, 1214, 2677]),
            (14592, &[551, 1024, 1633]),
        ];
        for (place, expected) in lessons {
            let found: Vec<usize> = (0..CHECKS).filter(|&check| has_one(check, place)).collect();
            if found != expected {
                self.cases.complain(&format!("yardstick, checks of place {}", place));
            }
        }
        // a single payload bit, and a single check: where they stand in inner and in outgoing order
        let pair = Pair::made(&mut self.cases.random, "shuffled");
        let orders = pair.lists.read().expect("both are reorderings");
        for _ in 0..16 {
            let t = self.cases.random.below(PAYLOAD_PLACES);
            let mut outer = vec![0; PAYLOAD_PLACES / 8];
            flip(&mut outer, orders.first[t]);
            let mut inner = vec![0; PAYLOAD_PLACES / 8];
            flip(&mut inner, t);
            if lists::inner_payload(&orders, &outer) != inner {
                self.cases.complain(&format!("yardstick, inner place {}", t));
            }
            let word = self.code.full_word(PAYLOAD_PLACES, &inner);
            let line = lists::outer_word(&self.code, &orders, PAYLOAD_PLACES, &outer);
            let at = self.cases.random.below(CHECKS);
            if bit(&line, PAYLOAD_PLACES + at) != bit(&word, PAYLOAD_PLACES + orders.second[at]) {
                self.cases.complain(&format!("yardstick, outgoing place {}", at));
            }
        }
    }
}

fn main() {
    let coax = [(Coax::code_16200(), archive::COAX_16200), (Coax::code_5940(), archive::COAX_5940)];
    let mut all = names();
    all.extend(coax.iter().flat_map(|(code, _)| coax_cases::names(code)));
    let mut comparison = Comparison { code: Code::new(), cases: Cases::new(all) };
    comparison.yardstick_itself();
    comparison.fine();
    comparison.swapped_at_the_edge();
    comparison.damaged();
    comparison.all_refused();
    comparison.lists_at_fault();
    for (code, calls) in &coax {
        coax_cases::run(code, calls, &mut comparison.cases);
    }
    comparison.cases.end();
}
