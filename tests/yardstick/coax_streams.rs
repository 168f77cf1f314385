//! Compares a coax stream's piece and finish, and complete, with the yardstick (coax.rs) over seeded cases, for both
//! codes. Complete is not at the C boundary, so it goes through the archive of `measured`. The answer's number is
//! compared, and every byte that was lent, with guard bytes on both sides; so is all of a stream's state after every
//! call. Prints how often each answer was reached and ends with `N cases, M wrong`. The exit status is 1 if anything
//! differs, or if some answer was never reached.
//! Streams of several codes, and long runs of calls on one state, are in mixed_streams.rs.
//! Another seed than the usual one can be given as the only argument.

#[allow(dead_code)]
mod archive;
#[allow(dead_code)]
mod cases;
#[allow(dead_code)]
mod coax;
mod coax_tables;
#[allow(dead_code)]
#[path = "../bench/measured.rs"]
mod measured;
#[allow(dead_code)]
mod paper;
mod random;
#[allow(dead_code)]
mod stream;
mod table;

use cases::*;
use coax::Coax;
use paper::{bit, bytes_for, flip, part, put, Answer};
use stream::{on_state, Stream};

/// The refusals of each operation, in its order. Those of complete are the code's.
const PIECE: [u64; 6] = [17, 12, 7, 2, 3, 6];
const FINISH: [u64; 5] = [17, 12, 7, 1, 5];

/// How many cases or streams of each kind are tried.
const FINE_EACH: usize = 120;
const STREAMS_EACH: usize = 50;
const OUTSIDE_EACH: usize = 120;
const REFUSED_EACH: usize = 24;

const CHECK_BYTES: usize = 384;

/// What is reached beside the answers.
const OTHERS: [&str; 29] = [
    "piece of 0 bits",
    "piece of 1 bit",
    "piece of the whole payload",
    "piece refused in between",
    "piece on a stream handed back",
    "piece, any checks in use",
    "piece, ones past the checks",
    "piece 7, too many bits held",
    "piece 7, one past the checks",
    "piece, each check in use",
    "piece, each place past them",
    "piece 12, every number",
    "piece 7, every count",
    "piece 17, every size",
    "finish with room to spare",
    "finish with room one short",
    "finish refused in between",
    "finish, any checks in use",
    "finish, ones past the checks",
    "finish 7, too many bits held",
    "finish 7, one past the checks",
    "finish, checks in use alone",
    "finish, each place past them",
    "finish as the encoder's parity",
    "finish leaves it fresh",
    "finish again",
    "finish 12, every number",
    "finish 7, every count",
    "finish 17, every size",
];

fn piece_inside_byte(place: usize) -> String {
    format!("piece from bit {} of a byte", place % 8)
}

/// All that must be reached, in the order in which it is printed.
fn names(code: &Coax) -> Vec<String> {
    let (complete, piece, finish) = (code.call("complete"), code.call("piece"), code.call("finish"));
    let orders: [(&str, &[u64]); 3] = [(&complete, code.word_refusals()), (&piece, &PIECE), (&finish, &FINISH)];
    let mut names = Vec::new();
    for (call, order) in orders {
        names.push(name_of(call, Answer::Fine, code.parity));
        names.extend(order.iter().map(|n| format!("{} refusal {}", call, n)));
    }
    for (call, order) in orders {
        names.extend(all_pairs(call, order));
    }
    names.extend(OTHERS.map(|name| code.call(name)));
    names.extend((0..8).map(|place| code.call(&piece_inside_byte(place))));
    names
}

struct Comparison<'a> {
    code: &'a Coax,
    calls: &'a archive::CoaxCalls,
    measured: &'a measured::CoaxCalls,
    cases: &'a mut Cases,
}

impl Comparison<'_> {
    fn below(&mut self, limit: usize) -> usize {
        self.cases.random.below(limit)
    }

    fn reach(&mut self, name: &str) {
        self.cases.reach(&self.code.call(name));
    }

    fn pair(&mut self, call: &str, faults: &[u64]) {
        if faults.len() == 2 {
            self.cases.reach(&before(&self.code.call(call), faults));
        }
    }

    fn judge(&mut self, call: &str, about: String, ours: Answer, meant: Answer, told: u64, bytes_right: bool) {
        let call = self.code.call(call);
        self.cases.reach(&name_of(&call, ours, self.code.parity));
        self.cases.judge(&format!("{}, {}", call, about), ours, Some(meant), told, bytes_right);
    }

    // Complete

    fn complete(&mut self, bits: usize, bytes: &[u8], meant: Answer) {
        let mut later = bytes.to_vec();
        let ours = self.code.complete(bits, &mut later);
        let mut word = Lent::new(&mut self.cases.random, bytes);
        let all_later = word.with(&later);
        let told = self.measured.complete(bits, word.part());
        let bytes_right = word.all == all_later;
        self.judge("complete", format!("{} bits", bits), ours, meant, told, bytes_right);
    }

    fn completed(&mut self) {
        let code = self.code;
        for n in 0..FINE_EACH {
            let mut word = payload(&mut self.cases.random, code.payload);
            // the parity that stands there: any, none, ones, or the right one
            word.extend(self.cases.random.bytes(code.word_bytes() - word.len()));
            match n % 4 {
                0 => clear_from(&mut word, code.payload),
                1 => word[code.payload / 8..].fill(255),
                2 => word = code.full_word(&word[..code.payload / 8]),
                _ => {}
            }
            clear_from(&mut word, code.places);
            self.complete(code.payload, &word, Answer::Fine);
        }
        for faults in sets_of(code.word_refusals()) {
            for _ in 0..REFUSED_EACH {
                let right = code.payload;
                let bits = if faults.contains(&1) { other_count(&mut self.cases.random, right) } else { right };
                let word = faulty_word(&mut self.cases.random, &faults, code.places);
                self.pair("complete", &faults);
                self.complete(bits, &word, Answer::Refused(faults[0]));
            }
        }
    }

    // The stream

    fn state(&mut self, ours: Vec<u8>) -> State {
        State::new(&mut self.cases.random, ours)
    }

    /// The code's own stream, of these bits held and these running checks.
    fn own(&self, held: usize, checks: Vec<u8>) -> Stream {
        Stream { number: self.code.number, held, checks }
    }

    fn piece(&mut self, state: &mut State, count: usize, bytes: &[u8], meant: Answer) {
        let held = state.held();
        let (ours, ()) = on_state(&mut state.ours, |stream| (self.code.piece(stream, count, bytes), ()));
        let mut lent = Lent::new(&mut self.cases.random, bytes);
        let lent_later = lent.all.clone();
        let (told, state_right) = state.call(|state| self.calls.piece(state, count, lent.part()));
        let bytes_right = lent.all == lent_later && state_right;
        if ours == Answer::Fine {
            self.reach(&piece_inside_byte(held));
            for (size, name) in [(0, OTHERS[0]), (1, OTHERS[1]), (self.code.payload, OTHERS[2])] {
                if count == size {
                    self.reach(name);
                }
            }
        }
        self.judge("piece", format!("held {}, {} bits", held, count), ours, meant, told, bytes_right);
    }

    fn finish(&mut self, state: &mut State, room: usize, meant: Answer) -> Vec<u8> {
        let held = state.held();
        let (ours, written) = on_state(&mut state.ours, |stream| self.code.finish(stream, room));
        let old = self.cases.random.bytes(room);
        let mut parity = Lent::new(&mut self.cases.random, &old);
        let parity_later = parity.with(&written);
        let (told, state_right) = state.call(|state| self.calls.finish(state, parity.part()));
        let bytes_right = parity.all == parity_later && state_right;
        if ours == Answer::Fine && room > written.len() {
            self.reach("finish with room to spare");
        }
        if ours == Answer::Refused(5) && room + 1 == self.code.parity_bytes() {
            self.reach("finish with room one short");
        }
        self.judge("finish", format!("held {}, room {}", held, room), ours, meant, told, bytes_right);
        written
    }

    /// The size of the next piece, where so many bits are still to come.
    fn size(&mut self, left: usize) -> usize {
        let block = self.code.block;
        let size = match self.below(8) {
            0 => 0,
            1 => 1,
            2 => 1 + self.below(16),
            3 => block - 1 + self.below(3),
            4 => block,
            5 => 8 * self.below(200),
            6 if self.below(4) == 0 => left,
            _ => self.below(3000),
        };
        size.min(left)
    }

    /// A piece that is refused, for a stream that claims no more than a payload.
    fn refused_piece(&mut self, state: &mut State) {
        let left = self.code.payload - state.held();
        let fault = [2, 3, 6][self.below(3)];
        let count = if fault == 6 { left + 1 + self.below(100) } else { 1 + 8 * self.below(40) };
        let bytes = faulty_run(&mut self.cases.random, &[fault], count);
        self.reach("piece refused in between");
        self.piece(state, count, &bytes, Answer::Refused(fault));
    }

    /// Feeds a payload to a fresh stream, in pieces of the sizes that are given by turns, and finishes it.
    fn stream(
        &mut self,
        state: &mut State,
        u: &[u8],
        mut size: impl FnMut(&mut Self, usize) -> usize,
        disturbed: bool,
    ) {
        let (bits, needed) = (self.code.payload, self.code.parity_bytes());
        while state.held() < bits {
            let held = state.held();
            let count = size(self, bits - held);
            self.piece(state, count, &part(u, held, count), Answer::Fine);
            if disturbed && self.below(4) == 0 {
                self.refused_piece(state);
            }
            if disturbed && state.held() < bits && self.below(8) == 0 {
                self.reach("finish refused in between");
                self.finish(state, needed, Answer::Refused(1));
            }
        }
        if disturbed {
            self.piece(state, 0, &[], Answer::Fine);
            self.piece(state, 1, &[1], Answer::Refused(6));
            self.finish(state, needed - 1, Answer::Refused(5));
        }
        let spare = [0, self.below(80)][usize::from(disturbed)];
        let parity = self.finish(state, needed + spare, Answer::Fine);
        if state.is_fresh(if bits == 14400 { 2 } else { 3 }) {
            self.reach("finish leaves it fresh");
        } else {
            self.cases.complain(&format!("yardstick, {}, finish hands back another stream", self.code.places));
        }

        // beside the word that the encoder writes
        let mut word = vec![0; self.code.word_bytes()];
        let told = self.calls.encode(bits, u, &mut word);
        self.reach("finish as the encoder's parity");
        self.cases.compare(&self.code.call("encode"), 0, told, word[bits / 8..] == parity);

        self.reach("finish again");
        self.finish(state, needed, Answer::Refused(1));
    }

    /// Two streams by turns, each for many payloads: what a finish hands back takes the next.
    fn streams(&mut self) {
        let bits = self.code.payload;
        let fresh = Stream::fresh(self.code.number).state();
        let mut states = [self.state(fresh.clone()), self.state(fresh)];
        for n in 0..STREAMS_EACH {
            let state = &mut states[n % 2];
            if n > 1 {
                self.reach("piece on a stream handed back");
            }
            let u = match n {
                0 => vec![0; bytes_for(bits)],
                1 => vec![255; bytes_for(bits)],
                _ => payload(&mut self.cases.random, bits),
            };
            match n {
                // whole, by blocks, by single bits
                2 => self.stream(state, &u, |_, left| left, false),
                3 => self.stream(state, &u, |us, left| us.code.block.min(left), false),
                4 => self.stream(state, &u, |_, _| 1, false),
                _ => self.stream(state, &u, |us, left| us.size(left), true),
            }
        }
    }

    /// Running checks from outside that are allowed: ones, the last one in use alone, or any; none past them.
    fn outside_checks(&mut self, n: usize) -> Vec<u8> {
        let mut checks = self.cases.random.bytes(CHECK_BYTES);
        match n % 4 {
            0 => checks.fill(255),
            1 => {
                checks.fill(0);
                flip(&mut checks, self.code.parity - 1);
            }
            _ => {}
        }
        clear_from(&mut checks, self.code.parity);
        checks
    }

    /// The same with ones past the checks in use: the first place past them, the last byte's first bit, the last bit,
    /// any one, several, or all. Those in use are as above, or 0.
    fn checks_past(&mut self, n: usize) -> Vec<u8> {
        let (from, to) = (self.code.parity, 8 * CHECK_BYTES);
        let mut checks = if n / 6 % 3 == 0 { vec![0; CHECK_BYTES] } else { self.outside_checks(n / 6) };
        match n % 6 {
            0 => flip(&mut checks, from),
            1 => flip(&mut checks, to - 8),
            2 => flip(&mut checks, to - 1),
            3 => flip(&mut checks, from + self.below(to - from)),
            4 => {
                flip(&mut checks, from + self.below(to - from));
                (from..to).step_by(1 + self.below(400)).for_each(|place| put(&mut checks, place, 1));
            }
            _ => (from..to).for_each(|place| flip(&mut checks, place)),
        }
        checks
    }

    /// States that no fresh stream leads to.
    fn outside(&mut self) {
        let (bits, needed) = (self.code.payload, self.code.parity_bytes());
        for n in 0..OUTSIDE_EACH {
            let held = [0, bits - 1, bits, self.below(bits)][n / 4 % 4];
            let count = if n % 2 == 0 { bits - held } else { self.size(bits - held) };
            let mut piece = self.cases.random.bytes(bytes_for(count));
            clear_from(&mut piece, count);
            let (checks, past) = (self.outside_checks(n), self.checks_past(n));
            let mut state = self.state(self.own(held, checks).state());
            self.reach("piece, any checks in use");
            self.piece(&mut state, count, &piece, Answer::Fine);
            let mut state = self.state(self.own(held, past).state());
            self.reach("piece, ones past the checks");
            self.piece(&mut state, count, &piece, Answer::Refused(7));

            let (checks, past) = (self.outside_checks(n), self.checks_past(n));
            let mut state = self.state(self.own(bits, checks).state());
            self.reach("finish, any checks in use");
            self.finish(&mut state, needed + n % 3, Answer::Fine);
            let mut state = self.state(self.own(bits, past).state());
            self.reach("finish, ones past the checks");
            self.finish(&mut state, needed + n % 3, Answer::Refused(7));
        }
    }

    /// A 1 in each place of the running checks, alone: in use or past them.
    fn single_checks(&mut self) {
        let (bits, needed, in_use) = (self.code.payload, self.code.parity_bytes(), self.code.parity);
        for place in 0..8 * CHECK_BYTES {
            let answer = if place < in_use { Answer::Fine } else { Answer::Refused(7) };
            let mut checks = vec![0; CHECK_BYTES];
            flip(&mut checks, place);
            let mut state = self.state(self.own(place, checks.clone()).state());
            self.reach(if place < in_use { "piece, each check in use" } else { "piece, each place past them" });
            self.piece(&mut state, 9, &[255, 1], answer);

            // the parity takes long to find, so not for each check in use
            if place >= in_use || place < 8 || place + 8 >= in_use || place % 61 == 0 {
                let mut state = self.state(self.own(bits, checks).state());
                self.reach(if place < in_use { "finish, checks in use alone" } else { "finish, each place past them" });
                self.finish(&mut state, needed, answer);
            }
        }
    }

    /// A stream that is refused, by a piece and by a finish that have no fault of their own.
    fn refused_stream(&mut self, stream: &Stream, refusal: u64) {
        let state = stream.state();
        let count = self.below(100);
        let bytes = faulty_run(&mut self.cases.random, &[], count);
        let mut lent = self.state(state.clone());
        self.piece(&mut lent, count, &bytes, Answer::Refused(refusal));
        let mut lent = self.state(state);
        self.finish(&mut lent, self.code.parity_bytes(), Answer::Refused(refusal));
    }

    /// Every number of other_numbers, of a fresh stream, of one that could go on and of one that could be finished;
    /// every count of counts_too_large.
    fn states_refused(&mut self) {
        let bits = self.code.payload;
        for number in other_numbers(self.code.number) {
            for held in [0, bits / 2, bits] {
                let checks = if held == 0 { vec![0; CHECK_BYTES] } else { self.outside_checks(2) };
                self.refused_stream(&Stream { number, held, checks }, 12);
            }
            self.reach("piece 12, every number");
            self.reach("finish 12, every number");
        }
        for held in counts_too_large(bits) {
            let checks = self.outside_checks(2);
            self.refused_stream(&self.own(held, checks), 7);
            self.reach("piece 7, every count");
            self.reach("finish 7, every count");
        }
    }

    // Refusals: every set of faults, so also every pair whose order could be swapped.

    /// What is the matter with a stream that 7 refuses, by turns: too many bits held, a 1 past the checks in use, both.
    fn faults_of_7(&mut self, call: &str, n: usize, faults: &[u64]) -> (bool, bool) {
        if !faults.contains(&7) {
            return (false, false);
        }
        let (many, past) = (n % 3 != 0, n % 3 != 1);
        if faults[0] == 7 {
            if many {
                self.reach(&format!("{} 7, too many bits held", call));
            }
            if past {
                self.reach(&format!("{} 7, one past the checks", call));
            }
        }
        (many, past)
    }

    /// The state of the code's own stream, with such faults.
    fn faulty_state(&mut self, faults: &[u64], n: usize, held: usize, past: bool) -> State {
        let checks = if past { self.checks_past(n / 3) } else { self.outside_checks(n) };
        let stream = self.own(held, checks);
        let state = faulty_state(&mut self.cases.random, faults, stream);
        self.state(state)
    }

    fn refused_streams(&mut self) {
        let (bits, needed) = (self.code.payload, self.code.parity_bytes());
        for faults in sets_of(&PIECE) {
            for n in 0..REFUSED_EACH {
                let (many, past) = self.faults_of_7("piece", n, &faults);
                let of_counts: Vec<u64> = faults.iter().copied().filter(|&fault| many || fault != 7).collect();
                let (held, count) = faulty_counts(&mut self.cases.random, &of_counts, bits);
                let bytes = faulty_run(&mut self.cases.random, &faults, count);
                let mut state = self.faulty_state(&faults, n, held, past);
                self.pair("piece", &faults);
                self.piece(&mut state, count, &bytes, Answer::Refused(faults[0]));
            }
        }
        for faults in sets_of(&FINISH) {
            for n in 0..REFUSED_EACH {
                let (many, past) = self.faults_of_7("finish", n, &faults);
                let held = if many {
                    too_many_held(&mut self.cases.random, bits)
                } else if faults.contains(&1) {
                    [0, bits - 1, bits - 8, bits - bits % 257, self.below(bits)][n % 5]
                } else {
                    bits
                };
                let room = if faults.contains(&5) {
                    [needed - 1, 0, self.below(needed)][n % 3]
                } else {
                    needed + [0, self.below(80)][n % 2]
                };
                let mut state = self.faulty_state(&faults, n, held, past);
                self.pair("finish", &faults);
                self.finish(&mut state, room, Answer::Refused(faults[0]));
            }
        }
    }

    /// A state of another size: cut off or made longer, of a stream that is fine, and any bytes, beside faults of the
    /// call.
    fn other_sizes(&mut self) {
        let (bits, needed, refused) = (self.code.payload, self.code.parity_bytes(), Answer::Refused(17));
        for size in OTHER_SIZES {
            let any = self.cases.random.bytes(size);
            let mut fine = self.own(bits - 8, vec![0; CHECK_BYTES]).state();
            fine.resize(size, 0);
            let mut state = self.state(fine);
            self.reach("piece 17, every size");
            self.piece(&mut state, 8, &[255], refused);
            let mut state = self.state(any.clone());
            self.piece(&mut state, 9, &[255], refused);

            let mut fine = self.own(bits, vec![0; CHECK_BYTES]).state();
            fine.resize(size, 0);
            let mut state = self.state(fine);
            self.reach("finish 17, every size");
            self.finish(&mut state, needed, refused);
            let mut state = self.state(any);
            self.finish(&mut state, 0, refused);
        }
    }

    /// The parity of a finish has the checks that were held, told of the yardstick itself.
    fn yardstick_itself(&mut self) {
        let checks = self.outside_checks(2);
        let mut stream = self.own(self.code.payload, checks.clone());
        let (_, parity) = self.code.finish(&mut stream, CHECK_BYTES);
        let mut word = vec![0; self.code.payload / 8];
        word.extend(parity);
        let expected: Vec<bool> = (0..self.code.parity).map(|check| bit(&checks, check) == 1).collect();
        if self.code.checks(&word) != expected {
            self.cases.complain(&format!("yardstick, {}, the checks of a finish", self.code.places));
        }
    }
}

fn main() {
    let codes = [
        (Coax::code_16200(), archive::COAX_16200, measured::COAX_16200),
        (Coax::code_5940(), archive::COAX_5940, measured::COAX_5940),
    ];
    let mut cases = Cases::new(codes.iter().flat_map(|(code, _, _)| names(code)).collect());
    for (code, calls, measured) in &codes {
        let mut comparison = Comparison { code, calls, measured, cases: &mut cases };
        comparison.yardstick_itself();
        comparison.completed();
        comparison.streams();
        comparison.outside();
        comparison.single_checks();
        comparison.states_refused();
        comparison.refused_streams();
        comparison.other_sizes();
    }
    cases.end();
}
