//! Compares the six stream calls of the archive with the yardstick (lists.rs, coax.rs) where streams of several codes
//! meet: each code's stream in each other code's calls, and long seeded runs of accepted and refused calls, with one
//! state carried through a run. The answer's number is compared, and every byte that was lent, with guard bytes on both
//! sides; so is all of the state after every call. Prints how often each answer was reached and ends with `N cases, M
//! wrong`. The exit status is 1 if anything differs, or if some answer was never reached.
//! Each code's own streams, and every set of its refusals, are in fibre_streams.rs and coax_streams.rs.
//! Another seed than the usual one can be given as the only argument.

#[allow(dead_code)]
mod archive;
#[allow(dead_code)]
mod cases;
#[allow(dead_code)]
mod coax;
mod coax_tables;
#[allow(dead_code)]
mod lists;
#[allow(dead_code)]
mod made_lists;
#[allow(dead_code)]
mod paper;
mod random;
#[allow(dead_code)]
mod stream;
mod table;

use cases::*;
use coax::Coax;
use made_lists::Pair;
use paper::*;
use stream::{on_state, Columns, Stream};

/// The codes in the order of their numbers, which count from 1.
const CODES: [&str; 3] = ["fibre", "16200", "5940"];
const FIBRE_AT: usize = 0;
const COAX: [archive::CoaxCalls; 2] = [archive::COAX_16200, archive::COAX_5940];

/// How many cases of each kind are tried, and the runs of each code with their calls.
const MIXED_EACH: usize = 24;
const TALES_EACH: usize = 3;
const RUNS_EACH: usize = 80;
const CALLS_EACH: usize = 100;

const CHECK_BYTES: usize = 384;
const TAIL_BYTES: usize = 322;

/// What a call refuses, in its order.
fn refusals(code: usize, call: &str) -> &'static [u64] {
    match (code, call) {
        (FIBRE_AT, "piece") => &[17, 16, 12, 7, 2, 3, 6],
        (FIBRE_AT, _) => &[17, 16, 12, 7, 1, 10, 4, 5],
        (_, "piece") => &[17, 12, 7, 2, 3, 6],
        _ => &[17, 12, 7, 1, 5],
    }
}

fn call_name(code: usize, call: &str) -> String {
    format!("{} {}", CODES[code], call)
}

/// A call on a stream of another code.
fn mixed(code: usize, call: &str, of: usize, fresh: bool) -> String {
    format!("{} {}, {}{} stream", CODES[code], call, if fresh { "fresh " } else { "" }, CODES[of])
}

fn begun_as(code: usize) -> String {
    format!("{} runs of {} calls", CODES[code], CALLS_EACH)
}

fn tale(code: usize) -> String {
    format!("{} finish after a mix-up", CODES[code])
}

fn goes_on(code: usize) -> String {
    format!("goes on as a {} stream", CODES[code])
}

/// All that must be reached, in the order in which it is printed.
fn names() -> Vec<String> {
    let mut names = Vec::new();
    for code in 0..CODES.len() {
        for call in ["piece", "finish"] {
            let name = call_name(code, call);
            names.push(name_of(&name, Answer::Fine, CHECKS));
            names.extend(refusals(code, call).iter().map(|n| format!("{} refusal {}", name, n)));
            for of in (0..CODES.len()).filter(|&of| of != code) {
                names.extend([true, false].map(|fresh| mixed(code, call, of, fresh)));
            }
        }
        names.extend([tale(code), begun_as(code), goes_on(code)]);
    }
    names
}

/// The yardstick's codes.
struct Codes {
    fibre: Code,
    columns: Columns,
    coax: [Coax; 2],
}

/// What a call is made with, beside the stream and the lists.
enum Made {
    Piece { count: usize, bytes: Vec<u8> },
    Finish { delimiter: usize, room: usize },
}

/// Two lists, as the yardstick reads them and as they are lent.
struct Order {
    pair: Pair,
    lent: LentLists,
}

impl Codes {
    fn new() -> Codes {
        let fibre = Code::new();
        let columns = Columns::new(&fibre);
        Codes { fibre, columns, coax: [Coax::code_16200(), Coax::code_5940()] }
    }

    /// The most bits of a payload.
    fn most(&self, code: usize) -> usize {
        match code {
            FIBRE_AT => PAYLOAD_MOST,
            _ => self.coax[code - 1].payload,
        }
    }

    /// The running checks in use.
    fn in_use(&self, code: usize) -> usize {
        match code {
            FIBRE_AT => CHECKS,
            _ => self.coax[code - 1].parity,
        }
    }

    /// The bytes that a finish writes.
    fn needed(&self, code: usize) -> usize {
        match code {
            FIBRE_AT => TAIL_BYTES,
            _ => self.coax[code - 1].parity_bytes(),
        }
    }

    /// The next count of bits held at which a stream can be finished.
    fn finish_at(&self, code: usize, held: usize) -> usize {
        match code {
            FIBRE_AT => (DATA_BLOCK * ((held + DATA_BLOCK - 1) / DATA_BLOCK)).max(DATA_BLOCK),
            _ => self.most(code),
        }
    }

    /// A call's answer, and what it writes.
    fn answer(&self, code: usize, pair: &Pair, stream: &mut Stream, made: &Made) -> (Answer, Vec<u8>) {
        match (code, made) {
            (FIBRE_AT, Made::Piece { count, bytes }) => {
                (lists::piece(&self.columns, &pair.lists, stream, *count, bytes), Vec::new())
            }
            (FIBRE_AT, Made::Finish { delimiter, room }) => {
                lists::finish(&self.fibre, &pair.lists, stream, *delimiter, *room)
            }
            (_, Made::Piece { count, bytes }) => (self.coax[code - 1].piece(stream, *count, bytes), Vec::new()),
            (_, Made::Finish { room, .. }) => self.coax[code - 1].finish(stream, *room),
        }
    }
}

struct Comparison {
    codes: Codes,
    cases: Cases,
}

impl Comparison {
    fn below(&mut self, limit: usize) -> usize {
        self.cases.random.below(limit)
    }

    fn state(&mut self, ours: Vec<u8>) -> State {
        State::new(&mut self.cases.random, ours)
    }

    fn order(&mut self, pair: Pair) -> Order {
        let lent = LentLists::new(&mut self.cases.random, &pair.lists.first, &pair.lists.second);
        Order { pair, lent }
    }

    /// One call: its answer by the yardstick, and what is written.
    fn call(
        &mut self,
        code: usize,
        order: &mut Order,
        state: &mut State,
        made: &Made,
        meant: Option<Answer>,
    ) -> (Answer, Vec<u8>) {
        let held = state.held();
        let codes = &self.codes;
        let (ours, written) = on_state(&mut state.ours, |stream| codes.answer(code, &order.pair, stream, made));
        let (first, second) = order.lent.parts();
        let (name, about, told, bytes_right) = match made {
            Made::Piece { count, bytes } => {
                let mut lent = Lent::new(&mut self.cases.random, bytes);
                let later = lent.all.clone();
                let (told, right) = state.call(|state| match code {
                    FIBRE_AT => archive::piece(state, *count, lent.part(), first, second),
                    _ => COAX[code - 1].piece(state, *count, lent.part()),
                });
                ("piece", format!("{} bits", count), told, right && lent.all == later)
            }
            Made::Finish { delimiter, room } => {
                let old = self.cases.random.bytes(*room);
                let mut output = Lent::new(&mut self.cases.random, &old);
                let later = output.with(&written);
                let (told, right) = state.call(|state| match code {
                    FIBRE_AT => archive::finish(state, *delimiter, first, second, output.part()),
                    _ => COAX[code - 1].finish(state, output.part()),
                });
                ("finish", format!("room {}", room), told, right && output.all == later)
            }
        };
        let bytes_right = bytes_right && order.lent.same();
        let name = call_name(code, name);
        self.cases.reach(&name_of(&name, ours, CHECKS));
        self.cases.judge(&format!("{}, held {}, {}", name, held, about), ours, meant, told, bytes_right);
        (ours, written)
    }

    /// A piece of any size up to what is left, a large one more often than not.
    fn fine_piece(&mut self, code: usize, held: usize) -> Made {
        let left = self.codes.most(code).saturating_sub(held);
        let size = match self.below(8) {
            0 => 0,
            1 => 1,
            2 => 8 * self.below(40),
            3 => 180 * (1 + self.below(4)),
            4 => DATA_BLOCK * (1 + self.below(8)),
            _ => self.below(3000),
        };
        self.piece_of(size.min(left))
    }

    fn piece_of(&mut self, count: usize) -> Made {
        Made::Piece { count, bytes: faulty_run(&mut self.cases.random, &[], count) }
    }

    fn fine_finish(&mut self, code: usize) -> Made {
        let room = self.codes.needed(code) + [0, self.below(80)][self.below(2)];
        Made::Finish { delimiter: faulty_delimiter(&mut self.cases.random, &[]), room }
    }

    /// Either of them, at times with faults of its own. What must be answered the yardstick alone tells.
    fn any_call(&mut self, code: usize, held: usize, faulty: bool) -> Made {
        let piece = self.below(2) == 0;
        if !faulty {
            return if piece { self.fine_piece(code, held) } else { self.fine_finish(code) };
        }
        let mut faults = Vec::new();
        for fault in [2, 3, 4, 5, 6] {
            if self.below(3) == 0 {
                faults.push(fault);
            }
        }
        if piece {
            let left = self.codes.most(code).saturating_sub(held);
            let count = if faults.contains(&6) { left + 1 + self.below(300) } else { self.below(1000).min(left) };
            return Made::Piece { count, bytes: faulty_run(&mut self.cases.random, &faults, count) };
        }
        let needed = self.codes.needed(code);
        let room = if faults.contains(&5) { [needed - 1, 0][self.below(2)] } else { needed };
        Made::Finish { delimiter: faulty_delimiter(&mut self.cases.random, &faults), room }
    }

    // A stream of one code in another's calls, which would take it but for its number

    fn mix_ups(&mut self) {
        for n in 0..MIXED_EACH {
            let pair = Pair::any(&mut self.cases.random);
            let order = &mut self.order(pair);
            for of in 0..CODES.len() {
                for code in (0..CODES.len()).filter(|&code| code != of) {
                    self.mix_up(n, of, code, order);
                }
            }
        }
    }

    fn mix_up(&mut self, n: usize, of: usize, code: usize, order: &mut Order) {
        let fewest = self.codes.most(of).min(self.codes.most(code));
        let any = self.below(fewest);
        let held = [0, self.codes.finish_at(code, 0), self.codes.finish_at(code, any), any][n % 4];
        let mut checks = self.cases.random.bytes(CHECK_BYTES);
        clear_from(&mut checks, self.codes.in_use(of).min(self.codes.in_use(code)));
        let stream = match held {
            0 => Stream::fresh(of as u64 + 1),
            _ => Stream { number: of as u64 + 1, held, checks },
        };
        let calls = [("piece", self.fine_piece(code, held)), ("finish", self.fine_finish(code))];
        for (name, made) in calls {
            let mut state = self.state(stream.state());
            self.cases.reach(&mixed(code, name, of, held == 0));
            self.call(code, order, &mut state, &made, Some(Answer::Refused(12)));
        }
    }

    /// A stream is begun as one code's, and in the middle and at the end given to the others' calls. Its own finish
    /// then writes what the encoder does, and what is handed back is still its own code's.
    fn tales(&mut self) {
        for _ in 0..TALES_EACH {
            for code in 0..CODES.len() {
                let pair = Pair::any(&mut self.cases.random);
                let mut order = self.order(pair);
                self.tale(code, &mut order);
            }
        }
    }

    fn tale(&mut self, code: usize, order: &mut Order) {
        let bits = self.codes.most(code);
        let u = payload(&mut self.cases.random, bits);
        let mut state = self.state(Stream::fresh(code as u64 + 1).state());
        while state.held() < bits {
            let held = state.held();
            let count = (1 + self.below(5000)).min(bits - held);
            let made = Made::Piece { count, bytes: part(&u, held, count) };
            self.call(code, order, &mut state, &made, Some(Answer::Fine));
            self.all_others(code, order, &mut state);
        }
        let made = self.fine_finish(code);
        let (_, written) = self.call(code, order, &mut state, &made, Some(Answer::Fine));
        let delimiter = match made {
            Made::Finish { delimiter, .. } => delimiter,
            Made::Piece { .. } => 0,
        };
        let same = self.as_encoded(code, order, &u, delimiter, &written);
        self.cases.reach(&tale(code));
        self.cases.compare(&call_name(code, "encode"), 0, same.0, same.1);
        if !state.is_fresh(code as u8 + 1) {
            self.cases.complain(&format!("yardstick, {} finish hands back another stream", CODES[code]));
        }
        self.all_others(code, order, &mut state);
        let made = self.fine_piece(code, 0);
        self.call(code, order, &mut state, &made, Some(Answer::Fine));
    }

    fn all_others(&mut self, of: usize, order: &mut Order, state: &mut State) {
        for code in (0..CODES.len()).filter(|&code| code != of) {
            let calls = [self.fine_piece(code, state.held()), self.fine_finish(code)];
            for made in calls {
                self.call(code, order, state, &made, Some(Answer::Refused(12)));
            }
        }
    }

    /// What the encoder answers, and whether it writes this after the payload.
    fn as_encoded(&self, code: usize, order: &Order, u: &[u8], delimiter: usize, written: &[u8]) -> (u64, bool) {
        let bits = self.codes.most(code);
        if code == FIBRE_AT {
            let lists = &order.pair.lists;
            let mut line = vec![0; bytes_for(line_bits(bits))];
            let told = archive::encode(bits, u, delimiter, &lists.first, &lists.second, &mut line);
            return (told, part(&line, bits, line_bits(0)) == written);
        }
        let mut word = vec![0; self.codes.coax[code - 1].word_bytes()];
        let told = COAX[code - 1].encode(bits, u, &mut word);
        (told, word[bits / 8..] == *written)
    }

    // Runs

    fn runs(&mut self) {
        for code in 0..CODES.len() {
            for _ in 0..RUNS_EACH {
                let pair = Pair::any(&mut self.cases.random);
                let mut order = self.order(pair);
                let mut state = self.state(Stream::fresh(code as u64 + 1).state());
                for _ in 0..CALLS_EACH {
                    self.step(&mut order, &mut state);
                }
                self.cases.reach(&begun_as(code));
            }
        }
    }

    /// One call of a run, of any kind. The state is an allowed one of some code, before and later.
    fn step(&mut self, order: &mut Order, state: &mut State) {
        let stream = Stream::read(&state.ours).expect("a state has 400 bytes");
        let (own, held) = (stream.number as usize - 1, stream.held);
        match self.below(16) {
            0..=5 => {
                let made = self.fine_piece(own, held);
                self.call(own, order, state, &made, Some(Answer::Fine));
            }
            // up to where it can be finished, or that
            6..=8 => {
                let until = self.codes.finish_at(own, held);
                let made = if held < until { self.piece_of(until - held) } else { self.fine_finish(own) };
                self.call(own, order, state, &made, Some(Answer::Fine));
            }
            9 | 10 => {
                let made = self.any_call(own, held, true);
                self.call(own, order, state, &made, None);
            }
            11 => {
                let other = (own + 1 + self.below(2)) % 3;
                let faulty = self.below(3) == 0;
                let made = self.any_call(other, held, faulty);
                self.call(other, order, state, &made, Some(Answer::Refused(12)));
            }
            12 => {
                let spoilt = Pair::any_spoilt(&mut self.cases.random);
                let mut spoilt = self.order(spoilt);
                let faulty = self.below(3) == 0;
                let made = self.any_call(FIBRE_AT, held, faulty);
                self.call(FIBRE_AT, &mut spoilt, state, &made, Some(Answer::Refused(16)));
            }
            13 => self.of_another_size(order, state, own),
            _ => self.changed_outside(order, state, own),
        }
    }

    fn of_another_size(&mut self, order: &mut Order, state: &State, own: usize) {
        let code = if self.below(2) == 0 { own } else { self.below(3) };
        let bytes = faulty_state(&mut self.cases.random, &[17], Stream::read(&state.ours).expect("a state"));
        let mut other = self.state(bytes);
        let faulty = self.below(3) == 0;
        let made = self.any_call(code, state.held(), faulty);
        self.call(code, order, &mut other, &made, Some(Answer::Refused(17)));
    }

    /// The host writes to its state, and makes a call. Where that is refused, it puts back what was there; else the
    /// stream goes on from what is handed back, be it another code's now.
    fn changed_outside(&mut self, order: &mut Order, state: &mut State, own: usize) {
        let before = state.ours.clone();
        let mut stream = Stream::read(&before).expect("a state has 400 bytes");
        let mut code = own;
        match self.below(8) {
            0 => {
                let numbers = other_numbers(stream.number);
                stream.number = numbers[self.below(numbers.len())];
            }
            // only a high byte is another
            1 => stream.number ^= (1 + self.below(255) as u64) << (8 * (1 + self.below(7))),
            2 => stream.held = too_many_held(&mut self.cases.random, self.codes.most(own)),
            3 => stream.held ^= (1 + self.below(255)) << (8 * (2 + self.below(6))),
            4 => flip(&mut stream.checks, 8 * CHECK_BYTES - 1),
            5 => flip(&mut stream.checks, self.below(8 * CHECK_BYTES)),
            // another code's from here on, with checks that this one allows or not
            _ => {
                code = (own + 1 + self.below(2)) % 3;
                stream.number = code as u64 + 1;
                if self.below(2) == 0 {
                    clear_from(&mut stream.checks, self.codes.in_use(code));
                    stream.held = stream.held.min(self.codes.most(code));
                }
            }
        }
        state.put(stream.state());
        let faulty = self.below(4) == 0;
        let made = self.any_call(code, stream.held, faulty);
        let (answer, _) = self.call(code, order, state, &made, None);
        if answer != Answer::Fine {
            state.put(before);
        } else if code != own {
            self.cases.reach(&goes_on(code));
        }
    }

    /// Where the parts of a state stand, told of the yardstick itself.
    fn yardstick_itself(&mut self) {
        let counted: Vec<u8> = (0..400).map(|n| (n % 251) as u8).collect();
        let stream = Stream::read(&counted).expect("it has 400 bytes");
        let as_read = stream.number == 0x07_06_05_04_03_02_01_00 && stream.held == 0x0f_0e_0d_0c_0b_0a_09_08;
        if !as_read || stream.checks != counted[16..] || stream.state() != counted {
            self.cases.complain("yardstick, the parts of a state");
        }
        for number in 1..=3 {
            let state = self.state(Stream::fresh(number).state());
            if !state.is_fresh(number as u8) {
                self.cases.complain("yardstick, a fresh stream");
            }
        }
    }
}

fn main() {
    let mut comparison = Comparison { codes: Codes::new(), cases: Cases::new(names()) };
    comparison.yardstick_itself();
    comparison.mix_ups();
    comparison.tales();
    comparison.runs();
    comparison.cases.end();
}
