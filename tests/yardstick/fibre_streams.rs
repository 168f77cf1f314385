//! Compares a fibre stream's piece and finish, and complete, with the yardstick (lists.rs) over seeded cases, all with
//! lists. Complete is not at the C boundary, so it goes through the archive of `measured`. The answer's number is
//! compared, and every byte that was lent, with guard bytes on both sides; so is all of a stream's state after every
//! call. Prints how often each answer was reached and ends with `N cases, M wrong`. The exit status is 1 if anything
//! differs, or if some answer was never reached.
//! Streams of several codes, and long runs of calls on one state, are in mixed_streams.rs.
//! An answer that names a kind of lists is counted where it tells them from no lists at all, as in main.rs.
//! Another seed than the usual one can be given as the only argument.

#[allow(dead_code)]
mod archive;
#[allow(dead_code)]
mod cases;
#[allow(dead_code)]
mod lists;
mod made_lists;
#[allow(dead_code)]
#[path = "../bench/measured.rs"]
mod measured;
#[allow(dead_code)]
mod paper;
mod random;
mod stream;
mod table;

use cases::*;
use lists::Orders;
use made_lists::*;
use paper::*;
use stream::{on_state, Columns, Stream, FIBRE};

/// The refusals of each operation, in its order.
const COMPLETE: [u64; 5] = [16, 1, 10, 2, 8];
const PIECE: [u64; 7] = [17, 16, 12, 7, 2, 3, 6];
const FINISH: [u64; 8] = [17, 16, 12, 7, 1, 10, 4, 5];
const ORDERS: [(&str, &[u64]); 3] = [("complete", &COMPLETE), ("piece", &PIECE), ("finish", &FINISH)];

/// How many cases or payloads of each kind are tried.
const FINE_EACH: usize = 84;
const STREAMS_EACH: usize = 18;
const OUTSIDE_EACH: usize = 84;
const REFUSED_EACH: usize = 16;

const CHECK_BYTES: usize = 384;
const TAIL_BYTES: usize = 322;
const PARITY_FROM: usize = PAYLOAD_PLACES / 8;

/// What is reached beside the answers.
const OTHERS: [&str; 26] = [
    "complete with ones from place K on",
    "complete refusal 8 below place K",
    "piece of 0 bits",
    "piece of 1 bit",
    "piece of the whole payload",
    "piece refused in between",
    "piece, lists refused in between",
    "piece, another pair in between",
    "piece on a stream handed back",
    "piece, a single running check",
    "piece 12, every number",
    "piece 7, every count",
    "piece 17, every size",
    "finish with room to spare",
    "finish with room one short",
    "finish refused in between",
    "finish, lists refused in between",
    "finish as the encoder's tail",
    "finish as of another cutting",
    "finish leaves it fresh",
    "finish again",
    "finish, any running checks",
    "finish, a single running check",
    "finish 12, every number",
    "finish 7, every count",
    "finish 17, every size",
];

/// Lists of this kind change nothing in an operation that only tests the other list.
fn without_effect(call: &str) -> &'static str {
    if call == "finish" {
        "first alone"
    } else {
        "second alone"
    }
}

fn of_kind(call: &str, kind: &str) -> String {
    format!("{}, {}", name_of(call, Answer::Fine, CHECKS), kind)
}

/// The name of a refusal by what is the matter with the lists.
fn with_fault(call: &str, fault: &str) -> String {
    format!("{} 16, {}", call, fault)
}

fn piece_inside_byte(place: usize) -> String {
    format!("piece from bit {} of a byte", place % 8)
}

/// Bits held that are none are whole data blocks.
fn can_be(call: &str, faults: &[u64]) -> bool {
    call != "finish" || !(faults.contains(&1) && faults.contains(&10)) || faults.contains(&7)
}

/// All that must be reached, in the order in which it is printed.
fn names() -> Vec<String> {
    let mut names = Vec::new();
    for (call, order) in ORDERS {
        names.push(name_of(call, Answer::Fine, CHECKS));
        names.extend(order.iter().map(|n| format!("{} refusal {}", call, n)));
    }
    for (call, order) in ORDERS {
        let sets = sets_of(order).into_iter().filter(|faults| faults.len() == 2 && can_be(call, faults));
        names.extend(sets.map(|faults| before(call, &faults)));
    }
    names.extend(OTHERS.map(|name| name.to_string()));
    names.extend((0..8).map(piece_inside_byte));
    for (call, _) in ORDERS {
        let kinds = PAIRS.iter().filter(|&&kind| kind != without_effect(call));
        names.extend(kinds.map(|kind| of_kind(call, kind)));
    }
    for (call, _) in ORDERS {
        names.extend(LISTS.iter().map(|list| with_fault(call, list)));
        names.extend(FAULTS.iter().map(|fault| with_fault(call, fault)));
    }
    names
}

/// What a stream is fed and finished with.
#[derive(Clone, Copy)]
struct Input<'a> {
    k: usize,
    u: &'a [u8],
    delimiter: usize,
}

fn orders_of(pair: &Pair) -> Orders {
    pair.lists.read().expect("both are reorderings")
}

struct Comparison {
    code: Code,
    columns: Columns,
    cases: Cases,
}

/// What a call is judged by: its name, what it is about, the lists, the yardstick's answer, and whether paper 01 gives
/// that too, with all bytes, for no lists.
struct Call<'a> {
    name: &'a str,
    about: String,
    pair: &'a Pair,
    ours: Answer,
    as_without: bool,
}

impl Comparison {
    fn below(&mut self, limit: usize) -> usize {
        self.cases.random.below(limit)
    }

    fn judge(&mut self, call: Call, meant: Answer, told: u64, bytes_right: bool) {
        let Call { name, about, pair, ours, as_without } = call;
        let plain = pair.kind == PAIRS[0];
        let case = format!("{}, {}, lists {}", name, about, pair.kind);
        self.cases.reach(&name_of(name, ours, CHECKS));
        if plain && !as_without {
            self.cases.complain(&format!("yardstick, {}\n  not as no lists", case));
        }
        if plain == as_without && ours == Answer::Fine {
            self.cases.reach(&of_kind(name, pair.kind));
        }
        self.cases.judge(&case, ours, Some(meant), told, bytes_right);
    }

    fn lend(&mut self, pair: &Pair) -> LentLists {
        LentLists::new(&mut self.cases.random, &pair.lists.first, &pair.lists.second)
    }

    // Complete

    fn complete(&mut self, pair: &Pair, k: usize, bytes: &[u8], meant: Answer) {
        let (mut later, mut later_without) = (bytes.to_vec(), bytes.to_vec());
        let ours = lists::complete(&self.code, &pair.lists, k, &mut later);
        let without = stream::complete(&self.code, k, &mut later_without);
        let as_without = ours == without && later == later_without;
        if ours == Answer::Fine && without == Answer::Refused(8) {
            self.cases.reach("complete with ones from place K on");
        }
        if ours == Answer::Refused(8) && without == Answer::Fine {
            self.cases.reach("complete refusal 8 below place K");
        }
        let mut lists = self.lend(pair);
        let mut word = Lent::new(&mut self.cases.random, bytes);
        let all_later = word.with(&later);
        let (first, second) = lists.parts();
        let told = measured::complete(k, word.part(), first, second);
        let bytes_right = word.all == all_later && lists.same();
        let about = format!("K {}", k);
        self.judge(Call { name: "complete", about, pair, ours, as_without }, meant, told, bytes_right);
    }

    /// A word to be completed, in inner order, with any parity.
    fn open_word(&mut self, orders: &Orders, k: usize, u: &[u8]) -> Vec<u8> {
        let mut word = lists::inner_payload(orders, &lists::padded(k, u));
        word.extend(self.cases.random.bytes(CHECK_BYTES));
        word
    }

    fn completed(&mut self) {
        for n in 0..FINE_EACH {
            for pair in [Pair::plain(), Pair::any_made(&mut self.cases.random, n)] {
                let orders = orders_of(&pair);
                let k = any_count(&mut self.cases.random, n);
                let u = if n % 2 == 0 { vec![255; bytes_for(k)] } else { payload(&mut self.cases.random, k) };
                let mut word = self.open_word(&orders, k, &u);
                // the parity that stands there: none, ones, the right one, or any
                match n / 2 % 4 {
                    0 => word[PARITY_FROM..].fill(0),
                    1 => word[PARITY_FROM..].fill(255),
                    2 => word = self.code.full_word(PAYLOAD_PLACES, &word),
                    _ => {}
                }
                self.complete(&pair, k, &word, Answer::Fine);

                // a single shortened place: the lowest, the highest, any
                let shortened: Vec<usize> = (0..PAYLOAD_PLACES).filter(|&t| orders.first[t] >= k).collect();
                let at = [0, shortened.len() - 1, self.below(shortened.len())][n % 3];
                flip(&mut word, shortened[at]);
                self.complete(&pair, k, &word, Answer::Refused(8));
                let mut word = vec![0; WORD_BYTES];
                flip(&mut word, shortened[at]);
                self.complete(&pair, k, &word, Answer::Refused(8));
            }
        }
    }

    /// One swap in each list: the last payload place and the first shortened one, the last sent parity bit and the
    /// first punctured one.
    fn swapped_at_the_edge(&mut self) {
        for n in 0..24 {
            let k = any_count(&mut self.cases.random, n);
            let pair = Pair::swapped((k - 1, k), (SENT - 1, SENT));
            for (place, meant) in [(k, Answer::Fine), (k - 1, Answer::Refused(8))] {
                let mut word = vec![0; WORD_BYTES];
                flip(&mut word, place);
                self.complete(&pair, k, &word, meant);
            }
            let u = payload(&mut self.cases.random, k);
            let input = Input { k, u: &u, delimiter: 0 };
            let mut state = self.fresh();
            self.stream(&mut state, &pair, input, |_, left| left.min(k - 1), false);
        }
    }

    // The stream

    fn state(&mut self, ours: Vec<u8>) -> State {
        State::new(&mut self.cases.random, ours)
    }

    fn fresh(&mut self) -> State {
        self.state(Stream::fresh(FIBRE).state())
    }

    fn piece(&mut self, pair: &Pair, state: &mut State, count: usize, bytes: &[u8], meant: Answer) {
        let held = state.held();
        let columns = &self.columns;
        let mut without = state.ours.clone();
        let (same, ()) = on_state(&mut without, |stream| (stream.piece(columns, count, bytes), ()));
        let with_lists = |stream: &mut Stream| (lists::piece(columns, &pair.lists, stream, count, bytes), ());
        let (ours, ()) = on_state(&mut state.ours, with_lists);
        let as_without = ours == same && state.ours == without;
        let mut lists = self.lend(pair);
        let mut lent = Lent::new(&mut self.cases.random, bytes);
        let lent_later = lent.all.clone();
        let (first, second) = lists.parts();
        let (told, state_right) = state.call(|state| archive::piece(state, count, lent.part(), first, second));
        let bytes_right = lent.all == lent_later && state_right && lists.same();
        if ours == Answer::Fine {
            self.cases.reach(&piece_inside_byte(held));
            for (size, name) in [(0, "piece of 0 bits"), (1, "piece of 1 bit")] {
                if count == size {
                    self.cases.reach(name);
                }
            }
        }
        let about = format!("held {}, {} bits", held, count);
        self.judge(Call { name: "piece", about, pair, ours, as_without }, meant, told, bytes_right);
    }

    fn finish(&mut self, pair: &Pair, state: &mut State, delimiter: usize, room: usize, meant: Answer) -> Vec<u8> {
        let held = state.held();
        let code = &self.code;
        let mut without = state.ours.clone();
        let same = on_state(&mut without, |stream| stream.finish(code, delimiter, room));
        let with_lists = |stream: &mut Stream| lists::finish(code, &pair.lists, stream, delimiter, room);
        let (ours, written) = on_state(&mut state.ours, with_lists);
        let as_without = (ours, written.clone()) == same && state.ours == without;
        let mut lists = self.lend(pair);
        let old = self.cases.random.bytes(room);
        let mut tail = Lent::new(&mut self.cases.random, &old);
        let tail_later = tail.with(&written);
        let (first, second) = lists.parts();
        let (told, state_right) = state.call(|state| archive::finish(state, delimiter, first, second, tail.part()));
        let bytes_right = tail.all == tail_later && state_right && lists.same();
        if ours == Answer::Fine && room > written.len() {
            self.cases.reach("finish with room to spare");
        }
        if ours == Answer::Refused(5) && room + 1 == TAIL_BYTES {
            self.cases.reach("finish with room one short");
        }
        let about = format!("held {}, room {}", held, room);
        self.judge(Call { name: "finish", about, pair, ours, as_without }, meant, told, bytes_right);
        written
    }

    /// The size of the next piece, where so many bits are still to come.
    fn size(&mut self, left: usize) -> usize {
        let size = match self.below(8) {
            0 => 0,
            1 => 1,
            2 => 1 + self.below(16),
            3 => 255 + self.below(3),
            4 => 256,
            5 => 8 * self.below(200),
            6 if self.below(4) == 0 => left,
            _ => self.below(3000),
        };
        size.min(left)
    }

    /// A piece that is refused, for a stream that claims no more than a payload.
    fn refused_piece(&mut self, pair: &Pair, state: &mut State) {
        let left = PAYLOAD_MOST - state.held();
        let fault = [2, 3, 6][self.below(3)];
        let count = if fault == 6 { left + 1 + self.below(100) } else { 1 + 8 * self.below(40) };
        let bytes = faulty_run(&mut self.cases.random, &[fault], count);
        self.cases.reach("piece refused in between");
        self.piece(pair, state, count, &bytes, Answer::Refused(fault));

        let spoilt = Pair::any_spoilt(&mut self.cases.random);
        let count = left.min(9);
        let bytes = faulty_run(&mut self.cases.random, &[], count);
        self.cases.reach("piece, lists refused in between");
        self.piece(&spoilt, state, count, &bytes, Answer::Refused(16));
    }

    /// A finish that is refused, whatever is held.
    fn refused_finish(&mut self, pair: &Pair, state: &mut State) {
        let refusal = refusal_of_count(state.held()).unwrap_or(4);
        self.cases.reach("finish refused in between");
        self.finish(pair, state, DELIMITER_MOST + 1, TAIL_BYTES, Answer::Refused(refusal));

        let spoilt = Pair::any_spoilt(&mut self.cases.random);
        self.cases.reach("finish, lists refused in between");
        self.finish(&spoilt, state, 0, TAIL_BYTES, Answer::Refused(16));
    }

    /// The running checks are those of the reordered bits so far, followed by zeros: told of the yardstick itself.
    fn running_checks(&mut self, orders: &Orders, u: &[u8], state: &State) {
        let stream = Stream::read(&state.ours).expect("a state has 400 bytes");
        let mut word = lists::inner_payload(orders, &lists::padded(stream.held, u));
        word.resize(WORD_BYTES, 0);
        let found: Vec<bool> = (0..CHECKS).map(|check| bit(&stream.checks, check) == 1).collect();
        if self.code.checks(&word) != found {
            self.cases.complain(&format!("yardstick, running checks of {} bits", stream.held));
        }
    }

    /// Feeds a payload to a fresh stream, in pieces of the sizes that are given by turns, and finishes it.
    fn stream(
        &mut self,
        state: &mut State,
        pair: &Pair,
        input: Input,
        mut size: impl FnMut(&mut Self, usize) -> usize,
        disturbed: bool,
    ) {
        let Input { k, u, delimiter } = input;
        let orders = orders_of(pair);
        let mut pieces = 0;
        while state.held() < k {
            let held = state.held();
            let count = size(self, k - held);
            if count == k {
                self.cases.reach("piece of the whole payload");
            }
            self.piece(pair, state, count, &part(u, held, count), Answer::Fine);
            pieces += 1;
            if pieces % 8 == 1 {
                self.running_checks(&orders, u, state);
            }
            if disturbed && self.below(4) == 0 {
                self.refused_piece(pair, state);
            }
            if disturbed && self.below(8) == 0 {
                self.refused_finish(pair, state);
            }
        }
        self.running_checks(&orders, u, state);
        if disturbed {
            self.piece(pair, state, 0, &[], Answer::Fine);
            if k == PAYLOAD_MOST {
                self.piece(pair, state, 1, &[1], Answer::Refused(6));
            }
            self.finish(pair, state, delimiter, TAIL_BYTES - 1, Answer::Refused(5));
            self.refused_finish(pair, state);
        }
        let spare = [0, self.below(80)][usize::from(disturbed)];
        let tail = self.finish(pair, state, delimiter, TAIL_BYTES + spare, Answer::Fine);
        if state.is_fresh(1) {
            self.cases.reach("finish leaves it fresh");
        } else {
            self.cases.complain("yardstick, finish hands back another stream");
        }

        // beside the word that the encoder writes
        let mut line = vec![0; bytes_for(line_bits(k))];
        let told = archive::encode(k, u, delimiter, &pair.lists.first, &pair.lists.second, &mut line);
        let same = part(&line, k, line_bits(0)) == tail;
        self.cases.reach("finish as the encoder's tail");
        self.cases.compare(&format!("encode K {}, lists {}", k, pair.kind), 0, told, same);

        self.cases.reach("finish again");
        self.finish(pair, state, delimiter, TAIL_BYTES, Answer::Refused(1));
    }

    /// The same by the archive alone: the sum of its answers, the state before the finish, and the tail.
    fn alone(&mut self, pair: &Pair, input: Input, whole: bool) -> (u64, Vec<u8>, Vec<u8>) {
        let Input { k, u, delimiter } = input;
        let (first, second) = (&pair.lists.first, &pair.lists.second);
        let (mut answers, mut held) = (0, 0);
        let mut state = Stream::fresh(FIBRE).state();
        while held < k {
            let count = if whole { k } else { self.size(k - held) };
            answers += archive::piece(&mut state, count, &part(u, held, count), first, second);
            held += count;
        }
        let before = state.clone();
        let mut tail = vec![0; TAIL_BYTES];
        answers += archive::finish(&mut state, delimiter, first, second, &mut tail);
        (answers, before, tail)
    }

    /// One payload and one pair, cut in several ways. The stream is fresh, and takes the payload twice.
    fn cuttings(&mut self, state: &mut State, pair: &Pair, k: usize) {
        let u = payload(&mut self.cases.random, k);
        let delimiter = faulty_delimiter(&mut self.cases.random, &[]);
        let input = Input { k, u: &u, delimiter };
        self.stream(state, pair, input, |_, left| left, false);
        self.cases.reach("piece on a stream handed back");
        self.stream(state, pair, input, |us, left| us.size(left), true);
        let (_, before, tail) = self.alone(pair, input, true);
        for _ in 0..3 {
            let (answers, other_before, other_tail) = self.alone(pair, input, false);
            let same = before == other_before && tail == other_tail;
            self.cases.reach("finish as of another cutting");
            self.cases.compare(&format!("cutting K {}, lists {}", k, pair.kind), 0, answers, same);
        }
    }

    /// One stream for all payloads: what a finish hands back takes the next.
    fn streams(&mut self) {
        let mut state = self.fresh();
        for n in 0..STREAMS_EACH {
            for pair in [Pair::plain(), Pair::any_made(&mut self.cases.random, n)] {
                // the sizes by turns, and not in step with the kinds of lists
                let k = any_count(&mut self.cases.random, n + 8 * (n / 2));
                self.cuttings(&mut state, &pair, k);
            }
        }
        // by blocks of both kinds, and by single bits, each from the fresh stream as the header has it
        let pair = Pair::made(&mut self.cases.random, "shuffled");
        for (k, size) in [(PAYLOAD_MOST, DATA_BLOCK), (PAYLOAD_MOST, 256), (8 * DATA_BLOCK, 1)] {
            let u = faulty_run(&mut self.cases.random, &[], k);
            let input = Input { k, u: &u, delimiter: DELIMITER_MOST };
            let mut state = self.fresh();
            self.stream(&mut state, &pair, input, |_, left| left.min(size), false);
        }
    }

    /// States that no fresh stream leads to, and more than one pair in a stream: each call goes by its own.
    fn outside(&mut self) {
        for n in 0..OUTSIDE_EACH {
            let mut checks = self.cases.random.bytes(CHECK_BYTES);
            if n % 4 == 0 {
                checks.fill(255);
            }
            let k = any_count(&mut self.cases.random, n);
            let held = [0, k - 1, k, self.below(k)][n / 4 % 4];
            let mut state = self.state(Stream { number: FIBRE, held, checks }.state());
            let sizes = [self.size(k - held), k];
            for (m, size) in sizes.into_iter().enumerate() {
                let pair = Pair::any_made(&mut self.cases.random, n + m);
                let count = size.min(k - state.held());
                let bytes = faulty_run(&mut self.cases.random, &[], count);
                self.cases.reach("piece, another pair in between");
                self.piece(&pair, &mut state, count, &bytes, Answer::Fine);
            }
            let pair = Pair::any_made(&mut self.cases.random, n + 3);
            let delimiter = faulty_delimiter(&mut self.cases.random, &[]);
            self.cases.reach("finish, any running checks");
            self.finish(&pair, &mut state, delimiter, TAIL_BYTES + n % 3, Answer::Fine);
        }
    }

    /// All running checks are in use: a 1 in one of them alone, also where those of the coax codes end.
    fn single_checks(&mut self) {
        let pair = Pair::any(&mut self.cases.random);
        for place in [0, 899, 900, 1799, 1800, 3063, 3064, 3070, 3071] {
            let mut stream = Stream::fresh(FIBRE);
            flip(&mut stream.checks, place);
            let mut state = self.state(stream.state());
            let u = faulty_run(&mut self.cases.random, &[], DATA_BLOCK);
            self.cases.reach("piece, a single running check");
            self.piece(&pair, &mut state, DATA_BLOCK, &u, Answer::Fine);

            stream.held = DATA_BLOCK;
            let mut state = self.state(stream.state());
            self.cases.reach("finish, a single running check");
            self.finish(&pair, &mut state, 0, TAIL_BYTES, Answer::Fine);
        }
    }

    /// A stream that is refused, by a piece and by a finish that have no fault of their own.
    fn refused_stream(&mut self, pair: &Pair, stream: &Stream, refusal: u64) {
        let state = stream.state();
        let count = self.below(100);
        let bytes = faulty_run(&mut self.cases.random, &[], count);
        let mut lent = self.state(state.clone());
        self.piece(pair, &mut lent, count, &bytes, Answer::Refused(refusal));
        let mut lent = self.state(state);
        self.finish(pair, &mut lent, 0, TAIL_BYTES, Answer::Refused(refusal));
    }

    /// Every number of other_numbers, of a fresh stream and of two that could be finished; every count of
    /// counts_too_large.
    fn states_refused(&mut self) {
        let pair = Pair::any(&mut self.cases.random);
        for number in other_numbers(FIBRE) {
            for held in [0, DATA_BLOCK, PAYLOAD_MOST] {
                let mut stream = Stream { number, held, ..Stream::fresh(FIBRE) };
                if held > 0 {
                    stream.checks = self.cases.random.bytes(CHECK_BYTES);
                }
                self.refused_stream(&pair, &stream, 12);
            }
            self.cases.reach("piece 12, every number");
            self.cases.reach("finish 12, every number");
        }
        for held in counts_too_large(PAYLOAD_MOST) {
            let checks = self.cases.random.bytes(CHECK_BYTES);
            self.refused_stream(&pair, &Stream { number: FIBRE, held, checks }, 7);
            self.cases.reach("piece 7, every count");
            self.cases.reach("finish 7, every count");
        }
    }

    // Refusals: every set of faults, so also every pair whose order could be swapped.

    /// The case of a call that has all these faults, and no other. A list is spoilt by what is given, if faults has 16.
    fn refused(&mut self, call: &str, spoil: impl Fn(&Pair, &mut random::Random) -> Pair, n: usize, faults: &[u64]) {
        let pair = Pair::any(&mut self.cases.random);
        let lent = if faults.contains(&16) { spoil(&pair, &mut self.cases.random) } else { pair.clone() };
        match call {
            "complete" => self.refused_complete(&pair, &lent, n, faults),
            "piece" => self.refused_piece_with(&lent, faults),
            _ => self.refused_finish_with(&lent, n, faults),
        }
        if faults.len() == 2 {
            self.cases.reach(&before(call, faults));
        }
    }

    /// Which places are shortened is told by the pair before it was spoilt.
    fn refused_complete(&mut self, pair: &Pair, lent: &Pair, n: usize, faults: &[u64]) {
        let k = faulty_count(&mut self.cases.random, n, faults, true, |k| k);
        let orders = orders_of(pair);
        let u = self.cases.random.bytes(bytes_for(PAYLOAD_MOST));
        let mut word = self.open_word(&orders, k.min(PAYLOAD_MOST), &u);
        if faults.contains(&8) {
            let shortened = (0..PAYLOAD_PLACES).filter(|&t| orders.first[t] >= k.min(PAYLOAD_MOST));
            let shortened: Vec<usize> = shortened.collect();
            flip(&mut word, shortened[self.cases.random.below(shortened.len())]);
        }
        if faults.contains(&2) {
            let size = [0, WORD_BYTES - 1, WORD_BYTES + 1, self.below(WORD_BYTES)][n % 4];
            word.resize(size, 255);
        }
        self.complete(lent, k, &word, Answer::Refused(faults[0]));
    }

    /// So many bits held, and any running checks.
    fn faulty_state(&mut self, faults: &[u64], held: usize) -> State {
        let checks = self.cases.random.bytes(CHECK_BYTES);
        let state = faulty_state(&mut self.cases.random, faults, Stream { number: FIBRE, held, checks });
        self.state(state)
    }

    fn refused_piece_with(&mut self, lent: &Pair, faults: &[u64]) {
        let (held, count) = faulty_counts(&mut self.cases.random, faults, PAYLOAD_MOST);
        let bytes = faulty_run(&mut self.cases.random, faults, count);
        let mut state = self.faulty_state(faults, held);
        self.piece(lent, &mut state, count, &bytes, Answer::Refused(faults[0]));
    }

    /// The bits held: too many if faults has 7, none if it has 1, not of whole data blocks if it has 10.
    fn faulty_held(&mut self, n: usize, faults: &[u64]) -> usize {
        if !faults.contains(&7) {
            if faults.contains(&1) {
                return 0;
            }
            return faulty_count(&mut self.cases.random, n, faults, false, |k| k);
        }
        loop {
            let held = too_many_held(&mut self.cases.random, PAYLOAD_MOST);
            // the next lower one of whole blocks
            let held = if faults.contains(&10) { held } else { held - held % DATA_BLOCK };
            if held > PAYLOAD_MOST && faults.contains(&10) == (held % DATA_BLOCK != 0) {
                return held;
            }
        }
    }

    fn refused_finish_with(&mut self, lent: &Pair, n: usize, faults: &[u64]) {
        let held = self.faulty_held(n, faults);
        let delimiter = faulty_delimiter(&mut self.cases.random, faults);
        let room = if faults.contains(&5) {
            [TAIL_BYTES - 1, 0, self.below(TAIL_BYTES)][n % 3]
        } else {
            TAIL_BYTES + [0, self.below(80)][n % 2]
        };
        let mut state = self.faulty_state(faults, held);
        self.finish(lent, &mut state, delimiter, room, Answer::Refused(faults[0]));
    }

    fn all_refused(&mut self) {
        for (call, order) in ORDERS {
            for faults in sets_of(order).iter().filter(|faults| can_be(call, faults)) {
                for n in 0..REFUSED_EACH {
                    self.refused(call, |_, random| Pair::any_spoilt(random), n, faults);
                }
            }
        }
    }

    /// Every fault of either list and of both, alone and together with each other fault of the call.
    fn lists_at_fault(&mut self) {
        for (call, order) in ORDERS {
            for list in LISTS {
                for (n, fault) in FAULTS.iter().enumerate() {
                    for other in order {
                        let faults: Vec<u64> = order.iter().copied().filter(|n| *n == 16 || n == other).collect();
                        self.refused(call, |pair, random| pair.spoilt(random, list, fault), n, &faults);
                        if faults[0] == 16 {
                            self.cases.reach(&with_fault(call, list));
                            self.cases.reach(&with_fault(call, fault));
                        }
                    }
                }
            }
        }
    }

    /// A state of another size: cut off or made longer, of a stream that is fine, and any bytes, beside lists at fault
    /// and no room.
    fn other_sizes(&mut self) {
        let refused = Answer::Refused(17);
        for size in OTHER_SIZES {
            let pair = Pair::any(&mut self.cases.random);
            let spoilt = Pair::any_spoilt(&mut self.cases.random);
            let mut fine = Stream { held: PAYLOAD_MOST - DATA_BLOCK, ..Stream::fresh(FIBRE) }.state();
            fine.resize(size, 0);
            let any = self.cases.random.bytes(size);

            let mut state = self.state(fine.clone());
            self.cases.reach("piece 17, every size");
            self.piece(&pair, &mut state, 8, &[255], refused);
            let mut state = self.state(any.clone());
            self.piece(&spoilt, &mut state, 9, &[255], refused);

            let mut state = self.state(fine);
            self.cases.reach("finish 17, every size");
            self.finish(&pair, &mut state, 0, TAIL_BYTES, refused);
            let mut state = self.state(any);
            self.finish(&spoilt, &mut state, DELIMITER_MOST + 1, 0, refused);
        }
    }
}

fn main() {
    let code = Code::new();
    let columns = Columns::new(&code);
    let mut comparison = Comparison { code, columns, cases: Cases::new(names()) };
    comparison.completed();
    comparison.swapped_at_the_edge();
    comparison.streams();
    comparison.outside();
    comparison.single_checks();
    comparison.states_refused();
    comparison.all_refused();
    comparison.lists_at_fault();
    comparison.other_sizes();
    comparison.cases.end();
}
