//! The benchmark's program: every call on full-size payloads, ours and the yardstick's. Those of the fibre code are
//! here, each with the plain pair of lists and with a made-up one; those of the coax codes are in coax.rs.
//!   bench compare     compares them on a few words, and measures nothing; ends with `N cases, M wrong`
//!   bench count       makes each call on all words, between two marks for count.c
//!   bench time        times each, and says the median of several runs
//! The last two say a line for each measurement: nanoseconds a word (0 in count), words, ours or Rust, the call.
//!
//! The payloads are random, the same at every run. Before anything is measured, every call is made by both on the same
//! words, and each answer and each byte that is written is compared. Where any differs, nothing is measured, and the
//! exit status is 1. So all that is written was written to before, and no page is new.

#![allow(dead_code)] // the yardstick has more than is used here

#[path = "../yardstick/archive.rs"]
mod archive;
mod coax;
#[path = "../yardstick/coax.rs"]
mod coax_paper;
#[path = "../yardstick/coax_tables.rs"]
mod coax_tables;
#[path = "../yardstick/lists.rs"]
mod lists;
#[path = "../yardstick/made_lists.rs"]
mod made_lists;
mod measured;
#[path = "../yardstick/paper.rs"]
mod paper;
#[path = "../yardstick/random.rs"]
mod random;
#[path = "../yardstick/stream.rs"]
mod stream;
#[path = "../yardstick/table.rs"]
mod table;

use lists::Lists;
use made_lists::Pair;
use paper::*;
use std::rc::Rc;
use std::time::Instant;
use stream::{Columns, Stream, FIBRE};

/// The words of a measurement; those of the fibre code in many pieces and in single bits, which take long, as each
/// piece tests both lists; and those of a comparison alone.
const WORDS: usize = 1000;
const MANY_PIECES_WORDS: usize = 100;
const BITWISE_WORDS: usize = 3;
const FEW_WORDS: usize = 3;
const RUNS: usize = 5;
const DELIMITER: usize = 341;
const BLOCK: usize = 256;
const TAIL_BYTES: usize = 322;

#[derive(Clone, Copy)]
pub enum Call {
    Encode,
    /// The check of a full word, or of a coax word.
    Word,
    Line,
    Complete,
    Finish,
    /// A stream in pieces of so many bits, the last one shorter where they don't divide the payload, and its finish.
    Pieces(usize),
}

/// What is measured of a code.
pub trait Bench {
    /// Its calls, with their names.
    fn calls(&self) -> Vec<(String, Call)>;
    /// How many words a call is made on, of so many.
    fn words(&self, call: Call, most: usize) -> usize;
    /// Makes all ready for a call on so many words.
    fn prepare(&mut self, call: Call, words: usize);
    /// Makes it on them. Each answer's number is added to the sum that comes back: 0 where all is fine.
    fn run(&mut self, call: Call, engine: Engine, words: usize) -> u64;
    /// How many words differ, in the answer or in a byte, or are not answered by 0.
    fn compare(&mut self, call: Call, words: usize) -> usize;
}

/// The sizes make 1, 8, 57 and 14,392 pieces.
const CALLS: [(&str, Call); 9] = [
    ("encode", Call::Encode),
    ("full-word check", Call::Word),
    ("line check", Call::Line),
    ("complete", Call::Complete),
    ("finish of a stream", Call::Finish),
    ("stream, 1 piece", Call::Pieces(PAYLOAD_MOST)),
    ("stream, 8 pieces", Call::Pieces(1799)),
    ("stream, 57 pieces", Call::Pieces(BLOCK)),
    ("stream, single bits", Call::Pieces(1)),
];

/// What a call writes: the line word, the full word, the stream's state, the tail.
#[derive(Clone, PartialEq)]
struct Written {
    line: Vec<u8>,
    word: Vec<u8>,
    state: Vec<u8>,
    tail: Vec<u8>,
}

/// A payload, its right words, the state of a stream that holds it, and its pieces for the call at hand, each from a
/// new byte on.
struct Sample {
    payload: Vec<u8>,
    word: Vec<u8>,
    line: Vec<u8>,
    state: Vec<u8>,
    pieces: Vec<u8>,
}

#[derive(Clone, Copy)]
pub enum Engine {
    Ours,
    Rust,
}

struct Fibre {
    /// The lists' name, which goes before those of the calls.
    name: &'static str,
    with: With,
    samples: Vec<Sample>,
    /// A buffer of each kind for each sample and engine.
    ours: Vec<Written>,
    rust: Vec<Written>,
}

/// What the calls are made with, the state of a fresh stream among it.
struct With {
    code: Rc<Code>,
    columns: Rc<Columns>,
    lists: Lists,
    fresh: Vec<u8>,
}

/// The payload, of so many bits, in pieces of a size.
pub fn cut(payload: &[u8], bits: usize, size: usize) -> Vec<u8> {
    let mut pieces = Vec::new();
    for at in (0..bits).step_by(size) {
        let from = pieces.len();
        pieces.resize(from + bytes_for(size), 0);
        for place in 0..size.min(bits - at) {
            if bit(payload, at + place) == 1 {
                flip(&mut pieces[from..], place);
            }
        }
    }
    pieces
}

/// Calls what is given once for each piece: its bits, and its bytes.
pub fn each_piece(pieces: &[u8], bits: usize, size: usize, mut take: impl FnMut(usize, &[u8])) {
    for (n, bytes) in pieces.chunks(bytes_for(size)).enumerate() {
        let count = size.min(bits - n * size);
        take(count, &bytes[..bytes_for(count)]);
    }
}

impl With {
    fn piece_ours(&self, state: &mut [u8], count: usize, bytes: &[u8]) -> u64 {
        archive::piece(state, count, bytes, &self.lists.first, &self.lists.second)
    }

    fn finish_ours(&self, out: &mut Written) -> u64 {
        archive::finish(&mut out.state, DELIMITER, &self.lists.first, &self.lists.second, &mut out.tail)
    }

    /// One call of the proved crates. A stream's answers are added up.
    fn call_ours(&self, call: Call, sample: &Sample, out: &mut Written) -> u64 {
        let (first, second) = (&self.lists.first, &self.lists.second);
        match call {
            Call::Encode => archive::encode(PAYLOAD_MOST, &sample.payload, DELIMITER, first, second, &mut out.line),
            Call::Word => archive::check_word(PAYLOAD_MOST, &sample.word, first, second),
            Call::Line => archive::check_line(PAYLOAD_MOST, &sample.line, DELIMITER, first, second),
            Call::Complete => measured::complete(PAYLOAD_MOST, &mut out.word, first, second),
            Call::Finish => self.finish_ours(out),
            Call::Pieces(size) => {
                let mut answers = 0;
                out.state.copy_from_slice(&self.fresh);
                each_piece(&sample.pieces, PAYLOAD_MOST, size, |count, bytes| {
                    answers += self.piece_ours(&mut out.state, count, bytes);
                });
                answers + self.finish_ours(out)
            }
        }
    }

    /// The same by the yardstick.
    fn call_rust(&self, call: Call, sample: &Sample, out: &mut Written) -> u64 {
        let (code, lists) = (&self.code, &self.lists);
        match call {
            Call::Encode => {
                let (answer, line) =
                    lists::encode(code, lists, PAYLOAD_MOST, &sample.payload, DELIMITER, out.line.len());
                out.line[..line.len()].copy_from_slice(&line);
                answer.number()
            }
            Call::Word => lists::check_word(code, lists, PAYLOAD_MOST, &sample.word).number(),
            Call::Line => lists::check_line(code, lists, PAYLOAD_MOST, &sample.line, DELIMITER).number(),
            Call::Complete => lists::complete(code, lists, PAYLOAD_MOST, &mut out.word).number(),
            Call::Finish => {
                let stream = Stream::read(&out.state).expect("a state has 400 bytes");
                self.finish_rust(stream, out)
            }
            Call::Pieces(size) => {
                let mut answers = 0;
                let mut stream = Stream::fresh(FIBRE);
                each_piece(&sample.pieces, PAYLOAD_MOST, size, |count, bytes| {
                    answers += lists::piece(&self.columns, lists, &mut stream, count, bytes).number();
                });
                answers + self.finish_rust(stream, out)
            }
        }
    }

    fn finish_rust(&self, mut stream: Stream, out: &mut Written) -> u64 {
        let (answer, tail) = lists::finish(&self.code, &self.lists, &mut stream, DELIMITER, out.tail.len());
        out.tail[..tail.len()].copy_from_slice(&tail);
        out.state = stream.state();
        answer.number()
    }

    /// Whether both answer a sample alike, by 0, and leave the same bytes. In a stream they take turns, and the states
    /// are compared after each piece.
    fn same(&self, call: Call, sample: &Sample, ours: &mut Written, rust: &mut Written) -> bool {
        let mut same = true;
        let answers = match call {
            Call::Pieces(size) => {
                let mut stream = Stream::fresh(FIBRE);
                ours.state.copy_from_slice(&self.fresh);
                each_piece(&sample.pieces, PAYLOAD_MOST, size, |count, bytes| {
                    same &= self.piece_ours(&mut ours.state, count, bytes) == 0;
                    let answer = lists::piece(&self.columns, &self.lists, &mut stream, count, bytes);
                    same &= answer == Answer::Fine && ours.state == stream.state();
                });
                (self.finish_ours(ours), self.finish_rust(stream, rust))
            }
            _ => (self.call_ours(call, sample, ours), self.call_rust(call, sample, rust)),
        };
        same && answers == (0, 0) && ours == rust
    }
}

impl Fibre {
    fn new(name: &'static str, code: Rc<Code>, columns: Rc<Columns>, lists: Lists, words: usize) -> Fibre {
        let orders = lists.read().expect("both are reorderings");
        let mut random = random::Random(142);
        let mut samples = Vec::new();
        for _ in 0..words {
            let payload = random.bytes(bytes_for(PAYLOAD_MOST));
            let inner = lists::inner_payload(&orders, &lists::padded(PAYLOAD_MOST, &payload));
            let word = code.full_word(PAYLOAD_PLACES, &inner);
            let outer = lists::outer_word(&code, &orders, PAYLOAD_MOST, &payload);
            let line = line_word(PAYLOAD_MOST, &outer, DELIMITER);
            let mut stream = Stream::fresh(FIBRE);
            lists::piece(&columns, &lists, &mut stream, PAYLOAD_MOST, &payload);
            samples.push(Sample { payload, word, line, state: stream.state(), pieces: Vec::new() });
        }
        // Other bytes than any call leaves, so that a byte that is not written is found.
        let blank = |sample: &Sample| Written {
            line: vec![165; sample.line.len()],
            word: vec![165; sample.word.len()],
            state: vec![165; sample.state.len()],
            tail: vec![165; TAIL_BYTES],
        };
        let ours: Vec<Written> = samples.iter().map(blank).collect();
        let rust = ours.clone();
        let with = With { code, columns, lists, fresh: Stream::fresh(FIBRE).state() };
        Fibre { name, with, samples, ours, rust }
    }
}

impl Bench for Fibre {
    fn calls(&self) -> Vec<(String, Call)> {
        CALLS.map(|(name, call)| (format!("{}: {}", self.name, name), call)).to_vec()
    }

    fn words(&self, call: Call, most: usize) -> usize {
        match call {
            Call::Pieces(1) => most.min(BITWISE_WORDS),
            Call::Pieces(BLOCK) => most.min(MANY_PIECES_WORDS),
            _ => most,
        }
    }

    /// The pieces, and the inputs that it writes over.
    fn prepare(&mut self, call: Call, words: usize) {
        for n in 0..words {
            let sample = &mut self.samples[n];
            if let Call::Pieces(size) = call {
                sample.pieces = cut(&sample.payload, PAYLOAD_MOST, size);
            }
            for out in [&mut self.ours[n], &mut self.rust[n]] {
                out.state.copy_from_slice(&sample.state);
                // The parity that stands in a word to be completed is not the right one.
                out.word.copy_from_slice(&sample.word);
                out.word[PAYLOAD_PLACES / 8..].fill(165);
            }
        }
    }

    fn run(&mut self, call: Call, engine: Engine, words: usize) -> u64 {
        let mut answers = 0;
        for n in 0..words {
            let sample = &self.samples[n];
            answers += match engine {
                Engine::Ours => self.with.call_ours(call, sample, &mut self.ours[n]),
                Engine::Rust => self.with.call_rust(call, sample, &mut self.rust[n]),
            };
        }
        answers
    }

    fn compare(&mut self, call: Call, words: usize) -> usize {
        self.prepare(call, words);
        let differs = |&n: &usize| !self.with.same(call, &self.samples[n], &mut self.ours[n], &mut self.rust[n]);
        (0..words).filter(differs).count()
    }
}

/// A mark is a yield: a system call, which the counter sees.
fn count(bench: &mut dyn Bench, call: Call, engine: Engine, words: usize) -> u64 {
    bench.prepare(call, words);
    std::thread::yield_now();
    let answers = bench.run(call, engine, words);
    std::thread::yield_now();
    assert!(answers == 0, "a word was refused or not accepted");
    0
}

fn time(bench: &mut dyn Bench, call: Call, engine: Engine, words: usize) -> u64 {
    let mut spent = [0; RUNS];
    for time in &mut spent {
        bench.prepare(call, words);
        let start = Instant::now();
        let answers = bench.run(call, engine, words);
        *time = start.elapsed().as_nanos() as u64 / words as u64;
        assert!(answers == 0, "a word was refused or not accepted");
    }
    spent.sort();
    spent[RUNS / 2]
}

fn main() {
    let mode = std::env::args().nth(1).unwrap_or_default();
    let most = match mode.as_str() {
        "compare" => FEW_WORDS,
        "count" | "time" => WORDS,
        _ => panic!("bench compare, count or time"),
    };
    let code = Rc::new(Code::new());
    let columns = Rc::new(Columns::new(&code));
    let made_up = Pair::made(&mut random::Random(2), "shuffled").lists;
    let plain = Fibre::new("plain", code.clone(), columns.clone(), Pair::plain().lists, most);
    let made_up = Fibre::new("made-up", code, columns, made_up, most);
    let [large, small] = coax::codes(most);
    let mut benches: [Box<dyn Bench>; 4] = [Box::new(plain), Box::new(made_up), Box::new(large), Box::new(small)];
    let (mut cases, mut wrong) = (0, 0);
    for bench in &mut benches {
        for (name, call) in bench.calls() {
            let words = bench.words(call, most);
            let differing = bench.compare(call, words);
            if differing > 0 {
                println!("wrong {}, {} of {} words", name, differing, words);
            }
            cases += words;
            wrong += differing;
        }
    }
    if mode == "compare" || wrong > 0 {
        println!("{} cases, {} wrong", cases, wrong);
        std::process::exit(i32::from(wrong > 0));
    }
    for bench in &mut benches {
        for (name, call) in bench.calls() {
            let words = bench.words(call, most);
            for (engine, whose) in [(Engine::Ours, "ours"), (Engine::Rust, "Rust")] {
                let nanoseconds = match mode.as_str() {
                    "time" => time(bench.as_mut(), call, engine, words),
                    _ => count(bench.as_mut(), call, engine, words),
                };
                println!("{} {} {} {}", nanoseconds, words, whose, name);
            }
        }
    }
}
