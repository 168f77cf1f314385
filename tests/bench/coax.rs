//! The benchmark's calls of the coax codes, ours and the yardstick's. Their names begin with the code's.

use crate::archive;
use crate::coax_paper::Coax;
use crate::measured;
use crate::random::Random;
use crate::stream::Stream;
use crate::{cut, each_piece, Bench, Call, Engine};

/// What a call writes: the encoder's word, the word completed, the stream's state, the parity.
#[derive(Clone, PartialEq)]
struct Written {
    word: Vec<u8>,
    completed: Vec<u8>,
    state: Vec<u8>,
    parity: Vec<u8>,
}

/// A payload, its right word, the state of a stream that holds it, and its pieces for the call at hand, each from a
/// new byte on.
struct Sample {
    payload: Vec<u8>,
    word: Vec<u8>,
    state: Vec<u8>,
    pieces: Vec<u8>,
}

/// A code: the yardstick's, the calls of both archives, and the state of a fresh stream.
struct Both {
    code: Coax,
    host: archive::CoaxCalls,
    measured: measured::CoaxCalls,
    fresh: Vec<u8>,
}

pub struct CoaxBench {
    both: Both,
    samples: Vec<Sample>,
    /// A buffer of each kind for each sample and engine.
    ours: Vec<Written>,
    rust: Vec<Written>,
}

/// The two codes, with so many words each.
pub fn codes(words: usize) -> [CoaxBench; 2] {
    let large = Both::new(Coax::code_16200(), archive::COAX_16200, measured::COAX_16200);
    let small = Both::new(Coax::code_5940(), archive::COAX_5940, measured::COAX_5940);
    [CoaxBench::new(large, words), CoaxBench::new(small, words)]
}

impl Both {
    fn new(code: Coax, host: archive::CoaxCalls, measured: measured::CoaxCalls) -> Both {
        let fresh = Stream::fresh(code.number).state();
        Both { code, host, measured, fresh }
    }

    /// One call of the proved crates. A stream's answers are added up.
    fn call_ours(&self, call: Call, sample: &Sample, out: &mut Written) -> u64 {
        let bits = self.code.payload;
        match call {
            Call::Encode => self.host.encode(bits, &sample.payload, &mut out.word),
            Call::Word => self.host.check(bits, &sample.word),
            Call::Complete => self.measured.complete(bits, &mut out.completed),
            Call::Finish => self.host.finish(&mut out.state, &mut out.parity),
            Call::Pieces(size) => {
                let mut answers = 0;
                out.state.copy_from_slice(&self.fresh);
                each_piece(&sample.pieces, bits, size, |count, bytes| {
                    answers += self.host.piece(&mut out.state, count, bytes);
                });
                answers + self.host.finish(&mut out.state, &mut out.parity)
            }
            Call::Line => panic!("a coax code has no line words"),
        }
    }

    /// The same by the yardstick.
    fn call_rust(&self, call: Call, sample: &Sample, out: &mut Written) -> u64 {
        let bits = self.code.payload;
        match call {
            Call::Encode => {
                let (answer, word) = self.code.encode(bits, &sample.payload, out.word.len());
                out.word[..word.len()].copy_from_slice(&word);
                answer.number()
            }
            Call::Word => self.code.check(bits, &sample.word).number(),
            Call::Complete => self.code.complete(bits, &mut out.completed).number(),
            Call::Finish => {
                let stream = Stream::read(&out.state).expect("a state has 400 bytes");
                self.finish_rust(stream, out)
            }
            Call::Pieces(size) => {
                let mut answers = 0;
                let mut stream = Stream::fresh(self.code.number);
                each_piece(&sample.pieces, bits, size, |count, bytes| {
                    answers += self.code.piece(&mut stream, count, bytes).number();
                });
                answers + self.finish_rust(stream, out)
            }
            Call::Line => panic!("a coax code has no line words"),
        }
    }

    fn finish_rust(&self, mut stream: Stream, out: &mut Written) -> u64 {
        let (answer, parity) = self.code.finish(&mut stream, out.parity.len());
        out.parity[..parity.len()].copy_from_slice(&parity);
        out.state = stream.state();
        answer.number()
    }

    /// Whether both answer each piece alike and leave the same state after it.
    fn pieces_same(&self, call: Call, sample: &Sample) -> bool {
        let size = match call {
            Call::Pieces(size) => size,
            _ => return true,
        };
        let mut rust = Stream::fresh(self.code.number);
        let mut ours = self.fresh.clone();
        let mut same = true;
        each_piece(&sample.pieces, self.code.payload, size, |count, bytes| {
            let answer = self.host.piece(&mut ours, count, bytes);
            same &= answer == self.code.piece(&mut rust, count, bytes).number() && ours == rust.state();
        });
        same
    }
}

impl CoaxBench {
    fn new(both: Both, words: usize) -> CoaxBench {
        let code = &both.code;
        let mut random = Random(101);
        let mut samples = Vec::new();
        for _ in 0..words {
            let payload = random.bytes(code.payload / 8);
            let word = code.full_word(&payload);
            let mut stream = Stream::fresh(code.number);
            code.piece(&mut stream, code.payload, &payload);
            samples.push(Sample { payload, word, state: stream.state(), pieces: Vec::new() });
        }
        // Other bytes than any call leaves, so that a byte that is not written is found.
        let blank = Written {
            word: vec![165; code.word_bytes()],
            completed: vec![165; code.word_bytes()],
            state: vec![165; samples[0].state.len()],
            parity: vec![165; code.parity_bytes()],
        };
        let ours = vec![blank; words];
        let rust = ours.clone();
        CoaxBench { both, samples, ours, rust }
    }
}

impl Bench for CoaxBench {
    /// The sizes make 1 piece, 8, and one for each block of the payload.
    fn calls(&self) -> Vec<(String, Call)> {
        let code = &self.both.code;
        let (payload, block) = (code.payload, code.block);
        let calls = [
            ("encode".to_string(), Call::Encode),
            ("check".to_string(), Call::Word),
            ("complete".to_string(), Call::Complete),
            ("finish of a stream".to_string(), Call::Finish),
            ("stream, 1 piece".to_string(), Call::Pieces(payload)),
            ("stream, 8 pieces".to_string(), Call::Pieces(payload / 8)),
            (format!("stream, {} pieces", payload / block), Call::Pieces(block)),
        ];
        calls.map(|(name, call)| (code.call(&name), call)).to_vec()
    }

    fn words(&self, _: Call, most: usize) -> usize {
        most
    }

    /// The pieces, and the inputs that it writes over.
    fn prepare(&mut self, call: Call, words: usize) {
        let bits = self.both.code.payload;
        for n in 0..words {
            let sample = &mut self.samples[n];
            if let Call::Pieces(size) = call {
                sample.pieces = cut(&sample.payload, bits, size);
            }
            for out in [&mut self.ours[n], &mut self.rust[n]] {
                out.state.copy_from_slice(&sample.state);
                // The parity that stands in a word to be completed is not the right one; its unused bits are 0.
                out.completed.copy_from_slice(&sample.word);
                out.completed[bits / 8..].fill(165);
                let last = out.completed.len() - 1;
                out.completed[last] &= 15;
            }
        }
    }

    fn run(&mut self, call: Call, engine: Engine, words: usize) -> u64 {
        let mut answers = 0;
        for n in 0..words {
            let sample = &self.samples[n];
            answers += match engine {
                Engine::Ours => self.both.call_ours(call, sample, &mut self.ours[n]),
                Engine::Rust => self.both.call_rust(call, sample, &mut self.rust[n]),
            };
        }
        answers
    }

    fn compare(&mut self, call: Call, words: usize) -> usize {
        self.prepare(call, words);
        let mut wrong = 0;
        for n in 0..words {
            let sample = &self.samples[n];
            let ours = self.both.call_ours(call, sample, &mut self.ours[n]);
            let rust = self.both.call_rust(call, sample, &mut self.rust[n]);
            let same = ours == rust && ours == 0 && self.ours[n] == self.rust[n];
            wrong += usize::from(!same || !self.both.pieces_same(call, sample));
        }
        wrong
    }
}
