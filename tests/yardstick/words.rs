//! Makes what tests/commands runs the program on, by papers 01 and 02 alone:
//!   words FOLDER
//! Writes lists, payloads, full words, line words, tails and pieces into the folder, whole and damaged, the same for
//! the coax codes, and a file `cases`, a case to a line, its parts apart by tabs:
//!   the arguments; the answer, its lines apart by `|`; where a file is written, its name and the one it must equal
//! The names of files begin with the count of payload bits, those of a coax code with the code's. `.made` after the
//! count says that a file was made with the lists of made.lists, in any order; the others are of the plain pair.

#[allow(dead_code)]
mod coax;
mod coax_tables;
#[allow(dead_code)]
mod lists;
#[allow(dead_code)]
mod made_lists;
#[allow(dead_code)]
mod paper;
#[allow(dead_code)]
mod random;
#[allow(dead_code)]
mod stream;
mod table;

use coax::Coax;
use lists::Lists;
use made_lists::Pair;
use paper::*;
use random::Random;
use std::fs;
use std::path::PathBuf;

const SEED: u64 = 25;
/// Whole data blocks: 1, 2, 3, 4, 5, 7, 8, 30, 55 and 56 of them.
const COUNTS: [usize; 10] = [257, 514, 771, 1028, 1285, 1799, 2056, 7710, 14135, 14392];
/// Those with made-up lists: 1, 7, 30 and 56.
const MADE_COUNTS: [usize; 4] = [257, 1799, 7710, 14392];

struct Maker {
    code: Code,
    random: Random,
    folder: PathBuf,
    cases: String,
}

/// A pair of lists: how it is named to the program, what the names of files made with it have after the count, and its
/// bytes.
struct Order {
    argument: &'static str,
    mark: &'static str,
    lists: Lists,
}

fn told(answer: Answer) -> String {
    match answer {
        Answer::Fine => "accepted".to_string(),
        Answer::Refused(n) => format!("refusal {}", n),
        Answer::Shortened(place) => format!("shortened {}", place),
        Answer::Check(row, count) => format!("check {} fails {}", row, count),
        Answer::Parity(place) => format!("parity {}", place),
        Answer::Delimiter(place) => format!("delimiter {}", place),
    }
}

impl Maker {
    fn file(&self, name: &str, bytes: &[u8]) {
        fs::write(self.folder.join(name), bytes).expect("the folder can be written");
    }

    fn case(&mut self, arguments: &str, answer: &str, written: &str, expected: &str) {
        self.cases.push_str(&format!("{}\t{}\t{}\t{}\n", arguments, answer, written, expected));
    }

    fn check_word(&mut self, order: &Order, k: usize, name: &str, word: &[u8]) {
        self.file(name, word);
        let answer = told(lists::check_word(&self.code, &order.lists, k, word));
        self.case(&format!("word {} {} {}", order.argument, k, name), &answer, "", "");
    }

    fn check_line(&mut self, order: &Order, k: usize, delimiter: usize, name: &str, line: &[u8]) {
        self.file(name, line);
        let answer = told(lists::check_line(&self.code, &order.lists, k, line, delimiter));
        self.case(&format!("line {} {} {} {}", order.argument, k, delimiter, name), &answer, "", "");
    }

    /// The payload, cut into pieces of random sizes, one of them of 0 bits: the arguments, and what is said of them.
    fn pieces(&mut self, k: usize, payload: &[u8], name: &str) -> (String, String) {
        let (mut arguments, mut answer) = (String::new(), String::new());
        let (mut held, mut pieces) = (0, 0);
        while held < k {
            let count = if pieces == 1 { 0 } else { (1 + self.random.below(k / 3 + 1)).min(k - held) };
            let name = format!("{}.piece.{}", name, pieces);
            self.file(&name, &part(payload, held, count));
            held += count;
            pieces += 1;
            arguments.push_str(&format!(" {} {}", count, name));
            answer.push_str(&format!("piece {} held {}|", pieces, held));
        }
        (arguments, answer)
    }

    fn stream(&mut self, order: &Order, k: usize, delimiter: usize, payload: &[u8]) {
        let name = format!("{}{}", k, order.mark);
        let (pieces, answer) = self.pieces(k, payload, &name);
        let arguments = format!("stream {} {} {}.out{}", order.argument, delimiter, name, pieces);
        self.case(&arguments, &(answer + "written 322"), &format!("{}.out", name), &format!("{}.tail", name));
    }

    fn all_of(&mut self, order: &Order, k: usize) {
        let (lists, name) = (order.argument, format!("{}{}", k, order.mark));
        let orders = order.lists.read().expect("both are reorderings");
        let delimiter = self.random.below(DELIMITER_MOST + 1);
        let bytes = self.random.bytes(bytes_for(k));
        let payload = part(&bytes, 0, k);
        let word = self.code.full_word(PAYLOAD_PLACES, &lists::inner_payload(&orders, &lists::padded(k, &payload)));
        let outer = lists::outer_word(&self.code, &orders, k, &payload);
        let line = line_word(k, &outer, delimiter);
        self.file(&format!("{}.payload", name), &payload);
        self.file(&format!("{}.tail", name), &line_word(0, &outer, delimiter));
        self.check_word(order, k, &format!("{}.word", name), &word);
        self.check_line(order, k, delimiter, &format!("{}.line", name), &line);

        let (out, same) = (format!("{}.out", name), format!("{}.line", name));
        let written = format!("written {}", line.len());
        let arguments = format!("encode {} {} {} {}.payload {}", lists, k, delimiter, name, out);
        self.case(&arguments, &written, &out, &same);

        let mut open = word.clone();
        open[PAYLOAD_PLACES / 8..].copy_from_slice(&self.random.bytes(CHECKS / 8));
        self.file(&format!("{}.open", name), &open);
        let same = format!("{}.word", name);
        self.case(&format!("complete {} {} {}.open {}", lists, k, name, out), "written 2208", &out, &same);

        self.stream(order, k, delimiter, &payload);

        // the inner places that take a payload bit, and those that are shortened
        let (carrying, shortened): (Vec<usize>, Vec<usize>) = (0..PAYLOAD_PLACES).partition(|&t| orders.first[t] < k);
        let places = [
            (carrying[self.random.below(carrying.len())], "payload"),
            (shortened[self.random.below(shortened.len())], "shortened"),
            (PAYLOAD_PLACES + orders.second[self.random.below(SENT)], "sent"),
            (PAYLOAD_PLACES + orders.second[SENT + self.random.below(CHECKS - SENT)], "punctured"),
        ];
        for (place, kind) in places {
            let mut damaged = word.clone();
            flip(&mut damaged, place);
            self.check_word(order, k, &format!("{}.word.{}", name, kind), &damaged);
        }
        let places = [
            (self.random.below(k), "payload"),
            (k + self.random.below(SENT), "sent"),
            (k + SENT + self.random.below(DELIMITER_BITS), "delimiter"),
        ];
        for (place, kind) in places {
            let mut damaged = line.clone();
            flip(&mut damaged, place);
            self.check_line(order, k, delimiter, &format!("{}.line.{}", name, kind), &damaged);
        }
    }

    fn check_coax(&mut self, code: &Coax, name: &str, word: &[u8]) {
        self.file(name, word);
        let answer = told(code.check(code.payload, word));
        self.case(&format!("coax {} word {} {}", code.places, code.payload, name), &answer, "", "");
    }

    fn all_of_coax(&mut self, code: &Coax) {
        let (name, bits) = (code.places, code.payload);
        let payload = self.random.bytes(bytes_for(bits));
        let word = code.full_word(&payload);
        self.file(&format!("{}.payload", name), &payload);
        self.file(&format!("{}.parity", name), &word[bits / 8..]);
        self.check_coax(code, &format!("{}.word", name), &word);

        let (out, same) = (format!("{}.out", name), format!("{}.word", name));
        let written = format!("written {}", word.len());
        self.case(&format!("coax {} encode {} {}.payload {}", name, bits, name, out), &written, &out, &same);

        let mut open = word.clone();
        for place in bits..code.places {
            put(&mut open, place, self.random.below(2) as u8);
        }
        self.file(&format!("{}.open", name), &open);
        self.case(&format!("coax {} complete {} {}.open {}", name, bits, name, out), &written, &out, &same);

        let (pieces, answer) = self.pieces(bits, &payload, &name.to_string());
        let answer = format!("{}written {}", answer, code.parity_bytes());
        let same = format!("{}.parity", name);
        self.case(&format!("coax {} stream {}{}", name, out, pieces), &answer, &out, &same);

        let places = [
            (0, "first"),
            (self.random.below(bits), "payload"),
            (bits + self.random.below(code.parity), "parity"),
            (code.places - 1, "last"),
        ];
        for (place, kind) in places {
            let mut damaged = word.clone();
            flip(&mut damaged, place);
            self.check_coax(code, &format!("{}.word.{}", name, kind), &damaged);
        }
    }
}

fn main() {
    let folder = PathBuf::from(std::env::args().nth(1).expect("a folder"));
    let mut maker = Maker { code: Code::new(), random: Random(SEED), folder, cases: String::new() };
    let plain = Order { argument: "plain", mark: "", lists: Pair::plain().lists };
    for k in COUNTS {
        maker.all_of(&plain, k);
    }
    let lists = Pair::made(&mut maker.random, "shuffled").lists;
    maker.file("made.lists", &[&lists.first[..], &lists.second[..]].concat());
    let made = Order { argument: "made.lists", mark: ".made", lists };
    for k in MADE_COUNTS {
        maker.all_of(&made, k);
    }
    for code in [Coax::code_16200(), Coax::code_5940()] {
        maker.all_of_coax(&code);
    }
    maker.file("cases", maker.cases.as_bytes());
}
