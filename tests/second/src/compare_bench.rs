//! Bench files made, run through both programs, compared byte for byte.

use crate::bench::{self, read_file, Watcher};
use crate::controller::{Engine, StepReport};
use crate::external::External;
use crate::machine::Written;
use crate::rng::Rng;
use crate::tally::Tally;
use crate::traffic::{Guest, Profile};
use crate::variant::Variant;

/// A bench file as the pieces it was made of, so that pieces can be dropped.
pub type Pieces = Vec<Vec<u8>>;

/// Counts answers by line and by judge, and steps taken.
#[derive(Default)]
pub struct Counter {
    pub tally: Tally,
    pub twenty_two: bool,
}

impl Watcher for Counter {
    fn written(&mut self, written: &Written) {
        let answer = &written.answer;
        self.tally.add(&format!("W {:02}", answer.number));
        self.tally
            .add(&format!("judge {} {:02}", answer.judge, answer.number));
        if written.controller.is_some_and(|own| own != 0) {
            self.twenty_two = true;
        }
    }
    fn kind_changed(&mut self, answer: u8) {
        self.tally.add(&format!("K {answer:02}"));
    }
    fn framed(&mut self, answer: u8) {
        self.tally.add(&format!("F {answer:02}"));
        self.twenty_two |= answer == 22;
    }
    fn stepped(&mut self, _engine: Engine, report: &StepReport) {
        self.tally.add(&format!("step {}", report.taken));
        self.twenty_two |= report.answer == 22;
    }
    fn bad_record(&mut self) {
        self.tally.add("bad record");
    }
}

/// Everything that must have occurred over a whole comparison.
pub fn wanted() -> Vec<String> {
    let mut keys = Vec::new();
    let mut numbers = |mark: &str, list: &[u8]| {
        for n in list {
            keys.push(format!("{mark} {n:02}"));
        }
    };
    numbers(
        "W",
        &[0, 3, 4, 5, 6, 7, 8, 9, 10, 11, 12, 13, 14, 15, 16, 17],
    );
    numbers("K", &[0, 18, 19, 20, 21]);
    numbers("F", &[0, 23, 24]);
    numbers(
        "judge transmit HDP",
        &[0, 6, 7, 8, 9, 10, 12, 13, 14, 15, 16, 17],
    );
    numbers(
        "judge receive HDP",
        &[0, 6, 7, 8, 9, 10, 12, 13, 14, 15, 16],
    );
    numbers("judge transmit CP", &[0, 6]);
    numbers("judge receive CP", &[0, 6]);
    numbers("judge transmit teardown", &[0, 6, 7, 8, 9, 10]);
    numbers("judge receive teardown", &[0, 6, 7, 8, 9, 10]);
    numbers("judge reset", &[0, 6, 7, 8, 9]);
    numbers("judge zero only", &[0, 9]);
    numbers("judge passed", &[0]);
    numbers("judge not offered", &[5]);
    numbers("judge free word", &[0]);
    numbers("judge word in use", &[11]);
    numbers("judge transmit append", &[0, 12, 13, 14, 15, 16, 17]);
    numbers("judge receive append", &[0, 12, 13, 14, 15, 16]);
    for taken in STEPS {
        keys.push(format!("step {taken}"));
    }
    keys
}

/// Every step of 01, both ways where it has two.
pub const STEPS: [&str; 33] = [
    "transmit 1, new packet",
    "transmit 1, middle",
    "transmit 2, more to come",
    "transmit 2, last burst",
    "transmit 3, to the next descriptor",
    "transmit 3, end of packet",
    "transmit 4, EOQ set",
    "transmit 4, not the end",
    "transmit 5",
    "transmit 6, idle",
    "transmit 6, next packet",
    "receive 1, first",
    "receive 1, further",
    "receive 2, more to come",
    "receive 2, last burst",
    "receive 3, to the next descriptor",
    "receive 3, overrun",
    "receive 3, end of frame",
    "receive 4, EOQ set",
    "receive 4, not the end",
    "receive 5",
    "receive 5, overrun",
    "receive 6, idle",
    "receive 6, wait",
    "transmit teardown 1, TD set",
    "transmit teardown 1, HDP 0",
    "transmit teardown 2",
    "transmit teardown 3",
    "receive teardown 1, TD set",
    "receive teardown 1, HDP 0",
    "receive teardown 2",
    "receive teardown 3",
    "reset",
];

/// One bench file for a seed: traffic of some profile, one in ten damaged.
pub fn make_file(seed: u64) -> Pieces {
    let mut rng = Rng::new(seed);
    let profile = rng.pick(&Profile::ALL);
    let wanted = match rng.below(4) {
        0 => rng.between(50, 120),
        1 => rng.between(250, 400),
        _ => rng.between(100, 250),
    };
    let mut guest = Guest::new(rng.next(), profile, Variant::Right);
    guest.run(wanted as usize);
    let mut pieces: Pieces = guest.records.iter().map(|r| r.bytes()).collect();
    if rng.percent(12) {
        damage(&mut rng, &mut pieces);
    }
    pieces
}

/// "damaged ones (cut anywhere, unknown marks, unfit fields)".
fn damage(rng: &mut Rng, pieces: &mut Pieces) {
    let at = 1 + rng.index(pieces.len());
    match rng.below(17) {
        14 | 15 => {
            // Some bytes changed, anywhere after RM.
            for _ in 0..rng.between(1, 6) {
                if pieces.len() > 1 {
                    let piece = 1 + rng.index(pieces.len() - 1);
                    let place = rng.index(pieces[piece].len());
                    pieces[piece][place] ^= 1 << rng.below(8);
                }
            }
        }
        16 => {
            let n = rng.index(40);
            let noise: Vec<u8> = (0..n).map(|_| rng.u32() as u8).collect();
            pieces.truncate(1);
            pieces.push(noise);
        }
        0..=2 => {
            // Cut anywhere.
            let all = pieces.concat();
            let keep = rng.index(all.len() + 1);
            cut(pieces, keep);
        }
        3 => pieces.push(vec![rng.pick(b"RGKFSx")]),
        4 | 5 => {
            let mark = rng.pick(&[
                *b"XX",
                *b"gw",
                *b"GX",
                *b"WG",
                [0, 0],
                *b"MR",
                *b"SR",
                *b"K\n",
            ]);
            let mut bytes = mark.to_vec();
            bytes.extend(vec![rng.u32() as u8; rng.index(9)]);
            pieces.insert(at, bytes);
        }
        6 => pieces.insert(at, vec![b'S', b'T', rng.between(5, 255) as u8, 1]),
        7 => pieces.insert(at, vec![b'S', b'T', rng.below(5) as u8, 0]),
        8 => {
            let again = pieces[0].clone();
            pieces.insert(at, again);
        }
        9 => pieces[0] = vec![b'R', b'M', 0, 0],
        10 => {
            let n = rng.pick(&[16_385u16, 20_000, 65_535]);
            let mut bytes = b"RM".to_vec();
            bytes.extend(n.to_le_bytes());
            bytes.extend(vec![1; n as usize]);
            pieces[0] = bytes;
        }
        11 => {
            let last = pieces[0].len() - 1;
            let place = rng.between(4, last as u64) as usize;
            pieces[0][place] = rng.between(5, 255) as u8;
        }
        12 => {
            pieces.remove(0);
        }
        _ => pieces.clear(),
    }
}

/// Keeps the first `keep` bytes.
fn cut(pieces: &mut Pieces, keep: usize) {
    let mut left = keep;
    for piece in pieces.iter_mut() {
        let n = piece.len().min(left);
        piece.truncate(n);
        left -= n;
    }
    pieces.retain(|piece| !piece.is_empty());
}

pub fn model_output(input: &[u8]) -> Vec<u8> {
    bench::run(input, Variant::Right, &mut bench::NoWatcher).into_bytes()
}

/// Fewer pieces that still show the difference: drops runs of them, longest first.
pub fn shrink(external: &External, pieces: &Pieces) -> Pieces {
    let differs = |pieces: &Pieces| {
        let input = pieces.concat();
        external.run(&input) != model_output(&input)
    };
    let mut best = pieces.clone();
    let mut size = best.len() / 2;
    while size > 0 {
        let mut dropped = false;
        let mut at = 0;
        while at < best.len() {
            let mut fewer = best.clone();
            fewer.drain(at..(at + size).min(best.len()));
            if differs(&fewer) {
                best = fewer;
                dropped = true;
            } else {
                at += size;
            }
        }
        if !dropped || size > 1 {
            size /= 2;
        }
    }
    best
}

/// The file as readable text, in the form of `benchtext.py`.
pub fn as_text(input: &[u8]) -> String {
    let (records, bad) = read_file(input);
    let mut out: String = records.iter().map(|r| r.text() + "\n").collect();
    if let Some(offset) = bad {
        if offset < input.len() {
            out.push_str("raw ");
            out.extend(input[offset..].iter().map(|b| format!("{b:02X}")));
            out.push('\n');
        }
    }
    out
}

pub fn print_difference(input: &[u8], ours: &[u8], theirs: &[u8]) {
    println!("--- the file");
    print!("{}", as_text(input));
    println!("--- second model");
    print!("{}", String::from_utf8_lossy(ours));
    println!("--- external program");
    print!("{}", String::from_utf8_lossy(theirs));
    println!("---");
}

/// Where a file that shows a difference is written.
pub fn keep_file(name: &str, bytes: &[u8]) {
    let path = std::env::temp_dir().join(name);
    match std::fs::write(&path, bytes) {
        Ok(()) => println!("written to {}", path.display()),
        Err(e) => println!("could not write {}: {e}", path.display()),
    }
}

pub struct Result {
    pub files: u64,
    pub failed: u64,
    pub counter: Counter,
}

/// `files` generated files; stops at the first difference.
pub fn compare(external: &External, files: u64, seed: u64) -> Result {
    let mut result = Result {
        files: 0,
        failed: 0,
        counter: Counter::default(),
    };
    for i in 0..files {
        let file_seed = Rng::new(seed).next().wrapping_add(i);
        // A file can be made again from its seed alone.
        let pieces = make_file(file_seed);
        let input = pieces.concat();
        let ours = bench::run(&input, Variant::Right, &mut result.counter).into_bytes();
        let theirs = external.run(&input);
        result.files += 1;
        if ours == theirs {
            continue;
        }
        result.failed += 1;
        println!("FAILED file {i} of seed {seed}: outputs differ; shrinking");
        let small = shrink(external, &pieces).concat();
        print_difference(&small, &model_output(&small), &external.run(&small));
        keep_file("second-difference.bench", &small);
        break;
    }
    result
}
