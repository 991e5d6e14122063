//! Probe cases made, run through both programs in batches, compared line by line.

use crate::controller::Engine;
use crate::external::External;
use crate::memory::{first_word, four_words, Side, DESC_WORDS};
use crate::probe::{
    self, call_name, call_taken, engine_taken, rx_numbers, tx_numbers, Case, Outcome, State,
};
use crate::probe_gen::{write_noisy, Maker};
use crate::rng::Rng;
use crate::tally::Tally;
use crate::variant::Variant;

const LINES: usize = 11;
const BATCH: u64 = 400;

pub struct Result {
    pub cases: u64,
    pub failed: u64,
    pub tally: Tally,
}

/// Everything that must have occurred over a whole comparison.
pub fn wanted() -> Vec<String> {
    let mut keys = Vec::new();
    let mut numbers = |mark: &str, list: &[u8]| {
        for n in list {
            keys.push(format!("{mark} {n:02}"));
        }
    };
    numbers("answer", &(0..=24).collect::<Vec<u8>>());
    numbers("guest write", &(0..=17).collect::<Vec<u8>>());
    numbers("kind change", &[0, 1, 2, 18, 19, 20, 21]);
    numbers("frame", &[0, 22, 23, 24]);
    numbers("step", &[0, 1, 22]);
    numbers("unguarded write", &[0, 1, 3, 4, 22]);
    numbers(
        "judge transmit HDP",
        &[0, 6, 7, 8, 9, 10, 12, 13, 14, 15, 16, 17],
    );
    numbers(
        "judge receive HDP",
        &[0, 6, 7, 8, 9, 10, 12, 13, 14, 15, 16],
    );
    numbers("judge transmit CP", &[0, 6]);
    numbers("judge receive CP", &[0, 6]);
    numbers("judge transmit teardown", &[0, 6, 7, 8, 9, 10]);
    numbers("judge receive teardown", &[0, 6, 7, 8, 9, 10]);
    numbers("judge reset", &[0, 6, 7, 8, 9]);
    numbers("judge zero only", &[0, 9]);
    numbers("judge free word", &[0]);
    numbers("judge word in use", &[11]);
    numbers("judge transmit append", &[0, 12, 13, 14, 15, 16, 17]);
    numbers("judge receive append", &[0, 12, 13, 14, 15, 16]);
    // Every phase moved on and, where something can be unfit, was also found unfit.
    for tag in 1..=7 {
        numbers(&format!("step transmit at tag {tag}"), &[0]);
    }
    for tag in [1, 2, 3, 4, 5, 6] {
        numbers(&format!("step transmit at tag {tag}"), &[22]);
    }
    for tag in 0..=7 {
        numbers(&format!("step receive at tag {tag}"), &[0]);
    }
    for tag in [2, 3, 4, 5, 6] {
        numbers(&format!("step receive at tag {tag}"), &[22]);
    }
    for name in ["transmit-teardown", "receive-teardown"] {
        numbers(&format!("step {name} at stage 1"), &[0, 22]);
        numbers(&format!("step {name} at stage 2"), &[0]);
        numbers(&format!("step {name} at stage 3"), &[0]);
    }
    keys.push("sum stays at 2^32 - 1".to_string());
    keys.push("here stays at 2^32 - 1".to_string());
    for taken in crate::compare_bench::STEPS {
        keys.push(format!("taken {taken}"));
    }
    keys
}

fn count(tally: &mut Tally, case: &Case, outcome: &Outcome) {
    let call = call_taken(case.call);
    tally.add(&format!("answer {:02}", outcome.number));
    tally.add(&format!("{} {:02}", call_name(call), outcome.number));
    if call == probe::GUEST_WRITE && outcome.number > 2
        || outcome.effect != crate::guard::Effect::None
    {
        tally.add(&format!("judge {} {:02}", outcome.label, outcome.number));
    }
    if call == probe::STEP && outcome.number != 1 && !case.state.controller.undefined {
        let controller = &case.state.controller;
        let engine = engine_taken(case.a);
        let at = match engine {
            Engine::Reset => String::new(),
            Engine::Transmit => format!(" at tag {}", tx_numbers(&controller.tx)[0]),
            Engine::Receive => format!(" at tag {}", rx_numbers(&controller.rx)[0]),
            Engine::Teardown(side) => format!(" at stage {}", controller.stages[side.index()]),
        };
        let moved = outcome.number == 22
            || outcome.label != "cannot move"
            || at.ends_with("tag 0")
            || at.ends_with("tag 1");
        if moved {
            tally.add(&format!(
                "step {}{} {:02}",
                engine.name(),
                at,
                outcome.number
            ));
        }
        let after = &outcome.after.controller;
        let top = u64::from(u32::MAX);
        if outcome.label == "transmit 1, middle" && tx_numbers(&after.tx)[3] == top {
            tally.add("sum stays at 2^32 - 1");
        }
        if engine == Engine::Receive && rx_numbers(&after.rx)[6] == top && outcome.burst.is_some() {
            tally.add("here stays at 2^32 - 1");
        }
        if outcome.number == 0 {
            tally.add(&format!("taken {}", outcome.label));
        }
    }
}

fn model_lines(case: &Case) -> String {
    // Read back from its bytes, as the other program reads it.
    let bytes = probe::write_case(case);
    let mut rest = bytes.as_slice();
    let read = probe::read_case(&mut rest).expect("a whole case");
    assert!(rest.is_empty());
    probe::print_outcome(&probe::run_case(&read, Variant::Right))
}

fn differs(external: &External, case: &Case) -> bool {
    external.run(&probe::write_case(case)) != model_lines(case).into_bytes()
}

/// `cases` generated cases; stops at the first difference.
pub fn compare(external: &External, cases: u64, seed: u64) -> Result {
    let mut result = Result {
        cases: 0,
        failed: 0,
        tally: Tally::new(),
    };
    let mut maker = Maker::new(Rng::new(seed).next());
    let mut rng = Rng::new(seed ^ 0xBE7E);
    while result.cases < cases {
        let batch: Vec<Case> = (0..BATCH.min(cases - result.cases))
            .map(|_| maker.case())
            .collect();
        let bytes: Vec<Vec<u8>> = batch
            .iter()
            .map(|case| some_bytes(case, &mut rng))
            .collect();
        let mut input = bytes.concat();
        if batch.len() % 7 == 0 {
            // A cut case at the end prints nothing.
            let more = probe::write_case(&batch[0]);
            input.extend(&more[..more.len() - 1]);
        }
        let theirs = String::from_utf8_lossy(&external.run(&input)).into_owned();
        let mut their_lines = theirs.split_inclusive('\n');
        for (i, case) in batch.iter().enumerate() {
            let outcome = probe::run_case(case, Variant::Right);
            count(&mut result.tally, case, &outcome);
            let ours = probe::print_outcome(&outcome);
            let their: String = their_lines.by_ref().take(LINES).collect();
            result.cases += 1;
            if ours != their {
                result.failed += 1;
                println!(
                    "FAILED case {} of seed {seed} ({} in its batch)",
                    result.cases - 1,
                    i
                );
                report(external, case, &bytes[i], &ours, &their);
                return result;
            }
        }
        if their_lines.next().is_some() {
            result.failed += 1;
            println!("FAILED: lines after the last case");
            return result;
        }
    }
    result
}

/// A case as bytes, in one of the ways that PROBE.md allows.
fn some_bytes(case: &Case, rng: &mut Rng) -> Vec<u8> {
    if rng.percent(60) {
        return probe::write_case(case);
    }
    let bytes = write_noisy(case, rng);
    let mut rest = bytes.as_slice();
    let read = probe::read_case(&mut rest).expect("a whole case");
    assert!(
        rest.is_empty() && read == *case,
        "the noisy bytes are another case"
    );
    bytes
}

fn report(external: &External, case: &Case, bytes: &[u8], ours: &str, theirs: &str) {
    if !differs(external, case) {
        let alone = external.run(bytes) != ours.as_bytes();
        if alone {
            println!("only these bytes of the case show the difference (what PROBE.md says is");
            println!("ignored, passed over, clamped or taken modulo is used in them)");
        } else {
            println!("the case alone shows no difference; in its batch it printed other lines");
        }
        print_case(case);
        print_both(ours, theirs);
        crate::compare_bench::keep_file("second-difference.probe", bytes);
        return;
    }
    let small = simplify(external, case.clone());
    print_case(&small);
    let theirs = external.run(&probe::write_case(&small));
    print_both(&model_lines(&small), &String::from_utf8_lossy(&theirs));
    crate::compare_bench::keep_file("second-difference.probe", &probe::write_case(&small));
}

/// Drops what the difference does not need: memory words, book, kinds, flags, totals.
fn simplify(external: &External, mut case: Case) -> Case {
    let attempt = |case: &mut Case, change: &dyn Fn(&mut Case)| {
        let mut other = case.clone();
        change(&mut other);
        if other != *case && differs(external, &other) {
            *case = other;
        }
    };
    for side in Side::BOTH {
        attempt(&mut case, &|c| drop_queue(c, side));
    }
    for word in 0..case.state.memory.words() {
        if case.state.memory.word(word) != 0 {
            attempt(&mut case, &|c| c.state.memory.set_word(word, 0));
        }
    }
    for i in 0..DESC_WORDS {
        if case.state.book.in_use[i] != 0 {
            attempt(&mut case, &|c| c.state.book.in_use[i] = 0);
        }
        if case.state.book.lengths[i] != 0 {
            attempt(&mut case, &|c| c.state.book.lengths[i] = 0);
        }
    }
    attempt(&mut case, &|c| c.state.kinds.truncate(4));
    attempt(&mut case, &|c| c.state.kinds = vec![1; 4]);
    for i in 0..2 {
        attempt(&mut case, &|c| c.state.book.heads[i] = 0);
        attempt(&mut case, &|c| c.state.controller.registers.hdp[i] = 0);
        attempt(&mut case, &|c| c.state.controller.registers.cp[i] = 0);
        attempt(&mut case, &|c| c.state.book.teardown_pending[i] = false);
        attempt(&mut case, &|c| {
            c.state.controller.teardown_pending[i] = false
        });
        attempt(&mut case, &|c| c.state.controller.stages[i] = 1);
    }
    attempt(&mut case, &|c| c.state.book.reset_pending = false);
    attempt(&mut case, &|c| c.state.controller.reset_pending = false);
    attempt(&mut case, &|c| {
        c.state.controller.registers.reset_bit = false
    });
    attempt(&mut case, &|c| c.state.controller.sent = 0);
    attempt(&mut case, &|c| c.state.controller.received = 0);
    attempt(&mut case, &|c| {
        c.state.controller.tx = crate::controller::TxPhase::Idle
    });
    attempt(&mut case, &|c| {
        c.state.controller.rx = crate::controller::RxPhase::Idle
    });
    case
}

/// A whole queue out of a sound book.
fn drop_queue(case: &mut Case, side: Side) {
    let State { memory, book, .. } = &mut case.state;
    if !memory.size_is_right() || !book.is_sound(memory) {
        return;
    }
    for pointer in book.queue(memory, side) {
        for word in four_words(pointer) {
            book.in_use[word] = 0;
        }
        book.lengths[first_word(pointer)] = 0;
    }
    book.heads[side.index()] = 0;
}

fn print_case(case: &Case) {
    println!(
        "--- the case: {} {:#X} {:#X}",
        call_name(case.call),
        case.a,
        case.b
    );
    let state = &case.state;
    print!("memory {} bytes:", state.memory.bytes.len());
    for word in 0..state.memory.words() {
        if state.memory.word(word) != 0 {
            print!(" {word}:{:#X}", state.memory.word(word));
        }
    }
    println!();
    println!(
        "kinds N {}: {:?}",
        state.kinds.len(),
        &state.kinds[..state.kinds.len().min(32)]
    );
    let book = &state.book;
    println!(
        "heads {:#X} {:#X} marks {:?} reset {} teardowns {:?}",
        book.heads[0], book.heads[1], book.marks.0, book.reset_pending, book.teardown_pending
    );
    let used: Vec<(usize, u8)> = (0..DESC_WORDS)
        .map(|i| (i, book.in_use[i]))
        .filter(|p| p.1 != 0)
        .collect();
    let lengths: Vec<(usize, u16)> = (0..DESC_WORDS)
        .map(|i| (i, book.lengths[i]))
        .filter(|p| p.1 != 0)
        .collect();
    println!("in use {used:?}");
    println!("lengths {lengths:?}");
    println!("{:X?}", state.controller);
}

fn print_both(ours: &str, theirs: &str) {
    println!("--- lines (second model, then the external program where it differs)");
    let mut others = theirs.lines();
    for line in ours.lines() {
        println!("{line}");
        match others.next() {
            Some(other) if other == line => {}
            Some(other) => println!("    external: {other}"),
            None => println!("    external: no line"),
        }
    }
    println!("---");
}
