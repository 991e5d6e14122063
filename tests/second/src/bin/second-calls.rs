//! The guard calls of a bench file as a log, for `tests/c/mix.c`: a bench file on
//! standard input, the log on standard output. The second model replays the file;
//! the log keeps what the guard cannot know from its own calls, which is what the
//! controller did to descriptor memory and to the registers in between.
//!
//! One line each, numbers decimal:
//!   `kinds N k k ..`    first
//!   `M word value`      the controller changed this word since the last call
//!   `W address value hdp hdp cp cp bit number effect side`
//!   `K block kind hdp hdp cp cp bit number`
//! The registers of `W` and `K` are those before the call (transmit, receive); number,
//! effect and side are the second model's answer, as in include/gresomund.h.

use second::bench::{read_file, Record};
use second::guard::Effect;
use second::machine::Machine;
use second::memory::{Side, DESC_WORDS};
use second::variant::Variant;
use std::fmt::Write as _;
use std::io::{Read, Write};

fn main() {
    let mut input = Vec::new();
    std::io::stdin()
        .read_to_end(&mut input)
        .expect("standard input");
    let (records, bad) = read_file(&input);
    assert!(bad.is_none(), "a bad record at {bad:?}");
    let log = log_of(&records);
    std::io::stdout()
        .write_all(log.as_bytes())
        .expect("standard output");
}

fn log_of(records: &[Record]) -> String {
    let mut out = String::new();
    let mut machine = Machine::fresh(Vec::new(), Variant::Right);
    let mut known = machine.memory.clone();
    for record in records {
        match record {
            Record::Kinds(kinds) => {
                machine = Machine::fresh(kinds.clone(), Variant::Right);
                write!(out, "kinds {}", kinds.len()).unwrap();
                for kind in kinds {
                    write!(out, " {kind}").unwrap();
                }
                writeln!(out).unwrap();
            }
            &Record::GuestWrite(address, value) => {
                let before = before_call(&machine, &mut known, &mut out);
                let answer = machine.guest_write(address, value).answer;
                let (effect, side) = numbers_of(answer.effect);
                let number = answer.number;
                writeln!(out, "W {address} {value} {before} {number} {effect} {side}").unwrap();
                known = machine.memory.clone();
            }
            &Record::KindChange(block, kind) => {
                let before = before_call(&machine, &mut known, &mut out);
                let number = machine.kind_change(u32::from(block), u32::from(kind));
                writeln!(out, "K {block} {kind} {before} {number}").unwrap();
            }
            &Record::Frame(length) => {
                machine.frame(u32::from(length));
            }
            &Record::Steps(engine, count) => {
                for _ in 0..count {
                    machine.step(engine);
                }
            }
        }
    }
    out
}

/// The `M` lines since the last call; the registers now.
fn before_call(machine: &Machine, known: &mut second::memory::Memory, out: &mut String) -> String {
    for word in 0..DESC_WORDS {
        let value = machine.memory.word(word);
        if value != known.word(word) {
            writeln!(out, "M {word} {value}").unwrap();
        }
    }
    *known = machine.memory.clone();
    let r = &machine.controller.registers;
    format!(
        "{} {} {} {} {}",
        r.hdp[0],
        r.hdp[1],
        r.cp[0],
        r.cp[1],
        u8::from(r.reset_bit)
    )
}

fn numbers_of(effect: Effect) -> (u8, u8) {
    let number = |side| match side {
        Side::Transmit => 1,
        Side::Receive => 2,
    };
    match effect {
        Effect::None => (0, 0),
        Effect::Plain => (1, 0),
        Effect::Started(side) => (2, number(side)),
        Effect::Appended(side) => (3, number(side)),
    }
}
