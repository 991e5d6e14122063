//! A machine under watch: after every operation it asks what demand 3 asks.
//! (a) the controller is not undefined and no operation answered 22 (nor 1 nor 2);
//! (b) each read burst lies in blocks owned by Linux;
//! (c) each store burst lies in blocks of kind 1 at that moment;
//! (d) every descriptor word changed by a controller step is in use in the book.

use crate::bench::Record;
use crate::controller::{Direction, Engine, StepReport};
use crate::machine::{Machine, Written};
use crate::memory::*;
use crate::variant::Variant;

#[derive(Clone, Debug)]
pub struct Monitored {
    pub machine: Machine,
    /// The first thing that went wrong.
    pub violation: Option<String>,
    pub operations: u64,
}

impl Monitored {
    pub fn fresh(kinds: Vec<u8>, variant: Variant) -> Monitored {
        Monitored {
            machine: Machine::fresh(kinds, variant),
            violation: None,
            operations: 0,
        }
    }

    fn complain(&mut self, what: String) {
        if self.violation.is_none() {
            self.violation = Some(what);
        }
    }

    fn after_any(&mut self, answer: u8) {
        self.operations += 1;
        if self.machine.controller.undefined {
            self.complain("(a) the controller is undefined".to_string());
        }
        if matches!(answer, 1 | 2 | 22) {
            self.complain(format!("(a) an operation answered {answer}"));
        }
    }

    pub fn guest_write(&mut self, address: u32, value: u32) -> Written {
        let written = self.machine.guest_write(address, value);
        self.after_any(written.answer.number);
        if let Some(own) = written.controller {
            if own != 0 {
                self.complain(format!(
                    "(a) the guard accepted a write that is {own} by the controller's own rules"
                ));
            } else if !written.agree {
                self.complain(
                    "guard and controller leave different registers or memory".to_string(),
                );
            }
        } else if !written.agree {
            self.complain("a refused write changed registers or memory".to_string());
        }
        written
    }

    pub fn kind_change(&mut self, block: u32, kind: u32) -> u8 {
        let answer = self.machine.kind_change(block, kind);
        self.after_any(answer);
        answer
    }

    pub fn frame(&mut self, length: u32) -> u8 {
        let answer = self.machine.frame(length);
        self.after_any(answer);
        answer
    }

    pub fn step(&mut self, engine: Engine) -> StepReport {
        let before = self.machine.memory.clone();
        let report = self.machine.step(engine);
        self.after_any(report.answer);
        if let Some(burst) = report.burst {
            let range = Range {
                first: burst.address,
                length: burst.bytes,
            };
            let kinds = &self.machine.kinds;
            match burst.direction {
                Direction::Read if !range.blocks_all(kinds, owned_by_linux) => {
                    self.complain(format!("(b) read burst at {:08X}", burst.address))
                }
                Direction::Store if !range.blocks_all(kinds, linux_data) => {
                    self.complain(format!("(c) store burst at {:08X}", burst.address))
                }
                _ => {}
            }
        }
        if before != self.machine.memory {
            for word in 0..DESC_WORDS {
                let changed = before.word(word) != self.machine.memory.word(word);
                if changed && !self.machine.book.word_in_use(word) {
                    self.complain(format!("(d) word {word} changed and not in use"));
                }
            }
        }
        report
    }

    /// A record of a bench file, as operations.
    pub fn record(&mut self, record: &Record) {
        match *record {
            Record::Kinds(_) => {}
            Record::GuestWrite(address, value) => {
                self.guest_write(address, value);
            }
            Record::KindChange(block, kind) => {
                self.kind_change(u32::from(block), u32::from(kind));
            }
            Record::Frame(length) => {
                self.frame(u32::from(length));
            }
            Record::Steps(engine, count) => {
                for _ in 0..count {
                    self.step(engine);
                }
            }
        }
    }
}
