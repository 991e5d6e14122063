//! The machine: guard and controller over one memory, one kind table, one set of
//! registers. "an accepted guest write reaches the controller through the same
//! function as an unguarded write" (open point 29).

use crate::book::Book;
use crate::controller::{Controller, Engine, StepReport};
use crate::guard::{self, Answer};
use crate::memory::Memory;
use crate::variant::Variant;

#[derive(Clone, PartialEq, Eq, Debug)]
pub struct Machine {
    pub variant: Variant,
    pub kinds: Vec<u8>,
    pub memory: Memory,
    pub book: Book,
    pub controller: Controller,
}

/// What a guest write came to in the machine.
#[derive(Clone, Copy, PartialEq, Eq, Debug)]
pub struct Written {
    pub answer: Answer,
    /// The controller's own answer, where the guard accepted.
    pub controller: Option<u8>,
    /// The guard's memory and registers are those that the controller's own
    /// function left.
    pub agree: bool,
}

impl Machine {
    pub fn fresh(kinds: Vec<u8>, variant: Variant) -> Machine {
        Machine {
            variant,
            kinds,
            memory: Memory::fresh(),
            book: Book::fresh(),
            controller: Controller::fresh(),
        }
    }

    pub fn guest_write(&mut self, address: u32, value: u32) -> Written {
        let mut memory = self.memory.clone();
        let mut registers = self.controller.registers;
        let answer = guard::guest_write(
            &mut self.book,
            &mut memory,
            &self.kinds,
            &mut registers,
            self.variant,
            address,
            value,
        );
        if answer.number != 0 {
            let agree = memory == self.memory && registers == self.controller.registers;
            return Written {
                answer,
                controller: None,
                agree,
            };
        }
        let own = self
            .controller
            .unguarded_write(&mut self.memory, address, value);
        let agree = memory == self.memory && registers == self.controller.registers;
        Written {
            answer,
            controller: Some(own),
            agree,
        }
    }

    pub fn kind_change(&mut self, block: u32, kind: u32) -> u8 {
        guard::kind_change(
            &mut self.book,
            &self.memory,
            &mut self.kinds,
            &self.controller.registers,
            self.variant,
            block,
            kind,
        )
    }

    pub fn frame(&mut self, length: u32) -> u8 {
        self.controller.frame(length)
    }

    pub fn step(&mut self, engine: Engine) -> StepReport {
        self.controller.step(&mut self.memory, engine, self.variant)
    }
}
