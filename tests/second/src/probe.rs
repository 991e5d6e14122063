//! The probe of PROBE.md: one call on any state, and everything afterwards.

use crate::book::Book;
use crate::controller::{Burst, Controller, Direction, Engine, RxPhase, TxPhase};
use crate::guard::{self, Effect};
use crate::memory::*;
use crate::variant::Variant;
use std::fmt::Write;

/// "over 8,200 is taken as 8,200"
pub const MEMORY_LIMIT: usize = 8_200;

#[derive(Clone, PartialEq, Eq, Debug)]
pub struct State {
    pub memory: Memory,
    pub kinds: Vec<u8>,
    pub book: Book,
    pub controller: Controller,
}

#[derive(Clone, PartialEq, Eq, Debug)]
pub struct Case {
    pub call: u8,
    pub a: u32,
    pub b: u32,
    pub state: State,
}

/// What a call came to.
#[derive(Clone, PartialEq, Eq, Debug)]
pub struct Outcome {
    pub number: u8,
    pub effect: Effect,
    pub burst: Option<Burst>,
    /// Which rule judged or which step was taken; only for counting.
    pub label: &'static str,
    pub after: State,
}

pub const GUEST_WRITE: u8 = 0;
pub const KIND_CHANGE: u8 = 1;
pub const FRAME: u8 = 2;
pub const STEP: u8 = 3;
pub const UNGUARDED: u8 = 4;

/// "Any other: taken as 3".
pub fn call_taken(call: u8) -> u8 {
    if call <= 4 {
        call
    } else {
        STEP
    }
}

pub fn call_name(call: u8) -> &'static str {
    [
        "guest write",
        "kind change",
        "frame",
        "step",
        "unguarded write",
    ][call_taken(call) as usize]
}

/// "any other is taken modulo 5".
pub fn engine_taken(a: u32) -> Engine {
    Engine::by_number((a % 5) as u8).unwrap()
}

pub fn run_case(case: &Case, variant: Variant) -> Outcome {
    let mut after = case.state.clone();
    let (a, b) = (case.a, case.b);
    let (mut effect, mut burst) = (Effect::None, None);
    let (number, label) = match call_taken(case.call) {
        GUEST_WRITE => {
            let answer = guard::guest_write(
                &mut after.book,
                &mut after.memory,
                &after.kinds,
                &mut after.controller.registers,
                variant,
                a,
                b,
            );
            effect = answer.effect;
            (answer.number, answer.judge)
        }
        KIND_CHANGE => {
            let number = guard::kind_change(
                &mut after.book,
                &after.memory,
                &mut after.kinds,
                &after.controller.registers,
                variant,
                a,
                b,
            );
            (number, "kind change")
        }
        FRAME => (after.controller.frame(a), "frame"),
        UNGUARDED => (
            after.controller.unguarded_write(&mut after.memory, a, b),
            "unguarded write",
        ),
        _ => {
            let report = after
                .controller
                .step(&mut after.memory, engine_taken(a), variant);
            burst = report.burst;
            (report.answer, report.taken)
        }
    };
    Outcome {
        number,
        effect,
        burst,
        label,
        after,
    }
}

// ---------------------------------------------------------------- reading

/// Reads numbers off the front; None where they are cut.
struct Reader<'a> {
    rest: &'a [u8],
}

impl<'a> Reader<'a> {
    fn bytes(&mut self, n: usize) -> Option<&'a [u8]> {
        if self.rest.len() < n {
            return None;
        }
        let (got, rest) = self.rest.split_at(n);
        self.rest = rest;
        Some(got)
    }
    fn u8(&mut self) -> Option<u8> {
        Some(self.bytes(1)?[0])
    }
    fn u16(&mut self) -> Option<u16> {
        Some(u16::from_le_bytes(self.bytes(2)?.try_into().unwrap()))
    }
    fn u32(&mut self) -> Option<u32> {
        Some(u32::from_le_bytes(self.bytes(4)?.try_into().unwrap()))
    }
    fn u64(&mut self) -> Option<u64> {
        Some(u64::from_le_bytes(self.bytes(8)?.try_into().unwrap()))
    }
    fn odd(&mut self) -> Option<bool> {
        Some(self.u8()? % 2 == 1)
    }
    /// "Teardowns pending: bit 0 transmit, bit 1 receive. Other bits ignored".
    fn teardowns(&mut self) -> Option<[bool; 2]> {
        let bits = self.u8()?;
        Some([bits & 1 != 0, bits & 2 != 0])
    }
    /// "which teardown step comes next on each side: 1, 2, else 3".
    fn stage(&mut self) -> Option<u8> {
        Some(match self.u8()? {
            1 => 1,
            2 => 2,
            _ => 3,
        })
    }
    fn seven(&mut self) -> Option<[u32; 7]> {
        let mut found = [0; 7];
        for slot in &mut found {
            *slot = self.u32()?;
        }
        Some(found)
    }
}

/// One case off the front of the input, or None where it is cut.
pub fn read_case(input: &mut &[u8]) -> Option<Case> {
    let mut r = Reader { rest: input };
    let call = r.u8()?;
    let (a, b) = (r.u32()?, r.u32()?);
    let memory = read_memory(&mut r)?;
    let n = r.u16()? as usize;
    let kinds = r.bytes(n)?.to_vec();
    let book = read_book(&mut r)?;
    let controller = read_controller(&mut r)?;
    *input = r.rest;
    Some(Case {
        call,
        a,
        b,
        state: State {
            memory,
            kinds,
            book,
            controller,
        },
    })
}

fn read_memory(r: &mut Reader) -> Option<Memory> {
    let size = (r.u16()? as usize).min(MEMORY_LIMIT);
    let mut memory = Memory::of_size(size);
    for _ in 0..r.u16()? {
        let (place, value) = (r.u16()? as usize, r.u32()?);
        // "if all four bytes lie inside (else it is passed over)"
        if 4 * place + 4 <= size {
            memory.set_word(place, value);
        }
    }
    Some(memory)
}

fn read_book(r: &mut Reader) -> Option<Book> {
    let mut book = Book::fresh();
    book.heads = [r.u32()?, r.u32()?];
    book.marks = Marks::from_bits(r.u8()?);
    book.reset_pending = r.odd()?;
    book.teardown_pending = r.teardowns()?;
    for _ in 0..r.u16()? {
        let (index, value) = (r.u16()? as usize, r.u8()?);
        book.in_use[index % DESC_WORDS] = value;
    }
    for _ in 0..r.u16()? {
        let (index, value) = (r.u16()? as usize, r.u16()?);
        book.lengths[index % DESC_WORDS] = value;
    }
    Some(book)
}

fn read_controller(r: &mut Reader) -> Option<Controller> {
    let registers = Registers {
        hdp: [r.u32()?, r.u32()?],
        cp: [r.u32()?, r.u32()?],
        reset_bit: r.odd()?,
    };
    Some(Controller {
        registers,
        marks: Marks::from_bits(r.u8()?),
        reset_pending: r.odd()?,
        teardown_pending: r.teardowns()?,
        stages: [r.stage()?, r.stage()?],
        undefined: r.odd()?,
        sent: r.u64()?,
        received: r.u64()?,
        tx: {
            let tag = r.u8()?;
            tx_phase(tag, r.seven()?)
        },
        rx: {
            let tag = r.u8()?;
            let numbers = r.seven()?;
            rx_phase(tag, numbers, r.odd()?)
        },
    })
}

/// "tag, then sop, word3, sum, at, left, next, eop"; "tag modulo 8".
pub fn tx_phase(tag: u8, numbers: [u32; 7]) -> TxPhase {
    let [sop, word3, sum, at, left, next, eop] = numbers;
    let (sum, at, left) = (u64::from(sum), u64::from(at), u64::from(left));
    let eop = eop % 2 == 1;
    match tag % 8 {
        0 => TxPhase::Idle,
        1 => TxPhase::New,
        2 => TxPhase::Middle { sop, word3, sum },
        3 => TxPhase::Burst {
            sop,
            word3,
            sum,
            at,
            left,
            next,
            eop,
        },
        4 => TxPhase::End {
            sop,
            word3,
            sum,
            next,
            eop,
        },
        5 => TxPhase::Mark { sop, word3, next },
        6 => TxPhase::Own { sop, word3, next },
        _ => TxPhase::Done { next },
    }
}

/// Tag, then sop, word3, sum, at, left, next, eop; 0 where the phase does not use it.
pub fn tx_numbers(phase: &TxPhase) -> [u64; 8] {
    let w = u64::from;
    match *phase {
        TxPhase::Idle => [0, 0, 0, 0, 0, 0, 0, 0],
        TxPhase::New => [1, 0, 0, 0, 0, 0, 0, 0],
        TxPhase::Middle { sop, word3, sum } => [2, w(sop), w(word3), sum, 0, 0, 0, 0],
        TxPhase::Burst {
            sop,
            word3,
            sum,
            at,
            left,
            next,
            eop,
        } => [3, w(sop), w(word3), sum, at, left, w(next), eop as u64],
        TxPhase::End {
            sop,
            word3,
            sum,
            next,
            eop,
        } => [4, w(sop), w(word3), sum, 0, 0, w(next), eop as u64],
        TxPhase::Mark { sop, word3, next } => [5, w(sop), w(word3), 0, 0, 0, w(next), 0],
        TxPhase::Own { sop, word3, next } => [6, w(sop), w(word3), 0, 0, 0, w(next), 0],
        TxPhase::Done { next } => [7, 0, 0, 0, 0, 0, w(next), 0],
    }
}

/// "tag, then first, stored, left, at, room, here, next; overrun".
pub fn rx_phase(tag: u8, numbers: [u32; 7], overrun: bool) -> RxPhase {
    let [first, stored, left, at, room, here, next] = numbers;
    let (stored, left) = (u64::from(stored), u64::from(left));
    let (at, room, here) = (u64::from(at), u64::from(room), u64::from(here));
    match tag % 8 {
        0 => RxPhase::Idle,
        1 => RxPhase::Wait,
        2 => RxPhase::Fetch {
            first,
            stored,
            left,
        },
        3 => RxPhase::Store {
            first,
            stored,
            left,
            at,
            room,
            here,
        },
        4 => RxPhase::End {
            first,
            stored,
            left,
            room,
            here,
        },
        5 => RxPhase::Last {
            first,
            stored,
            here,
            next,
            overrun,
        },
        6 => RxPhase::First {
            first,
            stored,
            next,
            overrun,
        },
        _ => RxPhase::Done { next },
    }
}

/// Tag, then first, stored, left, at, room, here, next, overrun; 0 where unused.
pub fn rx_numbers(phase: &RxPhase) -> [u64; 9] {
    let w = u64::from;
    match *phase {
        RxPhase::Idle => [0, 0, 0, 0, 0, 0, 0, 0, 0],
        RxPhase::Wait => [1, 0, 0, 0, 0, 0, 0, 0, 0],
        RxPhase::Fetch {
            first,
            stored,
            left,
        } => [2, w(first), stored, left, 0, 0, 0, 0, 0],
        RxPhase::Store {
            first,
            stored,
            left,
            at,
            room,
            here,
        } => [3, w(first), stored, left, at, room, here, 0, 0],
        RxPhase::End {
            first,
            stored,
            left,
            room,
            here,
        } => [4, w(first), stored, left, 0, room, here, 0, 0],
        RxPhase::Last {
            first,
            stored,
            here,
            next,
            overrun,
        } => [5, w(first), stored, 0, 0, 0, here, w(next), overrun as u64],
        RxPhase::First {
            first,
            stored,
            next,
            overrun,
        } => [6, w(first), stored, 0, 0, 0, 0, w(next), overrun as u64],
        RxPhase::Done { next } => [7, 0, 0, 0, 0, 0, 0, w(next), 0],
    }
}

// ---------------------------------------------------------------- printing

/// The eleven lines of a case.
pub fn print_outcome(outcome: &Outcome) -> String {
    let mut out = String::new();
    let (effect, side) = match outcome.effect {
        Effect::None => (0, 0),
        Effect::Plain => (1, 0),
        Effect::Started(side) => (2, 1 + side.index()),
        Effect::Appended(side) => (3, 1 + side.index()),
    };
    writeln!(out, "A {} {} {}", outcome.number, effect, side).unwrap();
    match outcome.burst {
        None => writeln!(out, "B 0 0 0").unwrap(),
        Some(burst) => {
            let direction = match burst.direction {
                Direction::Read => 1,
                Direction::Store => 2,
            };
            writeln!(out, "B {} {} {}", direction, burst.address, burst.bytes).unwrap();
        }
    }
    print_state(&outcome.after, &mut out);
    out
}

fn print_state(state: &State, out: &mut String) {
    let State {
        memory,
        kinds,
        book,
        controller,
    } = state;
    write!(out, "M {}", memory.bytes.len()).unwrap();
    for word in 0..memory.words() {
        let value = memory.word(word);
        if value != 0 {
            write!(out, " {word}:{value}").unwrap();
        }
    }
    let (s, t) = adler(kinds);
    write!(out, "\nK {} {s} {t}\n", kinds.len()).unwrap();
    let teardowns = |flags: [bool; 2]| flags[0] as u8 + 2 * flags[1] as u8;
    writeln!(
        out,
        "H {} {} {} {} {}",
        book.heads[0],
        book.heads[1],
        book.marks.to_bits(),
        book.reset_pending as u8,
        teardowns(book.teardown_pending)
    )
    .unwrap();
    write!(out, "U").unwrap();
    for (i, v) in book.in_use.iter().enumerate().filter(|(_, v)| **v != 0) {
        write!(out, " {i}:{v}").unwrap();
    }
    write!(out, "\nL").unwrap();
    for (i, v) in book.lengths.iter().enumerate().filter(|(_, v)| **v != 0) {
        write!(out, " {i}:{v}").unwrap();
    }
    let r = &controller.registers;
    writeln!(
        out,
        "\nR {} {} {} {} {}",
        r.hdp[0], r.hdp[1], r.cp[0], r.cp[1], r.reset_bit as u8
    )
    .unwrap();
    writeln!(
        out,
        "C {} {} {} {} {} {} {} {}",
        controller.marks.to_bits(),
        controller.reset_pending as u8,
        teardowns(controller.teardown_pending),
        controller.stages[0],
        controller.stages[1],
        controller.undefined as u8,
        controller.sent,
        controller.received
    )
    .unwrap();
    print_numbers(out, "T", &tx_numbers(&controller.tx));
    print_numbers(out, "X", &rx_numbers(&controller.rx));
}

fn print_numbers(out: &mut String, mark: &str, numbers: &[u64]) {
    out.push_str(mark);
    for n in numbers {
        write!(out, " {n}").unwrap();
    }
    out.push('\n');
}

/// "s starts at 1, t at 0; s = (s + k) mod 65521, t = (t + s) mod 65521".
fn adler(kinds: &[u8]) -> (u32, u32) {
    let (mut s, mut t) = (1, 0);
    for &k in kinds {
        s = (s + u32::from(k)) % 65521;
        t = (t + s) % 65521;
    }
    (s, t)
}

/// All that the probe prints for this input.
pub fn run(mut input: &[u8], variant: Variant) -> String {
    let mut out = String::new();
    while let Some(case) = read_case(&mut input) {
        out.push_str(&print_outcome(&run_case(&case, variant)));
    }
    out
}

// ---------------------------------------------------------------- writing cases

/// A case as bytes that `read_case` reads back to the same case.
pub fn write_case(case: &Case) -> Vec<u8> {
    let State {
        memory,
        kinds,
        book,
        controller,
    } = &case.state;
    let mut out = vec![case.call];
    out.extend(case.a.to_le_bytes());
    out.extend(case.b.to_le_bytes());

    out.extend((memory.bytes.len() as u16).to_le_bytes());
    let words: Vec<usize> = (0..memory.words())
        .filter(|&w| memory.word(w) != 0)
        .collect();
    out.extend((words.len() as u16).to_le_bytes());
    for word in words {
        out.extend((word as u16).to_le_bytes());
        out.extend(memory.word(word).to_le_bytes());
    }
    out.extend((kinds.len() as u16).to_le_bytes());
    out.extend(kinds);

    let teardowns = |flags: [bool; 2]| flags[0] as u8 + 2 * flags[1] as u8;
    out.extend(book.heads[0].to_le_bytes());
    out.extend(book.heads[1].to_le_bytes());
    out.push(book.marks.to_bits());
    out.push(book.reset_pending as u8);
    out.push(teardowns(book.teardown_pending));
    let used: Vec<usize> = (0..DESC_WORDS).filter(|&i| book.in_use[i] != 0).collect();
    out.extend((used.len() as u16).to_le_bytes());
    for i in used {
        out.extend((i as u16).to_le_bytes());
        out.push(book.in_use[i]);
    }
    let recorded: Vec<usize> = (0..DESC_WORDS).filter(|&i| book.lengths[i] != 0).collect();
    out.extend((recorded.len() as u16).to_le_bytes());
    for i in recorded {
        out.extend((i as u16).to_le_bytes());
        out.extend(book.lengths[i].to_le_bytes());
    }

    let r = &controller.registers;
    for value in [r.hdp[0], r.hdp[1], r.cp[0], r.cp[1]] {
        out.extend(value.to_le_bytes());
    }
    out.push(r.reset_bit as u8);
    out.push(controller.marks.to_bits());
    out.push(controller.reset_pending as u8);
    out.push(teardowns(controller.teardown_pending));
    out.extend(controller.stages);
    out.push(controller.undefined as u8);
    out.extend(controller.sent.to_le_bytes());
    out.extend(controller.received.to_le_bytes());
    let tx = tx_numbers(&controller.tx);
    out.push(tx[0] as u8);
    for n in &tx[1..] {
        out.extend((*n as u32).to_le_bytes());
    }
    let rx = rx_numbers(&controller.rx);
    out.push(rx[0] as u8);
    for n in &rx[1..8] {
        out.extend((*n as u32).to_le_bytes());
    }
    out.push(rx[8] as u8);
    out
}
