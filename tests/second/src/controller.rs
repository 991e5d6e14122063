//! The controller's steps, frames and unguarded writes, as in 01's "The controller's
//! steps". Every operation works on a copy and commits it only when it did not end in
//! 22, so that "after 22 the controller is marked undefined and nothing else changes".

use crate::memory::*;
use crate::variant::Variant;

/// The transmit engine between two steps. The current descriptor is HDP.
#[derive(Clone, Copy, PartialEq, Eq, Debug, Hash)]
pub enum TxPhase {
    Idle,
    /// At step 1 of a new packet.
    New,
    /// At step 1 inside a packet.
    Middle {
        sop: u32,
        word3: u32,
        sum: u64,
    },
    /// At step 2.
    Burst {
        sop: u32,
        word3: u32,
        sum: u64,
        at: u64,
        left: u64,
        next: u32,
        eop: bool,
    },
    /// At step 3.
    End {
        sop: u32,
        word3: u32,
        sum: u64,
        next: u32,
        eop: bool,
    },
    /// At step 4.
    Mark {
        sop: u32,
        word3: u32,
        next: u32,
    },
    /// At step 5.
    Own {
        sop: u32,
        word3: u32,
        next: u32,
    },
    /// At step 6.
    Done {
        next: u32,
    },
}

/// The receive engine between two steps. The current descriptor is HDP.
#[derive(Clone, Copy, PartialEq, Eq, Debug, Hash)]
pub enum RxPhase {
    Idle,
    /// Waiting for a frame.
    Wait,
    /// At step 1.
    Fetch {
        first: u32,
        stored: u64,
        left: u64,
    },
    /// At step 2.
    Store {
        first: u32,
        stored: u64,
        left: u64,
        at: u64,
        room: u64,
        here: u64,
    },
    /// At step 3.
    End {
        first: u32,
        stored: u64,
        left: u64,
        room: u64,
        here: u64,
    },
    /// At step 4.
    Last {
        first: u32,
        stored: u64,
        here: u64,
        next: u32,
        overrun: bool,
    },
    /// At step 5.
    First {
        first: u32,
        stored: u64,
        next: u32,
        overrun: bool,
    },
    /// At step 6.
    Done {
        next: u32,
    },
}

#[derive(Clone, PartialEq, Eq, Debug, Hash)]
pub struct Controller {
    pub registers: Registers,
    pub marks: Marks,
    pub reset_pending: bool,
    /// Transmit, receive.
    pub teardown_pending: [bool; 2],
    /// Which teardown step comes next: 1, 2 or 3.
    pub stages: [u8; 2],
    pub undefined: bool,
    pub sent: u64,
    pub received: u64,
    pub tx: TxPhase,
    pub rx: RxPhase,
}

#[derive(Clone, Copy, PartialEq, Eq, Debug)]
pub enum Engine {
    Reset,
    Transmit,
    Receive,
    Teardown(Side),
}

impl Engine {
    pub const ALL: [Engine; 5] = [
        Engine::Reset,
        Engine::Transmit,
        Engine::Receive,
        Engine::Teardown(Side::Transmit),
        Engine::Teardown(Side::Receive),
    ];

    /// "engine (0 reset, 1 transmit, 2 receive, 3, 4 their teardowns)".
    pub fn by_number(number: u8) -> Option<Engine> {
        Engine::ALL.get(number as usize).copied()
    }
    pub fn number(self) -> u8 {
        Engine::ALL.iter().position(|&e| e == self).unwrap() as u8
    }
    pub fn name(self) -> &'static str {
        match self {
            Engine::Reset => "reset",
            Engine::Transmit => "transmit",
            Engine::Receive => "receive",
            Engine::Teardown(Side::Transmit) => "transmit-teardown",
            Engine::Teardown(Side::Receive) => "receive-teardown",
        }
    }
}

#[derive(Clone, Copy, PartialEq, Eq, Debug)]
pub enum Direction {
    Read,
    Store,
}

#[derive(Clone, Copy, PartialEq, Eq, Debug)]
pub struct Burst {
    pub direction: Direction,
    pub address: u64,
    pub bytes: u64,
}

/// What one step came to.
#[derive(Clone, Copy, PartialEq, Eq, Debug)]
pub struct StepReport {
    pub answer: u8,
    pub burst: Option<Burst>,
    /// Which step of 01 was taken; only for counting.
    pub taken: &'static str,
}

/// "A record unfit for its step ... gives 22", as does a fetch undefined.
struct Undefined;

type Taken = Result<(Option<Burst>, &'static str), Undefined>;

const CANNOT_MOVE: Taken = Ok((None, "cannot move"));

/// "a pointer it uses not good" is unfit.
fn must_be_good(pointer: u32) -> Result<(), Undefined> {
    if is_good(pointer) {
        Ok(())
    } else {
        Err(Undefined)
    }
}

fn must(condition: bool) -> Result<(), Undefined> {
    if condition {
        Ok(())
    } else {
        Err(Undefined)
    }
}

impl Controller {
    /// "A fresh machine has zero descriptor memory and registers, empty queues, idle
    /// engines, and awaits all four zeros."
    pub fn fresh() -> Controller {
        Controller {
            registers: Registers::default(),
            marks: Marks::default(),
            reset_pending: false,
            teardown_pending: [false, false],
            stages: [1, 1],
            undefined: false,
            sent: 0,
            received: 0,
            tx: TxPhase::Idle,
            rx: RxPhase::Idle,
        }
    }

    /// One step of one engine.
    pub fn step(&mut self, memory: &mut Memory, engine: Engine, variant: Variant) -> StepReport {
        if !memory.size_is_right() {
            return StepReport {
                answer: 1,
                burst: None,
                taken: "memory of another size",
            };
        }
        if self.undefined {
            return StepReport {
                answer: 22,
                burst: None,
                taken: "already undefined",
            };
        }
        let mut controller = self.clone();
        let mut changed = memory.clone();
        let taken = match engine {
            Engine::Reset => controller.step_reset(),
            Engine::Transmit => controller.step_transmit(&mut changed, variant),
            Engine::Receive => controller.step_receive(&mut changed, variant),
            Engine::Teardown(side) => controller.step_teardown(&mut changed, side),
        };
        match taken {
            Ok((burst, taken)) => {
                *self = controller;
                *memory = changed;
                StepReport {
                    answer: 0,
                    burst,
                    taken,
                }
            }
            Err(Undefined) => {
                self.undefined = true;
                StepReport {
                    answer: 22,
                    burst: None,
                    taken: "undefined",
                }
            }
        }
    }

    fn step_transmit(&mut self, memory: &mut Memory, variant: Variant) -> Taken {
        let hdp = self.registers.hdp[0];
        match self.tx {
            TxPhase::Idle => CANNOT_MOVE,
            // "While reset or transmit teardown is pending, a new packet is not fetched."
            TxPhase::New if self.reset_pending || self.teardown_pending[0] => CANNOT_MOVE,
            TxPhase::New => self.transmit_fetch(memory, None),
            TxPhase::Middle { sop, word3, sum } => {
                self.transmit_fetch(memory, Some((sop, word3, sum)))
            }
            // "(2) One read burst of min(64, remaining) bytes per step."
            TxPhase::Burst {
                sop,
                word3,
                sum,
                at,
                left,
                next,
                eop,
            } => {
                must(left > 0 && at + left <= TWO_32)?;
                let bytes = left.min(64);
                let burst = Burst {
                    direction: Direction::Read,
                    address: at,
                    bytes,
                };
                if bytes == left {
                    self.tx = TxPhase::End {
                        sop,
                        word3,
                        sum,
                        next,
                        eop,
                    };
                    return Ok((Some(burst), "transmit 2, last burst"));
                }
                let (at, left) = (at + bytes, left - bytes);
                self.tx = TxPhase::Burst {
                    sop,
                    word3,
                    sum,
                    at,
                    left,
                    next,
                    eop,
                };
                Ok((Some(burst), "transmit 2, more to come"))
            }
            // "(3) No EOP: go to the latched next and 1. EOP: latch word 0 afresh."
            TxPhase::End {
                sop,
                word3,
                sum,
                next,
                eop: false,
            } => {
                self.registers.hdp[0] = next;
                self.tx = TxPhase::Middle { sop, word3, sum };
                Ok((None, "transmit 3, to the next descriptor"))
            }
            TxPhase::End {
                sop,
                word3,
                eop: true,
                ..
            } => {
                must_be_good(hdp)?;
                let next = memory.descriptor(hdp).next;
                self.tx = TxPhase::Mark { sop, word3, next };
                Ok((None, "transmit 3, end of packet"))
            }
            // "(4) If latched 0, set EOQ there."
            TxPhase::Mark { sop, word3, next } => {
                self.tx = TxPhase::Own { sop, word3, next };
                if next != 0 {
                    return Ok((None, "transmit 4, not the end"));
                }
                must_be_good(hdp)?;
                change_word3(memory, hdp, |w| w | EOQ);
                Ok((None, "transmit 4, EOQ set"))
            }
            // "(5) Clear OWNER in the SOP descriptor."
            TxPhase::Own { sop, word3, next } => {
                must_be_good(sop)?;
                change_word3(memory, sop, |w| w & !OWNER);
                self.sent = self.sent.saturating_add(u64::from(word3 & LOW_11));
                self.tx = TxPhase::Done { next };
                Ok((None, "transmit 5"))
            }
            // "(6) CP takes the EOP descriptor's address; HDP takes the latched next; 0 is
            // idle, else 1."
            TxPhase::Done { next } => {
                let next = self.next_at_six(memory, Side::Transmit, next, variant)?;
                self.registers.cp[0] = hdp;
                self.registers.hdp[0] = next;
                if next == 0 {
                    self.tx = TxPhase::Idle;
                    return Ok((None, "transmit 6, idle"));
                }
                self.tx = TxPhase::New;
                Ok((None, "transmit 6, next packet"))
            }
        }
    }

    /// "(1) fetch, latching range, next, flags, and at SOP the packet length; undefined
    /// on 12, 14, 15, 17." `inside` holds SOP descriptor, its word 3 and the sum so far.
    fn transmit_fetch(&mut self, memory: &Memory, inside: Option<(u32, u32, u64)>) -> Taken {
        let hdp = self.registers.hdp[0];
        must(is_good(hdp))?; // 12
        let descriptor = memory.descriptor(hdp);
        must(!descriptor.transmit_flags_wrong(inside.is_none()))?; // 14
        must(!descriptor.transmit_length_wrong())?; // 15
        let range = descriptor.transmit_range();
        let (sop, word3, sum_before) = inside.unwrap_or((hdp, descriptor.word3, 0));
        let sum = kept_to_32_bits(sum_before + range.length);
        let (next, eop) = (descriptor.next, descriptor.eop());
        if eop {
            must(sum == u64::from(word3 & LOW_11))?; // 17
        } else {
            must(next != 0)?; // 17
        }
        self.tx = TxPhase::Burst {
            sop,
            word3,
            sum,
            at: range.first,
            left: range.length,
            next,
            eop,
        };
        let taken = if inside.is_none() {
            "transmit 1, new packet"
        } else {
            "transmit 1, middle"
        };
        Ok((None, taken))
    }

    fn step_receive(&mut self, memory: &mut Memory, variant: Variant) -> Taken {
        let hdp = self.registers.hdp[1];
        match self.rx {
            RxPhase::Idle | RxPhase::Wait => CANNOT_MOVE,
            // "(1) fetch, undefined on 12, 14, 15."
            RxPhase::Fetch {
                first,
                stored,
                left,
            } => {
                must(stored + left <= 2047)?;
                must(is_good(hdp))?; // 12
                let descriptor = memory.descriptor(hdp);
                must(!descriptor.receive_flags_wrong())?; // 14
                must(!descriptor.receive_length_wrong())?; // 15
                let range = descriptor.receive_range();
                let (at, room) = (range.first, range.length);
                self.rx = RxPhase::Store {
                    first,
                    stored,
                    left,
                    at,
                    room,
                    here: 0,
                };
                Ok((
                    None,
                    if first == hdp {
                        "receive 1, first"
                    } else {
                        "receive 1, further"
                    },
                ))
            }
            // "(2) One store burst of min(64, room left in the buffer, frame left) bytes
            // per step."
            RxPhase::Store {
                first,
                stored,
                left,
                at,
                room,
                here,
            } => {
                must(stored + left <= 2047)?;
                must(left > 0 && room > 0 && at + room <= TWO_32)?;
                let bytes = left.min(room).min(64);
                let burst = Burst {
                    direction: Direction::Store,
                    address: at,
                    bytes,
                };
                let (stored, left) = (stored + bytes, left - bytes);
                let here = kept_to_32_bits(here + bytes);
                let (at, room) = (at + bytes, room - bytes);
                if room == 0 || left == 0 {
                    self.rx = RxPhase::End {
                        first,
                        stored,
                        left,
                        room,
                        here,
                    };
                    return Ok((Some(burst), "receive 2, last burst"));
                }
                self.rx = RxPhase::Store {
                    first,
                    stored,
                    left,
                    at,
                    room,
                    here,
                };
                Ok((Some(burst), "receive 2, more to come"))
            }
            // "(3) Buffer full and bytes left: read next; nonzero, go there and 1; 0, latch
            // that 0, drop the rest and note overrun. Otherwise latch next."
            RxPhase::End {
                first,
                stored,
                left,
                room,
                here,
            } => {
                must(stored + left <= 2047)?;
                must_be_good(hdp)?;
                let next = memory.descriptor(hdp).next;
                let full_and_bytes_left = room == 0 && left > 0;
                if full_and_bytes_left && next != 0 {
                    self.registers.hdp[1] = next;
                    self.rx = RxPhase::Fetch {
                        first,
                        stored,
                        left,
                    };
                    return Ok((None, "receive 3, to the next descriptor"));
                }
                let overrun = full_and_bytes_left;
                self.rx = RxPhase::Last {
                    first,
                    stored,
                    here,
                    next,
                    overrun,
                };
                Ok((
                    None,
                    if overrun {
                        "receive 3, overrun"
                    } else {
                        "receive 3, end of frame"
                    },
                ))
            }
            // "(4) In the last descriptor set EOP, length to the bytes stored there, and
            // EOQ if latched 0."
            RxPhase::Last {
                first,
                stored,
                here,
                next,
                overrun,
            } => {
                must_be_good(hdp)?;
                must(here <= 2047)?;
                let word2 = memory.descriptor(hdp).word2;
                memory.set_word(first_word(hdp) + 2, (word2 & !LOW_11) | here as u32);
                change_word3(memory, hdp, |w| w | EOP);
                self.rx = RxPhase::First {
                    first,
                    stored,
                    next,
                    overrun,
                };
                if next != 0 {
                    return Ok((None, "receive 4, not the end"));
                }
                change_word3(memory, hdp, |w| w | EOQ);
                Ok((None, "receive 4, EOQ set"))
            }
            // "(5) In the first set SOP, packet length to all bytes stored, bit 22 to the
            // overrun, and clear OWNER; other bits stay in 4 and 5."
            RxPhase::First {
                first,
                stored,
                next,
                overrun,
            } => {
                must_be_good(first)?;
                must(stored <= 2047)?;
                change_word3(memory, first, |w| {
                    let kept = w & !(LOW_11 | OVERRUN | OWNER);
                    let bit_22 = if overrun { OVERRUN } else { 0 };
                    kept | SOP | bit_22 | stored as u32
                });
                self.received = self.received.saturating_add(stored);
                self.rx = RxPhase::Done { next };
                Ok((
                    None,
                    if overrun {
                        "receive 5, overrun"
                    } else {
                        "receive 5"
                    },
                ))
            }
            // "(6) CP and HDP as for transmit; 0 is idle, else wait."
            RxPhase::Done { next } => {
                let next = self.next_at_six(memory, Side::Receive, next, variant)?;
                self.registers.cp[1] = hdp;
                self.registers.hdp[1] = next;
                if next == 0 {
                    self.rx = RxPhase::Idle;
                    return Ok((None, "receive 6, idle"));
                }
                self.rx = RxPhase::Wait;
                Ok((None, "receive 6, wait"))
            }
        }
    }

    /// The latched next; a broken variant reads word 0 again here.
    fn next_at_six(
        &self,
        memory: &Memory,
        side: Side,
        latched: u32,
        variant: Variant,
    ) -> Result<u32, Undefined> {
        if variant != Variant::StepSixReadsAgain {
            return Ok(latched);
        }
        let hdp = self.registers.hdp[side.index()];
        must_be_good(hdp)?;
        Ok(memory.descriptor(hdp).next)
    }

    /// "that engine is idle, waiting or, transmit only, at 1 of a new packet".
    fn between_packets(&self, side: Side) -> bool {
        match side {
            Side::Transmit => matches!(self.tx, TxPhase::Idle | TxPhase::New),
            Side::Receive => matches!(self.rx, RxPhase::Idle | RxPhase::Wait),
        }
    }

    fn make_idle(&mut self, side: Side) {
        match side {
            Side::Transmit => self.tx = TxPhase::Idle,
            Side::Receive => self.rx = RxPhase::Idle,
        }
    }

    /// "Teardown, when pending and that engine is [between packets]: (1) set TD at HDP if
    /// nonzero; (2) HDP 0, engine idle; (3) CP 0xFFFFFFFC, no longer pending."
    fn step_teardown(&mut self, memory: &mut Memory, side: Side) -> Taken {
        let i = side.index();
        if !self.teardown_pending[i] || !self.between_packets(side) {
            return CANNOT_MOVE;
        }
        let transmit = side == Side::Transmit;
        match self.stages[i] {
            1 => {
                let hdp = self.registers.hdp[i];
                self.stages[i] = 2;
                if hdp == 0 {
                    let taken = "transmit teardown 1, HDP 0";
                    return Ok((
                        None,
                        if transmit {
                            taken
                        } else {
                            "receive teardown 1, HDP 0"
                        },
                    ));
                }
                must_be_good(hdp)?;
                change_word3(memory, hdp, |w| w | TD);
                let taken = "transmit teardown 1, TD set";
                Ok((
                    None,
                    if transmit {
                        taken
                    } else {
                        "receive teardown 1, TD set"
                    },
                ))
            }
            2 => {
                self.registers.hdp[i] = 0;
                self.make_idle(side);
                self.stages[i] = 3;
                Ok((
                    None,
                    if transmit {
                        "transmit teardown 2"
                    } else {
                        "receive teardown 2"
                    },
                ))
            }
            _ => {
                self.registers.cp[i] = TEARDOWN_CODE;
                self.teardown_pending[i] = false;
                self.stages[i] = 1;
                Ok((
                    None,
                    if transmit {
                        "transmit teardown 3"
                    } else {
                        "receive teardown 3"
                    },
                ))
            }
        }
    }

    /// "Reset, when pending and both engines are so: bit cleared, engines idle, four
    /// registers await zero with their old values."
    fn step_reset(&mut self) -> Taken {
        let both = Side::BOTH
            .into_iter()
            .all(|side| self.between_packets(side));
        if !self.reset_pending || !both {
            return CANNOT_MOVE;
        }
        self.registers.reset_bit = false;
        self.reset_pending = false;
        self.make_idle(Side::Transmit);
        self.make_idle(Side::Receive);
        self.marks = Marks::default();
        Ok((None, "reset"))
    }

    /// "a frame is taken (go to 1) when HDP is nonzero, the engine waits, and no reset or
    /// receive teardown is pending; else 24"; 23 before 24, 22 before both.
    pub fn frame(&mut self, length: u32) -> u8 {
        if self.undefined {
            return 22;
        }
        if !(1..=2047).contains(&length) {
            return 23;
        }
        let hdp = self.registers.hdp[1];
        let taken = hdp != 0
            && self.rx == RxPhase::Wait
            && !self.reset_pending
            && !self.teardown_pending[1];
        if !taken {
            return 24;
        }
        self.rx = RxPhase::Fetch {
            first: hdp,
            stored: 0,
            left: u64::from(length),
        };
        0
    }

    /// "Without the guard, a write to which the rules above give 5 to 10, read over the
    /// model's own marks and pending flags and no book, makes it undefined (22); 3 and 4
    /// change nothing; all else takes effect."
    pub fn unguarded_write(&mut self, memory: &mut Memory, address: u32, value: u32) -> u8 {
        if !memory.size_is_right() {
            return 1;
        }
        if self.undefined {
            return 22;
        }
        let outcome = match place(address) {
            Place::Misaligned => return 3,
            Place::NotGuarded => return 4,
            Place::NotOffered => Err(Undefined), // 5
            Place::Passed => Ok(()),
            Place::Hdp(side) => self.write_hdp(side, value),
            Place::Cp(side) => self.write_cp(side, value),
            Place::Teardown(side) => self.write_teardown(side, value),
            Place::Reset => self.write_reset(value),
            Place::ZeroOnly => must(value == 0), // 9
            Place::Word(word) => {
                memory.set_word(word, value);
                Ok(())
            }
        };
        match outcome {
            Ok(()) => 0,
            Err(Undefined) => {
                self.undefined = true;
                22
            }
        }
    }

    fn write_hdp(&mut self, side: Side, value: u32) -> Result<(), Undefined> {
        let i = side.index();
        if self.marks.awaiting() {
            must(value == 0)?; // 6
            self.registers.hdp[i] = 0;
            self.marks.mark_hdp(side);
            return Ok(());
        }
        must(!self.reset_pending)?; // 7
        must(!self.teardown_pending[i])?; // 8
        must(value != 0)?; // 9
        must(self.registers.hdp[i] == 0)?; // 10
                                           // "a start sets HDP ... and puts the transmit engine at step 1 or the receive
                                           // engine to waiting"
        self.registers.hdp[i] = value;
        match side {
            Side::Transmit => self.tx = TxPhase::New,
            Side::Receive => self.rx = RxPhase::Wait,
        }
        Ok(())
    }

    fn write_cp(&mut self, side: Side, value: u32) -> Result<(), Undefined> {
        let i = side.index();
        if self.marks.awaiting() {
            must(value == 0)?; // 6
            self.registers.cp[i] = 0;
            self.marks.mark_cp(side);
            return Ok(());
        }
        if value == self.registers.cp[i] {
            self.registers.cp[i] = 0;
        }
        Ok(())
    }

    fn write_teardown(&mut self, side: Side, value: u32) -> Result<(), Undefined> {
        let i = side.index();
        must(!self.marks.awaiting())?; // 6
        must(!self.reset_pending)?; // 7
        must(!self.teardown_pending[i])?; // 8
        must(value == 0)?; // 9
        must(self.registers.cp[i] != TEARDOWN_CODE)?; // 10
        self.teardown_pending[i] = true;
        Ok(())
    }

    fn write_reset(&mut self, value: u32) -> Result<(), Undefined> {
        must(!self.marks.awaiting())?; // 6
        must(!self.reset_pending)?; // 7
        must(!self.teardown_pending[0] && !self.teardown_pending[1])?; // 8
        must(value == 1)?; // 9
        self.reset_pending = true;
        self.registers.reset_bit = true;
        Ok(())
    }
}

/// PROBE.md: "A packet's sum and `here` that would pass 2^32 - 1 stay at 2^32 - 1 (a sum so
/// large equals no packet length)." No sequence from a fresh machine comes near.
fn kept_to_32_bits(number: u64) -> u64 {
    number.min(TWO_32 - 1)
}

/// A descriptor's word 3 changed in place.
fn change_word3(memory: &mut Memory, pointer: u32, change: impl Fn(u32) -> u32) {
    let word = first_word(pointer) + 3;
    memory.set_word(word, change(memory.word(word)));
}
