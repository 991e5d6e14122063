//! Cases for the probe: states reached by traffic, sound books made by hand, and
//! states that are neither; each with a call aimed at it.

use crate::book::Book;
use crate::controller::{Controller, RxPhase, TxPhase};
use crate::memory::*;
use crate::probe::{self, rx_numbers, rx_phase, tx_numbers, tx_phase, Case, State};
use crate::rng::Rng;
use crate::traffic::{
    block_between, random_kinds, Guest, Profile, CP, DMACONTROL, HDP, RX_BUFFER_OFFSET, SOFT_RESET,
    TEARDOWN,
};
use crate::variant::Variant;

/// The same case in other bytes: what PROBE.md says is ignored, passed over, clamped or
/// taken modulo is used here.
pub fn write_noisy(case: &Case, rng: &mut Rng) -> Vec<u8> {
    let State {
        memory,
        kinds,
        book,
        controller,
    } = &case.state;
    let mut out = vec![case.call];
    out.extend(case.a.to_le_bytes());
    out.extend(case.b.to_le_bytes());
    // "over 8,200 is taken as 8,200"
    let size = memory.bytes.len();
    let shown = if size == probe::MEMORY_LIMIT {
        rng.between(8_200, 65_535) as usize
    } else {
        size
    };
    out.extend((shown as u16).to_le_bytes());
    let mut entries: Vec<(u16, u32)> = Vec::new();
    for word in (0..memory.words()).filter(|&w| memory.word(w) != 0) {
        if rng.percent(10) {
            entries.push((word as u16, rng.u32())); // stored over by the next one
        }
        entries.push((word as u16, memory.word(word)));
    }
    for _ in 0..rng.below(3) {
        // Not all four bytes inside: passed over.
        let place = rng.between(memory.words() as u64, 65_535) as u16;
        entries.insert(rng.index(entries.len() + 1), (place, rng.u32()));
    }
    out.extend((entries.len() as u16).to_le_bytes());
    for (place, value) in entries {
        out.extend(place.to_le_bytes());
        out.extend(value.to_le_bytes());
    }
    out.extend((kinds.len() as u16).to_le_bytes());
    out.extend(kinds);

    let mut noise = |mask: u8| rng.u32() as u8 & mask;
    let teardowns = |flags: [bool; 2]| flags[0] as u8 + 2 * flags[1] as u8;
    out.extend(book.heads[0].to_le_bytes());
    out.extend(book.heads[1].to_le_bytes());
    out.push(book.marks.to_bits() | noise(0xF0));
    out.push(book.reset_pending as u8 | noise(0xFE));
    out.push(teardowns(book.teardown_pending) | noise(0xFC));
    let used: Vec<usize> = (0..DESC_WORDS).filter(|&i| book.in_use[i] != 0).collect();
    out.extend((used.len() as u16).to_le_bytes());
    for i in used {
        let index = i as u16 + 2_048 * u16::from(noise(31)); // modulo 2,048
        out.extend(index.to_le_bytes());
        out.push(book.in_use[i]);
    }
    let recorded: Vec<usize> = (0..DESC_WORDS).filter(|&i| book.lengths[i] != 0).collect();
    out.extend((recorded.len() as u16).to_le_bytes());
    for i in recorded {
        let index = i as u16 + 2_048 * u16::from(noise(31));
        out.extend(index.to_le_bytes());
        out.extend(book.lengths[i].to_le_bytes());
    }
    let r = &controller.registers;
    for value in [r.hdp[0], r.hdp[1], r.cp[0], r.cp[1]] {
        out.extend(value.to_le_bytes());
    }
    out.push(r.reset_bit as u8 | noise(0xFE));
    out.push(controller.marks.to_bits() | noise(0xF0));
    out.push(controller.reset_pending as u8 | noise(0xFE));
    out.push(teardowns(controller.teardown_pending) | noise(0xFC));
    for stage in controller.stages {
        // "1, 2, else 3"
        let other = noise(0xFF);
        out.push(if stage == 3 && other != 1 && other != 2 {
            other
        } else {
            stage
        });
    }
    out.push(controller.undefined as u8 | noise(0xFE));
    out.extend(controller.sent.to_le_bytes());
    out.extend(controller.received.to_le_bytes());

    // "What a phase does not use is ignored on input": which ones that are shows when one
    // is changed and the phase stays the same.
    let tx = tx_numbers(&controller.tx);
    let mut seven: [u32; 7] = std::array::from_fn(|i| tx[i + 1] as u32);
    for i in 0..7 {
        let mut other = seven;
        other[i] = rng.u32();
        if tx_phase(tx[0] as u8, other) == tx_phase(tx[0] as u8, seven) {
            seven = other;
        }
    }
    out.push(tx[0] as u8 + 8 * rng.below(32) as u8);
    for n in seven {
        out.extend(n.to_le_bytes());
    }
    let rx = rx_numbers(&controller.rx);
    let mut seven: [u32; 7] = std::array::from_fn(|i| rx[i + 1] as u32);
    for i in 0..7 {
        let mut other = seven;
        other[i] = rng.u32();
        if rx_phase(rx[0] as u8, other, false) == rx_phase(rx[0] as u8, seven, false) {
            seven = other;
        }
    }
    out.push(rx[0] as u8 + 8 * rng.below(32) as u8);
    for n in seven {
        out.extend(n.to_le_bytes());
    }
    let unused = rx_phase(rx[0] as u8, seven, true) == rx_phase(rx[0] as u8, seven, false);
    let other = rng.u32() as u8;
    out.push(if unused {
        other
    } else {
        rx[8] as u8 | (other & 0xFE)
    });
    out
}

pub struct Maker {
    rng: Rng,
    /// A machine that traffic moves along, and the run it belongs to.
    guest: Guest,
    left_in_run: u32,
    /// Where the last made state's loose chains start.
    starts: [Option<u32>; 2],
}

impl Maker {
    pub fn new(seed: u64) -> Maker {
        let mut rng = Rng::new(seed);
        let guest = new_guest(&mut rng);
        Maker {
            rng,
            guest,
            left_in_run: 40,
            starts: [None, None],
        }
    }

    pub fn case(&mut self) -> Case {
        self.starts = [None, None];
        let mut state = match self.rng.below(10) {
            0..=3 => self.reached_state(),
            4..=8 => self.made_state(),
            _ => self.arbitrary_state(),
        };
        if self.rng.percent(35) {
            let changes = if self.rng.percent(80) { 1 } else { 3 };
            for _ in 0..changes {
                self.break_something(&mut state);
            }
        }
        let call = match self.rng.below(20) {
            0..=7 => probe::GUEST_WRITE,
            8 | 9 => probe::KIND_CHANGE,
            10 => probe::FRAME,
            11..=16 => probe::STEP,
            17 | 18 => probe::UNGUARDED,
            _ => self.rng.below(256) as u8,
        };
        if self.rng.percent(40) {
            self.aim(call, &mut state);
        }
        let (a, b) = match probe::call_taken(call) {
            probe::GUEST_WRITE | probe::UNGUARDED => self.some_write(&state),
            probe::KIND_CHANGE => self.some_kind_change(&state),
            probe::FRAME => (self.some_frame_length(), self.rng.u32()),
            _ => (self.some_engine(&state), self.rng.u32()),
        };
        let case = Case { call, a, b, state };
        // As it is read back: a part of a word at the memory's end cannot be written down.
        probe::read_case(&mut probe::write_case(&case).as_slice()).expect("a whole case")
    }

    // ------------------------------------------------------------ whole states

    /// A state on the way of some traffic.
    fn reached_state(&mut self) -> State {
        if self.left_in_run == 0 {
            self.guest = new_guest(&mut self.rng);
            self.left_in_run = self.rng.between(10, 60) as u32;
        }
        self.left_in_run -= 1;
        let more = self.guest.records.len() + self.rng.between(1, 12) as usize;
        self.guest.carry_on(more);
        let machine = &self.guest.world.machine;
        State {
            memory: machine.memory.clone(),
            kinds: machine.kinds.clone(),
            book: machine.book.clone(),
            controller: machine.controller.clone(),
        }
    }

    /// Two queues laid out by hand, part way completed, and flags of every kind.
    fn made_state(&mut self) -> State {
        let kinds = random_kinds(&mut self.rng, Profile::Chaos);
        let mut memory = Memory::fresh();
        let mut book = Book::fresh();
        let mut taken = vec![false; DESC_WORDS];
        let region = if self.rng.percent(70) {
            40 + self.rng.index(60)
        } else {
            DESC_WORDS
        };
        let base = self.rng.pick(&[
            0,
            0,
            DESC_WORDS - region,
            self.rng.clone().index(DESC_WORDS - region + 1),
        ]);
        let mut queues = [Vec::new(), Vec::new()];
        for side in Side::BOTH {
            let count = self.rng.pick(&[0usize, 1, 1, 2, 3, 4, 6]);
            for _ in 0..count {
                if let Some(at) = self.free_place(base, region, &mut taken) {
                    queues[side.index()].push(at);
                }
            }
        }
        for side in Side::BOTH {
            let queue = &queues[side.index()];
            book.heads[side.index()] = queue.first().copied().unwrap_or(0);
            for (i, &at) in queue.iter().enumerate() {
                let next = queue.get(i + 1).copied().unwrap_or(0);
                let words = self.some_descriptor(side, next, &kinds);
                for w in 0..4 {
                    memory.set_word(first_word(at) + w, words[w]);
                    book.in_use[first_word(at) + w] = 1;
                }
                if side == Side::Receive {
                    let length =
                        self.rng
                            .pick(&[1, 2047, 64, 1 + self.rng.clone().below(2047) as u16]);
                    book.lengths[first_word(at)] = length;
                }
            }
        }
        // Some chains that are not in the book, ready to be handed over or nearly so.
        for side in Side::BOTH {
            if self.rng.percent(70) {
                self.loose_chain(side, base, region, &mut taken, &mut memory, &kinds);
            }
        }
        book.marks = if self.rng.percent(85) {
            Marks::ALL
        } else {
            self.some_marks()
        };
        book.reset_pending = self.rng.percent(12);
        book.teardown_pending = [self.rng.percent(12), self.rng.percent(12)];
        let controller = self.some_controller(&memory, &queues, &kinds);
        State {
            memory,
            kinds,
            book,
            controller,
        }
    }

    /// Anything at all.
    fn arbitrary_state(&mut self) -> State {
        let size = match self.rng.below(6) {
            0 => self
                .rng
                .pick(&[0usize, 4, 8188, 8191, 8193, 8196, 8199, 8200]),
            1 => self.rng.between(0, 8200) as usize,
            _ => DESC_BYTES,
        };
        let mut memory = Memory::of_size(size);
        if memory.words() > 0 {
            for _ in 0..self.rng.below(40) {
                let word = self.rng.index(memory.words().min(64));
                let value = self.some_value();
                memory.set_word(word, value);
            }
        }
        let kinds = match self.rng.below(8) {
            0 => Vec::new(),
            1 => {
                let mut kinds = random_kinds(&mut self.rng, Profile::Chaos);
                let i = self.rng.index(kinds.len());
                kinds[i] = self.rng.between(5, 255) as u8;
                kinds
            }
            2 if self.rng.percent(12) => {
                let n = self.rng.pick(&[16_384, 16_385, 20_000, 65_535]);
                vec![1; n]
            }
            _ => random_kinds(&mut self.rng, Profile::Chaos),
        };
        let mut book = Book::fresh();
        book.heads = [self.some_head(), self.some_head()];
        for _ in 0..self.rng.below(8) {
            let i = self.rng.index(64);
            book.in_use[i] = self.rng.pick(&[1, 1, 1, 2, 255]);
        }
        for _ in 0..self.rng.below(4) {
            let i = self.rng.index(64);
            book.lengths[i] = self.rng.pick(&[1, 2047, 2048, 65535]);
        }
        book.marks = self.some_marks();
        book.reset_pending = self.rng.percent(50);
        book.teardown_pending = [self.rng.percent(50), self.rng.percent(50)];
        let queues = [Vec::new(), Vec::new()];
        let controller = self.some_controller(&memory, &queues, &kinds);
        State {
            memory,
            kinds,
            book,
            controller,
        }
    }

    /// One thing about a state is changed.
    fn break_something(&mut self, state: &mut State) {
        match self.rng.below(16) {
            0 => {
                let i = self.rng.index(2);
                state.book.heads[i] = self.some_head();
            }
            1 => {
                let i = self.used_or_any_word(&state.book);
                state.book.in_use[i] = self.rng.pick(&[0, 1, 2, 255]);
            }
            2 => {
                let i = self.used_or_any_word(&state.book);
                state.book.lengths[i] = self.rng.pick(&[0, 1, 2047, 2048, 65535]);
            }
            3 => {
                let i = self.used_or_any_word(&state.book);
                if 4 * i + 4 <= state.memory.bytes.len() {
                    let value = self.some_value();
                    state.memory.set_word(i, value);
                }
            }
            4 | 5 => {
                // A flag in some descriptor that is in use.
                let i = self.used_or_any_word(&state.book);
                if 4 * i + 4 <= state.memory.bytes.len() {
                    let bit = self.rng.pick(&[SOP, EOP, OWNER, EOQ, TD]);
                    let value = state.memory.word(i) ^ bit;
                    state.memory.set_word(i, value);
                }
            }
            6 => {
                let size = self.rng.pick(&[0usize, 8188, 8191, 8193, 8196, 8200]);
                state.memory.bytes.resize(size, 0);
            }
            7 => {
                if self.rng.percent(6) {
                    let n = self.rng.pick(&[16_384usize, 16_385, 65_535]);
                    state.kinds.resize(n, 1);
                } else if self.rng.percent(40) {
                    state.kinds.clear();
                } else if !state.kinds.is_empty() {
                    let i = self.rng.index(state.kinds.len());
                    state.kinds[i] = self.rng.pick(&[5, 4, 255, 0]);
                }
            }
            8 => state.book.marks = self.some_marks(),
            9 => state.book.reset_pending ^= true,
            10 => {
                let i = self.rng.index(2);
                state.book.teardown_pending[i] ^= true;
            }
            11 => {
                let i = self.rng.index(2);
                state.controller.registers.hdp[i] = self.some_head();
            }
            12 => {
                let i = self.rng.index(2);
                state.controller.registers.cp[i] = self.rng.pick(&[0, TEARDOWN_CODE, DESC_START]);
            }
            13 => state.controller.registers.reset_bit ^= true,
            14 => self.change_phase_number(&mut state.controller),
            _ => match self.rng.below(6) {
                0 => state.controller.undefined = true,
                1 => state.controller.marks = self.some_marks(),
                2 => state.controller.reset_pending ^= true,
                3 => {
                    let i = self.rng.index(2);
                    state.controller.teardown_pending[i] ^= true;
                }
                4 => {
                    let i = self.rng.index(2);
                    state.controller.stages[i] = self.rng.between(1, 3) as u8;
                }
                _ => {
                    state.controller.sent = u64::MAX - self.rng.below(100);
                    state.controller.received = u64::MAX - self.rng.below(100);
                }
            },
        }
    }

    fn change_phase_number(&mut self, controller: &mut Controller) {
        let value = self.some_number();
        if self.rng.percent(50) {
            let numbers = tx_numbers(&controller.tx);
            let mut seven = [0u32; 7];
            for i in 0..7 {
                seven[i] = numbers[i + 1] as u32;
            }
            seven[self.rng.index(7)] = value;
            controller.tx = tx_phase(numbers[0] as u8, seven);
        } else {
            let numbers = rx_numbers(&controller.rx);
            let mut seven = [0u32; 7];
            for i in 0..7 {
                seven[i] = numbers[i + 1] as u32;
            }
            seven[self.rng.index(7)] = value;
            controller.rx = rx_phase(numbers[0] as u8, seven, numbers[8] == 1);
        }
    }

    /// Makes the state ready for a call of this sort, so that later rules are reached too.
    fn aim(&mut self, call: u8, state: &mut State) {
        let side = self.rng.pick(&Side::BOTH);
        let i = side.index();
        let c = &mut state.controller;
        match probe::call_taken(call) {
            probe::GUEST_WRITE | probe::UNGUARDED => {
                // Ready for a start, a teardown or a reset: the side's queue goes.
                if state.memory.size_is_right() && state.book.is_sound(&state.memory) {
                    for pointer in state.book.queue(&state.memory, side) {
                        for word in four_words(pointer) {
                            state.book.in_use[word] = 0;
                        }
                        state.book.lengths[first_word(pointer)] = 0;
                    }
                    state.book.heads[i] = 0;
                }
                c.registers.hdp[i] = 0;
                state.book.marks = Marks::ALL;
                state.book.reset_pending = self.rng.percent(14);
                state.book.teardown_pending = [self.rng.percent(10), self.rng.percent(10)];
                c.registers.reset_bit = state.book.reset_pending;
                c.marks = Marks::ALL;
                c.reset_pending = self.rng.percent(10);
                c.teardown_pending = [self.rng.percent(10), self.rng.percent(10)];
            }
            probe::FRAME => {
                c.rx = RxPhase::Wait;
                c.reset_pending = self.rng.percent(10);
                c.teardown_pending[1] = self.rng.percent(10);
            }
            probe::STEP if self.rng.percent(12) => {
                // A middle descriptor is fetched; the sum is near 2^32 or far from it.
                let hdp = DESC_START + 4 * self.rng.below(100) as u32;
                if state.memory.size_is_right() {
                    let length = self.rng.between(1, 300) as u32;
                    let word3 = self.rng.pick(&[0, OWNER, OWNER, EOP]);
                    let words = [
                        self.rng.pick(&[4, hdp, 0x4A10_2000]),
                        0x8000_0000,
                        length,
                        word3,
                    ];
                    for w in 0..4 {
                        state.memory.set_word(first_word(hdp) + w, words[w]);
                    }
                }
                c.registers.hdp[0] = hdp;
                let near = u64::from(u32::MAX) - self.rng.below(300);
                let sum = self.rng.pick(&[near, near, 60]);
                c.tx = TxPhase::Middle {
                    sop: DESC_START,
                    word3: SOP | OWNER | 100,
                    sum,
                };
                c.rx = RxPhase::Idle;
                c.teardown_pending = [false, false];
                c.reset_pending = false;
            }
            probe::STEP => {
                // Ready for a teardown step or the reset.
                let pending = self.rng.percent(80);
                c.teardown_pending[i] = pending;
                c.reset_pending = self.rng.percent(50);
                c.stages[i] = self.rng.between(1, 3) as u8;
                c.tx = self
                    .rng
                    .pick(&[TxPhase::Idle, TxPhase::New, TxPhase::New, c.tx]);
                c.rx = self
                    .rng
                    .pick(&[RxPhase::Idle, RxPhase::Wait, RxPhase::Wait, c.rx]);
                if self.rng.percent(25) {
                    c.registers.hdp[i] = self.rng.pick(&[4, 0x4A10_3FF4, 0x4A10_2002, 0x8000_0000]);
                }
            }
            _ => {}
        }
    }

    // ------------------------------------------------------------ parts

    fn free_place(&mut self, base: usize, region: usize, taken: &mut [bool]) -> Option<u32> {
        for _ in 0..40 {
            let mut word = base + self.rng.index(region - 3);
            if self.rng.percent(60) {
                word = word / 4 * 4;
            }
            if word + 3 < DESC_WORDS && (word..word + 4).all(|w| !taken[w]) {
                taken[word..word + 4].fill(true);
                return Some(DESC_START + 4 * word as u32);
            }
        }
        None
    }

    /// A descriptor of a queue, anywhere between handed over and completed.
    fn some_descriptor(&mut self, side: Side, next: u32, kinds: &[u8]) -> [u32; 4] {
        let flags = match (self.rng.below(8), side) {
            (0, _) => EOP,
            (1, _) => SOP | EOP | EOQ,
            (2, _) => TD | OWNER,
            (3, _) => 0,
            (4, _) => self.rng.u32() & 0xF800_0000,
            (_, Side::Transmit) => {
                self.rng
                    .pick(&[SOP | EOP | OWNER, SOP | OWNER, EOP, OWNER | EOP])
            }
            (_, Side::Receive) => OWNER,
        };
        let (mut buffer, length) = self.some_buffer(kinds);
        let offset = if self.rng.percent(10) {
            self.rng.u32() & 0xFFFF_0000
        } else {
            0
        };
        if offset != 0 && self.rng.percent(30) {
            buffer = 0xFFFF_0000 | self.rng.u32();
        }
        let packet = if self.rng.percent(80) {
            length & LOW_11
        } else {
            self.rng.u32() & LOW_11
        };
        let free_bits = if self.rng.percent(40) {
            self.rng.u32() & 0x07FF_F800
        } else {
            0
        };
        [next, buffer, offset | length, flags | free_bits | packet]
    }

    fn some_buffer(&mut self, kinds: &[u8]) -> (u32, u32) {
        let length = match self.rng.below(10) {
            0 => self
                .rng
                .pick(&[0, 1, 2, 63, 64, 65, 2047, 2048, 4096, 65535]),
            1 => self.rng.u32() & 0xFFFF,
            _ => self.rng.between(1, 300) as u32,
        };
        let n = kinds.len().max(1) as u64;
        let buffer = match self.rng.below(12) {
            0 => self
                .rng
                .pick(&[0, 0x7FFF_FFFF, 0xFFFF_FFFF, 0xFFFF_FFC0, 0xFFFF_F000]),
            1 => self.rng.u32(),
            2 | 3 => {
                // Near the end of a block.
                let block = self.rng.below(n) + 1;
                (RAM_START + block * BLOCK_BYTES - u64::from(length).min(4096) + self.rng.below(3)
                    - 1) as u32
            }
            _ => (RAM_START + self.rng.below(n) * BLOCK_BYTES + self.rng.below(3800)) as u32,
        };
        (buffer, length)
    }

    /// A chain in memory that the book does not hold yet. Stands from the first free place
    /// on, so that `some_write` can find it by its SOP or OWNER.
    fn loose_chain(
        &mut self,
        side: Side,
        base: usize,
        region: usize,
        taken: &mut [bool],
        memory: &mut Memory,
        kinds: &[u8],
    ) {
        let count = self.rng.between(1, 4) as usize;
        let mut places = Vec::new();
        for _ in 0..count {
            match self.free_place(base, region, taken) {
                Some(at) => places.push(at),
                None => return,
            }
        }
        let mut sum = 0;
        let mut sop_at = 0;
        let mut words: Vec<[u32; 4]> = Vec::new();
        for i in 0..count {
            let next = places.get(i + 1).copied().unwrap_or(0);
            let wanted: fn(u8) -> bool = if side == Side::Transmit {
                owned_by_linux
            } else {
                linux_data
            };
            let (mut buffer, mut length) = self.some_buffer(kinds);
            // Mostly permitted.
            for _ in 0..30 {
                let range = Range {
                    first: u64::from(buffer),
                    length: u64::from(length),
                };
                let fits = side == Side::Transmit || length <= 2047;
                if length > 0 && fits && range.blocks_all(kinds, wanted) {
                    break;
                }
                if self.rng.percent(2) {
                    break;
                }
                (buffer, length) = self.some_buffer(kinds);
            }
            if side == Side::Receive {
                words.push([next, buffer, length, OWNER]);
                continue;
            }
            let starts = i == 0 || words[i - 1][3] & EOP != 0;
            let ends = i + 1 == count || self.rng.percent(40);
            let mut word3 = 0;
            if starts {
                word3 |= SOP | OWNER;
                sum = 0;
                sop_at = i;
            } else if self.rng.percent(40) {
                word3 |= OWNER;
            }
            sum += length;
            if ends {
                word3 |= EOP;
            }
            words.push([next, buffer, length, word3]);
            if ends {
                words[sop_at][3] |= sum & LOW_11;
            }
        }
        if self.rng.percent(60) {
            let i = self.rng.index(count);
            match self.rng.below(12) {
                8 => {
                    // Two faults in one descriptor.
                    words[i][0] = self.rng.pick(&[4, 0x4A10_3FF4, 0x4A10_2002]);
                    words[i][3] ^= self.rng.pick(&[1, 2, OWNER]);
                }
                9 if side == Side::Transmit => {
                    // Over three blocks or more.
                    let block = block_between(kinds, &mut self.rng);
                    words[i][1] = (RAM_START + block * BLOCK_BYTES - 1) as u32;
                    words[i][2] = self.rng.between(0x1001, 0x1003) as u32;
                }
                10 if side == Side::Transmit => {
                    // Pointer and offset together pass 2^32 - 1, or just do not.
                    let length = words[i][2] & 0xFFFF;
                    words[i][1] = 0xFFFF_FFF0;
                    let offset = self
                        .rng
                        .pick(&[0x10u32, 0x20, 0x10u32.wrapping_sub(length)])
                        & 0xFFFF;
                    words[i][2] = (offset << 16) | length;
                }
                7 => {
                    words[i][2] = if side == Side::Receive {
                        0x0001_0000 | words[i][2]
                    } else {
                        words[i][2] & 0xFFFF_0000
                    }
                }
                0 => words[i][0] = self.some_head(),
                1 if self.rng.percent(50) => words[i][0] = places[0],
                1 => words[i][3] ^= self.rng.pick(&[SOP, EOP, OWNER, EOQ, TD]),
                2 => words[i][2] ^= 1 << self.rng.below(32),
                3 => {
                    words[i][2] = if side == Side::Receive {
                        self.rng.pick(&[0, 0x800, 0x0001_0001, 0x0400_0010])
                    } else {
                        0
                    }
                }
                4 => words[i][1] = self.rng.pick(&[0, 0xFFFF_FFFF, 0xFFFF_FFFE, 0x7FFF_FFFF]),
                5 => words[i][3] ^= 1,
                _ => {
                    words[i][0] =
                        places[self.rng.index(count)].wrapping_add(self.rng.pick(&[0, 4, 8, 12]))
                }
            }
        }
        self.starts[side.index()] = Some(places[0]);
        for (at, words) in places.iter().zip(&words) {
            for w in 0..4 {
                memory.set_word(first_word(*at) + w, words[w]);
            }
        }
    }

    fn some_marks(&mut self) -> Marks {
        if self.rng.percent(40) {
            return Marks::ALL;
        }
        Marks::from_bits(self.rng.below(16) as u8)
    }

    fn some_head(&mut self) -> u32 {
        match self.rng.below(6) {
            0 => 0,
            1 => self.rng.pick(&[
                0x4A10_1FFC,
                0x4A10_3FF4,
                0x4A10_4000,
                0x4A10_2001,
                0x4A10_3FF0,
                4,
                0x8000_0000,
                0xFFFF_FFFC,
            ]),
            2 => DESC_START + 4 * self.rng.below(2048) as u32,
            _ => DESC_START + 4 * self.rng.below(100) as u32,
        }
    }

    fn some_value(&mut self) -> u32 {
        match self.rng.below(5) {
            0 => self.rng.u32(),
            1 => self.some_head(),
            2 => self
                .rng
                .pick(&[OWNER, SOP | EOP | OWNER | 60, 60, 0, TD, EOQ | EOP]),
            3 => 0x8000_0000 + self.rng.below(0x8000) as u32,
            _ => 0,
        }
    }

    fn some_number(&mut self) -> u32 {
        match self.rng.below(8) {
            0 => self.rng.pick(&[0, 1, 63, 64, 65, 2046, 2047, 2048]),
            1 => self.rng.pick(&[
                0xFFFF_FFFF,
                0xFFFF_FFFE,
                0xFFFF_FFC0,
                0x8000_0000,
                0x7FFF_FFFF,
            ]),
            2 => self.some_head(),
            3 => self.rng.u32(),
            _ => self.rng.between(0, 300) as u32,
        }
    }

    fn used_or_any_word(&mut self, book: &Book) -> usize {
        let used: Vec<usize> = (0..DESC_WORDS).filter(|&w| book.in_use[w] != 0).collect();
        if used.is_empty() || self.rng.percent(20) {
            return self.rng.index(DESC_WORDS);
        }
        self.rng.pick(&used)
    }

    /// Registers, flags and phases; mostly fit for the queues given.
    fn some_controller(
        &mut self,
        memory: &Memory,
        queues: &[Vec<u32>; 2],
        kinds: &[u8],
    ) -> Controller {
        let mut c = Controller::fresh();
        for i in 0..2 {
            c.registers.hdp[i] = match self.rng.below(8) {
                0 => self.some_head(),
                1 | 2 => 0,
                _ if queues[i].is_empty() => self.some_head(),
                3 => self.rng.pick(&queues[i]),
                _ => queues[i][0],
            };
            c.registers.cp[i] = match self.rng.below(5) {
                0 => TEARDOWN_CODE,
                1 => self.some_head(),
                _ => 0,
            };
            c.teardown_pending[i] = self.rng.percent(25);
            c.stages[i] = if self.rng.percent(60) {
                1
            } else {
                self.rng.between(1, 3) as u8
            };
        }
        c.registers.reset_bit = self.rng.percent(20);
        c.marks = if self.rng.percent(75) {
            Marks::ALL
        } else {
            self.some_marks()
        };
        c.reset_pending = self.rng.percent(20);
        c.undefined = self.rng.percent(3);
        if self.rng.percent(30) {
            c.sent = self.rng.pick(&[1, 1000, u64::MAX, u64::MAX - 50, 1 << 32]);
            c.received = self.rng.pick(&[1, 1000, u64::MAX, u64::MAX - 50, 1 << 32]);
        }
        c.tx = self.some_tx_phase(memory, c.registers.hdp[0], kinds);
        c.rx = self.some_rx_phase(c.registers.hdp[1], kinds);
        c
    }

    fn some_tx_phase(&mut self, memory: &Memory, hdp: u32, kinds: &[u8]) -> TxPhase {
        let tag = self.rng.below(8) as u8;
        let (at, left) = self.some_buffer(kinds);
        let sop = if self.rng.percent(85) {
            DESC_START + 4 * self.rng.below(100) as u32
        } else {
            self.some_head()
        };
        let sop = if tag == 6 && self.rng.percent(15) {
            self.rng.pick(&[0, 4, 0x4A10_3FF4])
        } else {
            sop
        };
        let sum = self.rng.between(1, 500) as u32;
        let mut word3 = SOP | OWNER | self.rng.between(1, 2047) as u32;
        if tag == 2 && is_good(hdp) && memory.size_is_right() && self.rng.percent(80) {
            // So that the sum comes out at EOP.
            let own = memory.descriptor(hdp).word2 & 0xFFFF;
            word3 = SOP | OWNER | ((sum + own) & LOW_11);
        }
        let next = if self.rng.percent(40) {
            0
        } else {
            self.some_head()
        };
        let mut numbers = [sop, word3, sum, at, left, next, self.rng.u32()];
        if tag == 2 && self.rng.percent(20) {
            numbers[2] = u32::MAX - self.rng.below(300) as u32;
        }
        if tag == 3 && self.rng.percent(15) {
            // Just fits below 2^32, or passes it by one.
            let left = self.rng.between(1, 200) as u32;
            numbers[3] = (0u32.wrapping_sub(left)).wrapping_add(self.rng.below(2) as u32);
            numbers[4] = left;
        }
        if self.rng.percent(20) {
            let i = self.rng.index(7);
            numbers[i] = self.some_number();
        }
        tx_phase(tag, numbers)
    }

    fn some_rx_phase(&mut self, hdp: u32, kinds: &[u8]) -> RxPhase {
        let tag = self.rng.below(8) as u8;
        let (at, room) = self.some_buffer(kinds);
        let first = if self.rng.percent(40) {
            hdp
        } else {
            DESC_START + 4 * self.rng.below(100) as u32
        };
        let stored = self.rng.between(0, 1000) as u32;
        let left = self
            .rng
            .pick(&[0, 1, 64, 65, 200, 1000, 2047 - stored, 2048 - stored]);
        let here = self.rng.between(0, 1000) as u32;
        let room = if tag == 4 && self.rng.percent(60) {
            0
        } else {
            room
        };
        let next = if self.rng.percent(40) {
            0
        } else {
            self.some_head()
        };
        let mut numbers = [first, stored, left, at, room, here, next];
        if tag == 3 && self.rng.percent(15) {
            numbers[5] = u32::MAX - self.rng.below(70) as u32;
        }
        if tag == 3 && self.rng.percent(15) {
            let room = self.rng.between(1, 200) as u32;
            numbers[3] = (0u32.wrapping_sub(room)).wrapping_add(self.rng.below(2) as u32);
            numbers[4] = room;
        }
        if self.rng.percent(20) {
            let i = self.rng.index(7);
            numbers[i] = self.some_number();
        }
        rx_phase(tag, numbers, self.rng.percent(50))
    }

    // ------------------------------------------------------------ calls

    fn some_write(&mut self, state: &State) -> (u32, u32) {
        let side = self.rng.pick(&Side::BOTH);
        let i = side.index();
        match self.rng.below(16) {
            0..=2 => (HDP[i], self.some_start(state, side)),
            3..=5 => match self.last_of(state, side) {
                Some(last) => (last, self.some_start(state, side)),
                None => (HDP[i], self.some_start(state, side)),
            },
            6 => {
                let cp = state.controller.registers.cp[i];
                (CP[i], self.rng.pick(&[cp, cp, 0, TEARDOWN_CODE, 1]))
            }
            7 | 8 => (TEARDOWN[i], self.rng.pick(&[0, 0, 0, 1])),
            9 => (SOFT_RESET, self.rng.pick(&[1, 1, 1, 0, 2])),
            10 => (
                self.rng.pick(&[DMACONTROL, RX_BUFFER_OFFSET]),
                self.rng.pick(&[0, 1, 0x8000_0000]),
            ),
            11 => {
                let addresses = [
                    0x4A10_0804,
                    0x4A10_0814,
                    0x4A10_0888,
                    0x4A10_088C,
                    0x4A10_0894,
                    0x4A10_08A8,
                    0x4A10_08AC,
                    0x4A10_07FC,
                    0x4A10_0900,
                    0x4A10_09FC,
                    0x4A10_0A80,
                    0x4A10_1FFC,
                    0x4A10_4000,
                    0x4A10_2002,
                    0x4A10_0A01,
                    0x4A10_08FC,
                    0x4A10_0A7C,
                    0xFFFF_FFFF,
                ];
                (self.rng.pick(&addresses), self.rng.u32())
            }
            12 => (
                0x4A10_0800 + self.rng.below(0x280) as u32,
                self.rng.pick(&[0, 1]),
            ),
            13 | 14 => {
                let word = self.used_or_any_word(&state.book) as u32;
                (DESC_START + 4 * word, self.some_value())
            }
            _ => (
                DESC_START + 4 * self.rng.below(2048) as u32,
                self.some_value(),
            ),
        }
    }

    /// A pointer to what looks like the start of a chain not in the book; or not.
    fn some_start(&mut self, state: &State, side: Side) -> u32 {
        if self.rng.percent(15) || !state.memory.size_is_right() {
            return self.some_head();
        }
        if let Some(start) = self.starts[side.index()] {
            if self.rng.percent(75) {
                return start;
            }
        }
        let flags = |w: usize| state.memory.word(w + 3) & 0xF800_0000;
        let likely: Vec<u32> = (0..DESC_WORDS - 3)
            .filter(|&w| (w..w + 4).all(|i| state.book.in_use[i] == 0))
            .filter(|&w| match side {
                Side::Transmit => flags(w) & (SOP | OWNER) == SOP | OWNER,
                Side::Receive => flags(w) == OWNER,
            })
            .filter(|&w| state.memory.word(w + 2) != 0)
            .map(|w| DESC_START + 4 * w as u32)
            .collect();
        if likely.is_empty() {
            return self.some_head();
        }
        self.rng.pick(&likely)
    }

    /// The last descriptor of a queue as far as it goes.
    fn last_of(&mut self, state: &State, side: Side) -> Option<u32> {
        if !state.memory.size_is_right() {
            return None;
        }
        let mut pointer = state.book.head(side);
        for _ in 0..600 {
            if !is_good(pointer) {
                return None;
            }
            let next = state.memory.descriptor(pointer).next;
            if next == 0 {
                return Some(pointer);
            }
            pointer = next;
        }
        None
    }

    fn some_kind_change(&mut self, state: &State) -> (u32, u32) {
        let n = state.kinds.len() as u64;
        let receive_head = state.book.head(Side::Receive);
        let block = match self.rng.below(8) {
            0 => self
                .rng
                .pick(&[n as u32, n as u32 + 1, 0xFFFF, 0xFFFF_FFFF, 0x10000]),
            1..=4 if is_good(receive_head) && state.memory.size_is_right() => {
                let buffer = u64::from(state.memory.descriptor(receive_head).buffer);
                let length = u64::from(state.book.lengths[first_word(receive_head)]);
                let byte = buffer + self.rng.pick(&[0, length.max(1) - 1, length]);
                (byte.saturating_sub(RAM_START) / BLOCK_BYTES) as u32
            }
            _ => self.rng.below(n.max(1)) as u32,
        };
        let kind = match self.rng.below(10) {
            0 => self.rng.pick(&[0, 5, 256, 257, 0xFFFF_FFFF]),
            1 => 1,
            _ => self.rng.between(1, 4) as u32,
        };
        (block, kind)
    }

    fn some_frame_length(&mut self) -> u32 {
        match self.rng.below(4) {
            0 => self
                .rng
                .pick(&[0, 1, 2047, 2048, 65536, 65537, 0xFFFF_FFFF]),
            _ => self.rng.between(1, 2047) as u32,
        }
    }

    fn some_engine(&mut self, state: &State) -> u32 {
        let c = &state.controller;
        if self.rng.percent(5) {
            return self.rng.u32();
        }
        if (c.teardown_pending[0] || c.teardown_pending[1] || c.reset_pending)
            && self.rng.percent(40)
        {
            return self.rng.pick(&[0, 3, 4]);
        }
        // Mostly an engine that can move.
        let busy = [
            !matches!(c.tx, TxPhase::Idle),
            !matches!(c.rx, RxPhase::Idle | RxPhase::Wait),
        ];
        match busy {
            [true, false] if self.rng.percent(60) => 1,
            [false, true] if self.rng.percent(60) => 2,
            _ => self.rng.pick(&[0, 1, 1, 1, 1, 2, 2, 2, 2, 3, 4]),
        }
    }
}

fn new_guest(rng: &mut Rng) -> Guest {
    let profile = rng.pick(&Profile::ALL);
    Guest::new(rng.next(), profile, Variant::Right)
}
