//! Traffic: a guest that knows the machine's state and makes bench records, from
//! well-behaved to hostile. It runs the model as it goes, under watch, so that its
//! next record can aim at the moment.

use crate::bench::Record;
use crate::controller::{Engine, RxPhase, StepReport, TxPhase};
use crate::memory::*;
use crate::monitor::Monitored;
use crate::rng::Rng;
use crate::variant::Variant;

pub const TX_TEARDOWN: u32 = 0x4A10_0808;
pub const RX_TEARDOWN: u32 = 0x4A10_0818;
pub const SOFT_RESET: u32 = 0x4A10_081C;
pub const DMACONTROL: u32 = 0x4A10_0820;
pub const RX_BUFFER_OFFSET: u32 = 0x4A10_0828;
pub const HDP: [u32; 2] = [0x4A10_0A00, 0x4A10_0A20];
pub const CP: [u32; 2] = [0x4A10_0A40, 0x4A10_0A60];
pub const TEARDOWN: [u32; 2] = [TX_TEARDOWN, RX_TEARDOWN];
const PASSED: [u32; 7] = [0x804, 0x814, 0x888, 0x88C, 0x894, 0x8A8, 0x8AC];

/// What a run is mostly about.
#[derive(Clone, Copy, PartialEq, Eq, Debug)]
pub enum Profile {
    Valid,
    Race,
    Overlap,
    Boundary,
    Teardown,
    Kinds,
    Chaos,
}

impl Profile {
    pub const ALL: [Profile; 7] = [
        Profile::Valid,
        Profile::Race,
        Profile::Overlap,
        Profile::Boundary,
        Profile::Teardown,
        Profile::Kinds,
        Profile::Chaos,
    ];
}

/// A descriptor as planned, not yet stored.
#[derive(Clone, Copy, Debug, PartialEq, Eq)]
pub struct Planned {
    pub at: u32,
    pub words: [u32; 4],
}

pub struct Guest {
    pub rng: Rng,
    pub world: Monitored,
    pub records: Vec<Record>,
    profile: Profile,
    /// The part of descriptor memory it works in: first word, number of words.
    pool: (usize, usize),
    /// In a race other calls fall between any two records.
    busybody: bool,
    /// How many per cent of descriptors do not stand at multiples of 16.
    crooked: u64,
    /// How many per cent of chains are broken on purpose.
    faults: u64,
}

impl Guest {
    pub fn new(seed: u64, profile: Profile, variant: Variant) -> Guest {
        let mut rng = Rng::new(seed);
        let kinds = random_kinds(&mut rng, profile);
        let world = Monitored::fresh(kinds.clone(), variant);
        let words = if rng.percent(60) {
            48 + rng.index(80)
        } else {
            DESC_WORDS
        };
        let start = match rng.below(4) {
            0 => 0,
            1 => DESC_WORDS - words,
            _ => rng.index(DESC_WORDS - words + 1),
        };
        let (crooked, faults) = match profile {
            Profile::Valid => (5, 0),
            Profile::Race => (20, 10),
            Profile::Overlap => (80, 20),
            Profile::Boundary => (30, 60),
            Profile::Teardown => (10, 5),
            Profile::Kinds => (10, 5),
            Profile::Chaos => (40, 50),
        };
        Guest {
            rng,
            world,
            records: vec![Record::Kinds(kinds)],
            profile,
            pool: (start, words),
            busybody: false,
            crooked,
            faults,
        }
    }

    /// A guest over a given kind table, for directed scenarios.
    pub fn over(kinds: Vec<u8>, variant: Variant) -> Guest {
        let mut guest = Guest::new(1, Profile::Valid, variant);
        guest.world = Monitored::fresh(kinds.clone(), variant);
        guest.records = vec![Record::Kinds(kinds)];
        guest.pool = (0, DESC_WORDS);
        guest
    }

    // ------------------------------------------------------------ single records

    pub fn write(&mut self, address: u32, value: u32) -> u8 {
        self.records.push(Record::GuestWrite(address, value));
        let answer = self.world.guest_write(address, value).answer.number;
        self.perhaps_interfere();
        answer
    }

    pub fn kind(&mut self, block: u16, kind: u8) -> u8 {
        self.records.push(Record::KindChange(block, kind));
        self.world.kind_change(u32::from(block), u32::from(kind))
    }

    pub fn frame(&mut self, length: u16) -> u8 {
        self.records.push(Record::Frame(length));
        self.world.frame(u32::from(length))
    }

    pub fn step(&mut self, engine: Engine) -> StepReport {
        self.records.push(Record::Steps(engine, 1));
        let report = self.world.step(engine);
        self.perhaps_interfere();
        report
    }

    pub fn steps(&mut self, engine: Engine, count: u8) {
        self.records.push(Record::Steps(engine, count));
        for _ in 0..count {
            self.world.step(engine);
        }
    }

    /// In a race: now and then another call between two records.
    fn perhaps_interfere(&mut self) {
        if !self.busybody || !self.rng.percent(35) {
            return;
        }
        self.busybody = false;
        match self.rng.below(10) {
            0..=2 => self.some_guard_call(),
            3 => self.poke_queue(),
            4 => self.some_kind_change(),
            5 => self.some_frame(),
            6 => self.acknowledge(),
            _ => {
                let engine = self.some_engine();
                self.step(engine);
            }
        }
        self.busybody = true;
    }

    // ------------------------------------------------------------ looking at the state

    fn book_words(&self) -> Vec<bool> {
        (0..DESC_WORDS)
            .map(|w| self.world.machine.book.word_in_use(w))
            .collect()
    }

    fn queue(&self, side: Side) -> Vec<u32> {
        let machine = &self.world.machine;
        if !machine.book.is_sound(&machine.memory) {
            return Vec::new(); // a broken variant's doing
        }
        machine.book.queue(&machine.memory, side)
    }

    fn hdp(&self, side: Side) -> u32 {
        self.world.machine.controller.registers.hdp[side.index()]
    }

    fn cp(&self, side: Side) -> u32 {
        self.world.machine.controller.registers.cp[side.index()]
    }

    fn tx(&self) -> TxPhase {
        self.world.machine.controller.tx
    }

    fn rx(&self) -> RxPhase {
        self.world.machine.controller.rx
    }

    /// Would a step of this engine move?
    fn can_move(&self, engine: Engine) -> bool {
        let controller = &self.world.machine.controller;
        let new_held = controller.reset_pending || controller.teardown_pending[0];
        match engine {
            Engine::Reset => controller.reset_pending,
            Engine::Transmit => match self.tx() {
                TxPhase::Idle => false,
                TxPhase::New => !new_held,
                _ => true,
            },
            Engine::Receive => !matches!(self.rx(), RxPhase::Idle | RxPhase::Wait),
            Engine::Teardown(side) => controller.teardown_pending[side.index()],
        }
    }

    fn some_engine(&mut self) -> Engine {
        let able: Vec<Engine> = Engine::ALL
            .into_iter()
            .filter(|&engine| self.can_move(engine))
            .collect();
        if able.is_empty() || self.rng.percent(8) {
            return self.rng.pick(&Engine::ALL);
        }
        self.rng.pick(&able)
    }

    // ------------------------------------------------------------ planning descriptors

    /// Four free words inside the pool; `taken` also keeps what is planned already.
    fn free_place(&mut self, taken: &mut [bool]) -> Option<u32> {
        let (start, words) = self.pool;
        for _ in 0..60 {
            let crooked = self.rng.percent(self.crooked);
            let mut word = start + self.rng.index(words - 3);
            if !crooked {
                word = word / 4 * 4;
            }
            if word + 3 < DESC_WORDS && (word..word + 4).all(|w| !taken[w]) {
                taken[word..word + 4].fill(true);
                return Some(DESC_START + 4 * word as u32);
            }
        }
        None
    }

    /// A buffer of at most `want` bytes, all in blocks that are permitted.
    fn permitted_buffer(&mut self, want: u64, permits: fn(u8) -> bool) -> Option<Range> {
        let kinds = &self.world.machine.kinds;
        let runs = runs_of(kinds, permits);
        if runs.is_empty() {
            return None;
        }
        let (low, high) = self.rng.pick(&runs);
        let bytes = (high - low) as u64 * BLOCK_BYTES;
        let length = want.min(bytes);
        let start = RAM_START + low as u64 * BLOCK_BYTES;
        let spare = bytes - length;
        let shift = match self.rng.below(5) {
            0 => 0,
            1 => spare,
            2 if high - low > 1 => (BLOCK_BYTES - 1).min(spare),
            _ => self.rng.below(spare + 1),
        };
        Some(Range {
            first: start + shift,
            length,
        })
    }

    fn some_packet_length(&mut self) -> u64 {
        match self.rng.below(4) {
            0 => self
                .rng
                .pick(&[1, 2, 3, 63, 64, 65, 127, 128, 129, 1514, 1518, 2046, 2047]),
            1 => self.rng.between(1, 2047),
            _ => self.rng.between(1, 200),
        }
    }

    /// `packets` transmit packets in one chain, all in order.
    fn plan_transmit(&mut self, packets: usize) -> Option<Vec<Planned>> {
        let mut taken = self.book_words();
        let mut chain: Vec<Planned> = Vec::new();
        for _ in 0..packets {
            let pieces = match self.rng.below(6) {
                0..=2 => 1,
                3 | 4 => 2,
                _ => self.rng.between(3, 5) as usize,
            };
            let want = self.some_packet_length();
            let mut sum = 0;
            let sop_at = chain.len();
            for piece in 0..pieces {
                let share = (want / pieces as u64).max(1);
                let range = self.permitted_buffer(share, owned_by_linux)?;
                sum += range.length;
                let (pointer, offset) = self.perhaps_with_offset(range.first, piece == 0);
                let mut word3 = 0;
                if piece == 0 {
                    word3 |= SOP | OWNER;
                } else if self.rng.percent(50) {
                    word3 |= OWNER;
                }
                if piece + 1 == pieces {
                    word3 |= EOP;
                }
                let at = self.free_place(&mut taken)?;
                let word2 = (offset << 16) | range.length as u32;
                chain.push(Planned {
                    at,
                    words: [0, pointer, word2, word3],
                });
            }
            chain[sop_at].words[3] |= sum as u32 & LOW_11;
        }
        link(&mut chain);
        self.perhaps_noise(Side::Transmit, &mut chain);
        Some(chain)
    }

    fn perhaps_with_offset(&mut self, first: u64, sop: bool) -> (u32, u32) {
        if !sop {
            // Ignored where it is not the SOP descriptor's.
            let offset = if self.rng.percent(20) {
                self.rng.between(0, 0xFFFF)
            } else {
                0
            };
            return (first as u32, offset as u32);
        }
        if !self.rng.percent(30) {
            return (first as u32, 0);
        }
        let offset = self.rng.pick(&[1, 2, 16, 0x7FF, 0x800, 0xFFFF]);
        ((first - offset) as u32, offset as u32)
    }

    fn plan_receive(&mut self, count: usize) -> Option<Vec<Planned>> {
        let mut taken = self.book_words();
        let mut chain = Vec::new();
        for _ in 0..count {
            let want = match self.rng.below(3) {
                0 => self.rng.pick(&[1, 2, 63, 64, 65, 128, 1518, 1536, 2047]),
                1 => self.rng.between(1, 2047),
                _ => self.rng.between(1, 150),
            };
            let range = self.permitted_buffer(want, linux_data)?;
            let at = self.free_place(&mut taken)?;
            let words = [0, range.first as u32, range.length as u32, OWNER];
            chain.push(Planned { at, words });
        }
        link(&mut chain);
        self.perhaps_noise(Side::Receive, &mut chain);
        Some(chain)
    }

    /// Bits that 01 does not name are free.
    fn perhaps_noise(&mut self, side: Side, chain: &mut [Planned]) {
        for planned in chain.iter_mut() {
            if !self.rng.percent(15) {
                continue;
            }
            planned.words[3] |= self.rng.u32() & 0x07FF_F800;
            match side {
                Side::Receive => {
                    planned.words[3] |= self.rng.u32() & LOW_11;
                    planned.words[2] |= self.rng.u32() & 0xF800_F800;
                }
                Side::Transmit if planned.words[3] & SOP == 0 => {
                    planned.words[3] |= self.rng.u32() & LOW_11;
                }
                Side::Transmit => {}
            }
        }
    }

    /// One thing about the chain goes wrong (or nearly).
    fn break_chain(&mut self, side: Side, chain: &mut [Planned]) {
        let i = self.rng.index(chain.len());
        let in_use: Vec<u32> = self
            .queue(Side::Transmit)
            .into_iter()
            .chain(self.queue(Side::Receive))
            .collect();
        match self.rng.below(16) {
            12 => {
                // Two faults in one descriptor: bad next and wrong sum or flags.
                chain[i].words[0] = self.some_bad_pointer();
                chain[i].words[3] ^= self.rng.pick(&[1, 2, SOP, OWNER]);
            }
            13 => {
                // Two faults in two descriptors.
                let j = self.rng.index(chain.len());
                chain[i].words[3] ^= self.rng.pick(&[1, EOQ, EOP]);
                chain[j].words[1] = self.rng.pick(&[0, 0xFFFF_FFFF]);
            }
            14 if side == Side::Transmit => {
                // Over three blocks or more.
                let block = block_between(&self.world.machine.kinds, &mut self.rng);
                chain[i].words[1] = (RAM_START + block * BLOCK_BYTES - 1) as u32;
                chain[i].words[2] = self.rng.between(0x1001, 0x1003) as u32;
            }
            15 if side == Side::Transmit => {
                // Pointer and offset together pass 2^32 - 1, or just do not.
                let length = chain[i].words[2] & 0xFFFF;
                chain[i].words[1] = 0xFFFF_FFF0;
                let offset = self
                    .rng
                    .pick(&[0x10u32, 0x20, 0x10u32.wrapping_sub(length)])
                    & 0xFFFF;
                chain[i].words[2] = (offset << 16) | length;
            }
            0 => chain[i].words[0] = self.some_bad_pointer(),
            1 => {
                let j = self.rng.index(chain.len());
                let shift = self.rng.below(7) as u32 * 4;
                chain[i].words[0] = (chain[j].at + shift).wrapping_sub(12);
            }
            2 if !in_use.is_empty() => {
                let shift = self.rng.below(7) as u32 * 4;
                chain[i].words[0] = (self.rng.pick(&in_use) + shift).wrapping_sub(12);
            }
            2 | 3 => chain[i].words[3] ^= self.rng.pick(&[SOP, EOP, OWNER, EOQ, TD]),
            4 => {
                chain[i].words[2] = match side {
                    Side::Transmit => chain[i].words[2] & 0xFFFF_0000,
                    Side::Receive => self.rng.pick(&[0, 0x800, 0x0801_0000, 0xF800_F800]),
                }
            }
            5 => chain[i].words[2] ^= 1 << self.rng.below(32),
            6 => {
                let length = chain[i].words[2] & 0xFFFF;
                let first = TWO_32 - u64::from(length);
                chain[i].words[1] = (first + self.rng.below(3)).wrapping_sub(1) as u32;
            }
            7 | 8 => self.move_to_edge(side, &mut chain[i]),
            9 => {
                let change = self.rng.pick(&[1u32, 2, 0x7FF, 0x400]);
                let word3 = chain[i].words[3];
                chain[i].words[3] = (word3 & !LOW_11) | (word3.wrapping_add(change) & LOW_11);
            }
            10 => chain[i].words[0] = 0,
            _ => chain[i].words[1] = self.rng.pick(&[0, 0x7FFF_FFFF, 0x8000_0000, 0xFFFF_FFFF]),
        }
    }

    /// The buffer to the edge of what is permitted: just inside, or over by one byte.
    fn move_to_edge(&mut self, side: Side, planned: &mut Planned) {
        let permits = match side {
            Side::Transmit => owned_by_linux,
            Side::Receive => linux_data,
        };
        let runs = runs_of(&self.world.machine.kinds, permits);
        if runs.is_empty() {
            return;
        }
        let (low, high) = self.rng.pick(&runs);
        let length = match side {
            Side::Transmit => u64::from(planned.words[2] & 0xFFFF),
            Side::Receive => u64::from(planned.words[2] & LOW_11),
        };
        let start = RAM_START + low as u64 * BLOCK_BYTES;
        let end = RAM_START + high as u64 * BLOCK_BYTES;
        let first = match self.rng.below(4) {
            0 => start,
            1 => start - 1,
            2 => end - length.min(end),
            _ => end - length.min(end) + 1,
        };
        planned.words[1] = first as u32;
        if side == Side::Transmit {
            planned.words[2] &= 0xFFFF;
        }
    }

    fn some_bad_pointer(&mut self) -> u32 {
        let bad = [
            0x4A10_1FFC,
            0x4A10_3FF4,
            0x4A10_3FF8,
            0x4A10_3FFC,
            0x4A10_4000,
            0x4A10_2001,
            0x4A10_2002,
            0x4A10_3FEF,
            0x4A10_3FF1,
            4,
            0x8000_1000,
            0xFFFF_FFFC,
            0xFFFF_FFFF,
            0x4A10_2006,
        ];
        self.rng.pick(&bad)
    }

    // ------------------------------------------------------------ handing over

    /// The words of a chain into memory, one write each.
    pub fn store(&mut self, chain: &[Planned]) {
        for planned in chain {
            let mut order = [0usize, 1, 2, 3];
            if self.rng.percent(20) {
                self.rng.shuffle(&mut order);
            }
            for w in order {
                let word = first_word_unchecked(planned.at) + w;
                let same =
                    word < DESC_WORDS && self.world.machine.memory.word(word) == planned.words[w];
                if !same || self.rng.percent(5) {
                    self.write(planned.at + 4 * w as u32, planned.words[w]);
                }
            }
        }
    }

    /// A start if the queue looks empty, else an append; sometimes the other way round.
    fn hand_over(&mut self, side: Side, pointer: u32) -> u8 {
        let queue = self.queue(side);
        let odd = self.profile != Profile::Valid && self.rng.percent(10);
        match queue.last() {
            Some(&last) if !odd => {
                let answer = self.write(last, pointer);
                // The release may have taken the whole queue in this very call.
                if self.queue(side).is_empty() && self.hdp(side) == 0 && self.rng.percent(80) {
                    return self.write(HDP[side.index()], pointer);
                }
                answer
            }
            _ => self.write(HDP[side.index()], pointer),
        }
    }

    fn send(&mut self) {
        let packets = self.rng.between(1, 3) as usize;
        if let Some(mut chain) = self.plan_transmit(packets) {
            self.finish_plan(Side::Transmit, &mut chain);
        }
    }

    fn offer_buffers(&mut self) {
        let count = self.rng.between(1, 4) as usize;
        if let Some(mut chain) = self.plan_receive(count) {
            self.finish_plan(Side::Receive, &mut chain);
        }
    }

    fn finish_plan(&mut self, side: Side, chain: &mut Vec<Planned>) {
        if self.rng.percent(self.faults) {
            self.break_chain(side, chain);
        }
        self.store(chain);
        let mut pointer = chain[0].at;
        if self.faults > 0 && self.rng.percent(3) {
            pointer = self.some_bad_pointer();
        }
        self.hand_over(side, pointer);
    }

    // ------------------------------------------------------------ other calls

    pub fn initialise(&mut self) {
        let mut registers = [HDP[0], HDP[1], CP[0], CP[1]];
        self.rng.shuffle(&mut registers);
        for register in registers {
            self.write(register, 0);
        }
    }

    fn awaiting(&self) -> bool {
        self.world.machine.book.marks.awaiting()
    }

    fn perhaps_initialise(&mut self) {
        if !self.awaiting() {
            return;
        }
        if self.profile != Profile::Valid && self.rng.percent(40) {
            let side = self.some_side();
            let value = self.rng.pick(&[0, 1, DESC_START, TEARDOWN_CODE]);
            let address = self.rng.pick(&[
                HDP[0],
                HDP[1],
                CP[0],
                CP[1],
                TEARDOWN[side.index()],
                SOFT_RESET,
            ]);
            self.write(address, value);
            return;
        }
        self.initialise();
    }

    fn some_side(&mut self) -> Side {
        self.rng.pick(&Side::BOTH)
    }

    fn some_frame(&mut self) {
        let length = match self.rng.below(12) {
            0 => self.rng.pick(&[0, 2047, 2048, 65535, 1, 2046, 4095]),
            1..=3 => self.rng.between(1, 2047) as u16,
            4 => self.rng.pick(&[63, 64, 65, 128, 129, 1518]),
            _ => self.rng.between(1, 200) as u16,
        };
        self.frame(length);
    }

    /// CP written with what it reads, or something else.
    fn acknowledge(&mut self) {
        let side = self.some_side();
        let value = match self.rng.below(8) {
            0 => 0,
            1 => TEARDOWN_CODE,
            2 => self.cp(side).wrapping_add(4),
            _ => self.cp(side),
        };
        self.write(CP[side.index()], value);
    }

    fn some_kind_change(&mut self) {
        let n = self.world.machine.kinds.len() as u64;
        let receiving = self.queue(Side::Receive);
        let block = if !receiving.is_empty() && self.rng.percent(50) {
            let pointer = self.rng.pick(&receiving);
            let buffer = self.world.machine.memory.descriptor(pointer).buffer;
            let near = u64::from(buffer).saturating_sub(RAM_START) / BLOCK_BYTES;
            near + self.rng.below(2)
        } else if self.rng.percent(15) {
            self.rng.pick(&[n, n + 1, 0xFFFF, n.saturating_sub(1)])
        } else {
            self.rng.below(n)
        };
        let kind = match self.rng.below(10) {
            0 => self.rng.pick(&[0, 5, 255]),
            1..=4 => 1,
            _ => self.rng.between(1, 4) as u8,
        };
        self.kind(block.min(0xFFFF) as u16, kind);
    }

    /// Any guard call at all, aimed at the moment.
    fn some_guard_call(&mut self) {
        let side = self.some_side();
        match self.rng.below(14) {
            0 => {
                let offset = self.rng.pick(&PASSED);
                let value = self.rng.u32();
                self.write(0x4A10_0000 + offset, value);
            }
            1 => {
                let address = self.rng.pick(&[DMACONTROL, RX_BUFFER_OFFSET]);
                let value = self.rng.pick(&[0, 0, 1, 0x8000_0000]);
                self.write(address, value);
            }
            2 => {
                let edges = [
                    0x4A10_07FC,
                    0x4A10_0800,
                    0x4A10_08FC,
                    0x4A10_0900,
                    0x4A10_09FC,
                    0x4A10_0A04,
                    0x4A10_0A7C,
                    0x4A10_0A80,
                    0x4A10_1FFC,
                    0x4A10_4000,
                    0,
                    0xFFFF_FFFC,
                    0x8000_0000,
                    0x4A10_0A02,
                    0x4A10_2001,
                    0x4A10_0901,
                    0x4A10_3FFF,
                    0x4A10_3FFC,
                ];
                let address = self.rng.pick(&edges);
                let value = self.rng.pick(&[0, 1, 0xFFFF_FFFF]);
                self.write(address, value);
            }
            3 => {
                let address = 0x4A10_0800 + self.rng.below(0x280) as u32;
                let value = self.rng.pick(&[0, 0, 1, 2, DESC_START]);
                // Teardown and reset are rare here: they end all traffic.
                if !matches!(place(address), Place::Reset | Place::Teardown(_))
                    || self.rng.percent(10)
                {
                    self.write(address, value);
                }
            }
            4 => {
                let value = self.some_pointer();
                self.write(HDP[side.index()], value);
            }
            5 => {
                self.write(HDP[side.index()], 0);
            }
            6 => self.acknowledge(),
            7 => {
                let value = self.rng.pick(&[1, 2, TEARDOWN_CODE]);
                self.write(TEARDOWN[side.index()], value);
            }
            8 => {
                let value = self.rng.pick(&[0, 2, 0x8000_0001]);
                self.write(SOFT_RESET, value);
            }
            9 => self.poke_queue(),
            _ => {
                // A word of descriptor memory, with something or other.
                let (start, words) = self.pool;
                let word = start + self.rng.index(words);
                let value = match self.rng.below(5) {
                    0 => 0,
                    1 => self.some_pointer(),
                    2 => OWNER,
                    3 => self.rng.u32(),
                    _ => SOP | EOP | OWNER | 60,
                };
                self.write(DESC_START + 4 * word as u32, value);
            }
        }
    }

    fn some_pointer(&mut self) -> u32 {
        let mut known: Vec<u32> = self.queue(Side::Transmit);
        known.extend(self.queue(Side::Receive));
        for i in 0..2 {
            known.push(self.world.machine.controller.registers.hdp[i]);
            known.push(self.world.machine.controller.registers.cp[i]);
        }
        match self.rng.below(4) {
            0 => self.some_bad_pointer(),
            1 => {
                let shift = self.rng.pick(&[0, 4, 8, 12, 16, 0xFFFF_FFFC, 0xFFFF_FFF4]);
                self.rng.pick(&known).wrapping_add(shift)
            }
            _ => {
                let (start, words) = self.pool;
                DESC_START + 4 * (start + self.rng.index(words)) as u32
            }
        }
    }

    /// A write into a word that is in use, the last descriptor's word 0 above all.
    fn poke_queue(&mut self) {
        let side = self.some_side();
        let queue = self.queue(side);
        let Some(&last) = queue.last() else {
            return;
        };
        match self.rng.below(6) {
            0 => {
                self.write(last, 0);
            }
            1 => {
                let value = self.some_bad_pointer();
                self.write(last, value);
            }
            2 => {
                let value = last + 4 * self.rng.below(4) as u32;
                self.write(last, value);
            }
            3 => {
                let value = self.some_pointer();
                self.write(last, value);
            }
            _ => {
                let pointer = self.rng.pick(&queue);
                let value = self.rng.u32();
                let word = self.rng.below(4) as u32;
                // Not the append's own word: that is judged as a chain.
                self.write(pointer + 4 * word, value);
            }
        }
    }

    // ------------------------------------------------------------ moving on

    pub fn pump(&mut self, rounds: u64) {
        for _ in 0..rounds {
            let engine = self.some_engine();
            if self.rng.percent(40) {
                let count = self.rng.between(1, 12) as u8;
                self.steps(engine, count);
            } else {
                self.step(engine);
            }
        }
    }

    /// Steps of one engine until that step was taken, or it cannot move.
    fn step_until(&mut self, engine: Engine, taken: &str) -> bool {
        for _ in 0..80 {
            let report = self.step(engine);
            if report.taken.starts_with(taken) {
                return true;
            }
            if report.taken == "cannot move" {
                return false;
            }
        }
        false
    }

    /// Both engines run dry.
    fn drain(&mut self) {
        for engine in [Engine::Transmit, Engine::Receive] {
            for _ in 0..4 {
                if self.can_move(engine) {
                    self.steps(engine, 120);
                }
            }
        }
        let side = self.some_side();
        let value = self.cp(side);
        self.write(CP[side.index()], value);
    }

    // ------------------------------------------------------------ scenes

    /// "appends between steps 3 and 4 and after the latch".
    fn late_append(&mut self, side: Side) {
        self.drain();
        let planned = match side {
            Side::Transmit => self.plan_transmit(1),
            Side::Receive => self.plan_receive(1),
        };
        let Some(first) = planned else { return };
        self.store(&first);
        self.hand_over(side, first[0].at);
        let planned = match side {
            Side::Transmit => self.plan_transmit(1),
            Side::Receive => self.plan_receive(2),
        };
        let Some(second) = planned else { return };
        self.store(&second);
        let engine = match side {
            Side::Transmit => Engine::Transmit,
            Side::Receive => {
                self.some_frame();
                Engine::Receive
            }
        };
        let label = match side {
            Side::Transmit => "transmit",
            Side::Receive => "receive",
        };
        let at = self.rng.pick(&["1", "2", "3", "3", "4", "5", "6"]);
        self.step_until(engine, &format!("{label} {at}"));
        let last = first.last().unwrap().at;
        self.write(last, second[0].at);
        self.step(engine);
        // Is the appended one still in use?
        let word = self.rng.below(4) as u32;
        let value = second[0].words[word as usize];
        self.write(second[0].at + 4 * word, value);
        self.step_until(engine, &format!("{label} 5"));
        self.write(second[0].at + 4, second[0].words[1]);
        // "between steps 5 and 6 it is not" idle.
        self.write(HDP[side.index()], second[0].at);
        self.step(engine);
        self.write(HDP[side.index()], second[0].at);
        self.acknowledge();
        self.pump(3);
    }

    /// Between 5 and 6 the guest has its descriptors back, and writes into them.
    fn meddle_after_five(&mut self, side: Side) {
        let engine = match side {
            Side::Transmit => {
                self.send();
                Engine::Transmit
            }
            Side::Receive => {
                self.offer_buffers();
                self.some_frame();
                Engine::Receive
            }
        };
        let label = if side == Side::Transmit {
            "transmit 5"
        } else {
            "receive 5"
        };
        if !self.step_until(engine, label) {
            return;
        }
        let current = self.hdp(side);
        let pointer = self.some_pointer();
        let value = self.rng.pick(&[pointer, pointer, 4, current, 0]);
        if is_good(current) {
            self.write(current, value);
        }
        self.write(HDP[side.index()], current);
        self.steps(engine, 3);
    }

    /// The one overlap that only 13 stops: a transmit middle descriptor whose word 3 is 0
    /// and is also word 0 (0) of a last descriptor.
    pub fn overlap_only_13_stops(&mut self) {
        let Some(receive) = self.plan_receive(1) else {
            return;
        };
        let last = receive[0].at;
        if last < DESC_START + 12 {
            return;
        }
        self.store(&receive);
        self.hand_over(Side::Receive, last);
        let middle = last - 12;
        let mut taken = self.book_words();
        for word in first_word(middle)..first_word(middle) + 3 {
            if taken[word] {
                return;
            }
            taken[word] = true;
        }
        let (Some(sop), Some(eop)) = (self.free_place(&mut taken), self.free_place(&mut taken))
        else {
            return;
        };
        let Some(buffer) = self.permitted_buffer(30, owned_by_linux) else {
            return;
        };
        let (pointer, length) = (buffer.first as u32, buffer.length as u32);
        let chain = [
            Planned {
                at: sop,
                words: [middle, pointer, length, SOP | OWNER | (3 * length)],
            },
            Planned {
                at: middle,
                words: [eop, pointer, length, 0],
            },
            Planned {
                at: eop,
                words: [0, pointer, length, EOP],
            },
        ];
        self.store(&chain[..1]);
        for word in 0..3 {
            self.write(middle + 4 * word, chain[1].words[word as usize]);
        }
        self.store(&chain[2..]);
        self.hand_over(Side::Transmit, sop);
        let Some(more) = self.plan_receive(1) else {
            return;
        };
        self.store(&more);
        self.write(last, more[0].at);
        self.steps(Engine::Transmit, 40);
    }

    /// "stale teardown codes".
    fn teardown(&mut self, side: Side) {
        let i = side.index();
        self.write(TEARDOWN[i], 0);
        let engine = match side {
            Side::Transmit => Engine::Transmit,
            Side::Receive => Engine::Receive,
        };
        for _ in 0..self.rng.between(1, 4) {
            match self.rng.below(9) {
                0 => {
                    self.write(TEARDOWN[i], 0);
                }
                1 => {
                    let value = self.some_pointer();
                    self.write(HDP[i], value);
                }
                2 => {
                    self.write(SOFT_RESET, 1);
                }
                3 => self.some_frame(),
                4 => self.acknowledge(),
                5 => self.send(),
                6 => self.offer_buffers(),
                _ => {
                    let count = self.rng.between(1, 40) as u8;
                    self.steps(engine, count);
                }
            }
        }
        for _ in 0..self.rng.between(2, 6) {
            self.steps(engine, 40);
            self.step(Engine::Teardown(side));
        }
        if self.rng.percent(60) {
            self.write(TEARDOWN[i], 0);
            let value = self.rng.pick(&[1, 2]);
            self.write(TEARDOWN[i], value);
        }
        if self.rng.percent(80) {
            self.write(CP[i], TEARDOWN_CODE);
        }
        if self.rng.percent(30) {
            self.write(TEARDOWN[i], 0);
        }
    }

    /// A teardown with no other call in between: packets sent and one torn down are
    /// released by one and the same call.
    fn quiet_teardown(&mut self) {
        self.drain();
        self.acknowledge();
        let Some(chain) = self.plan_transmit(3) else {
            return;
        };
        self.store(&chain);
        self.hand_over(Side::Transmit, chain[0].at);
        let count = self.rng.between(1, 12) as u8;
        self.steps(Engine::Transmit, count);
        self.write(TX_TEARDOWN, 0);
        self.steps(Engine::Transmit, 120);
        let count = self.rng.between(1, 4) as u8;
        self.steps(Engine::Teardown(Side::Transmit), count);
        for _ in 0..3 {
            let planned = self.rng.pick(&chain);
            let word = self.rng.below(4) as u32;
            self.write(planned.at + 4 * word, planned.words[word as usize]);
        }
        self.write(CP[0], TEARDOWN_CODE);
    }

    fn reset(&mut self) {
        self.write(SOFT_RESET, 1);
        for _ in 0..self.rng.between(1, 4) {
            match self.rng.below(8) {
                0 => {
                    let value = self.rng.pick(&[0, 1, 2]);
                    self.write(SOFT_RESET, value);
                }
                1 => {
                    let side = self.some_side();
                    self.write(TEARDOWN[side.index()], 0);
                }
                2 => {
                    let side = self.some_side();
                    let value = self.some_pointer();
                    self.write(HDP[side.index()], value);
                }
                3 => self.some_frame(),
                4 => self.poke_queue(),
                5 => self.acknowledge(),
                _ => self.pump(3),
            }
        }
        for _ in 0..3 {
            self.steps(Engine::Transmit, 100);
            self.steps(Engine::Receive, 100);
            self.step(Engine::Reset);
        }
        if self.rng.percent(50) {
            self.some_frame();
            self.poke_queue();
        }
    }

    /// "Judging 21 by the length now in word 2: the controller has shrunk it."
    fn kind_change_under_shrunk_buffer(&mut self) {
        let straddled: Vec<u64> = runs_of(&self.world.machine.kinds, linux_data)
            .iter()
            .flat_map(|&(low, high)| low as u64 + 1..high as u64)
            .collect();
        if !straddled.is_empty() && self.rng.percent(70) {
            self.drain();
            let mut taken = self.book_words();
            let Some(at) = self.free_place(&mut taken) else {
                return;
            };
            // Begins before the block's start, and the frame will end before it too.
            let block = self.rng.pick(&straddled);
            let before = self.rng.between(20, 90);
            let first = RAM_START + block * BLOCK_BYTES - before;
            let length = before + self.rng.between(1, 500);
            let words = [0, first as u32, length as u32, OWNER];
            self.store(&[Planned { at, words }]);
            self.hand_over(Side::Receive, at);
            let frame = self.rng.between(1, 20) as u16;
            self.frame(frame);
            let at = self
                .rng
                .pick(&["receive 3", "receive 4", "receive 4", "receive 5"]);
            self.step_until(Engine::Receive, at);
            for block in [block, block - 1] {
                let kind = self.rng.between(1, 4) as u8;
                self.kind(block as u16, kind);
            }
            self.steps(Engine::Receive, 3);
            let kind = self.rng.between(1, 4) as u8;
            self.kind(block as u16, kind);
            return;
        }
        self.offer_buffers();
        let length = self.rng.between(1, 30) as u16;
        self.frame(length);
        self.step_until(Engine::Receive, "receive 4");
        for _ in 0..3 {
            self.some_kind_change();
        }
        self.steps(Engine::Receive, 2);
        self.some_kind_change();
    }

    /// Kinds change while buffers are out, and bursts go on.
    fn kinds_under_traffic(&mut self) {
        self.offer_buffers();
        self.send();
        self.some_frame();
        for _ in 0..self.rng.between(3, 10) {
            self.some_kind_change();
            let engine = self.rng.pick(&[Engine::Transmit, Engine::Receive]);
            let count = self.rng.between(1, 4) as u8;
            self.steps(engine, count);
        }
    }

    /// "guard calls between every two controller steps".
    fn interleaved(&mut self) {
        self.send();
        self.offer_buffers();
        self.some_frame();
        for _ in 0..self.rng.between(8, 25) {
            let engine = self.some_engine();
            self.step(engine);
            match self.rng.below(8) {
                0 => self.poke_queue(),
                1 => self.some_kind_change(),
                2 => self.acknowledge(),
                3 => self.send(),
                4 => self.offer_buffers(),
                _ => self.some_guard_call(),
            }
        }
    }

    fn long_frame(&mut self) {
        let Some(chain) = self.plan_receive(3) else {
            return;
        };
        self.store(&chain);
        self.hand_over(Side::Receive, chain[0].at);
        let length = self.rng.pick(&[2047, 1500, 700, 300]);
        self.frame(length);
        self.steps(Engine::Receive, 60);
        self.steps(Engine::Receive, 60);
    }

    // ------------------------------------------------------------ a whole run

    /// Records until there are about so many.
    pub fn run(&mut self, wanted: usize) {
        let late_start = self.profile == Profile::Chaos && self.rng.percent(20);
        if !late_start {
            self.initialise();
        }
        self.carry_on(wanted);
    }

    /// More records until there are about so many.
    pub fn carry_on(&mut self, wanted: usize) {
        while self.records.len() < wanted && self.world.violation.is_none() {
            self.perhaps_initialise();
            self.busybody = match self.profile {
                Profile::Race => self.rng.percent(70),
                Profile::Chaos => self.rng.percent(20),
                _ => false,
            };
            self.one_scene();
        }
    }

    fn one_scene(&mut self) {
        let side = self.some_side();
        let roll = self.rng.below(100);
        match self.profile {
            Profile::Valid => match roll {
                0..=24 => self.send(),
                25..=39 => self.offer_buffers(),
                40..=54 => self.some_frame(),
                55..=84 => self.pump(4),
                85..=92 => self.acknowledge(),
                93..=95 => self.long_frame(),
                96 => self.teardown(side),
                97 => self.reset(),
                _ => self.drain(),
            },
            Profile::Race => match roll {
                0..=24 => self.late_append(side),
                25..=39 => self.meddle_after_five(side),
                40..=49 => self.send(),
                50..=59 => self.offer_buffers(),
                60..=69 => self.some_frame(),
                70..=84 => self.pump(5),
                85..=92 => self.interleaved(),
                93 | 94 => self.teardown(side),
                95 => self.quiet_teardown(),
                96 => self.reset(),
                _ => self.poke_queue(),
            },
            Profile::Overlap => match roll {
                0..=29 => self.overlap_only_13_stops(),
                30..=49 => self.send(),
                50..=69 => self.offer_buffers(),
                70..=79 => self.poke_queue(),
                80..=84 => self.some_frame(),
                85..=94 => self.pump(4),
                95..=97 => self.drain(),
                _ => self.teardown(side),
            },
            Profile::Boundary => match roll {
                0..=34 => self.send(),
                35..=59 => self.offer_buffers(),
                60..=69 => self.some_guard_call(),
                70..=79 => self.some_frame(),
                80..=94 => self.pump(3),
                95 => self.reset(),
                _ => self.drain(),
            },
            Profile::Teardown => match roll {
                0..=14 => self.teardown(side),
                15..=24 => self.quiet_teardown(),
                25..=34 => self.reset(),
                35..=49 => self.send(),
                50..=64 => self.offer_buffers(),
                65..=74 => self.some_frame(),
                75..=89 => self.pump(3),
                _ => self.some_guard_call(),
            },
            Profile::Kinds => match roll {
                0..=19 => self.kind_change_under_shrunk_buffer(),
                20..=49 => self.kinds_under_traffic(),
                50..=64 => self.some_kind_change(),
                65..=74 => self.send(),
                75..=84 => self.offer_buffers(),
                85..=94 => self.pump(3),
                _ => self.long_frame(),
            },
            Profile::Chaos => match roll {
                0..=14 => self.send(),
                15..=29 => self.offer_buffers(),
                30..=49 => self.some_guard_call(),
                50..=59 => self.poke_queue(),
                60..=67 => self.some_kind_change(),
                68..=75 => self.some_frame(),
                76..=89 => self.pump(3),
                90..=92 => self.teardown(side),
                93 => self.reset(),
                94 => self.late_append(side),
                95 => self.meddle_after_five(side),
                96 => self.overlap_only_13_stops(),
                97 => self.long_frame(),
                _ => self.drain(),
            },
        }
    }
}

fn first_word_unchecked(pointer: u32) -> usize {
    ((pointer - DESC_START) / 4) as usize
}

/// Each planned descriptor's next is the one after it; the last one's is 0.
fn link(chain: &mut [Planned]) {
    for i in 0..chain.len() {
        chain[i].words[0] = chain.get(i + 1).map_or(0, |next| next.at);
    }
}

/// The runs of permitted blocks, as from and to (not in).
fn runs_of(kinds: &[u8], permits: fn(u8) -> bool) -> Vec<(usize, usize)> {
    let mut runs = Vec::new();
    let mut i = 0;
    while i < kinds.len() {
        let start = i;
        while i < kinds.len() && permits(kinds[i]) {
            i += 1;
        }
        if i > start {
            runs.push((start, i));
        } else {
            i += 1;
        }
    }
    runs
}

/// A block that is not Linux's between two that are, where there is one.
pub fn block_between(kinds: &[u8], rng: &mut Rng) -> u64 {
    let between: Vec<u64> = (1..kinds.len().max(2) - 1)
        .filter(|&b| owned_by_linux(kinds[b - 1]) && kinds[b] == 0 && owned_by_linux(kinds[b + 1]))
        .map(|b| b as u64)
        .collect();
    if between.is_empty() {
        return rng.below(kinds.len().max(1) as u64) + 1;
    }
    rng.pick(&between)
}

/// A legal kind table.
pub fn random_kinds(rng: &mut Rng, profile: Profile) -> Vec<u8> {
    let n = match rng.below(20) {
        0 => 1,
        1 => rng.between(17, 200) as usize,
        _ => rng.between(3, 12) as usize,
    };
    let data = if profile == Profile::Valid { 70 } else { 50 };
    let mut kinds: Vec<u8> = (0..n)
        .map(|_| {
            if rng.percent(data) {
                1
            } else {
                rng.below(5) as u8
            }
        })
        .collect();
    if rng.below(400) == 0 {
        kinds.resize(MAX_BLOCKS, 1);
    }
    kinds
}
