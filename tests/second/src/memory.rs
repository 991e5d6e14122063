//! Memory, blocks, descriptors and addresses, as in 01's "Memory, blocks and descriptors".

/// "RAM starts at 0x80000000 in 4,096-byte blocks numbered from 0".
pub const RAM_START: u64 = 0x8000_0000;
pub const BLOCK_BYTES: u64 = 4096;
/// "the kind table has one byte for each of N blocks, 1 <= N <= 16,384".
pub const MAX_BLOCKS: usize = 16_384;

/// "Descriptor memory is 8,192 bytes at 0x4A102000 to 0x4A103FFF".
pub const DESC_START: u32 = 0x4A10_2000;
pub const DESC_END: u32 = 0x4A10_3FFF;
pub const DESC_BYTES: usize = 8_192;
pub const DESC_WORDS: usize = 2_048;
/// "A good pointer is a multiple of 4 from 0x4A102000 to 0x4A103FF0".
pub const LAST_GOOD: u32 = 0x4A10_3FF0;

/// 2^32: "the last byte passes 2^32 - 1" when first byte + length is over this.
pub const TWO_32: u64 = 1 << 32;

/// The code that a finished teardown leaves in CP.
pub const TEARDOWN_CODE: u32 = 0xFFFF_FFFC;

pub const SOP: u32 = 1 << 31;
pub const EOP: u32 = 1 << 30;
pub const OWNER: u32 = 1 << 29;
pub const EOQ: u32 = 1 << 28;
pub const TD: u32 = 1 << 27;
pub const OVERRUN: u32 = 1 << 22;
/// Packet length in word 3, and the receive length in word 2: bits 10..0.
pub const LOW_11: u32 = 0x7FF;

#[derive(Clone, Copy, PartialEq, Eq, Debug, Hash)]
pub enum Side {
    Transmit,
    Receive,
}

impl Side {
    pub const BOTH: [Side; 2] = [Side::Transmit, Side::Receive];

    pub fn index(self) -> usize {
        match self {
            Side::Transmit => 0,
            Side::Receive => 1,
        }
    }
}

pub fn is_good(pointer: u32) -> bool {
    pointer % 4 == 0 && (DESC_START..=LAST_GOOD).contains(&pointer)
}

/// The number of the first of a good pointer's four words.
pub fn first_word(pointer: u32) -> usize {
    debug_assert!(is_good(pointer));
    ((pointer - DESC_START) / 4) as usize
}

/// The numbers of a good pointer's four words.
pub fn four_words(pointer: u32) -> [usize; 4] {
    let w = first_word(pointer);
    [w, w + 1, w + 2, w + 3]
}

/// Descriptor memory. Only the probe ever holds one that is not 8,192 bytes.
#[derive(Clone, PartialEq, Eq, Debug)]
pub struct Memory {
    pub bytes: Vec<u8>,
}

impl Memory {
    pub fn fresh() -> Memory {
        Memory::of_size(DESC_BYTES)
    }

    pub fn of_size(bytes: usize) -> Memory {
        Memory {
            bytes: vec![0; bytes],
        }
    }

    pub fn size_is_right(&self) -> bool {
        self.bytes.len() == DESC_BYTES
    }

    /// How many whole words there are.
    pub fn words(&self) -> usize {
        self.bytes.len() / 4
    }

    /// "words little-endian".
    pub fn word(&self, number: usize) -> u32 {
        let b = &self.bytes[4 * number..4 * number + 4];
        u32::from_le_bytes([b[0], b[1], b[2], b[3]])
    }

    pub fn set_word(&mut self, number: usize, value: u32) {
        self.bytes[4 * number..4 * number + 4].copy_from_slice(&value.to_le_bytes());
    }

    pub fn descriptor(&self, pointer: u32) -> Descriptor {
        let w = first_word(pointer);
        Descriptor {
            next: self.word(w),
            buffer: self.word(w + 1),
            word2: self.word(w + 2),
            word3: self.word(w + 3),
        }
    }
}

/// "A descriptor is four words. Word 0: next. Word 1: buffer pointer."
#[derive(Clone, Copy, PartialEq, Eq, Debug)]
pub struct Descriptor {
    pub next: u32,
    pub buffer: u32,
    pub word2: u32,
    pub word3: u32,
}

impl Descriptor {
    pub fn sop(&self) -> bool {
        self.word3 & SOP != 0
    }
    pub fn eop(&self) -> bool {
        self.word3 & EOP != 0
    }
    pub fn owner(&self) -> bool {
        self.word3 & OWNER != 0
    }
    pub fn eoq(&self) -> bool {
        self.word3 & EOQ != 0
    }
    pub fn td(&self) -> bool {
        self.word3 & TD != 0
    }
    pub fn packet_length(&self) -> u64 {
        u64::from(self.word3 & LOW_11)
    }

    /// "Word 2, transmit: offset 31..16, length 15..0."
    /// "A buffer's first byte is the buffer pointer, plus the offset for a
    /// transmit SOP descriptor only."
    pub fn transmit_range(&self) -> Range {
        let offset = if self.sop() {
            u64::from(self.word2 >> 16)
        } else {
            0
        };
        Range {
            first: u64::from(self.buffer) + offset,
            length: u64::from(self.word2 & 0xFFFF),
        }
    }

    /// "Receive: offset 26..16, length 10..0, other bits ignored."
    pub fn receive_offset(&self) -> u32 {
        (self.word2 >> 16) & 0x7FF
    }
    pub fn receive_range(&self) -> Range {
        Range {
            first: u64::from(self.buffer),
            length: u64::from(self.word2 & LOW_11),
        }
    }

    /// 14 for a transmit descriptor: wrong "unless SOP is set exactly on the chain's
    /// first descriptor and after each EOP, OWNER is set with SOP, EOQ and TD clear".
    /// OWNER on other descriptors is free.
    pub fn transmit_flags_wrong(&self, starts_packet: bool) -> bool {
        self.sop() != starts_packet || (self.sop() && !self.owner()) || self.eoq() || self.td()
    }

    /// 14 for a receive descriptor: wrong "unless OWNER set and SOP, EOP, EOQ, TD clear".
    pub fn receive_flags_wrong(&self) -> bool {
        !self.owner() || self.sop() || self.eop() || self.eoq() || self.td()
    }

    /// 15 for a transmit descriptor: "if length is 0 or the last byte passes 2^32 - 1".
    pub fn transmit_length_wrong(&self) -> bool {
        let range = self.transmit_range();
        range.length == 0 || range.passes_2_32()
    }

    /// 15 for a receive descriptor: "if length 0, offset nonzero or the last byte
    /// passes 2^32 - 1".
    pub fn receive_length_wrong(&self) -> bool {
        let range = self.receive_range();
        range.length == 0 || self.receive_offset() != 0 || range.passes_2_32()
    }
}

/// Bytes `first` to `first + length - 1`, as natural numbers: nothing wraps.
#[derive(Clone, Copy, PartialEq, Eq, Debug)]
pub struct Range {
    pub first: u64,
    pub length: u64,
}

impl Range {
    pub fn passes_2_32(&self) -> bool {
        self.first + self.length > TWO_32
    }

    /// Every block touched has a kind that `permits` takes. What lies outside
    /// the kind table's blocks is nobody's.
    pub fn blocks_all(&self, kinds: &[u8], permits: fn(u8) -> bool) -> bool {
        if self.length == 0 {
            return true;
        }
        if self.first < RAM_START {
            return false;
        }
        let low = (self.first - RAM_START) / BLOCK_BYTES;
        let high = (self.first + self.length - 1 - RAM_START) / BLOCK_BYTES;
        (low..=high).all(|b| (b as usize) < kinds.len() && permits(kinds[b as usize]))
    }

    pub fn touches_block(&self, block: u64) -> bool {
        let start = RAM_START + block * BLOCK_BYTES;
        self.length > 0 && self.first < start + BLOCK_BYTES && start < self.first + self.length
    }
}

/// "Kinds 1 to 4 are owned by Linux."
pub fn owned_by_linux(kind: u8) -> bool {
    (1..=4).contains(&kind)
}

pub fn linux_data(kind: u8) -> bool {
    kind == 1
}

/// What an address is, in 01's "Guarded addresses".
#[derive(Clone, Copy, PartialEq, Eq, Debug)]
pub enum Place {
    /// 3: not a multiple of 4.
    Misaligned,
    /// 4: not guarded.
    NotGuarded,
    /// 5: not offered.
    NotOffered,
    /// Passes with no effect in the model.
    Passed,
    Hdp(Side),
    Cp(Side),
    Teardown(Side),
    Reset,
    /// DMACONTROL and RX_BUFFER_OFFSET.
    ZeroOnly,
    /// A word of descriptor memory, by its number.
    Word(usize),
}

/// "Guarded addresses: 0x4A100800..8FF, 0x4A100A00..A7F, and descriptor memory."
pub fn place(address: u32) -> Place {
    if address % 4 != 0 {
        return Place::Misaligned;
    }
    if (DESC_START..=DESC_END).contains(&address) {
        return Place::Word(((address - DESC_START) / 4) as usize);
    }
    let in_first = (0x4A10_0800..=0x4A10_08FF).contains(&address);
    let in_second = (0x4A10_0A00..=0x4A10_0A7F).contains(&address);
    if !in_first && !in_second {
        return Place::NotGuarded;
    }
    match address - 0x4A10_0000 {
        0x808 => Place::Teardown(Side::Transmit),
        0x818 => Place::Teardown(Side::Receive),
        0x81C => Place::Reset,
        0x820 | 0x828 => Place::ZeroOnly,
        0xA00 => Place::Hdp(Side::Transmit),
        0xA20 => Place::Hdp(Side::Receive),
        0xA40 => Place::Cp(Side::Transmit),
        0xA60 => Place::Cp(Side::Receive),
        0x804 | 0x814 | 0x888 | 0x88C | 0x894 | 0x8A8 | 0x8AC => Place::Passed,
        _ => Place::NotOffered,
    }
}

/// The registers that guard and controller both read.
#[derive(Clone, Copy, PartialEq, Eq, Debug, Default, Hash)]
pub struct Registers {
    /// Transmit, receive.
    pub hdp: [u32; 2],
    pub cp: [u32; 2],
    pub reset_bit: bool,
}

/// The four initialisation marks: TX HDP, RX HDP, TX CP, RX CP zeroed.
#[derive(Clone, Copy, PartialEq, Eq, Debug, Default, Hash)]
pub struct Marks(pub [bool; 4]);

impl Marks {
    pub const ALL: Marks = Marks([true; 4]);

    /// "Awaiting initialisation (any of the four registers not yet zeroed)".
    pub fn awaiting(&self) -> bool {
        self.0.iter().any(|m| !m)
    }
    pub fn mark_hdp(&mut self, side: Side) {
        self.0[side.index()] = true;
    }
    pub fn mark_cp(&mut self, side: Side) {
        self.0[2 + side.index()] = true;
    }
    pub fn to_bits(&self) -> u8 {
        (0..4).map(|i| (self.0[i] as u8) << i).sum()
    }
    pub fn from_bits(bits: u8) -> Marks {
        Marks([bits & 1 != 0, bits & 2 != 0, bits & 4 != 0, bits & 8 != 0])
    }
}
