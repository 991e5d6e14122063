//! The book, its soundness and the release, as in 01's "The book and the release".

use crate::memory::*;
use crate::variant::Variant;

/// "The book holds both queue heads, the words in use, each receive descriptor's
/// length as handed over, and flags: four initialisation marks, reset pending,
/// teardown pending for each side."
#[derive(Clone, PartialEq, Eq, Debug)]
pub struct Book {
    /// Transmit, receive.
    pub heads: [u32; 2],
    /// One for each word: 0 free, 1 in use; the probe may store others (unsound).
    pub in_use: Vec<u8>,
    /// One for each word; a descriptor's stands at its first word.
    pub lengths: Vec<u16>,
    pub marks: Marks,
    pub reset_pending: bool,
    pub teardown_pending: [bool; 2],
}

impl Book {
    pub fn fresh() -> Book {
        Book {
            heads: [0, 0],
            in_use: vec![0; DESC_WORDS],
            lengths: vec![0; DESC_WORDS],
            marks: Marks::default(),
            reset_pending: false,
            teardown_pending: [false, false],
        }
    }

    pub fn head(&self, side: Side) -> u32 {
        self.heads[side.index()]
    }

    pub fn queue_is_empty(&self, side: Side) -> bool {
        self.head(side) == 0
    }

    pub fn word_in_use(&self, word: usize) -> bool {
        self.in_use[word] != 0
    }

    /// The descriptors of a queue from its head. For a sound book.
    pub fn queue(&self, memory: &Memory, side: Side) -> Vec<u32> {
        let mut found = Vec::new();
        let mut pointer = self.head(side);
        while pointer != 0 {
            found.push(pointer);
            assert!(found.len() <= DESC_WORDS, "queue of an unsound book");
            pointer = memory.descriptor(pointer).next;
        }
        found
    }

    /// "It is sound when both chains from its heads end at 0 over good pointers, no
    /// word is met twice, the words met are exactly those in use, and recorded
    /// lengths are 1..2,047 for the receive queue's descriptors and 0 elsewhere."
    pub fn is_sound(&self, memory: &Memory) -> bool {
        self.is_sound_in(memory, Variant::Right)
    }

    /// The same, for a model that may be broken: one that compares first words only does
    /// not notice other words met twice.
    pub fn is_sound_in(&self, memory: &Memory, variant: Variant) -> bool {
        let mut met = vec![0u8; DESC_WORDS];
        let mut starts = vec![false; DESC_WORDS];
        let mut receive_starts = vec![false; DESC_WORDS];
        for side in Side::BOTH {
            let mut pointer = self.head(side);
            while pointer != 0 {
                if !is_good(pointer) {
                    return false;
                }
                let first = first_word(pointer);
                let met_already = match variant {
                    Variant::OverlapFirstWordOnly => starts[first],
                    _ => four_words(pointer).iter().any(|&word| met[word] != 0),
                };
                if met_already {
                    return false;
                }
                starts[first] = true;
                for word in four_words(pointer) {
                    met[word] = 1;
                }
                if side == Side::Receive {
                    receive_starts[first_word(pointer)] = true;
                }
                pointer = memory.descriptor(pointer).next;
            }
        }
        // In use holds 0 or 1 only: any other byte is neither, and so unequal to `met`.
        if self.in_use != met {
            return false;
        }
        (0..DESC_WORDS).all(|word| {
            let length = self.lengths[word];
            if receive_starts[word] {
                (1..=2047).contains(&length)
            } else {
                length == 0
            }
        })
    }

    /// "what goes is out of use with recorded length 0"
    fn let_head_go(&mut self, memory: &Memory, side: Side) {
        let pointer = self.head(side);
        for word in four_words(pointer) {
            self.in_use[word] = 0;
        }
        self.lengths[first_word(pointer)] = 0;
        self.heads[side.index()] = memory.descriptor(pointer).next;
    }

    fn let_queue_go(&mut self, memory: &Memory, side: Side) {
        while !self.queue_is_empty(side) {
            self.let_head_go(memory, side);
        }
    }

    /// "the queue goes through its first EOP descriptor (or to the end if none)";
    /// gives that EOP descriptor.
    fn let_packet_go(&mut self, memory: &Memory, side: Side) -> Option<Descriptor> {
        while !self.queue_is_empty(side) {
            let descriptor = memory.descriptor(self.head(side));
            self.let_head_go(memory, side);
            if descriptor.eop() {
                return Some(descriptor);
            }
        }
        None
    }

    /// "Then each queue from its head: TD set at the head, the whole queue goes. Else
    /// OWNER clear, the queue goes through its first EOP descriptor (or to the end if
    /// none); if that one has EOQ the rest goes too; else repeat. OWNER set stops."
    fn release_queue(&mut self, memory: &Memory, side: Side, variant: Variant) {
        while !self.queue_is_empty(side) {
            let head = memory.descriptor(self.head(side));
            if head.td() {
                self.let_queue_go(memory, side);
                return;
            }
            if head.owner() && variant != Variant::ReleaseIgnoresOwner {
                return;
            }
            match self.let_packet_go(memory, side) {
                Some(last) if last.eoq() => self.let_queue_go(memory, side),
                _ => {}
            }
        }
    }

    /// "Every guard call not answered 1 or 2 first releases".
    pub fn release(&mut self, memory: &Memory, registers: &Registers, variant: Variant) {
        // "Reset pending and the bit reads 0: both queues go, pending ends, all four
        // registers await zero again."
        if self.reset_pending && !registers.reset_bit {
            for side in Side::BOTH {
                self.let_queue_go(memory, side);
            }
            self.reset_pending = false;
            self.marks = Marks::default();
        }
        // "Teardown pending and that side's CP reads 0xFFFFFFFC: pending ends."
        for side in Side::BOTH {
            if registers.cp[side.index()] == TEARDOWN_CODE {
                self.teardown_pending[side.index()] = false;
            }
        }
        for side in Side::BOTH {
            self.release_queue(memory, side, variant);
        }
    }

    /// A judged chain comes into the book: words, and lengths on the receive side.
    pub fn take_chain(&mut self, memory: &Memory, chain: &[u32], side: Side) {
        for &pointer in chain {
            for word in four_words(pointer) {
                self.in_use[word] = 1;
            }
            if side == Side::Receive {
                let length = memory.descriptor(pointer).receive_range().length;
                self.lengths[first_word(pointer)] = length as u16;
            }
        }
    }
}
