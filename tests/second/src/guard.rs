//! The guard's judges, as in 01's "Answers by number" and "Judging".

use crate::book::Book;
use crate::memory::*;
use crate::variant::Variant;

#[derive(Clone, Copy, PartialEq, Eq, Debug)]
pub enum Effect {
    None,
    Plain,
    Started(Side),
    Appended(Side),
}

/// "The answer to a guest write also says what it did: plain, started or appended,
/// and on which side."
#[derive(Clone, Copy, PartialEq, Eq, Debug)]
pub struct Answer {
    pub number: u8,
    pub effect: Effect,
    /// Which rule judged; only for counting.
    pub judge: &'static str,
}

fn plain(judge: &'static str) -> Answer {
    Answer {
        number: 0,
        effect: Effect::Plain,
        judge,
    }
}

fn refused(number: u8, judge: &'static str) -> Answer {
    Answer {
        number,
        effect: Effect::None,
        judge,
    }
}

/// "1: descriptor memory not 8,192 bytes, N out of range, or a kind byte over 4".
pub fn world_is_wrong(memory: &Memory, kinds: &[u8]) -> bool {
    !memory.size_is_right()
        || kinds.is_empty()
        || kinds.len() > MAX_BLOCKS
        || kinds.iter().any(|&k| k > 4)
}

/// 1 and 2, after which nothing changes.
fn not_to_be_judged(book: &Book, memory: &Memory, kinds: &[u8], variant: Variant) -> Option<u8> {
    if world_is_wrong(memory, kinds) {
        return Some(1);
    }
    if !book.is_sound_in(memory, variant) {
        return Some(2);
    }
    None
}

/// One guest write: the answer, and book, memory and registers as it leaves them.
pub fn guest_write(
    book: &mut Book,
    memory: &mut Memory,
    kinds: &[u8],
    registers: &mut Registers,
    variant: Variant,
    address: u32,
    value: u32,
) -> Answer {
    if let Some(number) = not_to_be_judged(book, memory, kinds, variant) {
        return refused(number, "world");
    }
    book.release(memory, registers, variant);
    match place(address) {
        Place::Misaligned => refused(3, "misaligned"),
        Place::NotGuarded => refused(4, "not guarded"),
        Place::NotOffered => refused(5, "not offered"),
        Place::Passed => plain("passed"),
        Place::Hdp(side) => judge_hdp(book, memory, kinds, registers, variant, side, value),
        Place::Cp(side) => judge_cp(book, registers, side, value),
        Place::Teardown(side) => judge_teardown(book, registers, variant, side, value),
        Place::Reset => judge_reset(book, registers, value),
        Place::ZeroOnly => judge_zero_only(value),
        Place::Word(word) => judge_word(book, memory, kinds, variant, word, value),
    }
}

/// "HDP. Awaiting initialisation (any of the four registers not yet zeroed): 0 is
/// accepted, stored and marks it, else 6. Otherwise 7; 8 for that side; 9 for value 0;
/// 10 if that HDP reads nonzero or the book's queue there is not empty; then the
/// chain, 12 to 17."
fn judge_hdp(
    book: &mut Book,
    memory: &Memory,
    kinds: &[u8],
    registers: &mut Registers,
    variant: Variant,
    side: Side,
    value: u32,
) -> Answer {
    let judge = match side {
        Side::Transmit => "transmit HDP",
        Side::Receive => "receive HDP",
    };
    let i = side.index();
    if book.marks.awaiting() {
        if value != 0 {
            return refused(6, judge);
        }
        registers.hdp[i] = 0;
        book.marks.mark_hdp(side);
        return plain(judge);
    }
    if book.reset_pending {
        return refused(7, judge);
    }
    if book.teardown_pending[i] && variant != Variant::NoTeardownOnHdp {
        return refused(8, judge);
    }
    if value == 0 {
        return refused(9, judge);
    }
    let hdp_busy = registers.hdp[i] != 0 && variant != Variant::BusyByBookOnly;
    if hdp_busy || !book.queue_is_empty(side) {
        return refused(10, judge);
    }
    match judge_chain(book, memory, kinds, variant, side, value) {
        Err(number) => refused(number, judge),
        Ok(chain) => {
            // "a start sets HDP and the book's head, words and lengths"
            registers.hdp[i] = value;
            book.heads[i] = value;
            book.take_chain(memory, &chain, side);
            Answer {
                number: 0,
                effect: Effect::Started(side),
                judge,
            }
        }
    }
}

/// "CP. Awaiting initialisation: as for HDP. Otherwise accepted; a value equal to the
/// CP sets it to 0, another changes nothing."
fn judge_cp(book: &mut Book, registers: &mut Registers, side: Side, value: u32) -> Answer {
    let judge = match side {
        Side::Transmit => "transmit CP",
        Side::Receive => "receive CP",
    };
    let i = side.index();
    if book.marks.awaiting() {
        if value != 0 {
            return refused(6, judge);
        }
        registers.cp[i] = 0;
        book.marks.mark_cp(side);
        return plain(judge);
    }
    if value == registers.cp[i] {
        registers.cp[i] = 0;
    }
    plain(judge)
}

/// "Teardown: 6, 7, 8 for that side, 9 unless 0, 10 while that CP reads 0xFFFFFFFC."
fn judge_teardown(
    book: &mut Book,
    registers: &Registers,
    variant: Variant,
    side: Side,
    value: u32,
) -> Answer {
    let judge = match side {
        Side::Transmit => "transmit teardown",
        Side::Receive => "receive teardown",
    };
    let i = side.index();
    if book.marks.awaiting() {
        return refused(6, judge);
    }
    if book.reset_pending {
        return refused(7, judge);
    }
    if book.teardown_pending[i] {
        return refused(8, judge);
    }
    if value != 0 {
        return refused(9, judge);
    }
    if registers.cp[i] == TEARDOWN_CODE && variant != Variant::NoStaleCp {
        return refused(10, judge);
    }
    book.teardown_pending[i] = true;
    plain(judge)
}

/// "Reset: 6, 7, 8 for either side, 9 unless 1."
fn judge_reset(book: &mut Book, registers: &mut Registers, value: u32) -> Answer {
    let judge = "reset";
    if book.marks.awaiting() {
        return refused(6, judge);
    }
    if book.reset_pending {
        return refused(7, judge);
    }
    if book.teardown_pending[0] || book.teardown_pending[1] {
        return refused(8, judge);
    }
    if value != 1 {
        return refused(9, judge);
    }
    // "reset also sets its bit"
    book.reset_pending = true;
    registers.reset_bit = true;
    plain(judge)
}

/// "DMACONTROL, RX_BUFFER_OFFSET: 9 unless 0."
fn judge_zero_only(value: u32) -> Answer {
    if value != 0 {
        return refused(9, "zero only");
    }
    plain("zero only")
}

/// "A descriptor word not in use: stored. Word 0 of a queue's last descriptor, now 0,
/// written nonzero: an append, judged as a chain for that side. Any other word in
/// use: 11."
fn judge_word(
    book: &mut Book,
    memory: &mut Memory,
    kinds: &[u8],
    variant: Variant,
    word: usize,
    value: u32,
) -> Answer {
    if !book.word_in_use(word) {
        memory.set_word(word, value);
        return plain("free word");
    }
    let Some(side) = side_whose_last_next_is(book, memory, word) else {
        return refused(11, "word in use");
    };
    if value == 0 {
        return refused(11, "word in use");
    }
    let judge = match side {
        Side::Transmit => "transmit append",
        Side::Receive => "receive append",
    };
    match judge_chain(book, memory, kinds, variant, side, value) {
        Err(number) => refused(number, judge),
        Ok(chain) => {
            // "An append stores its word and adds words and lengths."
            memory.set_word(word, value);
            book.take_chain(memory, &chain, side);
            Answer {
                number: 0,
                effect: Effect::Appended(side),
                judge,
            }
        }
    }
}

/// The side whose queue's last descriptor has this word as its word 0.
fn side_whose_last_next_is(book: &Book, memory: &Memory, word: usize) -> Option<Side> {
    Side::BOTH.into_iter().find(|&side| {
        let queue = book.queue(memory, side);
        queue.last().is_some_and(|&last| first_word(last) == word)
    })
}

/// A chain for one side, from its first pointer: the descriptors, or the number.
/// "In a chain the first faulty descriptor decides, then the lowest number."
pub fn judge_chain(
    book: &Book,
    memory: &Memory,
    kinds: &[u8],
    variant: Variant,
    side: Side,
    first: u32,
) -> Result<Vec<u32>, u8> {
    let mut chain = Vec::new();
    let mut taken: Vec<bool> = (0..DESC_WORDS).map(|w| book.word_in_use(w)).collect();
    let mut packet = PacketSoFar::Start;
    let mut pointer = first;
    while pointer != 0 {
        // "12: bad descriptor pointer"
        if !is_good(pointer) {
            return Err(12);
        }
        // "13: a word of the descriptor is in use or met earlier in this chain"
        if overlaps(&taken, pointer, variant) {
            return Err(13);
        }
        let descriptor = memory.descriptor(pointer);
        match side {
            Side::Transmit => {
                packet = judge_transmit_descriptor(&descriptor, packet, kinds, variant)?
            }
            Side::Receive => judge_receive_descriptor(&descriptor, kinds, variant)?,
        }
        for word in four_words(pointer) {
            taken[word] = true;
        }
        chain.push(pointer);
        pointer = descriptor.next;
        if chain.len() > DESC_WORDS {
            // Only a variant that lets overlaps pass can go round for ever.
            return Err(13);
        }
    }
    Ok(chain)
}

fn overlaps(taken: &[bool], pointer: u32, variant: Variant) -> bool {
    let words = four_words(pointer);
    if variant == Variant::OverlapFirstWordOnly {
        return taken[words[0]];
    }
    words.iter().any(|&w| taken[w])
}

/// Where a transmit chain stands between two descriptors.
#[derive(Clone, Copy, PartialEq, Eq, Debug)]
enum PacketSoFar {
    /// At the chain's first descriptor, or after an EOP.
    Start,
    /// Inside a packet: the SOP's packet length, and the lengths so far.
    Middle { packet_length: u64, sum: u64 },
}

fn judge_transmit_descriptor(
    descriptor: &Descriptor,
    so_far: PacketSoFar,
    kinds: &[u8],
    variant: Variant,
) -> Result<PacketSoFar, u8> {
    if descriptor.transmit_flags_wrong(so_far == PacketSoFar::Start) {
        return Err(14);
    }
    if descriptor.transmit_length_wrong() {
        return Err(15);
    }
    // "16 unless every block touched is Linux's."
    if !looked_at(descriptor.transmit_range(), variant).blocks_all(kinds, owned_by_linux) {
        return Err(16);
    }
    let own = descriptor.transmit_range().length;
    let (packet_length, sum) = match so_far {
        PacketSoFar::Start => (descriptor.packet_length(), own),
        PacketSoFar::Middle { packet_length, sum } => (packet_length, sum + own),
    };
    // "17 if next is 0 without EOP, or at EOP the lengths do not sum to the SOP's
    // packet length."
    if !descriptor.eop() {
        if descriptor.next == 0 {
            return Err(17);
        }
        return Ok(PacketSoFar::Middle { packet_length, sum });
    }
    if sum != packet_length {
        return Err(17);
    }
    Ok(PacketSoFar::Start)
}

fn judge_receive_descriptor(
    descriptor: &Descriptor,
    kinds: &[u8],
    variant: Variant,
) -> Result<(), u8> {
    if descriptor.receive_flags_wrong() {
        return Err(14);
    }
    if descriptor.receive_length_wrong() {
        return Err(15);
    }
    // "16 unless every block touched is kind 1."
    if !looked_at(descriptor.receive_range(), variant).blocks_all(kinds, linux_data) {
        return Err(16);
    }
    Ok(())
}

/// The bytes whose blocks 16 looks at: all of them.
fn looked_at(range: Range, variant: Variant) -> Range {
    if variant == Variant::FirstByteOnly {
        return Range {
            first: range.first,
            length: 1,
        };
    }
    range
}

/// "Kind change: 18, 19, 20, then 21 if the new kind is not 1 and a receive buffer in
/// the book, at its handed-over length, touches the block."
pub fn kind_change(
    book: &mut Book,
    memory: &Memory,
    kinds: &mut [u8],
    registers: &Registers,
    variant: Variant,
    block: u32,
    kind: u32,
) -> u8 {
    if let Some(number) = not_to_be_judged(book, memory, kinds, variant) {
        return number;
    }
    book.release(memory, registers, variant);
    if block as usize >= kinds.len() {
        return 18;
    }
    let zero_let_through = kind == 0 && variant == Variant::KindZeroAllowed;
    if !(1..=4).contains(&kind) && !zero_let_through {
        return 19;
    }
    if kinds[block as usize] == 0 {
        return 20;
    }
    if kind != 1
        && variant != Variant::NoBlockInReception
        && block_in_reception(book, memory, u64::from(block))
    {
        return 21;
    }
    kinds[block as usize] = kind as u8;
    0
}

fn block_in_reception(book: &Book, memory: &Memory, block: u64) -> bool {
    book.queue(memory, Side::Receive)
        .into_iter()
        .any(|pointer| {
            let handed_over = Range {
                first: u64::from(memory.descriptor(pointer).buffer),
                length: u64::from(book.lengths[first_word(pointer)]),
            };
            handed_over.touches_block(block)
        })
}
