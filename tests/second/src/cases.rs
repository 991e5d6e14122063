//! Cases with their answers written down by hand from document 01: its bench example,
//! "Both sides of each line", "Where earlier filters went wrong", and more of its
//! sentences. Nothing here is computed by either program.

use crate::bench::Record;
use crate::controller::Engine;
use crate::memory::Side;
use std::fmt::Write;

const TX_HDP: u32 = 0x4A10_0A00;
const RX_HDP: u32 = 0x4A10_0A20;
const TX_CP: u32 = 0x4A10_0A40;
const RX_CP: u32 = 0x4A10_0A60;
const TX_TD: u32 = 0x4A10_0808;
const RX_TD: u32 = 0x4A10_0818;
const RESET: u32 = 0x4A10_081C;
const CODE: u32 = 0xFFFF_FFFC;
const D0: u32 = 0x4A10_2000;
const D1: u32 = 0x4A10_2010;
const D2: u32 = 0x4A10_2020;
const D3: u32 = 0x4A10_2030;
const SOP: u32 = 0x8000_0000;
const EOP: u32 = 0x4000_0000;
const OWNER: u32 = 0x2000_0000;
const EOQ: u32 = 0x1000_0000;
const TD: u32 = 0x0800_0000;
/// A whole packet in one descriptor.
const ONE: u32 = SOP | EOP | OWNER;
const TRANSMIT: Engine = Engine::Transmit;
const RECEIVE: Engine = Engine::Receive;
const TX_TEARDOWN: Engine = Engine::Teardown(Side::Transmit);
const RX_TEARDOWN: Engine = Engine::Teardown(Side::Receive);

pub struct Case {
    pub name: &'static str,
    pub input: Vec<u8>,
    pub expected: String,
}

/// A bench file and what it must print, side by side.
struct Script {
    name: &'static str,
    input: Vec<u8>,
    expected: String,
}

impl Script {
    /// `RM` with these kinds, nothing else yet.
    fn raw(name: &'static str, kinds: &[u8]) -> Script {
        Script {
            name,
            input: Record::Kinds(kinds.to_vec()).bytes(),
            expected: String::new(),
        }
    }

    /// "Kinds 0,1,2,3, initialised".
    fn new(name: &'static str) -> Script {
        Script::with_kinds(name, &[0, 1, 2, 3])
    }

    fn with_kinds(name: &'static str, kinds: &[u8]) -> Script {
        Script::raw(name, kinds).zeros()
    }

    fn zeros(self) -> Script {
        self.gw(TX_HDP, 0, 0)
            .gw(RX_HDP, 0, 0)
            .gw(TX_CP, 0, 0)
            .gw(RX_CP, 0, 0)
    }

    fn gw(mut self, address: u32, value: u32, answer: u8) -> Script {
        self.input
            .extend(Record::GuestWrite(address, value).bytes());
        writeln!(self.expected, "W {address:08X} {answer}").unwrap();
        self
    }

    /// Four words stored, each answered 0.
    fn desc(self, at: u32, words: [u32; 4]) -> Script {
        self.gw(at, words[0], 0)
            .gw(at + 4, words[1], 0)
            .gw(at + 8, words[2], 0)
            .gw(at + 12, words[3], 0)
    }

    fn kc(mut self, block: u16, kind: u8, answer: u8) -> Script {
        self.input.extend(Record::KindChange(block, kind).bytes());
        writeln!(self.expected, "K {block} {answer}").unwrap();
        self
    }

    fn fr(mut self, length: u16, answer: u8) -> Script {
        self.input.extend(Record::Frame(length).bytes());
        writeln!(self.expected, "F {length} {answer}").unwrap();
        self
    }

    /// Steps, and the burst lines they print.
    fn st(mut self, engine: Engine, count: u8, lines: &[&str]) -> Script {
        self.input.extend(Record::Steps(engine, count).bytes());
        for line in lines {
            writeln!(self.expected, "{line}").unwrap();
        }
        self
    }

    fn bytes(mut self, bytes: &[u8]) -> Script {
        self.input.extend(bytes);
        self
    }

    fn end(mut self, sent: u64, received: u64) -> Case {
        writeln!(self.expected, "sent {sent} received {received}").unwrap();
        Case {
            name: self.name,
            input: self.input,
            expected: self.expected,
        }
    }

    fn bad(mut self, offset: usize) -> Case {
        writeln!(self.expected, "bad record {offset}").unwrap();
        Case {
            name: self.name,
            input: self.input,
            expected: self.expected,
        }
    }
}

fn nothing_before(name: &'static str, input: &[u8], expected: &str) -> Case {
    Case {
        name,
        input: input.to_vec(),
        expected: expected.to_string(),
    }
}

pub fn all() -> Vec<Case> {
    let mut cases = Vec::new();
    bench_section(&mut cases);
    both_sides(&mut cases);
    earlier_filters(&mut cases);
    judging(&mut cases);
    releasing(&mut cases);
    stepping(&mut cases);
    bad_records(&mut cases);
    cases
}

fn bench_section(cases: &mut Vec<Case>) {
    // "Input RM 4 with kinds 0,1,2,3; GW 4A100A04, 0; KC 1, 2 prints exactly:"
    let input = b"RM\x04\x00\x00\x01\x02\x03GW\x04\x0A\x10\x4A\x00\x00\x00\x00KC\x01\x00\x02";
    let expected = "W 4A100A04 5\nK 1 0\nsent 0 received 0\n";
    cases.push(nothing_before("bench example of 01", input, expected));
}

fn both_sides(cases: &mut Vec<Case>) {
    let top = 0x4A10_3FF0;
    cases.extend([
        Script::new("HDP 4A103FF0 good, transmit")
            .desc(top, [0, 0x8000_1000, 60, ONE | 60])
            .gw(TX_HDP, top, 0)
            .end(0, 0),
        Script::new("HDP 4A103FF0 good, receive")
            .desc(top, [0, 0x8000_1000, 60, OWNER])
            .gw(RX_HDP, top, 0)
            .end(0, 0),
        Script::new("HDP 4A103FF4 is 12")
            .gw(TX_HDP, top + 4, 12)
            .gw(RX_HDP, top + 4, 12)
            .end(0, 0),
        Script::new("receive 80001FFF length 1")
            .desc(D0, [0, 0x8000_1FFF, 1, OWNER])
            .gw(RX_HDP, D0, 0)
            .end(0, 0),
        Script::new("receive 80001FFF length 2 is 16")
            .desc(D0, [0, 0x8000_1FFF, 2, OWNER])
            .gw(RX_HDP, D0, 16)
            .end(0, 0),
        Script::new("transmit 80001FFF length 2")
            .desc(D0, [0, 0x8000_1FFF, 2, ONE | 2])
            .gw(TX_HDP, D0, 0)
            .st(TRANSMIT, 6, &["R 80001FFF 2"])
            .end(2, 0),
        Script::new("transmit 80003FFF length 2 is 16")
            .desc(D0, [0, 0x8000_3FFF, 2, ONE | 2])
            .gw(TX_HDP, D0, 16)
            .gw(D0 + 8, 1, 0)
            .gw(D0 + 12, ONE | 1, 0)
            .gw(TX_HDP, D0, 0)
            .end(0, 0),
        Script::new("transmit FFFFFFFF length 2 is 15")
            .desc(D0, [0, 0xFFFF_FFFF, 2, ONE | 2])
            .gw(TX_HDP, D0, 15)
            .end(0, 0),
        Script::new("transmit FFFFFFFF length 1 is 16")
            .desc(D0, [0, 0xFFFF_FFFF, 1, ONE | 1])
            .gw(TX_HDP, D0, 16)
            .end(0, 0),
        Script::new("receive word 2 00000800 is 15")
            .desc(D0, [0, 0x8000_1000, 0x0000_0800, OWNER])
            .gw(RX_HDP, D0, 15)
            .end(0, 0),
        Script::new("receive word 2 08000001 is length 1")
            .desc(D0, [0, 0x8000_1FFF, 0x0800_0001, OWNER])
            .gw(RX_HDP, D0, 0)
            .fr(2, 0)
            .st(RECEIVE, 6, &["S 80001FFF 1"])
            .end(0, 1),
        Script::new("chain 4A102000 then 4A10200C is 13")
            .desc(D0, [0x4A10_200C, 0x8000_1000, 60, OWNER])
            .gw(RX_HDP, D0, 13)
            .end(0, 0),
        Script::new("chain 4A102000 then 4A10200C is 13, transmit")
            .desc(D0, [0x4A10_200C, 0x8000_1000, 60, ONE | 60])
            .gw(TX_HDP, D0, 13)
            .end(0, 0),
        Script::new("chain 4A102000 then 4A102010 good")
            .desc(D0, [D1, 0x8000_1000, 60, OWNER])
            .desc(D1, [0, 0x8000_1100, 60, OWNER])
            .gw(RX_HDP, D0, 0)
            .end(0, 0),
        Script::new("chain 4A102000 then 4A102010 good, transmit")
            .desc(D0, [D1, 0x8000_1000, 60, ONE | 60])
            .desc(D1, [0, 0x8000_1100, 60, ONE | 60])
            .gw(TX_HDP, D0, 0)
            .end(0, 0),
        Script::new("transmit 60 + 40, packet 100")
            .desc(D0, [D1, 0x8000_1000, 60, SOP | OWNER | 100])
            .desc(D1, [0, 0x8000_1100, 40, EOP])
            .gw(TX_HDP, D0, 0)
            .end(0, 0),
        Script::new("transmit 60 + 40, packet 101 is 17")
            .desc(D0, [D1, 0x8000_1000, 60, SOP | OWNER | 101])
            .desc(D1, [0, 0x8000_1100, 40, EOP])
            .gw(TX_HDP, D0, 17)
            .end(0, 0),
        Script::new("block 1 to kind 2 under a receive buffer is 21")
            .desc(D0, [0, 0x8000_1000, 60, OWNER])
            .gw(RX_HDP, D0, 0)
            .kc(1, 2, 21)
            .kc(1, 1, 0)
            .kc(2, 4, 0)
            .end(0, 0),
        Script::new("block 1 to kind 2 without a buffer")
            .kc(1, 2, 0)
            .end(0, 0),
        Script::new("block 0 is 20")
            .kc(0, 1, 20)
            .kc(0, 4, 20)
            .end(0, 0),
        Script::new("block 4 is 18")
            .kc(4, 1, 18)
            .kc(65535, 1, 18)
            .kc(3, 1, 0)
            .end(0, 0),
        Script::new("kind 0 is 19")
            .kc(1, 0, 19)
            .kc(1, 5, 19)
            .kc(1, 4, 0)
            .end(0, 0),
        Script::new("4A100A02 is 3").gw(0x4A10_0A02, 0, 3).end(0, 0),
        Script::new("4A100900 is 4").gw(0x4A10_0900, 0, 4).end(0, 0),
    ]);
}

fn earlier_filters(cases: &mut Vec<Case>) {
    cases.extend([
        // A buffer over blocks 1 and 2; the frame's 10 bytes lie in block 1.
        Script::with_kinds("21 by the length handed over", &[0, 1, 1, 3])
            .desc(D0, [0, 0x8000_1F00, 0x200, OWNER])
            .gw(RX_HDP, D0, 0)
            .kc(2, 2, 21)
            .fr(10, 0)
            .st(RECEIVE, 4, &["S 80001F00 10"]) // 1, 2, 3, 4: the length is 10 now
            .kc(2, 2, 21)
            .st(RECEIVE, 1, &[]) // 5: OWNER clear
            .kc(2, 2, 0)
            .end(0, 10),
        Script::new("between transmit 5 and 6 the controller is busy")
            .desc(D0, [0, 0x8000_1000, 60, ONE | 60])
            .desc(D1, [0, 0x8000_1000, 60, ONE | 60])
            .gw(TX_HDP, D0, 0)
            .st(TRANSMIT, 5, &["R 80001000 60"])
            .gw(D0 + 4, 0x8000_1000, 0) // out of use: the queue is empty
            .gw(TX_HDP, D1, 10)
            .st(TRANSMIT, 1, &[])
            .gw(TX_HDP, D1, 0)
            .end(60, 0),
        Script::new("between receive 5 and 6 the controller is busy")
            .desc(D0, [0, 0x8000_1000, 60, OWNER])
            .desc(D1, [0, 0x8000_1000, 60, OWNER])
            .gw(RX_HDP, D0, 0)
            .fr(20, 0)
            .st(RECEIVE, 5, &["S 80001000 20"])
            .gw(D0 + 4, 0x8000_1000, 0)
            .gw(RX_HDP, D1, 10)
            .fr(20, 24)
            .st(RECEIVE, 1, &[])
            .gw(RX_HDP, D1, 0)
            .end(0, 20),
        // Append after the latch of step 3: accepted, then released by EOQ.
        Script::new("append after the transmit latch goes with EOQ")
            .desc(D0, [0, 0x8000_1000, 60, ONE | 60])
            .desc(D1, [0, 0x8000_1100, 50, ONE | 50])
            .gw(TX_HDP, D0, 0)
            .st(TRANSMIT, 3, &["R 80001000 60"])
            .gw(D0, D1, 0)
            .gw(D1 + 4, 0x8000_1200, 11) // in use for now
            .st(TRANSMIT, 1, &[]) // 4: EOQ
            .gw(D1 + 4, 0x8000_1200, 11) // OWNER still set at the head
            .st(TRANSMIT, 1, &[]) // 5
            .gw(D1 + 4, 0x8000_1200, 0) // gone with the rest
            .gw(TX_HDP, D1, 10)
            .st(TRANSMIT, 1, &[]) // 6
            .gw(TX_HDP, D1, 0)
            .st(TRANSMIT, 6, &["R 80001200 50"])
            .end(110, 0),
        Script::new("append before the transmit latch is sent")
            .desc(D0, [0, 0x8000_1000, 60, ONE | 60])
            .desc(D1, [0, 0x8000_1100, 50, ONE | 50])
            .gw(TX_HDP, D0, 0)
            .st(TRANSMIT, 2, &["R 80001000 60"])
            .gw(D0, D1, 0)
            .st(TRANSMIT, 3, &[]) // 3, 4, 5
            .gw(D1 + 4, 0x8000_1200, 11) // the first packet has gone, not this one
            .gw(D0 + 4, 0x8000_1200, 0)
            .st(TRANSMIT, 7, &["R 80001100 50"]) // 6, then 1 to 6
            .gw(D1 + 4, 0x8000_1200, 0)
            .end(110, 0),
        Script::new("append after the receive latch goes with EOQ")
            .desc(D0, [0, 0x8000_1000, 60, OWNER])
            .desc(D1, [0, 0x8000_1100, 60, OWNER])
            .gw(RX_HDP, D0, 0)
            .fr(7, 0)
            .st(RECEIVE, 3, &["S 80001000 7"])
            .gw(D0, D1, 0)
            .kc(1, 3, 21)
            .st(RECEIVE, 2, &[]) // 4, 5
            .gw(D1 + 4, 0x8000_1200, 0)
            .kc(1, 3, 0)
            .gw(RX_HDP, D1, 10)
            .st(RECEIVE, 1, &[])
            .gw(RX_HDP, D1, 16)
            .kc(1, 1, 0)
            .gw(RX_HDP, D1, 0)
            .end(0, 7),
        Script::new("the first byte is not enough")
            .desc(D0, [0, 0x8000_1FFF, 2, OWNER])
            .gw(RX_HDP, D0, 16)
            .desc(D0, [0, 0x8000_3FFF, 2, ONE | 2])
            .gw(TX_HDP, D0, 16)
            .desc(D0, [0, 0x8000_0FFF, 2, ONE | 2]) // block 0 is not Linux's
            .gw(TX_HDP, D0, 16)
            .desc(D0, [0, 0x8000_1000, 0x3001, SOP | OWNER | 1]) // past block 3
            .gw(TX_HDP, D0, 16)
            .end(0, 0),
        // Three blocks touched, the middle one not Linux's: first and last bytes are.
        Script::with_kinds("the last byte is not enough", &[1, 0, 1])
            .desc(D0, [D1, 0x8000_0FFF, 0x1002, SOP | OWNER | 1])
            .gw(TX_HDP, D0, 16)
            .end(0, 0),
    ]);
}

fn judging(cases: &mut Vec<Case>) {
    cases.extend([
        Script::raw("awaiting initialisation", &[0, 1, 2, 3])
            .gw(TX_HDP, D0, 6)
            .gw(RX_HDP, 4, 6)
            .gw(TX_CP, 1, 6)
            .gw(RX_CP, CODE, 6)
            .gw(TX_TD, 0, 6)
            .gw(RX_TD, 1, 6)
            .gw(RESET, 1, 6)
            .gw(RESET, 0, 6)
            .gw(TX_HDP, 0, 0)
            .gw(TX_HDP, 0, 0) // one already marked takes 0 again
            .gw(TX_HDP, D0, 6)
            .gw(RX_CP, 0, 0)
            .gw(RX_HDP, 0, 0)
            .gw(RESET, 1, 6)
            .gw(D0, 0x1234_5678, 0) // plain stores need no initialisation
            .gw(TX_CP, 0, 0)
            .gw(TX_HDP, 0, 9) // and now HDP takes no 0
            .gw(RX_HDP, 0, 9)
            .gw(TX_CP, 5, 0)
            .end(0, 0),
        Script::new("registers by class")
            .gw(0x4A10_0804, 1, 0)
            .gw(0x4A10_0814, 0xFFFF_FFFF, 0)
            .gw(0x4A10_0888, 1, 0)
            .gw(0x4A10_088C, 1, 0)
            .gw(0x4A10_0894, 0, 0)
            .gw(0x4A10_08A8, 1, 0)
            .gw(0x4A10_08AC, 1, 0)
            .gw(0x4A10_0820, 0, 0)
            .gw(0x4A10_0820, 1, 9)
            .gw(0x4A10_0828, 0, 0)
            .gw(0x4A10_0828, 2, 9)
            .gw(0x4A10_0800, 0, 5)
            .gw(0x4A10_080C, 0, 5)
            .gw(0x4A10_0890, 0, 5)
            .gw(0x4A10_08FC, 0, 5)
            .gw(0x4A10_0A04, 0, 5)
            .gw(0x4A10_0A7C, 0, 5)
            .gw(0x4A10_07FC, 0, 4)
            .gw(0x4A10_09FC, 0, 4)
            .gw(0x4A10_0A80, 0, 4)
            .gw(0x4A10_1FFC, 0, 4)
            .gw(0x4A10_4000, 0, 4)
            .gw(0x8000_1000, 0, 4)
            .gw(0, 0, 4)
            .gw(0xFFFF_FFFF, 0, 3)
            .gw(0x4A10_0901, 0, 3)
            .gw(0x4A10_0A05, 0, 3)
            .gw(0x4A10_2001, 0, 3)
            .gw(0x4A10_3FFC, 9, 0)
            .end(0, 0),
        Script::new("OWNER is free where SOP is clear")
            .desc(D0, [D1, 0x8000_1000, 60, SOP | OWNER | 100])
            .desc(D1, [0, 0x8000_1100, 40, EOP | OWNER])
            .gw(TX_HDP, D0, 0)
            .end(0, 0),
        Script::new("transmit flags are 14")
            .desc(D0, [0, 0x8000_1000, 60, EOP | OWNER | 60])
            .gw(TX_HDP, D0, 14)
            .gw(D0 + 12, SOP | EOP | 60, 0)
            .gw(TX_HDP, D0, 14)
            .gw(D0 + 12, ONE | EOQ | 60, 0)
            .gw(TX_HDP, D0, 14)
            .gw(D0 + 12, ONE | TD | 60, 0)
            .gw(TX_HDP, D0, 14)
            .gw(D0 + 12, ONE | 0x07FF_F800 | 60, 0) // bits that 01 leaves free
            .gw(TX_HDP, D0, 0)
            .end(0, 0),
        Script::new("SOP inside a packet is 14")
            .desc(D0, [D1, 0x8000_1000, 60, SOP | OWNER | 100])
            .desc(D1, [0, 0x8000_1100, 40, ONE | 40])
            .gw(TX_HDP, D0, 14)
            .end(0, 0),
        Script::new("no SOP after an EOP is 14")
            .desc(D0, [D1, 0x8000_1000, 60, ONE | 60])
            .desc(D1, [0, 0x8000_1100, 40, EOP | OWNER | 40])
            .gw(TX_HDP, D0, 14)
            .end(0, 0),
        Script::new("receive flags are 14")
            .desc(D0, [0, 0x8000_1000, 60, 0])
            .gw(RX_HDP, D0, 14)
            .gw(D0 + 12, OWNER | SOP, 0)
            .gw(RX_HDP, D0, 14)
            .gw(D0 + 12, OWNER | EOP, 0)
            .gw(RX_HDP, D0, 14)
            .gw(D0 + 12, OWNER | EOQ, 0)
            .gw(RX_HDP, D0, 14)
            .gw(D0 + 12, OWNER | TD, 0)
            .gw(RX_HDP, D0, 14)
            .gw(D0 + 12, OWNER | 0x07FF_FFFF, 0)
            .gw(RX_HDP, D0, 0)
            .end(0, 0),
        Script::new("transmit lengths and offsets")
            .desc(D0, [0, 0x8000_1000, 0, ONE])
            .gw(TX_HDP, D0, 15)
            // The offset counts at SOP: 0x80000FFF + 1.
            .desc(D0, [0, 0x8000_0FFF, 0x0001_0001, ONE | 1])
            .gw(TX_HDP, D0, 0)
            .st(TRANSMIT, 6, &["R 80001000 1"])
            // 0xFFFFFFFE + 1 + 2 passes.
            .desc(D0, [0, 0xFFFF_FFFE, 0x0001_0002, ONE | 2])
            .gw(TX_HDP, D0, 15)
            .gw(D0 + 8, 0x0001_0001, 0)
            .gw(D0 + 12, ONE | 1, 0)
            .gw(TX_HDP, D0, 16)
            // Elsewhere it is ignored.
            .desc(D0, [D1, 0x8000_1000, 1, SOP | OWNER | 2])
            .desc(D1, [0, 0x8000_3FFF, 0xFFFF_0001, EOP])
            .gw(TX_HDP, D0, 0)
            .end(1, 0),
        Script::new("receive lengths and offsets")
            .desc(D0, [0, 0x8000_1000, 0x0001_0001, OWNER])
            .gw(RX_HDP, D0, 15)
            .gw(D0 + 8, 0x0400_0001, 0)
            .gw(RX_HDP, D0, 15)
            .gw(D0 + 8, 0xF800_F801, 0) // bits 31..27 and 15..11 are ignored
            .gw(RX_HDP, D0, 0)
            .end(0, 0),
        Script::new("receive past 2^32 - 1")
            .desc(D0, [0, 0xFFFF_FFFF, 2, OWNER])
            .gw(RX_HDP, D0, 15)
            .gw(D0 + 8, 1, 0)
            .gw(RX_HDP, D0, 16)
            .end(0, 0),
        Script::new("receive wants kind 1, transmit any of Linux's")
            .desc(D0, [0, 0x8000_2000, 60, OWNER])
            .gw(RX_HDP, D0, 16)
            .gw(D0 + 4, 0x8000_3000, 0)
            .gw(RX_HDP, D0, 16)
            .desc(D0, [0, 0x8000_2FC4, 60, ONE | 60])
            .gw(TX_HDP, D0, 0)
            .end(0, 0),
        Script::new("12 belongs to the descriptor that should have been named")
            // EOP, wrong sum, bad next: 17.
            .desc(D0, [4, 0x8000_1000, 60, ONE | 61])
            .gw(TX_HDP, D0, 17)
            // No EOP, bad next: 12.
            .gw(D0 + 12, SOP | OWNER | 61, 0)
            .gw(TX_HDP, D0, 12)
            // EOP, right sum, bad next: 12.
            .gw(D0 + 12, ONE | 60, 0)
            .gw(TX_HDP, D0, 12)
            .end(0, 0),
        Script::new("the first faulty descriptor decides")
            // 16 at the first, 14 at the second.
            .desc(D0, [D1, 0x8000_0000, 60, SOP | OWNER | 100])
            .desc(D1, [0, 0x8000_1100, 40, SOP | EOP])
            .gw(TX_HDP, D0, 16)
            // A sum already too large is refused only at EOP: 16 at the second comes first.
            .desc(D0, [D1, 0x8000_1000, 60, SOP | OWNER | 10])
            .desc(D1, [D2, 0x8000_0000, 40, 0])
            .gw(TX_HDP, D0, 16)
            .end(0, 0),
        Script::new("next 0 without EOP is 17")
            .desc(D0, [0, 0x8000_1000, 60, SOP | OWNER | 60])
            .gw(TX_HDP, D0, 17)
            .end(0, 0),
        Script::new("chain to itself is 13")
            .desc(D0, [D0, 0x8000_1000, 60, ONE | 60])
            .gw(TX_HDP, D0, 13)
            .desc(D0, [D0, 0x8000_1000, 60, OWNER])
            .gw(RX_HDP, D0, 13)
            .end(0, 0),
        Script::new("words in use, and the append")
            .desc(D0, [D1, 0x8000_1000, 60, OWNER])
            .desc(D1, [0, 0x8000_1100, 60, OWNER])
            .gw(RX_HDP, D0, 0)
            .gw(D0, 0, 11)
            .gw(D0, D1, 11)
            .gw(D0 + 4, 0x8000_1000, 11)
            .gw(D1, 0, 11) // 0 over the last descriptor's word 0
            .gw(D1 + 4, 0x8000_1000, 11)
            .gw(D1, D1, 13)
            .gw(D1, D0, 13)
            .gw(D1, D1 + 12, 13)
            .gw(D1, 0x4A10_3FF4, 12)
            .gw(D1, D2, 14)
            .desc(D2, [0, 0x8000_2000, 60, OWNER])
            .gw(D1, D2, 16)
            .gw(D2 + 4, 0x8000_1200, 0)
            .gw(D1, D2, 0)
            .gw(D1, D2, 11) // no longer the last
            .gw(D2 + 4, 0x8000_1200, 11)
            .gw(RX_HDP, D0, 10)
            .end(0, 0),
        Script::new("append to the transmit queue")
            .desc(D0, [0, 0x8000_1000, 60, ONE | 60])
            .desc(D1, [0, 0x8000_1100, 40, EOP])
            .gw(TX_HDP, D0, 0)
            .gw(D0, D1, 14) // an appended chain starts a packet
            .gw(D1 + 12, ONE | 41, 0)
            .gw(D0, D1, 17)
            .gw(D1 + 12, ONE | 40, 0)
            .gw(D1 + 8, 0, 0)
            .gw(D0, D1, 15)
            .gw(D1 + 8, 40, 0)
            .gw(D0, D1, 0)
            .st(TRANSMIT, 12, &["R 80001000 60", "R 80001100 40"])
            .end(100, 0),
        // The one overlap that only 13 stops.
        Script::new("a transmit middle over a last descriptor's word 0 is 13")
            .desc(D1, [0, 0x8000_1000, 60, OWNER])
            .gw(RX_HDP, D1, 0)
            .desc(D2, [0x4A10_2004, 0x8000_1000, 10, SOP | OWNER | 30])
            .gw(0x4A10_2004, D3, 0)
            .gw(0x4A10_2008, 0x8000_1000, 0)
            .gw(0x4A10_200C, 10, 0)
            // its word 3 is D1's word 0, now 0: no flags, which is right for a middle one
            .desc(D3, [0, 0x8000_1000, 10, EOP])
            .gw(TX_HDP, D2, 13)
            .end(0, 0),
        Script::new("teardown's order 6, 7, 8, 9, 10")
            .gw(TX_TD, 1, 9)
            .gw(TX_TD, 0, 0)
            .gw(TX_TD, 0, 8)
            .gw(TX_TD, 1, 8)
            .gw(TX_HDP, D0, 8)
            .gw(TX_HDP, 0, 8)
            .gw(RX_HDP, 0, 9) // the other side is free
            .gw(RESET, 1, 8)
            .gw(RESET, 0, 8)
            .gw(RX_TD, 0, 0)
            .st(TX_TEARDOWN, 3, &[])
            .gw(RESET, 1, 8) // the receive side still
            .gw(TX_TD, 1, 9)
            .gw(TX_TD, 0, 10) // the stale code
            .gw(TX_CP, 5, 0)
            .gw(TX_TD, 0, 10)
            .gw(TX_CP, CODE, 0)
            .gw(TX_TD, 0, 0)
            .st(RX_TEARDOWN, 2, &[])
            .gw(RX_TD, 0, 8)
            .st(RX_TEARDOWN, 1, &[])
            .gw(RX_TD, 0, 10)
            .end(0, 0),
        Script::new("a start has no rule on CP")
            .gw(TX_TD, 0, 0)
            .st(TX_TEARDOWN, 3, &[])
            .desc(D0, [0, 0x8000_1000, 60, ONE | 60])
            .gw(TX_HDP, D0, 0)
            .st(TRANSMIT, 6, &["R 80001000 60"])
            .gw(TX_TD, 0, 0) // CP is the descriptor's address now
            .end(60, 0),
        Script::new("reset pending is 7")
            .gw(RESET, 0, 9)
            .gw(RESET, 2, 9)
            .desc(D0, [0, 0x8000_1000, 60, OWNER])
            .gw(RX_HDP, D0, 0)
            .gw(RESET, 1, 0)
            .gw(RESET, 1, 7)
            .gw(RESET, 0, 7)
            .gw(TX_HDP, 0, 7)
            .gw(RX_HDP, 0, 7)
            .gw(TX_TD, 0, 7)
            .gw(RX_TD, 1, 7)
            .gw(TX_CP, 0, 0) // CP is accepted all the same
            .fr(60, 24)
            .desc(D1, [0, 0x8000_1000, 60, OWNER])
            .gw(D0, D1, 0) // so is an append
            .gw(D1 + 4, 0, 11)
            .st(Engine::Reset, 1, &[])
            .gw(D1 + 4, 0, 0) // both queues have gone
            .gw(RX_HDP, D0, 6)
            .gw(RESET, 1, 6)
            .fr(60, 24)
            .zeros()
            .gw(RX_HDP, D0, 16) // D0's next is D1, whose buffer is 0 now
            .gw(RESET, 1, 0)
            .end(0, 0),
        Script::new("append while a teardown is pending")
            .desc(D0, [0, 0x8000_1000, 60, ONE | 60])
            .desc(D1, [0, 0x8000_1000, 60, ONE | 60])
            .gw(TX_HDP, D0, 0)
            .gw(TX_TD, 0, 0)
            .gw(D0, D1, 0)
            .st(TRANSMIT, 6, &[]) // a new packet is not fetched
            .st(TX_TEARDOWN, 1, &[])
            .gw(D1 + 4, 0, 0) // TD at the head: the whole queue has gone
            .end(0, 0),
        Script::new("kind changes in order")
            .kc(9, 0, 18)
            .kc(0, 0, 19)
            .kc(0, 2, 20)
            .kc(1, 1, 0)
            .kc(3, 3, 0)
            .kc(3, 1, 0)
            .kc(2, 1, 0)
            .desc(D0, [0, 0x8000_1FFF, 0x7FF, OWNER])
            .gw(RX_HDP, D0, 0)
            .kc(1, 2, 21)
            .kc(2, 4, 21)
            .kc(3, 4, 0)
            .kc(2, 0, 19)
            .kc(2, 1, 0)
            .end(0, 0),
        Script::new("transmit buffers do not hold a kind")
            .desc(D0, [0, 0x8000_1000, 60, ONE | 60])
            .gw(TX_HDP, D0, 0)
            .kc(1, 2, 0)
            .st(TRANSMIT, 6, &["R 80001000 60"])
            .end(60, 0),
    ]);
}

fn releasing(cases: &mut Vec<Case>) {
    cases.extend([
        // Two packets sent, then one torn down: all go in one call.
        Script::new("the repeat begins with the TD test")
            .desc(D0, [D1, 0x8000_1000, 60, ONE | 60])
            .desc(D1, [D2, 0x8000_1000, 60, ONE | 60])
            .desc(D2, [D3, 0x8000_1000, 60, ONE | 60])
            .desc(D3, [0, 0x8000_1000, 60, ONE | 60])
            .gw(TX_HDP, D0, 0)
            .st(TRANSMIT, 12, &["R 80001000 60", "R 80001000 60"])
            .gw(TX_TD, 0, 0)
            .gw(D1 + 4, 0x8000_1000, 0)
            .gw(D2 + 4, 0x8000_1000, 11)
            .st(TX_TEARDOWN, 3, &[])
            .gw(D3 + 4, 0x8000_1000, 0)
            .gw(D2 + 4, 0x8000_1000, 0)
            .gw(TX_CP, CODE, 0)
            .end(120, 0),
        Script::new("packets sent and one torn down go in one call")
            .desc(D0, [D1, 0x8000_1000, 60, ONE | 60])
            .desc(D1, [D2, 0x8000_1000, 60, ONE | 60])
            .desc(D2, [0, 0x8000_1000, 60, ONE | 60])
            .gw(TX_HDP, D0, 0)
            .st(TRANSMIT, 7, &["R 80001000 60"]) // the first sent, the second fetched
            .gw(TX_TD, 0, 0)
            .st(TRANSMIT, 5, &["R 80001000 60"])
            .st(TX_TEARDOWN, 3, &[])
            .gw(D2 + 4, 0x8000_1000, 0)
            .gw(TX_HDP, D0, 14) // OWNER is clear there now
            .end(120, 0),
        Script::new("two packets complete, both go")
            .desc(D0, [D1, 0x8000_1000, 60, ONE | 60])
            .desc(D1, [D2, 0x8000_1000, 60, ONE | 60])
            .desc(D2, [0, 0x8000_1000, 60, ONE | 60])
            .gw(TX_HDP, D0, 0)
            .st(TRANSMIT, 12, &["R 80001000 60", "R 80001000 60"])
            .gw(D1 + 4, 0x8000_1000, 0)
            .gw(D0 + 4, 0x8000_1000, 0)
            .gw(D2 + 4, 0x8000_1000, 11)
            .end(120, 0),
        Script::new("a packet of two goes whole")
            .desc(D0, [D1, 0x8000_1000, 60, SOP | OWNER | 100])
            .desc(D1, [D2, 0x8000_1000, 40, EOP | OWNER])
            .desc(D2, [0, 0x8000_1000, 60, ONE | 60])
            .gw(TX_HDP, D0, 0)
            .st(TRANSMIT, 7, &["R 80001000 60", "R 80001000 40"]) // up to step 4
            .gw(D0 + 4, 0x8000_1000, 11)
            .st(TRANSMIT, 1, &[]) // 5
            .gw(D1 + 4, 0x8000_1000, 0)
            .gw(D2 + 4, 0x8000_1000, 11)
            .end(100, 0),
        Script::new("release comes first, also with 3, 4, 5, 18 and 19")
            .desc(D0, [0, 0x8000_1000, 60, ONE | 60])
            .gw(TX_HDP, D0, 0)
            .st(TRANSMIT, 6, &["R 80001000 60"])
            .gw(0x4A10_0A02, 0, 3)
            .gw(0x4A10_0900, 0, 4)
            .gw(0x4A10_0A04, 0, 5)
            .kc(4, 1, 18)
            .kc(1, 0, 19)
            .gw(D0 + 12, ONE | 60, 0)
            .end(60, 0),
        // The guard's pending ends with the code; the code may be acknowledged at once.
        Script::new("teardown ends by the code in CP")
            .gw(RX_TD, 0, 0)
            .st(RX_TEARDOWN, 3, &[])
            .gw(RX_CP, CODE, 0)
            .gw(RX_TD, 0, 0)
            .st(RX_TEARDOWN, 3, &[])
            .gw(RX_CP, CODE, 0)
            .desc(D0, [0, 0x8000_1000, 60, OWNER])
            .gw(RX_HDP, D0, 0)
            .end(0, 0),
    ]);
}

fn stepping(cases: &mut Vec<Case>) {
    cases.extend([
        Script::new("transmit 60 + 40 takes 9 steps")
            .desc(D0, [D1, 0x8000_1000, 60, SOP | OWNER | 100])
            .desc(D1, [0, 0x8000_1100, 40, EOP])
            .gw(TX_HDP, D0, 0)
            .st(TRANSMIT, 8, &["R 80001000 60", "R 80001100 40"])
            .gw(TX_HDP, D2, 10)
            .st(TRANSMIT, 1, &[])
            .gw(TX_HDP, D2, 14)
            .end(100, 0),
        Script::new("sent grows at step 5")
            .desc(D0, [0, 0x8000_1000, 60, ONE | 60])
            .gw(TX_HDP, D0, 0)
            .st(TRANSMIT, 4, &["R 80001000 60"])
            .end(0, 0),
        Script::new("sent has grown after step 5")
            .desc(D0, [0, 0x8000_1000, 60, ONE | 60])
            .gw(TX_HDP, D0, 0)
            .st(TRANSMIT, 5, &["R 80001000 60"])
            .end(60, 0),
        Script::new("bursts of 64")
            .desc(D0, [0, 0x8000_1003, 130, ONE | 130])
            .gw(TX_HDP, D0, 0)
            .st(TRANSMIT, 2, &["R 80001003 64"])
            .st(TRANSMIT, 1, &["R 80001043 64"])
            .st(TRANSMIT, 1, &["R 80001083 2"])
            .st(TRANSMIT, 4, &[])
            .gw(TX_HDP, D0, 14) // idle, and EOQ is set there
            .end(130, 0),
        // Were it in the SOP descriptor, the one appended after the latch would stay.
        Script::new("EOQ goes to the EOP descriptor")
            .desc(D0, [D1, 0x8000_1000, 60, SOP | OWNER | 100])
            .desc(D1, [0, 0x8000_1100, 40, EOP | OWNER])
            .desc(D2, [0, 0x8000_1200, 50, ONE | 50])
            .gw(TX_HDP, D0, 0)
            .st(TRANSMIT, 6, &["R 80001000 60", "R 80001100 40"]) // up to 3 at EOP
            .gw(D1, D2, 0)
            .st(TRANSMIT, 2, &[]) // 4, 5
            .gw(D2 + 4, 0x8000_1200, 0)
            .end(100, 0),
        Script::new("frames by length and state")
            .fr(0, 23)
            .fr(2048, 23)
            .fr(65535, 23)
            .fr(1, 24)
            .fr(2047, 24)
            .desc(D0, [0, 0x8000_1000, 0x7FF, OWNER])
            .gw(RX_HDP, D0, 0)
            .fr(2048, 23)
            .fr(1, 0)
            .fr(1, 24)
            .fr(0, 23)
            .st(RECEIVE, 6, &["S 80001000 1"])
            .fr(1, 24) // idle
            .end(0, 1),
        Script::new("a frame over two buffers")
            .desc(D0, [D1, 0x8000_1000, 70, OWNER])
            .desc(D1, [D2, 0x8000_1100, 70, OWNER])
            .desc(D2, [0, 0x8000_1200, 70, OWNER])
            .gw(RX_HDP, D0, 0)
            .fr(100, 0)
            // 1, 2, 2, 3, 1, 2, 3, 4, 5, 6
            .st(
                RECEIVE,
                8,
                &["S 80001000 64", "S 80001040 6", "S 80001100 30"],
            )
            .gw(D0 + 4, 0, 11)
            .st(RECEIVE, 1, &[])
            .gw(D0 + 4, 0, 0)
            .gw(D1 + 4, 0, 0)
            .gw(D2 + 4, 0, 11)
            .fr(5, 24) // not yet waiting
            .st(RECEIVE, 1, &[])
            .fr(5, 0)
            .st(RECEIVE, 6, &["S 80001200 5"])
            .end(0, 105),
        Script::new("overrun drops the rest")
            .desc(D0, [0, 0x8000_1000, 70, OWNER])
            .gw(RX_HDP, D0, 0)
            .fr(100, 0)
            .st(RECEIVE, 6, &["S 80001000 64", "S 80001040 6"]) // 1, 2, 2, 3, 4, 5
            .gw(RX_HDP, D0, 10)
            .st(RECEIVE, 1, &[])
            .gw(RX_HDP, D0, 14)
            .end(0, 70),
        Script::new("a buffer just full is no overrun")
            .desc(D0, [D1, 0x8000_1000, 64, OWNER])
            .desc(D1, [0, 0x8000_1100, 64, OWNER])
            .gw(RX_HDP, D0, 0)
            .fr(64, 0)
            .st(RECEIVE, 6, &["S 80001000 64"])
            .fr(64, 0)
            .st(RECEIVE, 6, &["S 80001100 64"])
            .end(0, 128),
        Script::new("receive length in word 2 after step 4")
            .desc(D0, [0, 0x8000_1000, 60, OWNER])
            .gw(RX_HDP, D0, 0)
            .fr(10, 0)
            .st(RECEIVE, 6, &["S 80001000 10"])
            .gw(D0 + 12, OWNER, 0)
            .gw(RX_HDP, D0, 0) // with length 10 now
            .fr(20, 0)
            .st(RECEIVE, 2, &["S 80001000 10"])
            .end(0, 10),
        Script::new("teardown waits for the packet")
            .desc(D0, [D1, 0x8000_1000, 60, ONE | 60])
            .desc(D1, [0, 0x8000_1100, 60, ONE | 60])
            .gw(TX_HDP, D0, 0)
            .st(TRANSMIT, 1, &[])
            .gw(TX_TD, 0, 0)
            .st(TX_TEARDOWN, 5, &[]) // cannot move
            .gw(D0 + 4, 0, 11)
            .st(TRANSMIT, 9, &["R 80001000 60"]) // and no new packet
            .gw(TX_HDP, D0, 8)
            .st(TX_TEARDOWN, 1, &[])
            .gw(D1 + 4, 0x8000_1200, 0)
            .gw(TX_HDP, D0, 8)
            .st(TX_TEARDOWN, 1, &[])
            .gw(TX_HDP, D0, 8)
            .st(TX_TEARDOWN, 1, &[])
            .gw(TX_HDP, 0, 9)
            .end(60, 0),
        Script::new("no frame while a receive teardown is pending")
            .desc(D0, [0, 0x8000_1000, 60, OWNER])
            .gw(RX_HDP, D0, 0)
            .gw(RX_TD, 0, 0)
            .fr(10, 24)
            .st(RX_TEARDOWN, 3, &[])
            .fr(10, 24)
            .gw(RX_HDP, D0, 14) // TD is set there
            .gw(D0 + 12, OWNER, 0)
            .gw(RX_HDP, D0, 0)
            .fr(10, 0)
            .end(0, 0),
        Script::new("reset waits for both engines")
            .desc(D0, [0, 0x8000_1000, 60, ONE | 60])
            .desc(D1, [0, 0x8000_1100, 60, OWNER])
            .gw(TX_HDP, D0, 0)
            .gw(RX_HDP, D1, 0)
            .fr(10, 0)
            .st(TRANSMIT, 1, &[])
            .gw(RESET, 1, 0)
            .st(Engine::Reset, 1, &[])
            .gw(TX_HDP, 0, 7)
            .st(TRANSMIT, 5, &["R 80001000 60"])
            .st(Engine::Reset, 1, &[])
            .gw(TX_HDP, 0, 7)
            .st(RECEIVE, 6, &["S 80001100 10"])
            .st(Engine::Reset, 1, &[])
            .gw(TX_HDP, 1, 6)
            .zeros()
            .gw(TX_HDP, 0, 9)
            .end(60, 10),
        Script::new("steps that cannot move print nothing")
            .st(TRANSMIT, 255, &[])
            .st(RECEIVE, 255, &[])
            .st(TX_TEARDOWN, 255, &[])
            .st(RX_TEARDOWN, 255, &[])
            .st(Engine::Reset, 255, &[])
            .end(0, 0),
    ]);
}

fn bad_records(cases: &mut Vec<Case>) {
    cases.extend([
        nothing_before("empty input", b"", "bad record 0\n"),
        nothing_before("one byte", b"R", "bad record 0\n"),
        nothing_before("RM cut", b"RM\x02\x00\x01", "bad record 0\n"),
        nothing_before("RM with N 0", b"RM\x00\x00", "bad record 0\n"),
        nothing_before(
            "RM with a kind over 4",
            b"RM\x02\x00\x01\x05",
            "bad record 0\n",
        ),
        nothing_before("no RM", b"KC\x01\x00\x02", "bad record 0\n"),
        nothing_before("RM alone", b"RM\x01\x00\x04", "sent 0 received 0\n"),
        Script::raw("RM with N 16384", &vec![1; 16384])
            .kc(16383, 2, 0)
            .kc(16384, 2, 18)
            .end(0, 0),
        Script::raw("RM with N 16385", &vec![1; 16385]).bad(0),
        Script::new("a second RM")
            .bytes(b"RM\x01\x00\x01")
            .bad(8 + 40),
        Script::new("unknown mark")
            .kc(1, 2, 0)
            .bytes(b"XX")
            .kc_not_read(1)
            .bad(8 + 40 + 5),
        Script::new("GW cut")
            .bytes(b"GW\x00\x0A\x10\x4A\x00\x00\x00")
            .bad(8 + 40),
        Script::new("KC cut").bytes(b"KC\x00\x00").bad(8 + 40),
        Script::new("FR cut").bytes(b"FR\x00").bad(8 + 40),
        Script::new("ST cut").bytes(b"ST\x01").bad(8 + 40),
        Script::new("one byte over")
            .fr(0, 23)
            .bytes(b"G")
            .bad(8 + 40 + 4),
        Script::new("ST engine 5").bytes(b"ST\x05\x01").bad(8 + 40),
        Script::new("ST count 0").bytes(b"ST\x01\x00").bad(8 + 40),
    ]);
}

impl Script {
    /// A record that is there and must not be read any more.
    fn kc_not_read(mut self, block: u16) -> Script {
        self.input.extend(Record::KindChange(block, 1).bytes());
        self
    }
}
