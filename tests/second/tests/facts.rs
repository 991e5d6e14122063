//! Worked facts of document 01, asked of the second model below and at the bench.

use second::bench::{self, NoWatcher, Record};
use second::cases;
use second::controller::{Controller, Engine, RxPhase, TxPhase};
use second::machine::Machine;
use second::memory::*;
use second::probe::{self, Case, State};
use second::probe_gen::{write_noisy, Maker};
use second::rng::Rng;
use second::variant::Variant;

const TX_HDP: u32 = 0x4A10_0A00;
const RX_HDP: u32 = 0x4A10_0A20;
const D0: u32 = 0x4A10_2000;
const D1: u32 = 0x4A10_2010;

fn ready(kinds: &[u8]) -> Machine {
    let mut machine = Machine::fresh(kinds.to_vec(), Variant::Right);
    for address in [TX_HDP, RX_HDP, 0x4A10_0A40, 0x4A10_0A60] {
        assert_eq!(machine.guest_write(address, 0).answer.number, 0);
    }
    machine
}

fn store(machine: &mut Machine, at: u32, words: [u32; 4]) {
    for (i, word) in words.into_iter().enumerate() {
        assert_eq!(
            machine.guest_write(at + 4 * i as u32, word).answer.number,
            0
        );
    }
}

#[test]
fn the_bench_example_prints_exactly_as_given() {
    let mut input = Record::Kinds(vec![0, 1, 2, 3]).bytes();
    input.extend(Record::GuestWrite(0x4A10_0A04, 0).bytes());
    input.extend(Record::KindChange(1, 2).bytes());
    let output = bench::run(&input, Variant::Right, &mut NoWatcher);
    assert_eq!(output, "W 4A100A04 5\nK 1 0\nsent 0 received 0\n");
}

#[test]
fn every_case_written_by_hand_holds() {
    for case in cases::all() {
        let output = bench::run(&case.input, Variant::Right, &mut NoWatcher);
        assert_eq!(output, case.expected, "{}", case.name);
    }
}

#[test]
fn sixty_and_forty_bytes_take_nine_steps() {
    let mut machine = ready(&[0, 1, 2, 3]);
    store(&mut machine, D0, [D1, 0x8000_1000, 60, SOP | OWNER | 100]);
    store(&mut machine, D1, [0, 0x8000_1100, 40, EOP]);
    assert_eq!(machine.guest_write(TX_HDP, D0).answer.number, 0);
    let mut taken = Vec::new();
    while machine.controller.tx != TxPhase::Idle {
        taken.push(machine.step(Engine::Transmit).taken);
    }
    assert_eq!(taken.len(), 9, "{taken:?}");
    assert_eq!(machine.controller.sent, 100);
    assert_eq!(machine.controller.registers.cp[0], D1);
    // EOQ in the EOP descriptor, OWNER gone from the SOP descriptor, nothing else.
    assert_eq!(machine.memory.descriptor(D0).word3, SOP | 100);
    assert_eq!(machine.memory.descriptor(D1).word3, EOP | EOQ);
}

#[test]
fn receive_marks_first_and_last() {
    let mut machine = ready(&[0, 1, 1]);
    store(
        &mut machine,
        D0,
        [D1, 0x8000_1000, 0xF800_F840, OWNER | 0x07FF_FFFF],
    );
    store(&mut machine, D1, [0, 0x8000_1100, 0x40, OWNER]);
    assert_eq!(machine.guest_write(RX_HDP, D0).answer.number, 0);
    assert_eq!(machine.book.lengths[0], 0x40);
    assert_eq!(machine.book.lengths[4], 0x40);
    assert_eq!(machine.frame(200), 0);
    while machine.controller.rx != RxPhase::Idle {
        assert_eq!(machine.step(Engine::Receive).answer, 0);
    }
    // 128 bytes stored, 72 dropped: overrun in the first, length 64 in the last.
    let (first, last) = (machine.memory.descriptor(D0), machine.memory.descriptor(D1));
    assert_eq!(first.word3, SOP | 0x07FF_F800 | 128);
    assert_eq!(first.word2, 0xF800_F840);
    assert_eq!(last.word3, OWNER | EOP | EOQ);
    assert_eq!(last.word2, 64);
    assert_eq!(machine.controller.received, 128);
    assert_eq!(machine.controller.registers.cp[1], D1);
}

#[test]
fn bit_22_is_cleared_without_an_overrun() {
    let mut machine = ready(&[0, 1]);
    store(&mut machine, D0, [0, 0x8000_1000, 100, OWNER | OVERRUN | 5]);
    assert_eq!(machine.guest_write(RX_HDP, D0).answer.number, 0);
    assert_eq!(machine.frame(30), 0);
    while machine.controller.rx != RxPhase::Idle {
        machine.step(Engine::Receive);
    }
    assert_eq!(machine.memory.descriptor(D0).word3, SOP | EOP | EOQ | 30);
    assert_eq!(machine.memory.descriptor(D0).word2, 30);
}

#[test]
fn the_160_words_by_class() {
    let (mut judged, mut passed, mut not_offered, mut not_guarded) = (0, 0, 0, 0);
    for i in 0..160 {
        match place(0x4A10_0800 + 4 * i) {
            Place::Passed => passed += 1,
            Place::NotOffered => not_offered += 1,
            Place::NotGuarded => not_guarded += 1,
            Place::Misaligned | Place::Word(_) => panic!("{i}"),
            _ => judged += 1,
        }
    }
    assert_eq!((judged, passed, not_offered, not_guarded), (9, 7, 80, 64));
}

#[test]
fn good_pointers() {
    assert!(is_good(0x4A10_2000) && is_good(0x4A10_3FF0) && is_good(0x4A10_2004));
    assert!(!is_good(0) && !is_good(0x4A10_1FFC) && !is_good(0x4A10_3FF4) && !is_good(0x4A10_2002));
}

#[test]
fn teardown_takes_three_steps_and_reset_one() {
    let mut machine = ready(&[1]);
    store(&mut machine, D0, [0, 0x8000_0000, 100, OWNER]);
    assert_eq!(machine.guest_write(RX_HDP, D0).answer.number, 0);
    assert_eq!(machine.guest_write(0x4A10_0818, 0).answer.number, 0);
    let engine = Engine::Teardown(Side::Receive);
    machine.step(engine);
    assert_eq!(machine.memory.descriptor(D0).word3, OWNER | TD);
    assert_eq!(machine.controller.registers.hdp[1], D0);
    machine.step(engine);
    assert_eq!(machine.controller.registers.hdp[1], 0);
    assert_eq!(machine.controller.rx, RxPhase::Idle);
    assert!(machine.controller.teardown_pending[1]);
    machine.step(engine);
    assert_eq!(machine.controller.registers.cp[1], 0xFFFF_FFFC);
    assert!(!machine.controller.teardown_pending[1]);
    assert!(machine.book.teardown_pending[1]);
    assert_eq!(machine.guest_write(0x4A10_081C, 1).answer.number, 0);
    assert!(!machine.book.teardown_pending[1]);
    assert!(machine.controller.registers.reset_bit);
    machine.step(Engine::Reset);
    assert!(!machine.controller.registers.reset_bit && !machine.controller.reset_pending);
    // "four registers await zero with their old values"
    assert_eq!(machine.controller.registers.cp[1], 0xFFFF_FFFC);
    assert!(machine.controller.marks.awaiting());
}

#[test]
fn unguarded_writes() {
    let mut controller = Controller::fresh();
    let mut memory = Memory::fresh();
    assert_eq!(controller.unguarded_write(&mut memory, 0x4A10_0A02, 1), 3);
    assert_eq!(controller.unguarded_write(&mut memory, 0x4A10_0900, 1), 4);
    for register in [TX_HDP, RX_HDP, 0x4A10_0A40, 0x4A10_0A60] {
        assert_eq!(controller.unguarded_write(&mut memory, register, 0), 0);
    }
    assert_eq!(controller.unguarded_write(&mut memory, D0, 7), 0);
    assert_eq!(memory.word(0), 7);
    // "an HDP start with any nonzero value"
    assert_eq!(controller.unguarded_write(&mut memory, TX_HDP, 3), 0);
    assert_eq!(controller.tx, TxPhase::New);
    let before = controller.clone();
    let report = controller.step(&mut memory, Engine::Transmit, Variant::Right);
    assert_eq!(report.answer, 22);
    // "the controller is marked undefined and nothing else changes, now or later"
    assert!(controller.undefined);
    assert_eq!(
        Controller {
            undefined: false,
            ..controller.clone()
        },
        before
    );
    assert_eq!(controller.unguarded_write(&mut memory, 0x4A10_0A02, 1), 22);
    assert_eq!(controller.frame(0), 22);
    assert_eq!(
        Controller {
            undefined: false,
            ..controller
        },
        before
    );
}

#[test]
fn a_probe_case_by_hand() {
    let machine = ready(&[0, 1, 2, 3]);
    let state = State {
        memory: machine.memory.clone(),
        kinds: machine.kinds.clone(),
        book: machine.book.clone(),
        controller: machine.controller.clone(),
    };
    let case = Case {
        call: 0,
        a: 0x4A10_3FFC,
        b: 9,
        state,
    };
    let mut input = probe::write_case(&case);
    input.push(0); // a cut case prints nothing
    let expected = "A 0 1 0\nB 0 0 0\nM 8192 2047:9\nK 4 7 14\nH 0 0 15 0 0\nU\nL\nR 0 0 0 0 0\n\
                    C 15 0 0 1 1 0 0 0\nT 0 0 0 0 0 0 0 0\nX 0 0 0 0 0 0 0 0 0\n";
    assert_eq!(probe::run(&input, Variant::Right), expected);
}

#[test]
fn probe_cases_are_read_back() {
    let mut maker = Maker::new(5);
    let mut rng = Rng::new(6);
    for _ in 0..2000 {
        let case = maker.case();
        for bytes in [probe::write_case(&case), write_noisy(&case, &mut rng)] {
            let mut rest = bytes.as_slice();
            assert_eq!(probe::read_case(&mut rest), Some(case.clone()));
            assert!(rest.is_empty());
            assert_eq!(probe::read_case(&mut &bytes[..bytes.len() - 1]), None);
        }
    }
}
