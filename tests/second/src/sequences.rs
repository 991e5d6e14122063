//! Demand 3 on this model alone: from a fresh machine, whatever the guest does through
//! the guard, the controller stays defined, reads only Linux's blocks, stores only into
//! data blocks and changes only descriptor words in use. Random sequences, a small
//! exhaustive search, and broken variants that the same check must find.

use crate::bench::Record;
use crate::controller::Engine;
use crate::memory::*;
use crate::monitor::Monitored;
use crate::rng::Rng;
use crate::traffic::*;
use crate::variant::Variant;
use std::collections::hash_map::DefaultHasher;
use std::collections::HashSet;
use std::hash::{Hash, Hasher};
use std::time::{Duration, Instant};

/// A sequence of records that breaks the demand, and how.
pub struct Found {
    pub records: Vec<Record>,
    pub violation: String,
}

/// One random sequence; the number of operations checked, and what it found.
pub fn one_run(seed: u64, variant: Variant) -> (u64, Option<Found>) {
    let mut rng = Rng::new(seed);
    let profile = rng.pick(&Profile::ALL);
    let wanted = rng.between(60, 300) as usize;
    let mut guest = Guest::new(rng.next(), profile, variant);
    guest.run(wanted);
    let found = guest.world.violation.clone().map(|violation| Found {
        records: guest.records.clone(),
        violation,
    });
    (guest.world.operations, found)
}

/// The records again from a fresh machine: what goes wrong, if anything.
fn replay(records: &[Record], variant: Variant) -> Option<String> {
    let Some(Record::Kinds(kinds)) = records.first() else {
        return None;
    };
    let mut world = Monitored::fresh(kinds.clone(), variant);
    for record in &records[1..] {
        world.record(record);
        if world.violation.is_some() {
            return world.violation;
        }
    }
    None
}

/// Fewer records that still break it.
pub fn shrink(found: Found, variant: Variant) -> Found {
    let mut best = found;
    let mut size = best.records.len() / 2;
    while size > 0 {
        let mut dropped = false;
        let mut at = 1;
        while at < best.records.len() {
            let mut fewer = best.records.clone();
            fewer.drain(at..(at + size).min(best.records.len()));
            match replay(&fewer, variant) {
                Some(violation) => {
                    best = Found {
                        records: fewer,
                        violation,
                    };
                    dropped = true;
                }
                None => at += size,
            }
        }
        if !dropped || size > 1 {
            size /= 2;
        }
    }
    best
}

pub fn print_found(found: &Found) {
    for record in &found.records {
        println!("    {}", record.text());
    }
    println!("    {}", found.violation);
}

// ---------------------------------------------------------------- exhaustive search

/// A start and the operations to try in every order.
struct Scene {
    name: &'static str,
    kinds: Vec<u8>,
    setup: Vec<Record>,
    operations: Vec<Record>,
}

const D0: u32 = DESC_START;
const D1: u32 = DESC_START + 16;
const D2: u32 = DESC_START + 32;
const D3: u32 = DESC_START + 48;
const D4: u32 = DESC_START + 64;
const ONE: u32 = SOP | EOP | OWNER;

fn write(address: u32, value: u32) -> Record {
    Record::GuestWrite(address, value)
}

fn step(engine: Engine) -> Record {
    Record::Steps(engine, 1)
}

fn zeros() -> Vec<Record> {
    [HDP[0], HDP[1], CP[0], CP[1]]
        .iter()
        .map(|&r| write(r, 0))
        .collect()
}

fn stored(at: u32, words: [u32; 4]) -> Vec<Record> {
    (0..4).map(|w| write(at + 4 * w as u32, words[w])).collect()
}

fn scenes() -> Vec<Scene> {
    let tx_td = Engine::Teardown(Side::Transmit);
    let rx_td = Engine::Teardown(Side::Receive);
    let mut transmit = zeros();
    transmit.extend(stored(D0, [0, 0x8000_0000, 2, ONE | 2]));
    transmit.extend(stored(D1, [0, 0x8000_1000, 1, ONE | 1]));
    let mut receive = zeros();
    receive.extend(stored(D0, [0, 0x8000_0000, 2, OWNER]));
    receive.extend(stored(D1, [0, 0x8000_1000, 1, OWNER]));
    let mut both = zeros();
    both.extend(stored(D0, [D0 + 20, 0x8000_0000, 1, SOP | OWNER | 2]));
    both.extend(stored(D0 + 20, [0, 0x8000_0000, 1, EOP]));
    both.extend(stored(D2 + 4, [0, 0x8000_1000, 1, OWNER]));
    let mut all = zeros();
    all.extend(stored(D0, [0, 0x8000_0000, 1, ONE | 1]));
    all.extend(stored(D1, [D1 + 16, 0x8000_0FFF, 2, SOP | OWNER | 3]));
    all.extend(stored(D2, [0, 0x8000_1000, 1, EOP]));
    all.extend(stored(D3, [0, 0x8000_0FFF, 2, OWNER]));
    all.extend(stored(D4, [0, 0x8000_1000, 1, OWNER]));
    let everything = vec![
        write(HDP[0], D0),
        write(HDP[0], D1),
        write(HDP[1], D3),
        write(D0, D1),
        write(D2, D0),
        write(D3, D4),
        write(D0, 0),
        write(D3, 0),
        write(D0 + 12, ONE | 1),
        write(D3 + 12, OWNER),
        write(D3 + 8, 2),
        write(TX_TEARDOWN, 0),
        write(RX_TEARDOWN, 0),
        write(CP[0], TEARDOWN_CODE),
        write(CP[1], TEARDOWN_CODE),
        write(SOFT_RESET, 1),
        write(HDP[0], 0),
        write(HDP[1], 0),
        write(CP[0], 0),
        write(CP[1], 0),
        Record::Frame(3),
        Record::KindChange(0, 2),
        Record::KindChange(1, 2),
        Record::KindChange(0, 1),
        Record::KindChange(1, 1),
        step(Engine::Transmit),
        step(Engine::Receive),
        step(tx_td),
        step(rx_td),
        step(Engine::Reset),
    ];
    let sending = [0, 1, 3, 4, 6, 8, 11, 13, 15, 16, 17, 18, 19, 21, 25, 27, 29];
    let receiving = [
        2, 5, 7, 9, 10, 12, 14, 15, 16, 17, 18, 19, 20, 21, 22, 23, 26, 28, 29,
    ];
    let some = |of: &[usize]| of.iter().map(|&i| everything[i].clone()).collect();
    vec![
        Scene {
            name: "all of transmit",
            kinds: vec![1, 1],
            setup: all.clone(),
            operations: some(&sending),
        },
        Scene {
            name: "all of receive",
            kinds: vec![1, 1],
            setup: all.clone(),
            operations: some(&receiving),
        },
        Scene {
            name: "everything",
            kinds: vec![1, 1],
            setup: all,
            operations: everything,
        },
        Scene {
            name: "transmit, appends, teardown",
            kinds: vec![1, 2],
            setup: transmit.clone(),
            operations: vec![
                write(HDP[0], D0),
                write(HDP[0], D1),
                write(D0, D1),
                write(D0, 0),
                write(D0 + 12, ONE | 2),
                write(CP[0], TEARDOWN_CODE),
                write(TX_TEARDOWN, 0),
                step(Engine::Transmit),
                step(tx_td),
                Record::KindChange(0, 2),
            ],
        },
        Scene {
            name: "transmit, reset",
            kinds: vec![1, 2],
            setup: transmit,
            operations: vec![
                write(HDP[0], D0),
                write(HDP[0], 0),
                write(HDP[1], 0),
                write(CP[0], 0),
                write(CP[1], 0),
                write(D0, D1),
                write(SOFT_RESET, 1),
                step(Engine::Transmit),
                step(Engine::Reset),
            ],
        },
        Scene {
            name: "receive, appends, kinds, teardown",
            kinds: vec![1, 1],
            setup: receive,
            operations: vec![
                write(HDP[1], D0),
                write(D0, D1),
                write(D0 + 12, OWNER),
                write(RX_TEARDOWN, 0),
                write(CP[1], TEARDOWN_CODE),
                Record::Frame(3),
                step(Engine::Receive),
                step(rx_td),
                Record::KindChange(0, 2),
                Record::KindChange(1, 2),
                Record::KindChange(0, 1),
            ],
        },
        Scene {
            name: "both sides over crooked descriptors",
            kinds: vec![1, 1],
            setup: both,
            operations: vec![
                write(HDP[0], D0),
                write(HDP[1], D2 + 4),
                write(HDP[1], D0 + 8),
                write(D0 + 20, D2 + 4),
                write(D2 + 4, D0 + 8),
                write(D0 + 20, OWNER),
                Record::Frame(1),
                step(Engine::Transmit),
                step(Engine::Receive),
                Record::KindChange(1, 3),
            ],
        },
    ]
}

/// What tells two states apart. The totals are left out: nothing depends on them, and
/// without them the states that can be reached are finitely many.
fn fingerprint(world: &Monitored) -> u64 {
    let machine = &world.machine;
    let mut hasher = DefaultHasher::new();
    let mut controller = machine.controller.clone();
    (controller.sent, controller.received) = (0, 0);
    controller.hash(&mut hasher);
    machine.kinds.hash(&mut hasher);
    let book = &machine.book;
    (
        book.heads,
        book.marks,
        book.reset_pending,
        book.teardown_pending,
    )
        .hash(&mut hasher);
    for word in 0..DESC_WORDS {
        let entry = (
            machine.memory.word(word),
            book.in_use[word],
            book.lengths[word],
        );
        if entry != (0, 0, 0) {
            (word, entry).hash(&mut hasher);
        }
    }
    hasher.finish()
}

pub struct Exhausted {
    pub name: &'static str,
    /// All orders of so many operations were tried.
    pub depth: u32,
    /// Nothing new can be reached: every order of any number was tried.
    pub complete: bool,
    pub states: usize,
    pub operations: u64,
    pub found: Option<Found>,
}

/// Every order of each scene's operations, level by level, each state once, until there
/// is nothing new or the time is over.
pub fn exhaust(variant: Variant, each: Duration) -> Vec<Exhausted> {
    scenes()
        .iter()
        .map(|scene| exhaust_scene(scene, variant, each))
        .collect()
}

fn exhaust_scene(scene: &Scene, variant: Variant, each: Duration) -> Exhausted {
    let until = Instant::now() + each;
    let mut start = Monitored::fresh(scene.kinds.clone(), variant);
    for record in &scene.setup {
        start.record(record);
    }
    // How each state was first reached: the state before and the operation.
    let mut reached_by: Vec<(usize, usize)> = vec![(0, 0)];
    let mut seen = HashSet::from([fingerprint(&start)]);
    let mut level = vec![(0usize, start)];
    let mut out = Exhausted {
        name: scene.name,
        depth: 0,
        complete: false,
        states: 1,
        operations: 0,
        found: None,
    };
    loop {
        let mut next_level = Vec::new();
        for (number, world) in &level {
            if Instant::now() > until {
                return out;
            }
            for (i, operation) in scene.operations.iter().enumerate() {
                let mut next = world.clone();
                next.record(operation);
                out.operations += 1;
                if let Some(violation) = next.violation {
                    let records = path_to(scene, &reached_by, *number, i);
                    out.found = Some(Found { records, violation });
                    return out;
                }
                if seen.insert(fingerprint(&next)) {
                    reached_by.push((*number, i));
                    next_level.push((reached_by.len() - 1, next));
                    out.states += 1;
                }
            }
        }
        out.depth += 1;
        if next_level.is_empty() {
            out.complete = true;
            return out;
        }
        level = next_level;
    }
}

/// The records from the fresh machine to a state, and one operation more.
fn path_to(scene: &Scene, reached_by: &[(usize, usize)], state: usize, last: usize) -> Vec<Record> {
    let mut backwards = vec![last];
    let mut at = state;
    while at != 0 {
        let (before, operation) = reached_by[at];
        backwards.push(operation);
        at = before;
    }
    let mut records = vec![Record::Kinds(scene.kinds.clone())];
    records.extend(scene.setup.iter().cloned());
    records.extend(backwards.iter().rev().map(|&i| scene.operations[i].clone()));
    records
}

// ---------------------------------------------------------------- broken variants

/// Random runs of a broken variant until the check finds it.
pub fn hunt(variant: Variant, runs: u64) -> (u64, Option<Found>) {
    for i in 0..runs {
        let (_, found) = one_run(0xB40C_0000 + i, variant);
        if let Some(found) = found {
            return (i + 1, Some(shrink(found, variant)));
        }
    }
    (runs, None)
}

/// A scene made for one variant.
pub fn directed(variant: Variant) -> Option<Found> {
    let mut guest = Guest::over(vec![1, 2, 0, 1], variant);
    guest.initialise();
    match variant {
        Variant::OverlapFirstWordOnly => {
            for _ in 0..10 {
                guest.overlap_only_13_stops();
            }
        }
        Variant::StepSixReadsAgain => {
            let chain = [Planned {
                at: D0,
                words: [0, 0x8000_0000, 2, ONE | 2],
            }];
            guest.store(&chain);
            guest.write(HDP[0], D0);
            for _ in 0..5 {
                guest.step(Engine::Transmit);
            }
            guest.write(D0, 4);
            for _ in 0..2 {
                guest.step(Engine::Transmit);
            }
        }
        _ => return None,
    }
    let violation = guest.world.violation.clone()?;
    Some(shrink(
        Found {
            records: guest.records.clone(),
            violation,
        },
        variant,
    ))
}
