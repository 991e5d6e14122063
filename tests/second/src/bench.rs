//! The bench, as in 01's "The bench".

use crate::controller::{Direction, Engine, StepReport};
use crate::machine::{Machine, Written};
use crate::memory::MAX_BLOCKS;
use crate::variant::Variant;
use std::fmt::Write;

#[derive(Clone, PartialEq, Eq, Debug)]
pub enum Record {
    /// `RM` u16 N and N kinds (first, once).
    Kinds(Vec<u8>),
    /// `GW` u32 address, u32 value.
    GuestWrite(u32, u32),
    /// `KC` u16 block, u8 kind.
    KindChange(u16, u8),
    /// `FR` u16 length.
    Frame(u16),
    /// `ST` u8 engine, u8 count from 1.
    Steps(Engine, u8),
}

impl Record {
    pub fn bytes(&self) -> Vec<u8> {
        let mut out = Vec::new();
        match self {
            Record::Kinds(kinds) => {
                out.extend(b"RM");
                out.extend((kinds.len() as u16).to_le_bytes());
                out.extend(kinds);
            }
            Record::GuestWrite(address, value) => {
                out.extend(b"GW");
                out.extend(address.to_le_bytes());
                out.extend(value.to_le_bytes());
            }
            Record::KindChange(block, kind) => {
                out.extend(b"KC");
                out.extend(block.to_le_bytes());
                out.push(*kind);
            }
            Record::Frame(length) => {
                out.extend(b"FR");
                out.extend(length.to_le_bytes());
            }
            Record::Steps(engine, count) => {
                out.extend(b"ST");
                out.push(engine.number());
                out.push(*count);
            }
        }
        out
    }

    /// As `benchtext.py` writes it.
    pub fn text(&self) -> String {
        match self {
            Record::Kinds(kinds) => {
                let mut out = "RM".to_string();
                for kind in kinds {
                    write!(out, " {kind}").unwrap();
                }
                out
            }
            Record::GuestWrite(address, value) => format!("GW {address:08X} {value:08X}"),
            Record::KindChange(block, kind) => format!("KC {block} {kind}"),
            Record::Frame(length) => format!("FR {length}"),
            Record::Steps(engine, count) => format!("ST {} {count}", engine.name()),
        }
    }
}

/// The record at the start of `rest` and its length in bytes, or None where it is
/// "unknown, cut or unfit".
pub fn read_record(rest: &[u8], first: bool) -> Option<(Record, usize)> {
    let mark = rest.get(0..2)?;
    let fields = &rest[2..];
    let u16_at = |i: usize| Some(u16::from_le_bytes(fields.get(i..i + 2)?.try_into().ok()?));
    let u32_at = |i: usize| Some(u32::from_le_bytes(fields.get(i..i + 4)?.try_into().ok()?));
    match mark {
        b"RM" if first => {
            let n = u16_at(0)? as usize;
            let kinds = fields.get(2..2 + n)?.to_vec();
            let fit = (1..=MAX_BLOCKS).contains(&n) && kinds.iter().all(|&k| k <= 4);
            fit.then_some((Record::Kinds(kinds), 4 + n))
        }
        _ if first => None,
        b"GW" => Some((Record::GuestWrite(u32_at(0)?, u32_at(4)?), 10)),
        b"KC" => Some((Record::KindChange(u16_at(0)?, *fields.get(2)?), 5)),
        b"FR" => Some((Record::Frame(u16_at(0)?), 4)),
        b"ST" => {
            let engine = Engine::by_number(*fields.first()?)?;
            let count = *fields.get(1)?;
            (count > 0).then_some((Record::Steps(engine, count), 4))
        }
        _ => None,
    }
}

/// The good records of a file, and the offset of the bad one if there is one.
pub fn read_file(input: &[u8]) -> (Vec<Record>, Option<usize>) {
    let mut records = Vec::new();
    let mut offset = 0;
    loop {
        if offset == input.len() && !records.is_empty() {
            return (records, None);
        }
        match read_record(&input[offset..], records.is_empty()) {
            None => return (records, Some(offset)),
            Some((record, length)) => {
                records.push(record);
                offset += length;
            }
        }
    }
}

/// What a run shows besides its lines.
pub trait Watcher {
    fn written(&mut self, _written: &Written) {}
    fn kind_changed(&mut self, _answer: u8) {}
    fn framed(&mut self, _answer: u8) {}
    fn stepped(&mut self, _engine: Engine, _report: &StepReport) {}
    fn bad_record(&mut self) {}
}

pub struct NoWatcher;
impl Watcher for NoWatcher {}

/// The whole of what the bench prints for this input.
pub fn run(input: &[u8], variant: Variant, watcher: &mut dyn Watcher) -> String {
    let mut out = String::new();
    let (records, bad) = read_file(input);
    let mut machine = None;
    for record in &records {
        match record {
            Record::Kinds(kinds) => machine = Some(Machine::fresh(kinds.clone(), variant)),
            _ => run_record(machine.as_mut().unwrap(), record, &mut out, watcher),
        }
    }
    match (bad, machine) {
        (None, Some(machine)) => {
            let controller = &machine.controller;
            writeln!(
                out,
                "sent {} received {}",
                controller.sent, controller.received
            )
            .unwrap();
        }
        (bad, _) => {
            watcher.bad_record();
            writeln!(out, "bad record {}", bad.unwrap_or(0)).unwrap();
        }
    }
    out
}

fn run_record(machine: &mut Machine, record: &Record, out: &mut String, watcher: &mut dyn Watcher) {
    match *record {
        Record::Kinds(_) => unreachable!("a second RM is unfit"),
        Record::GuestWrite(address, value) => {
            let written = machine.guest_write(address, value);
            watcher.written(&written);
            writeln!(out, "W {:08X} {}", address, written.answer.number).unwrap();
        }
        Record::KindChange(block, kind) => {
            let answer = machine.kind_change(u32::from(block), u32::from(kind));
            watcher.kind_changed(answer);
            writeln!(out, "K {block} {answer}").unwrap();
        }
        Record::Frame(length) => {
            let answer = machine.frame(u32::from(length));
            watcher.framed(answer);
            writeln!(out, "F {length} {answer}").unwrap();
        }
        Record::Steps(engine, count) => {
            for _ in 0..count {
                let report = machine.step(engine);
                watcher.stepped(engine, &report);
                if let Some(burst) = report.burst {
                    let mark = match burst.direction {
                        Direction::Read => 'R',
                        Direction::Store => 'S',
                    };
                    writeln!(out, "{mark} {:08X} {}", burst.address, burst.bytes).unwrap();
                }
            }
        }
    }
}
