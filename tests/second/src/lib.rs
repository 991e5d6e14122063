//! A second model of the guard and the controller of document 01, written from
//! 01, its open points and PROBE.md alone, and the harness that compares it
//! with another program.
//!
//! The model: `memory`, `book`, `guard`, `controller`, `machine`.
//! What is printed: `bench`, `probe`.
//! The harness: `rng`, `traffic`, `monitor`, `external`, `cases`,
//! `compare_bench`, `compare_probe`, `probe_gen`, `sequences`.

pub mod bench;
pub mod book;
pub mod cases;
pub mod compare_bench;
pub mod compare_probe;
pub mod controller;
pub mod external;
pub mod guard;
pub mod machine;
pub mod memory;
pub mod monitor;
pub mod probe;
pub mod probe_gen;
pub mod rng;
pub mod sequences;
pub mod tally;
pub mod traffic;
pub mod variant;
