//! The probe over the second model: PROBE.md cases on standard input, eleven lines
//! for each on standard output. `second-probe --variant NAME` runs a broken variant.

use second::probe::run;
use second::variant::Variant;
use std::io::{Read, Write};

fn main() {
    let arguments: Vec<String> = std::env::args().skip(1).collect();
    let variant = match arguments.as_slice() {
        [] => Variant::Right,
        [flag, name] if flag == "--variant" => Variant::by_name(name).expect("no such variant"),
        _ => panic!("usage: second-probe [--variant NAME] < cases"),
    };
    let mut input = Vec::new();
    std::io::stdin()
        .read_to_end(&mut input)
        .expect("standard input");
    let output = run(&input, variant);
    std::io::stdout()
        .write_all(output.as_bytes())
        .expect("standard output");
}
