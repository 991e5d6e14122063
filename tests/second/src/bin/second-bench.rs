//! The bench over the second model: a bench file on standard input, its lines on
//! standard output. `second-bench --variant NAME` runs a broken variant, to try the
//! comparison itself.

use second::bench::{run, NoWatcher};
use second::variant::Variant;
use std::io::{Read, Write};

fn main() {
    let arguments: Vec<String> = std::env::args().skip(1).collect();
    let variant = match arguments.as_slice() {
        [] => Variant::Right,
        [flag, name] if flag == "--variant" => Variant::by_name(name).expect("no such variant"),
        _ => panic!("usage: second-bench [--variant NAME] < file"),
    };
    let mut input = Vec::new();
    std::io::stdin()
        .read_to_end(&mut input)
        .expect("standard input");
    let output = run(&input, variant, &mut NoWatcher);
    std::io::stdout()
        .write_all(output.as_bytes())
        .expect("standard output");
}
