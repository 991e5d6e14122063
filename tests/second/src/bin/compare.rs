//! The comparison harness. Every subcommand's last line is `N passed, M failed`, and it
//! exits with 0 only where M is 0.
//!
//!   compare cases     --bench PATH
//!   compare bench     --bench PATH [--files N] [--seed S]
//!   compare probe     --probe PATH [--cases N] [--seed S]
//!   compare traces    --bench PATH FILE..
//!   compare fuzz      --bench PATH [--probe PATH] --seconds S [--seed S]
//!   compare sequences [--runs N] [--seed S] [--seconds S]
//!   compare broken

use second::external::External;
use second::variant::Variant;
use second::{bench, cases, compare_bench, compare_probe, sequences};
use std::collections::HashMap;
use std::process::ExitCode;
use std::time::{Duration, Instant};

#[derive(Default)]
struct Score {
    passed: u64,
    failed: u64,
}

impl Score {
    fn add(&mut self, ok: bool) {
        if ok {
            self.passed += 1;
        } else {
            self.failed += 1;
        }
    }

    fn finish(self) -> ExitCode {
        println!("{} passed, {} failed", self.passed, self.failed);
        if self.failed == 0 && self.passed > 0 {
            ExitCode::SUCCESS
        } else {
            ExitCode::FAILURE
        }
    }
}

/// Flags with a value each, and what stands without a flag.
struct Arguments {
    flags: HashMap<String, String>,
    rest: Vec<String>,
}

impl Arguments {
    fn read(words: &[String]) -> Result<Arguments, String> {
        let mut arguments = Arguments {
            flags: HashMap::new(),
            rest: Vec::new(),
        };
        let mut words = words.iter();
        while let Some(word) = words.next() {
            match word.strip_prefix("--") {
                None => arguments.rest.push(word.clone()),
                Some(flag) => {
                    let value = words.next().ok_or(format!("--{flag} needs a value"))?;
                    arguments.flags.insert(flag.to_string(), value.clone());
                }
            }
        }
        Ok(arguments)
    }

    fn number(&self, flag: &str, default: u64) -> Result<u64, String> {
        match self.flags.get(flag) {
            None => Ok(default),
            Some(text) => text
                .parse()
                .map_err(|_| format!("--{flag} {text} is no number")),
        }
    }

    fn program(&self, flag: &str) -> Result<External, String> {
        let path = self
            .flags
            .get(flag)
            .ok_or(format!("--{flag} PATH is missing"))?;
        External::new(path)
    }
}

fn main() -> ExitCode {
    let words: Vec<String> = std::env::args().skip(1).collect();
    let Some((command, rest)) = words.split_first() else {
        println!("usage: compare cases|bench|probe|traces|fuzz|sequences|broken ..");
        println!("0 passed, 1 failed");
        return ExitCode::FAILURE;
    };
    let score = Arguments::read(rest).and_then(|arguments| match command.as_str() {
        "cases" => run_cases(&arguments),
        "bench" => run_bench(&arguments),
        "probe" => run_probe(&arguments),
        "traces" => run_traces(&arguments),
        "fuzz" => run_fuzz(&arguments),
        "sequences" => run_sequences(&arguments),
        "broken" => run_broken(&arguments),
        other => Err(format!("no such subcommand: {other}")),
    });
    match score {
        Ok(score) => score.finish(),
        Err(what) => {
            println!("{what}");
            Score {
                passed: 0,
                failed: 1,
            }
            .finish()
        }
    }
}

fn run_cases(arguments: &Arguments) -> Result<Score, String> {
    let external = arguments.program("bench")?;
    let mut score = Score::default();
    for case in cases::all() {
        let ours = bench::run(&case.input, Variant::Right, &mut bench::NoWatcher);
        let theirs = String::from_utf8_lossy(&external.run(&case.input)).into_owned();
        let ok = ours == case.expected && theirs == case.expected;
        score.add(ok);
        if ok {
            println!("ok {}", case.name);
            continue;
        }
        println!("FAILED {}", case.name);
        println!("--- expected by hand\n{}", case.expected);
        if ours != case.expected {
            println!("--- second model\n{ours}");
        }
        if theirs != case.expected {
            println!("--- external program\n{theirs}");
        }
        if case.input.len() < 4000 {
            println!("--- the file\n{}", compare_bench::as_text(&case.input));
        }
    }
    Ok(score)
}

/// Prints what never occurred, one failure each.
fn require(score: &mut Score, missing: Vec<String>) {
    for key in missing {
        println!("FAILED: never occurred: {key}");
        score.failed += 1;
    }
}

fn run_bench(arguments: &Arguments) -> Result<Score, String> {
    let external = arguments.program("bench")?;
    let files = arguments.number("files", 2400)?;
    let seed = arguments.number("seed", 1)?;
    let started = Instant::now();
    let result = compare_bench::compare(&external, files, seed);
    println!(
        "{} files in {:.1} s",
        result.files,
        started.elapsed().as_secs_f64()
    );
    result.counter.tally.print();
    let mut score = Score {
        passed: result.files - result.failed,
        failed: result.failed,
    };
    if result.counter.twenty_two {
        println!("FAILED: the second model itself came to 22");
        score.failed += 1;
    }
    if result.failed == 0 {
        require(
            &mut score,
            result.counter.tally.missing(&compare_bench::wanted()),
        );
    }
    Ok(score)
}

fn run_probe(arguments: &Arguments) -> Result<Score, String> {
    let external = arguments.program("probe")?;
    let cases = arguments.number("cases", 24_000)?;
    let seed = arguments.number("seed", 1)?;
    let started = Instant::now();
    let result = compare_probe::compare(&external, cases, seed);
    println!(
        "{} cases in {:.1} s",
        result.cases,
        started.elapsed().as_secs_f64()
    );
    result.tally.print();
    let mut score = Score {
        passed: result.cases - result.failed,
        failed: result.failed,
    };
    if result.failed == 0 {
        require(&mut score, result.tally.missing(&compare_probe::wanted()));
    }
    Ok(score)
}

fn run_traces(arguments: &Arguments) -> Result<Score, String> {
    let external = arguments.program("bench")?;
    let mut score = Score::default();
    if arguments.rest.is_empty() {
        return Err("no files given".to_string());
    }
    for path in &arguments.rest {
        let input = std::fs::read(path).map_err(|e| format!("{path}: {e}"))?;
        let ours = compare_bench::model_output(&input);
        let same = external.run(&input) == ours;
        score.add(same);
        if same {
            let lines = ours.iter().filter(|&&b| b == b'\n').count();
            println!("ok {path} ({lines} lines)");
            continue;
        }
        println!("FAILED {path}: outputs differ; shrinking");
        let (records, bad) = bench::read_file(&input);
        let mut pieces: Vec<Vec<u8>> = records.iter().map(|r| r.bytes()).collect();
        if let Some(offset) = bad {
            pieces.push(input[offset..].to_vec());
        }
        let small = compare_bench::shrink(&external, &pieces).concat();
        let ours = compare_bench::model_output(&small);
        compare_bench::print_difference(&small, &ours, &external.run(&small));
        compare_bench::keep_file("second-difference.bench", &small);
    }
    Ok(score)
}

/// New seeds until the time is over or something differs. What never occurred is no
/// failure here: one seed makes too few for that.
fn run_fuzz(arguments: &Arguments) -> Result<Score, String> {
    let bench = arguments.program("bench")?;
    let probe = match arguments.flags.contains_key("probe") {
        true => Some(arguments.program("probe")?),
        false => None,
    };
    let seconds = arguments.number("seconds", 60)?;
    let clock = std::time::SystemTime::now().duration_since(std::time::UNIX_EPOCH);
    let by_clock = clock.map_or(1, |d| d.as_secs() % 1_000_000_000);
    let mut seed = arguments.number("seed", by_clock)?;
    let until = Instant::now() + Duration::from_secs(seconds);
    let mut score = Score::default();
    while Instant::now() < until && score.failed == 0 {
        let files = compare_bench::compare(&bench, 200, seed);
        score.passed += files.files - files.failed;
        score.failed += files.failed;
        if let Some(probe) = probe.as_ref().filter(|_| score.failed == 0) {
            let cases = compare_probe::compare(probe, 8000, seed);
            score.passed += cases.cases - cases.failed;
            score.failed += cases.failed;
        }
        println!("seed {seed}: {} passed so far", score.passed);
        seed += 1;
    }
    Ok(score)
}

fn run_sequences(arguments: &Arguments) -> Result<Score, String> {
    let runs = arguments.number("runs", 1500)?;
    let seed = arguments.number("seed", 1)?;
    let seconds = arguments.number("seconds", 3)?;
    let mut score = Score::default();
    let mut operations = 0;
    let started = Instant::now();
    for i in 0..runs {
        let (checked, found) = sequences::one_run(seed * 1_000_000 + i, Variant::Right);
        operations += checked;
        score.add(found.is_none());
        if let Some(found) = found {
            println!("FAILED run {i} of seed {seed}");
            sequences::print_found(&sequences::shrink(found, Variant::Right));
            break;
        }
    }
    println!(
        "{runs} random sequences, {operations} operations checked, {:.1} s",
        started.elapsed().as_secs_f64()
    );
    for scene in sequences::exhaust(Variant::Right, Duration::from_secs(seconds)) {
        let extent = if scene.complete {
            "every state that can be reached".to_string()
        } else {
            format!("all orders to depth {}", scene.depth)
        };
        println!(
            "exhaustive: {}: {extent}, {} states, {} operations",
            scene.name, scene.states, scene.operations
        );
        operations += scene.operations;
        score.add(scene.found.is_none());
        if let Some(found) = scene.found {
            println!("FAILED");
            sequences::print_found(&found);
        }
    }
    println!("{operations} operations checked in all");
    Ok(score)
}

fn run_broken(_arguments: &Arguments) -> Result<Score, String> {
    let mut score = Score::default();
    for variant in Variant::BROKEN {
        let (runs, random) = sequences::hunt(variant, 1500);
        match &random {
            Some(found) => {
                println!("found {} by random run {runs}, shrunk to:", variant.name());
                sequences::print_found(found);
            }
            None => println!("not found {} in {runs} random runs", variant.name()),
        }
        for scene in sequences::exhaust(variant, Duration::from_millis(300)) {
            if let Some(found) = scene.found {
                println!(
                    "found {} by the exhaustive scene \"{}\": {}",
                    variant.name(),
                    scene.name,
                    found.violation
                );
            }
        }
        let directed = sequences::directed(variant);
        if let Some(found) = &directed {
            println!(
                "found {} by a scene made for it: {}",
                variant.name(),
                found.violation
            );
        }
        let ok = random.is_some() || directed.is_some();
        if !ok {
            println!("FAILED {}: no violation found", variant.name());
        }
        score.add(ok);
    }
    Ok(score)
}
