//! The C surface beside the given Rust, in one process: every case of the oracle's that the surface can answer.
use oracle::harness::cases;
use std::process::ExitCode;
use surface::ours;
use surface::tally::{Tally, named_differences};

const USAGE: &str = "\
usage: surface [--seed S] [--count N] [--op OP..]  N random cases (default 1000000, seed 1), of these operations or of all
       surface --exhaust [--op OP..]               every short case
Asks libgateway.a, over the crate host, and the Rust; compares every value, place, refusal and lent byte. README.md says what
cannot be asked over the surface: such a case is not counted.
Exit status: 0 nothing differs; 1 something does, a class of answer never came up, or a mark has no entry in
docs/DIFFERENCES.md; 2 bad usage.
Operations: ";

/// What is asked for.
struct Wanted {
    seed: u64,
    count: u64,
    is_exhaustive: bool,
    ops: Vec<&'static str>,
}

fn wanted(args: &[String]) -> Option<Wanted> {
    let mut wanted = Wanted { seed: 1, count: 1_000_000, is_exhaustive: false, ops: Vec::new() };
    let mut words = args.iter().map(String::as_str).peekable();
    while let Some(word) = words.next() {
        match word {
            "--seed" => wanted.seed = words.next()?.parse().ok()?,
            "--count" => wanted.count = words.next()?.parse().ok()?,
            "--exhaust" => wanted.is_exhaustive = true,
            "--op" => {
                while let Some(name) = words.next_if(|word| !word.starts_with("--")) {
                    wanted.ops.push(ours::operations().find(|op| *op == name)?);
                }
            }
            _ => return None,
        }
    }
    if wanted.ops.is_empty() {
        wanted.ops.extend(ours::operations());
    }
    Some(wanted)
}

fn main() -> ExitCode {
    let args: Vec<String> = std::env::args().skip(1).collect();
    let usage = || format!("{USAGE}{}.", ours::operations().collect::<Vec<_>>().join(" "));
    if args.iter().any(|word| word == "-h" || word == "--help") {
        println!("{}", usage());
        return ExitCode::SUCCESS;
    }
    let Some(wanted) = wanted(&args) else {
        eprintln!("{}", usage());
        return ExitCode::from(2);
    };
    let named = match named_differences() {
        Ok(named) => named,
        Err(e) => {
            eprintln!("surface: docs/DIFFERENCES.md: {e}");
            return ExitCode::from(2);
        }
    };
    std::panic::set_hook(Box::new(|_| ())); // a panic of the Rust is an answer
    let mut tally = Tally::new(&wanted.ops);
    if wanted.is_exhaustive {
        exhaust(&mut tally);
    } else {
        println!("seed {}", wanted.seed);
        if let Err(text) = random(&mut tally, &wanted) {
            eprintln!("surface: {text}");
            return ExitCode::from(2);
        }
    }
    if tally.report(&named) { ExitCode::SUCCESS } else { ExitCode::FAILURE }
}

fn exhaust(tally: &mut Tally) {
    cases::exhaust(&mut |question| {
        if !tally.is_hopeless() {
            ask(tally, &question);
        }
    });
}

/// Cases from the first on, until so many were asked.
fn random(tally: &mut Tally, wanted: &Wanted) -> Result<(), String> {
    let mut case = 0;
    while tally.asked() < wanted.count && !tally.is_hopeless() {
        let question = cases::random(wanted.seed, case, &wanted.ops);
        ask(tally, &question.ok_or_else(|| format!("the oracle lacks one of {}", wanted.ops.join(" ")))?);
        case += 1;
    }
    Ok(())
}

fn ask(tally: &mut Tally, question: &str) {
    if tally.ask(question).is_some() {
        tally.progress();
    }
}
