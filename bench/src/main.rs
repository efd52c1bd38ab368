//! Ours beside the Rust, timed in one process. Writes docs/BENCH.md and docs/bench.svg.
mod clock;
mod ffi;
mod inputs;
mod place;
mod plot;
mod report;
mod rows;

use rows::Row;
use std::fs;
use std::path::Path;
use std::process::ExitCode;

const USAGE: &str = "\
usage: bench [--quick] [--to DIR]
Times libgateway.a, over the crate host, libtimed.a and the Rust, in turn; writes BENCH.md and bench.svg into DIR (default:
docs/ of the repository). --quick takes few samples: it shows that all runs, and its numbers mean nothing.
Exit status: 0 written; 1 the two sides do not agree on an input, or nothing can be written; 2 bad usage.";

/// How often all rows are gone through, and how many samples of a row are taken each time.
#[derive(Clone, Copy)]
pub struct Effort {
    pub rounds: usize,
    pub samples: usize,
}

const FULL: Effort = Effort { rounds: 5, samples: 200 };
const QUICK: Effort = Effort { rounds: 1, samples: 5 };

fn main() -> ExitCode {
    let args: Vec<String> = std::env::args().skip(1).collect();
    let words: Vec<&str> = args.iter().map(String::as_str).collect();
    let docs = concat!(env!("CARGO_MANIFEST_DIR"), "/../docs");
    let (effort, folder) = match words[..] {
        [] => (FULL, docs),
        ["--quick"] => (QUICK, docs),
        ["--to", folder] => (FULL, folder),
        ["--quick", "--to", folder] => (QUICK, folder),
        ["-h" | "--help", ..] => {
            println!("{USAGE}");
            return ExitCode::SUCCESS;
        }
        _ => {
            eprintln!("{USAGE}");
            return ExitCode::from(2);
        }
    };
    match run(effort, Path::new(folder)) {
        Ok(()) => ExitCode::SUCCESS,
        Err(why) => {
            eprintln!("bench: {why}");
            ExitCode::FAILURE
        }
    }
}

fn run(effort: Effort, folder: &Path) -> Result<(), String> {
    let before = load();
    let (mut table, mut growth) = (rows::all()?, rows::growth()?);
    for round in 1..=effort.rounds {
        eprintln!("bench: round {round} of {}", effort.rounds);
        let points = growth.iter_mut().flatten();
        table.iter_mut().chain(points).for_each(|row: &mut Row| row.sides.sample(effort.samples));
    }
    let text = report::text(&table, &growth, effort, [&before, &load()]);
    let write = |name: &str, text: String| fs::write(folder.join(name), text).map_err(|e| format!("{name}: {e}"));
    write("BENCH.md", text)?;
    write("bench.svg", plot::svg(&growth))
}

/// The machine's load over the last minute.
fn load() -> String {
    let text = fs::read_to_string("/proc/loadavg").unwrap_or_default();
    text.split(' ').next().unwrap_or_default().into()
}
