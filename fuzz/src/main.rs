//! The C surface beside the given Rust, on inputs that libFuzzer makes, guided by what they reach.
mod asker;
mod bare;
mod blocks;
mod clean;
mod fence;
#[allow(dead_code)] // not every field is looked at
#[path = "../../host/src/ffi.rs"]
mod ffi;
mod form;
mod mutate;
mod runtime;
mod seen;

use asker::Asker;
use oracle::harness::record;
use std::path::Path;
use std::process::ExitCode;
use std::{fs, io};
use surface::ours;
use surface::tally::named_differences;

const USAGE: &str = "\
usage: fuzz seeds DIR    writes the lists of oracle/cases as inputs, and one that is too long of each operation
       fuzz show FILE..  what each input asks, and both answers
       fuzz run WORD..   libFuzzer, with its own words (fuzz run -help=1); the counts at the end, on standard output.
                         FUZZ_BLOCKS names a list of the archive's blocks, to count those that are run
fuzz/run builds it and does all of it.
Exit status: 0 nothing differs; 1 something does, or a file cannot be read or written; 2 bad usage. Of run: libFuzzer's.";

/// The documents' examples and the fixed lists.
const CASES: &str = concat!(env!("CARGO_MANIFEST_DIR"), "/../oracle/cases");

fn main() -> ExitCode {
    std::panic::set_hook(Box::new(|_| ())); // a panic of the Rust is an answer
    let args: Vec<String> = std::env::args().skip(1).collect();
    let words: Vec<&str> = args.iter().map(String::as_str).collect();
    let done = match words[..] {
        ["seeds", folder] => seeds(Path::new(folder)),
        ["show", ref files @ ..] if !files.is_empty() => show(files),
        ["run", ..] => run(&args),
        ["-h" | "--help", ..] => {
            println!("{USAGE}");
            return ExitCode::SUCCESS;
        }
        _ => {
            eprintln!("{USAGE}");
            return ExitCode::from(2);
        }
    };
    match done {
        Ok(true) => ExitCode::SUCCESS,
        Ok(false) => ExitCode::FAILURE,
        Err(e) => {
            eprintln!("fuzz: {e}");
            ExitCode::FAILURE
        }
    }
}

fn run(words: &[String]) -> io::Result<bool> {
    if let Some(list) = std::env::var_os("FUZZ_BLOCKS") {
        blocks::watch(&fs::read_to_string(list)?)?;
    }
    Ok(runtime::run(Asker::new(named_differences()?, false)?, words) == 0)
}

fn show(files: &[&str]) -> io::Result<bool> {
    let named = named_differences()?;
    let mut agrees = true;
    for file in files {
        let mut asker = Asker::new(named.clone(), true)?;
        if let Some(fault) = asker.input(&fs::read(file)?) {
            println!("{fault}");
            agrees = false;
        }
    }
    Ok(agrees)
}

/// A case with its bytes written out.
fn plain(case: &str) -> Option<String> {
    let packed = record::pack(case).ok()?;
    Some(record::unpack(&packed).ok()?.0)
}

/// Every case of the lists that is one of an operation of the surface's, and one that is too long of each operation.
fn seeds(folder: &Path) -> io::Result<bool> {
    let mut lists = fs::read_dir(CASES)?.map(|list| Ok(list?.path())).collect::<io::Result<Vec<_>>>()?;
    lists.sort();
    let (mut made, mut left) = (0, 0);
    for list in lists {
        let text = fs::read_to_string(list)?;
        for case in text.lines().filter_map(|line| Some(line.split_once(" = ")?.0)) {
            let op = case.split(' ').next().unwrap_or_default();
            match plain(case).and_then(|case| form::input(&case)) {
                Some(input) => {
                    made += 1;
                    fs::write(folder.join(format!("{op}-{made}")), input)?;
                }
                None => left += usize::from(ours::operations().any(|known| known == op)),
            }
        }
    }
    for (i, input) in form::too_long().enumerate() {
        fs::write(folder.join(format!("long-{i}")), input)?;
    }
    println!("{made} cases of the lists as inputs; {left} that no input is");
    Ok(true)
}
