//! The oracle's program: cases, and the Rust's answers to them.
#![forbid(unsafe_code)]
use oracle::harness::{ask, cases, record, words::Bad};
use std::io::{self, BufRead, BufWriter, Read, Write};
use std::process::ExitCode;

const USAGE: &str = "\
usage: oracle ask                          answers to lines, a line each
       oracle ask-packed                   answers to packed records
       oracle pack                         lines to packed records
       oracle unpack                       packed records to lines
       oracle random SEED FROM COUNT OP..  random cases FROM .. FROM + COUNT, as lines, of these operations or of all
       oracle exhaust                      every short case, as lines
Lines and records are read on standard input; an empty line, or one that starts with #, is passed over.
oracle/README.md has the operations. Exit status: 0; 1 for input that cannot be read, 2 for bad usage.";

fn main() -> ExitCode {
    std::panic::set_hook(Box::new(|_| ())); // a panic is an answer
    let args: Vec<String> = std::env::args().skip(1).collect();
    let words: Vec<&str> = args.iter().map(String::as_str).collect();
    let mut out = BufWriter::with_capacity(1 << 16, io::stdout().lock());
    let done = match words[..] {
        ["ask"] => lines(|line| put_answer(&mut out, line)),
        ["ask-packed"] => records(|line| put_answer(&mut out, line)),
        ["pack"] => lines(|line| out.write_all(&record::pack(line).map_err(|Bad| bad(line))?)),
        ["unpack"] => records(|line| writeln!(out, "{line}")),
        ["random", seed, from, count, ref ops @ ..] => random(&mut out, [seed, from, count], ops),
        ["exhaust"] => exhaust(&mut out),
        ["-h" | "--help"] => writeln!(out, "{USAGE}"),
        _ => {
            eprintln!("{USAGE}");
            return ExitCode::from(2);
        }
    };
    match done.and_then(|()| out.flush()) {
        Ok(()) => ExitCode::SUCCESS,
        Err(e) => {
            eprintln!("oracle: {e}");
            ExitCode::FAILURE
        }
    }
}

fn bad(what: &str) -> io::Error {
    io::Error::new(io::ErrorKind::InvalidData, format!("BAD REQUEST {what}"))
}

fn put_answer(out: &mut impl Write, line: &str) -> io::Result<()> {
    let mut answer = String::new();
    ask::answer(line, &mut answer);
    writeln!(out, "{answer}")
}

fn lines(mut each: impl FnMut(&str) -> io::Result<()>) -> io::Result<()> {
    for line in io::stdin().lock().lines() {
        let line = line?;
        if !line.is_empty() && !line.starts_with('#') {
            each(&line)?;
        }
    }
    Ok(())
}

fn records(mut each: impl FnMut(&str) -> io::Result<()>) -> io::Result<()> {
    let mut all = Vec::new();
    io::stdin().lock().read_to_end(&mut all)?;
    let mut left = &all[..];
    while !left.is_empty() {
        let (line, rest) = record::unpack(left).map_err(|Bad| bad("record"))?;
        each(&line)?;
        left = rest;
    }
    Ok(())
}

fn random(out: &mut impl Write, numbers: [&str; 3], ops: &[&str]) -> io::Result<()> {
    let mut parsed = [0u64; 3];
    for (word, number) in numbers.iter().zip(&mut parsed) {
        *number = word.parse().map_err(|_| bad(word))?;
    }
    let [seed, from, count] = parsed;
    for case in from..from.saturating_add(count) {
        let line = cases::random(seed, case, ops).ok_or_else(|| bad(&ops.join(" ")))?;
        writeln!(out, "{line}")?;
    }
    Ok(())
}

fn exhaust(out: &mut impl Write) -> io::Result<()> {
    let mut failed = Ok(());
    cases::exhaust(&mut |line| {
        if failed.is_ok() {
            failed = writeln!(out, "{line}");
        }
    });
    failed
}
