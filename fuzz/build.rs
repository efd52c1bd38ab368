//! Links libFuzzer's runtime without a main, of Debian's package.
use std::process::{Command, exit};

const PACKAGE: &str = "libclang-rt-14-dev:amd64";

fn main() {
    let said = Command::new("dpkg").args(["-L", PACKAGE]).output().map(|said| said.stdout).unwrap_or_default();
    let files = String::from_utf8_lossy(&said);
    let Some(archive) = files.lines().find(|file| file.ends_with("fuzzer_no_main-x86_64.a")) else {
        eprintln!("fuzz: libFuzzer's runtime ({PACKAGE}) is not installed: run fuzz/setup");
        exit(1);
    };
    println!("cargo::rerun-if-changed={archive}");
    println!("cargo::rustc-link-arg={archive}");
    println!("cargo::rustc-link-arg=-lstdc++");
    println!("cargo::rustc-link-arg=-lm");
}
