//! Says where `libtimed.a` is: beside `libgateway.a`, which the crate in `host/` finds.
use std::env;
use std::path::PathBuf;

fn main() {
    let here = PathBuf::from(env::var_os("CARGO_MANIFEST_DIR").expect("cargo sets it"));
    let folder = env::var_os("GUOBBAREL_LIB").map_or_else(|| here.join("../target/staticlib"), PathBuf::from);
    let archive = folder.join("libtimed.a");
    assert!(archive.exists(), "{} is not there: run `tools/build timed` first", archive.display());
    println!("cargo::rerun-if-env-changed=GUOBBAREL_LIB");
    println!("cargo::rerun-if-changed={}", archive.display());
    println!("cargo::rustc-link-search=native={}", folder.display());
    println!("cargo::rustc-link-lib=static=timed");
}
