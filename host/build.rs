//! Says where `libgateway.a` is: in `GUOBBAREL_LIB`, by default `target/staticlib` of the repository.
use std::env;
use std::path::PathBuf;

fn main() {
    let here = PathBuf::from(env::var_os("CARGO_MANIFEST_DIR").expect("cargo sets it"));
    let folder = env::var_os("GUOBBAREL_LIB").map_or_else(|| here.join("../target/staticlib"), PathBuf::from);
    let archive = folder.join("libgateway.a");
    assert!(archive.exists(), "{} is not there: run `tools/build gateway` first", archive.display());
    println!("cargo::rerun-if-env-changed=GUOBBAREL_LIB");
    println!("cargo::rerun-if-changed={}", archive.display());
    println!("cargo::rustc-link-search=native={}", folder.display());
    println!("cargo::rustc-link-lib=static=gateway");
}
