//! Copies the given text into OUT_DIR and checks it there, so that what is compiled is what was given.
use std::path::{Path, PathBuf};
use std::process::{Command, exit};
use std::{env, fs};

/// The files and their sums, as sha256sum reads them.
const SUMS: &str = include_str!("given.sha256");

fn main() {
    let here = PathBuf::from(env::var_os("CARGO_MANIFEST_DIR").unwrap());
    let out = PathBuf::from(env::var_os("OUT_DIR").unwrap());
    let from = match env::var_os("QUINN_SRC") {
        Some(folder) => PathBuf::from(folder),
        None => here.join("../../shared/docs/src"),
    };
    for name in SUMS.lines().map(|line| line.split("  ").nth(1).unwrap()) {
        copy(&from, &out, name);
    }
    check(&here, &out);
    write_modules(&out);
    write_root_items(&out);
    write_frame_types(&out);
    println!("cargo:rerun-if-changed=build.rs");
    println!("cargo:rerun-if-changed=given.sha256");
    println!("cargo:rerun-if-env-changed=QUINN_SRC");
    println!("cargo:rustc-check-cfg=cfg(feature, values(\"arbitrary\"))"); // the text names it; it is off
}

/// One file, up to its module of tests: the given text has none, a checkout of quinn does.
fn copy(from: &Path, out: &Path, name: &str) {
    let source = from.join(name);
    println!("cargo:rerun-if-changed={}", source.display());
    let Ok(text) = fs::read_to_string(&source) else {
        eprintln!("oracle: the Rust text is not there: {}", source.display());
        eprintln!("Set QUINN_SRC to a folder that has quinn-proto/src, as a checkout of quinn at 765abecf7b.");
        exit(1);
    };
    let kept = match text.find("\n#[cfg(test)]\nmod ") {
        Some(end) => &text[..end + 1],
        None => &text,
    };
    let target = out.join(name);
    fs::create_dir_all(target.parent().unwrap()).unwrap();
    fs::write(target, kept).unwrap();
}

fn check(here: &Path, out: &Path) {
    let sums = here.join("given.sha256");
    let said = Command::new("sha256sum").arg("--check").arg("--quiet").arg(sums).current_dir(out).status();
    if !said.is_ok_and(|status| status.success()) {
        eprintln!("oracle: the Rust text is not the one that was ported (sha256 in given.sha256; quinn 765abecf7b).");
        exit(1);
    }
}

/// The modules that are compiled as they stand; those with a probe beside them are in src/lib.rs.
fn write_modules(out: &Path) {
    let mut text = String::new();
    for (name, visible) in [("coding", "pub "), ("varint", ""), ("transport_error", "")] {
        let path = out.join(format!("quinn-proto/src/{name}.rs"));
        text += &format!("#[allow(clippy::all)]\n#[path = {path:?}]\n{visible}mod {name};\n");
    }
    fs::write(out.join("modules.rs"), text).unwrap();
}

/// Whole lines of lib.rs (versions, Side, Dir, StreamId, two constants): the rest names modules that are not given.
fn write_root_items(out: &Path) {
    let lib = fs::read_to_string(out.join("quinn-proto/src/lib.rs")).unwrap();
    let lines: Vec<&str> = lib.lines().collect();
    let at = |start: &str| {
        let mut hits = (0..lines.len()).filter(|&i| lines[i].starts_with(start));
        let (first, second) = (hits.next(), hits.next());
        assert!(second.is_none(), "{start:?} stands twice in lib.rs");
        first.unwrap_or_else(|| panic!("{start:?} is not in lib.rs"))
    };
    let types = at("/// The QUIC protocol version implemented.")..at("/// An outgoing packet");
    let (token, cid) = (at("const RESET_TOKEN_SIZE"), at("const MAX_CID_SIZE"));
    let text = [&lines[types], &lines[token..=token], &lines[cid..=cid]].concat().join("\n");
    fs::write(out.join("root_items.rs"), text).unwrap();
}

/// The constants of frame_types! as an array, in their order.
fn write_frame_types(out: &Path) {
    let frame = fs::read_to_string(out.join("quinn-proto/src/frame.rs")).unwrap();
    let (_, tail) = frame.split_once("\nframe_types! {\n").expect("frame_types! in frame.rs");
    let (list, _) = tail.split_once("\n}").unwrap();
    let names = list.lines().filter_map(|line| line.trim().split_once(" = "));
    let text: String = names.map(|(name, _)| format!("FrameType::{name},")).collect();
    fs::write(out.join("frame_types.rs"), format!("[{text}]")).unwrap();
}
