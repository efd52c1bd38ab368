//! Where document 01, or a request of document 02, decides and the Rust panics or says otherwise: the names are headings of
//! docs/DIFFERENCES.md.
use std::panic::{AssertUnwindSafe, catch_unwind};

pub const VARINT_62: &str = "varint-62";
pub const SHORT_BUFFER: &str = "short-buffer";
pub const PLACE_PAST: &str = "place-past-the-slice";
pub const CID_OVER_20: &str = "cid-over-20";
pub const CID_CUT: &str = "cid-cut";
pub const STREAM_INDEX_60: &str = "stream-index-60";
pub const U24_FOURTH_BYTE: &str = "u24-fourth-byte";
pub const NUMBER_TOO_FAR: &str = "number-too-far";
pub const NUMBER_62: &str = "number-62";
pub const CUT_RULE: &str = "cut-rule";
pub const SIZE_65527: &str = "size-65527";
pub const VERSIONS_16: &str = "versions-16";
pub const NUMBER_OFFSET: &str = "number-offset";
pub const FORM_BIT: &str = "form-bit";
pub const SHORT_OF_HEADER: &str = "short-of-header";
pub const SHORT_OF_SAMPLE: &str = "short-of-sample";
pub const HEADER_TESTS: &str = "header-tests";
pub const LENGTH_16384: &str = "length-16384";
pub const LENGTH_NO_NUMBER: &str = "length-no-number";
pub const LAST_TY: &str = "last-ty";
pub const ACK_ITER_UNSCANNED: &str = "ack-iter-unscanned";
pub const ECN_LIMIT: &str = "ecn-limit";
pub const ACK_LIST: &str = "ack-list";
pub const NCID_OUT: &str = "ncid-out";
pub const STREAM_END: &str = "stream-end";
pub const MAX_LEN: &str = "max-len";
pub const CLOSE_CODE: &str = "close-code";
pub const CEILING: &str = "ceiling";
pub const VERSION_2: &str = "version-2";

/// What the paper answers, and the difference's name.
pub struct Decided {
    pub answer: String,
    pub name: &'static str,
}

/// What stands behind an answer that is not the Rust's.
pub fn mark_if(is_other: bool, name: &str) -> String {
    if is_other { format!(" # {name}") } else { String::new() }
}

pub fn decided(name: &'static str, answer: String) -> Option<Decided> {
    Some(Decided { answer, name })
}

/// The Rust's own answer or, where the paper decides, that answer with its mark; the Rust is run all the same, and
/// must panic or differ there.
pub fn settle(out: &mut String, paper: Option<Decided>, rust: impl FnOnce() -> String) {
    let Some(Decided { answer, name }) = paper else {
        out.push_str(&rust());
        return;
    };
    match catch_unwind(AssertUnwindSafe(rust)) {
        Ok(same) if same == answer => *out += &format!("NO DIFFERENCE SHOWN {name}"),
        _ => *out += &format!("{answer} # {name}"),
    }
}

/// As `settle`; where document 01 decides nothing, a request does: the answer is the Rust's to a changed question, with
/// the mark `name` where its answer to the question itself is another, or a panic.
pub fn settle_changed(
    out: &mut String,
    paper: Option<Decided>,
    name: &'static str,
    changed: impl FnOnce() -> String,
    rust: impl FnOnce() -> String,
) {
    if paper.is_some() {
        return settle(out, paper, rust);
    }
    let answer = changed();
    *out += &answer;
    match catch_unwind(AssertUnwindSafe(rust)) {
        Ok(same) if same == answer => {}
        _ => *out += &format!(" # {name}"),
    }
}
