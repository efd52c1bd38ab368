//! The frame type numbers, and a field that is a part of the payload.
use super::super::*;
use crate::harness::differences::{PLACE_PAST, VARINT_62, decided, settle};
use crate::harness::words::{Args, Bad};

/// ftypes: the constants of frame_types!, in their order
pub(crate) fn ftypes(_: &mut Args, out: &mut String) -> Result<(), Bad> {
    let types = include!(concat!(env!("OUT_DIR"), "/frame_types.rs"));
    *out += &types.map(|ty| ty.0.to_string()).join(" ");
    Ok(())
}

/// take AT N B: Iter::take_len over the bytes at the place, after N as the Rust writes it
pub(crate) fn take(a: &mut Args, out: &mut String) -> Result<(), Bad> {
    let (at, n, b) = (a.num()? as usize, a.num()?, a.bytes()?);
    let paper = if n >= 1 << 62 {
        decided(VARINT_62, "no 10".into())
    } else if b.len() < at {
        decided(PLACE_PAST, "no 10".into())
    } else {
        None
    };
    settle(out, paper, || {
        let mut whole = Vec::new();
        whole.write_var(n);
        let before = whole.len();
        whole.extend_from_slice(&b[at..]);
        take_of(whole.into(), before, at)
    });
    Ok(())
}

/// The part's place in the slice, of which the bytes past `before` begin at `at`.
fn take_of(whole: Bytes, before: usize, at: usize) -> String {
    let (base, total) = (whole.as_ptr() as usize + before, whole.len() - before);
    let mut it = Iter { bytes: whole, last_ty: None };
    let Ok(part) = it.take_len() else {
        return "no 10".into();
    };
    // an empty part has no address
    let start = if part.is_empty() { at } else { at + part.as_ptr() as usize - base };
    format!("ok {start} {} {}", part.len(), at + total - it.bytes.len())
}
