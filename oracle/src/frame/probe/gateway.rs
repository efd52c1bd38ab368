//! A frame as the C surface's record has it.
use super::super::*;
use super::reading::{Shown, Value};
use super::{LONGEST, number};
use crate::harness::differences::{SIZE_65527, decided, settle};
use crate::harness::words::{Args, Bad, record};

/// gframe AT B -> the record's fields, then of each value its fields and the bytes at its place
pub(crate) fn gframe(a: &mut Args, out: &mut String) -> Result<(), Bad> {
    let (at, payload): (_, Bytes) = (a.num()? as usize, a.bytes()?.into());
    let paper = if payload.len() > LONGEST { decided(SIZE_65527, no_frame(14, at, None)) } else { None };
    settle(out, paper, || read(&payload, at));
    Ok(())
}

/// The end of the payload, refusal 0, or a refusal with its type once read.
fn no_frame(refusal: u32, at: usize, ty: Option<FrameType>) -> String {
    let ty = ty.map(|ty| ty.0);
    let fields = [refusal.into(), 0, ty.is_some().into(), at as u64, 0, ty.unwrap_or(0), 0];
    record(&fields, &[]) + &values(&[], &[])
}

/// Six values: what a frame does not say is nothing.
fn values(said: &[Value], payload: &[u8]) -> String {
    let nothing = (said.len()..6).map(|_| &Value::Nothing);
    let shown = said.iter().chain(nothing).map(|value| match *value {
        Value::Nothing => record(&[0, 0, 0, 0], &[&[]]),
        Value::Number(n) => record(&[1, n, 0, 0], &[&[]]),
        Value::Place(start, len) => record(&[2, 0, start as u64, len as u64], &[&payload[start..start + len]]),
    });
    shown.map(|value| " ".to_string() + &value).collect()
}

/// The first frame that the Rust reads from the place on; past the end it is not asked.
fn read(payload: &Bytes, at: usize) -> String {
    let is_past = at >= payload.len() && !payload.is_empty();
    let Ok(mut it) = Iter::new(if is_past { payload.clone() } else { payload.slice(at.min(payload.len())..) }) else {
        return no_frame(13, at, None);
    };
    if is_past {
        return no_frame(0, at, None);
    }
    let (frame, size) = it.next_with_size().unwrap();
    match frame {
        Err(e) => no_frame(number(e.reason), at, e.ty),
        Ok(frame) => {
            let (read, end) = (it.last_ty.unwrap(), at + size);
            let said = Shown { payload, read, end }.frame(&frame);
            let fields = [0, 1, 1, at as u64, end as u64, read.0, said.name];
            record(&fields, &[]) + &values(&said.values, payload)
        }
    }
}
