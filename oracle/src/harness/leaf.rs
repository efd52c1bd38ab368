//! Integers, fixed reads and puts, parts: varint.rs and coding.rs.
use super::differences::{Decided, PLACE_PAST, SHORT_BUFFER, VARINT_62, decided, settle};
use super::words::{Args, Bad, hex};
use crate::VarInt;
use crate::coding::{BufExt, BufMutExt, Codec};
use bytes::{BufMut, Bytes};
use std::io::Cursor;

const END: u64 = 1 << 62;

/// A cursor at any place, past the end too: what the Rust reads datagrams with.
pub fn cursor(bytes: &[u8], at: u64) -> Cursor<&[u8]> {
    let mut cursor = Cursor::new(bytes);
    cursor.set_position(at);
    cursor
}

/// vread AT B
pub fn vread(a: &mut Args, out: &mut String) -> Result<(), Bad> {
    let (at, b) = (a.num()?, a.bytes()?);
    let mut r = cursor(&b, at);
    match r.get_var() {
        Ok(x) => *out += &format!("ok {x} {}", r.position()),
        Err(_) => out.push_str("no 10"),
    }
    Ok(())
}

/// vfrom X
pub fn vfrom(a: &mut Args, out: &mut String) -> Result<(), Bad> {
    match VarInt::from_u64(a.num()?) {
        Ok(x) => *out += &format!("ok {x}"),
        Err(_) => out.push_str("no 14"),
    }
    Ok(())
}

/// vsize X
pub fn vsize(a: &mut Args, out: &mut String) -> Result<(), Bad> {
    let x = a.num()?;
    let paper = if x < END { None } else { decided(VARINT_62, "no 14".into()) };
    settle(out, paper, || format!("ok {}", VarInt(x).size()));
    Ok(())
}

/// vwrite X B
pub fn vwrite(a: &mut Args, out: &mut String) -> Result<(), Bad> {
    let (x, b) = (a.num()?, a.bytes()?);
    let paper = if x >= END {
        decided(VARINT_62, format!("no 14 {}", hex(&b)))
    } else {
        no_room(&b, |mut w| VarInt(x).encode(&mut w))
    };
    settle(out, paper, || written(&b, |mut w| VarInt(x).encode(&mut w)));
    Ok(())
}

/// vput AT X B
pub fn vput(a: &mut Args, out: &mut String) -> Result<(), Bad> {
    let (at, x, b) = (a.num()?, a.num()?, a.bytes()?);
    if x < END {
        put_at(out, at, &b, |mut w| w.write_var(x));
    } else {
        let paper = decided(VARINT_62, format!("{at} {}", hex(&b)));
        settle(out, paper, || put_rust(at as usize, &b, |mut w| w.write_var(x)));
    }
    Ok(())
}

/// get W AT B
pub fn get(a: &mut Args, out: &mut String) -> Result<(), Bad> {
    let (width, at, b) = (a.num()?, a.num()?, a.bytes()?);
    let mut r = cursor(&b, at);
    let x = match width {
        1 => r.get::<u8>().map(u64::from),
        2 => r.get::<u16>().map(u64::from),
        4 => r.get::<u32>().map(u64::from),
        8 => r.get::<u64>(),
        _ => return Err(Bad),
    };
    match x {
        Ok(x) => *out += &format!("ok {x} {}", r.position()),
        Err(_) => out.push_str("no 10"),
    }
    Ok(())
}

/// put W AT X B
pub fn put(a: &mut Args, out: &mut String) -> Result<(), Bad> {
    let (width, at, x, b) = (a.num()?, a.num()?, a.num()?, a.bytes()?);
    match width {
        1 => {
            let x = u8::try_from(x).map_err(|_| Bad)?;
            put_at(out, at, &b, |mut w| w.write(x));
        }
        2 => {
            let x = u16::try_from(x).map_err(|_| Bad)?;
            put_at(out, at, &b, |mut w| w.write(x));
        }
        4 => {
            let x = u32::try_from(x).map_err(|_| Bad)?;
            put_at(out, at, &b, |mut w| w.write(x));
        }
        8 => put_at(out, at, &b, |mut w| w.write(x)),
        _ => return Err(Bad),
    }
    Ok(())
}

/// puts AT D B
pub fn puts(a: &mut Args, out: &mut String) -> Result<(), Bad> {
    let (at, data, b) = (a.num()?, a.bytes()?, a.bytes()?);
    put_at(out, at, &b, |w| w.put_slice(&data));
    Ok(())
}

/// part START LEN B
pub fn part(a: &mut Args, out: &mut String) -> Result<(), Bad> {
    let (start, len, b) = (a.num()? as usize, a.num()? as usize, a.bytes()?);
    let inside = start.checked_add(len).is_some_and(|end| end <= b.len());
    let paper = if inside { None } else { decided(PLACE_PAST, "-".into()) };
    let bytes = Bytes::from(b);
    settle(out, paper, || hex(&bytes.slice(start..start + len)));
    Ok(())
}

/// What is written: a function over any output, a lent buffer or a Vec.
pub trait Write: Fn(&mut dyn BufMut) {}
impl<F: Fn(&mut dyn BufMut)> Write for F {}

/// The Rust into a lent buffer, from byte 0 on: ok LEN B'
pub fn written(lent: &[u8], write: impl Write) -> String {
    let (next, b) = run_at(0, lent, write);
    format!("ok {next} {}", hex(&b))
}

/// 15 where the lent buffer is shorter than what the Rust writes.
pub fn no_room(lent: &[u8], write: impl Write) -> Option<Decided> {
    if length(write) <= lent.len() { None } else { decided(SHORT_BUFFER, format!("no 15 {}", hex(lent))) }
}

/// A put at a place: NEXT B'; where it does not fit, the place, and the buffer as it was.
fn put_at(out: &mut String, at: u64, lent: &[u8], write: impl Write) {
    let same = format!("{at} {}", hex(lent));
    let at = at as usize;
    let paper = if lent.len() < at {
        decided(PLACE_PAST, same)
    } else if lent.len() - at < length(&write) {
        decided(SHORT_BUFFER, same)
    } else {
        None
    };
    settle(out, paper, || put_rust(at, lent, write));
}

fn put_rust(at: usize, lent: &[u8], write: impl Write) -> String {
    let (next, b) = run_at(at, lent, write);
    format!("{next} {}", hex(&b))
}

/// The place past what was written, and the buffer.
fn run_at(at: usize, lent: &[u8], write: impl Write) -> (usize, Vec<u8>) {
    let mut b = lent.to_vec();
    let mut w = &mut b[at..];
    write(&mut w);
    let next = lent.len() - w.len();
    (next, b)
}

/// How much the Rust writes where there is room.
fn length(write: impl Write) -> usize {
    let mut whole = Vec::new();
    write(&mut whole);
    whole.len()
}
