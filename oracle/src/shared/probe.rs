//! Child of the given shared.rs: sees a ConnectionId's 20 bytes.
use super::*;
use crate::harness::differences::{CID_CUT, CID_OVER_20, PLACE_PAST, STREAM_INDEX_60, decided, settle};
use crate::harness::leaf::{cursor, no_room, written};
use crate::harness::words::{Args, Bad, hex};
use crate::{Dir, Side, StreamId};

fn shown(cid: &ConnectionId) -> String {
    format!("{} {}", cid.len, hex(&cid.bytes))
}

/// cidnew B
pub(crate) fn cidnew(a: &mut Args, out: &mut String) -> Result<(), Bad> {
    let b = a.bytes()?;
    let paper = if b.len() <= MAX_CID_SIZE { None } else { decided(CID_OVER_20, "no 14".into()) };
    settle(out, paper, || format!("ok {}", shown(&ConnectionId::new(&b))));
    Ok(())
}

/// cidbuf AT N B
pub(crate) fn cidbuf(a: &mut Args, out: &mut String) -> Result<(), Bad> {
    let (at, n, b) = (a.num()?, a.num()? as usize, a.bytes()?);
    let left = b.len().checked_sub(at as usize);
    let paper = match left {
        _ if n > MAX_CID_SIZE => decided(CID_OVER_20, "no 14".into()),
        None => decided(PLACE_PAST, "no 10".into()),
        Some(left) if left < n => decided(CID_CUT, "no 10".into()),
        Some(_) => None,
    };
    settle(out, paper, || {
        let mut r = cursor(&b, at);
        let cid = ConnectionId::from_buf(&mut r, n);
        format!("ok {} {}", shown(&cid), r.position())
    });
    Ok(())
}

/// ciddec AT B
pub(crate) fn ciddec(a: &mut Args, out: &mut String) -> Result<(), Bad> {
    let (at, b) = (a.num()?, a.bytes()?);
    let mut r = cursor(&b, at);
    match ConnectionId::decode_long(&mut r) {
        Some(cid) => *out += &format!("ok {} {}", shown(&cid), r.position()),
        None => out.push_str("no 3"),
    }
    Ok(())
}

/// cidenc LEN BYTES20 B
pub(crate) fn cidenc(a: &mut Args, out: &mut String) -> Result<(), Bad> {
    let (len, bytes, b) = (a.below(256)? as u8, a.array()?, a.bytes()?);
    let cid = ConnectionId { len, bytes };
    let paper = if usize::from(len) > MAX_CID_SIZE {
        decided(CID_OVER_20, format!("no 14 {}", hex(&b)))
    } else {
        no_room(&b, |mut w| cid.encode_long(&mut w))
    };
    settle(out, paper, || written(&b, |mut w| cid.encode_long(&mut w)));
    Ok(())
}

/// ecnbits X
pub(crate) fn ecnbits(a: &mut Args, out: &mut String) -> Result<(), Bad> {
    match EcnCodepoint::from_bits(a.below(256)? as u8) {
        Some(point) => *out += &format!("ok {} {}", point as u8, u8::from(point.is_ce())),
        None => out.push_str("none"),
    }
    Ok(())
}

/// sidnew SIDE DIR INDEX
pub(crate) fn sidnew(a: &mut Args, out: &mut String) -> Result<(), Bad> {
    let side = if a.flag()? { Side::Server } else { Side::Client };
    let dir = if a.flag()? { Dir::Uni } else { Dir::Bi };
    let index = a.num()?;
    let id = StreamId::new(side, dir, index);
    let whole = id.0 < 1 << 62 && id.index() == index;
    let paper = if whole { None } else { decided(STREAM_INDEX_60, "no 14".into()) };
    settle(out, paper, || format!("ok {}", id.0));
    Ok(())
}

/// sid ID
pub(crate) fn sid(a: &mut Args, out: &mut String) -> Result<(), Bad> {
    let id = StreamId(a.num()?);
    *out += &format!("{} {} {}", id.initiator() as u8, id.dir() as u8, id.index());
    Ok(())
}
