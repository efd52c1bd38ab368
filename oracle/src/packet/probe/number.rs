//! PacketNumber.
use super::super::*;
use crate::harness::differences::{
    CEILING, CUT_RULE, Decided, NUMBER_62, NUMBER_TOO_FAR, U24_FOURTH_BYTE, decided, mark_if, settle,
};
use crate::harness::leaf::{no_room, written};
use crate::harness::rng::END;
use crate::harness::words::{Args, Bad, hex};

/// The value of a cut number, U24's fourth byte with it.
pub(super) fn raw(n: PacketNumber) -> u32 {
    match n {
        PacketNumber::U8(x) => x.into(),
        PacketNumber::U16(x) => x.into(),
        PacketNumber::U24(x) | PacketNumber::U32(x) => x,
    }
}

/// What a cut number writes: its length, and the bytes as a number.
pub(super) fn sent(p: PacketNumber) -> (usize, u32) {
    let mut w = Vec::new();
    p.encode(&mut w);
    assert_eq!(w.len(), p.len());
    (w.len(), w.iter().fold(0, |x, &b| x << 8 | u32::from(b)))
}

/// Whether document 01 has a cut number of this length and value.
pub(super) fn is_cut(k: u64, value: u32) -> bool {
    (1..=4).contains(&k) && u64::from(value) < 1 << (8 * k)
}

/// The Rust's cut number of this length and value. Panics where there is none: another length reaches decode's
/// `unreachable!`, and a value of too many bytes does not go into U8 and U16.
pub(super) fn held(k: u64, value: u32) -> PacketNumber {
    match k {
        1 => PacketNumber::U8(value.try_into().unwrap()),
        2 => PacketNumber::U16(value.try_into().unwrap()),
        3 => PacketNumber::U24(value),
        4 => PacketNumber::U32(value),
        _ => PacketNumber::decode(k as usize, &mut &[0; 4][..]).unwrap(),
    }
}

/// Document 01's answer to a cut number outside its rule.
pub(super) fn outside(k: u64, value: u32, answer: String) -> Option<Decided> {
    match k {
        _ if is_cut(k, value) => None,
        3 => decided(U24_FOURTH_BYTE, answer),
        _ => decided(CUT_RULE, answer),
    }
}

pub(super) fn cut_words(a: &mut Args) -> Result<(u64, u32), Bad> {
    Ok((a.num()?, a.below(1 << 32)? as u32))
}

/// pnnew N ACKED
pub(crate) fn pnnew(a: &mut Args, out: &mut String) -> Result<(), Bad> {
    let (n, acked) = (a.num()?, a.num()?);
    let paper = if n >= END {
        decided(NUMBER_62, "no 14".into())
    } else if n < acked {
        decided(NUMBER_TOO_FAR, "no 14".into())
    } else if n - acked >= 1 << 31 {
        decided(NUMBER_TOO_FAR, "no 16".into())
    } else {
        None
    };
    settle(out, paper, || new(n, acked));
    Ok(())
}

/// What the Rust's new number writes, marked where it holds more.
fn new(n: u64, acked: u64) -> String {
    let p = PacketNumber::new(n, acked);
    let (len, value) = sent(p);
    format!("ok {len} {value}{}", mark_if(raw(p) != value, U24_FOURTH_BYTE))
}

/// pnexp K VALUE EXPECTED
pub(crate) fn pnexp(a: &mut Args, out: &mut String) -> Result<(), Bad> {
    let ((k, value), expected) = (cut_words(a)?, a.num()?);
    let paper = if is_cut(k, value) && expected > END {
        decided(NUMBER_62, "no 14".into())
    } else {
        outside(k, value, "no 14".into())
    };
    settle(out, paper, || {
        let (n, is_other) = read(k, value, expected);
        format!("ok {n}{}", mark_if(is_other, CEILING))
    });
    Ok(())
}

/// What is read, by A.3, and whether the Rust reads another number.
pub(super) fn read(k: u64, value: u32, expected: u64) -> (u64, bool) {
    let n = decode_packet_number(k, value, expected);
    (n, n != held(k, value).expand(expected))
}

/// RFC 9000, A.3, in its words and order. Its differences can be below zero.
fn decode_packet_number(k: u64, value: u32, expected: u64) -> u64 {
    let (truncated_pn, expected_pn, pn_nbits) = (i64::from(value), expected as i64, 8 * k);
    let pn_win = 1i64 << pn_nbits;
    let pn_hwin = pn_win / 2;
    let pn_mask = pn_win - 1;
    let candidate_pn = (expected_pn & !pn_mask) | truncated_pn;
    let pn = if candidate_pn <= expected_pn - pn_hwin && candidate_pn < (1 << 62) - pn_win {
        candidate_pn + pn_win
    } else if candidate_pn > expected_pn + pn_hwin && candidate_pn >= pn_win {
        candidate_pn - pn_win
    } else {
        candidate_pn
    };
    pn as u64
}

/// pndec K B4
pub(crate) fn pndec(a: &mut Args, out: &mut String) -> Result<(), Bad> {
    let (k, bytes) = (a.num()?, a.array::<4>()?);
    let paper = if (1..=4).contains(&k) { None } else { decided(CUT_RULE, "no 14".into()) };
    settle(out, paper, || {
        let p = PacketNumber::decode(k as usize, &mut &bytes[..]).unwrap();
        format!("ok {} {}", p.len(), raw(p))
    });
    Ok(())
}

/// pnenc K VALUE B
pub(crate) fn pnenc(a: &mut Args, out: &mut String) -> Result<(), Bad> {
    let ((k, value), b) = (cut_words(a)?, a.bytes()?);
    let paper = if is_cut(k, value) {
        no_room(&b, |mut w| held(k, value).encode(&mut w))
    } else {
        outside(k, value, format!("no 14 {}", hex(&b)))
    };
    settle(out, paper, || written(&b, |mut w| held(k, value).encode(&mut w)));
    Ok(())
}

/// pnlen TAG
pub(crate) fn pnlen(a: &mut Args, out: &mut String) -> Result<(), Bad> {
    *out += &PacketNumber::decode_len(a.below(256)? as u8).to_string();
    Ok(())
}

/// pntag K VALUE
pub(crate) fn pntag(a: &mut Args, out: &mut String) -> Result<(), Bad> {
    let (k, value) = cut_words(a)?;
    settle(out, outside(k, value, "no 14".into()), || format!("ok {}", held(k, value).tag()));
    Ok(())
}
