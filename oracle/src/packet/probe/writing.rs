//! Header::encode, and PartialEncode::finish: the Length step, encryption, the mask step.
use super::super::*;
use super::number::{cut_words, held, outside};
use super::reading::{BEHIND_OFFSET, MAX_DATAGRAM};
use super::version_2::{self, Types};
use crate::MAX_CID_SIZE;
use crate::crypto::{MaskKey, PacketKey, XorKey};
use crate::harness::differences::{
    CID_OVER_20, FORM_BIT, HEADER_TESTS, LENGTH_16384, LENGTH_NO_NUMBER, SHORT_BUFFER, SHORT_OF_HEADER,
    SHORT_OF_SAMPLE, SIZE_65527, decided, settle,
};
use crate::harness::words::{Args, Bad, hex};
use std::cell::RefCell;
use std::panic::{AssertUnwindSafe, catch_unwind, resume_unwind};

/// A refusal of document 01, and the difference's name.
pub(super) type Refused = (u32, &'static str);

/// A connection id of any length that a byte holds.
fn cid(a: &mut Args) -> Result<Vec<u8>, Bad> {
    let b = a.bytes()?;
    if b.len() > 255 { Err(Bad) } else { Ok(b) }
}

fn version(a: &mut Args) -> Result<u32, Bad> {
    Ok(a.below(1 << 32)? as u32)
}

/// A header as the words name it, in the order of table.rs; the Rust does not have all of them.
#[derive(Default)]
pub(super) struct Words {
    pub kind: String,
    pub version: u32,
    pub spin: bool,
    pub key_phase: bool,
    pub random: u8,
    pub number: Option<(u64, u32)>,
    pub dst: Vec<u8>,
    pub src: Vec<u8>,
    pub token: Vec<u8>,
}

impl Words {
    fn new(a: &mut Args) -> Result<Self, Bad> {
        let mut w = Self { kind: a.word()?.into(), ..Self::default() };
        match w.kind.as_str() {
            "initial" | "0rtt" | "handshake" => {
                w.version = version(a)?;
                w.number = Some(cut_words(a)?);
            }
            "retry" => w.version = version(a)?,
            "short" => {
                (w.spin, w.key_phase) = (a.flag()?, a.flag()?);
                w.number = Some(cut_words(a)?);
            }
            "vneg" => w.random = a.below(256)? as u8,
            _ => return Err(Bad),
        }
        w.dst = cid(a)?;
        if w.kind != "short" {
            w.src = cid(a)?;
        }
        if w.kind == "initial" {
            w.token = a.bytes()?;
        }
        Ok(w)
    }

    /// The Rust's header. Panics where there is none.
    fn header(&self) -> Header {
        let (dst_cid, src_cid) = (ConnectionId::new(&self.dst), ConnectionId::new(&self.src));
        let number = || self.number.map(|(k, value)| held(k, value)).unwrap();
        let version = self.version;
        match self.kind.as_str() {
            "initial" => {
                let token = self.token.clone().into();
                Header::Initial(InitialHeader { dst_cid, src_cid, token, number: number(), version })
            }
            "0rtt" => Header::Long { ty: LongType::ZeroRtt, dst_cid, src_cid, number: number(), version },
            "handshake" => Header::Long { ty: LongType::Handshake, dst_cid, src_cid, number: number(), version },
            "retry" => Header::Retry { dst_cid, src_cid, version },
            "short" => Header::Short { spin: self.spin, key_phase: self.key_phase, dst_cid, number: number() },
            _ => Header::VersionNegotiate { random: self.random, dst_cid, src_cid },
        }
    }

    pub(super) fn encode(&self, types: Types) -> (PartialEncode, Vec<u8>) {
        let mut w = Vec::new();
        let p = self.header().encode(&mut w);
        assert_eq!((p.start, p.header_len), (0, w.len()));
        types.forth(&mut w);
        (p, w)
    }

    fn len(&self) -> usize {
        self.encode(Types::OfTheRust).1.len()
    }

    /// Where document 01 refuses to write the header, whatever the room.
    pub(super) fn refused(&self) -> Option<Refused> {
        let number = self.number.and_then(|(k, value)| outside(k, value, String::new()));
        if self.dst.len().max(self.src.len()) > MAX_CID_SIZE {
            Some((14, CID_OVER_20))
        } else if let Some(outside) = number {
            Some((14, outside.name))
        } else if self.len() > MAX_DATAGRAM {
            Some((14, SIZE_65527))
        } else {
            None
        }
    }
}

/// henc KIND .. B -> ok HEADERLEN NUMBERLEN HASLENGTH B' | no N B
pub(crate) fn henc(a: &mut Args, out: &mut String) -> Result<(), Bad> {
    let (words, b) = (Words::new(a)?, a.bytes()?);
    let refused = words.refused().or_else(|| {
        let fits = words.len() <= b.len();
        if fits { None } else { Some((15, SHORT_BUFFER)) }
    });
    version_2::settle(out, refused.and_then(|(n, name)| decided(name, format!("no {n} {}", hex(&b)))), |types| {
        let (p, mut w) = words.encode(types);
        w.extend(b.get(p.header_len..).unwrap_or_default());
        let (k, has_length) = p.pn.map_or(("-".into(), false), |(k, has_length)| (k.to_string(), has_length));
        format!("ok {} {k} {} {}", p.header_len, u8::from(has_length), hex(&w))
    });
    Ok(())
}

/// What the steps after encode are told: HEADERLEN HASNUMBER NUMBERLEN HASLENGTH, and the packet B.
pub(super) struct Step {
    pub header_len: usize,
    pub number: Option<usize>,
    pub has_length: bool,
    pub packet: Vec<u8>,
}

impl Step {
    fn new<T>(a: &mut Args, behind: impl FnOnce(&mut Args) -> Result<T, Bad>) -> Result<(Self, T), Bad> {
        let (header_len, has_number, k, has_length) = (a.num()? as usize, a.flag()?, a.num()? as usize, a.flag()?);
        let number = has_number.then_some(k);
        if !has_number && k != 0 {
            return Err(Bad);
        }
        let behind = behind(a)?;
        Ok((Self { header_len, number, has_length, packet: a.bytes()? }, behind))
    }

    /// Where document 01's tests of the header refuse.
    pub(super) fn refused(&self) -> Option<Refused> {
        let k = self.number.unwrap_or(0);
        let length = if self.has_length { 2 } else { 0 };
        if self.packet.len() > MAX_DATAGRAM {
            Some((14, SIZE_65527))
        } else if self.packet.len() < self.header_len {
            Some((14, SHORT_OF_HEADER))
        } else if self.number.is_some_and(|k| !(1..=4).contains(&k)) || self.header_len < 1 + k + length {
            Some((14, HEADER_TESTS))
        } else {
            None
        }
    }

    /// The Length step's own: a Length of two bytes, and a number behind it.
    pub(super) fn length_refused(&self) -> Option<Refused> {
        let len = self.packet.len() - self.header_len + self.number.unwrap_or(0);
        if self.has_length && len >= 1 << 14 { Some((14, LENGTH_16384)) } else { None }
    }

    /// The mask step's own: rule 8, then the form bit.
    pub(super) fn mask_refused(&self) -> Option<Refused> {
        let offset = self.header_len - self.number?;
        if self.packet.len() < offset + BEHIND_OFFSET {
            Some((8, SHORT_OF_SAMPLE))
        } else if (self.packet[0] & LONG_HEADER_FORM != 0) != self.has_length {
            Some((14, FORM_BIT))
        } else {
            None
        }
    }

    /// What document 01 makes of a Length in a header that has no number, which the Rust has no word for.
    fn length_alone(&self) -> Vec<u8> {
        let mut b = self.packet.clone();
        let len = (b.len() - self.header_len) as u16 | 1 << 14;
        b[self.header_len - 2..self.header_len].copy_from_slice(&len.to_be_bytes());
        b
    }

    pub(super) fn partial(&self, write_len: bool) -> PartialEncode {
        PartialEncode { start: 0, header_len: self.header_len, pn: self.number.map(|k| (k, write_len)) }
    }
}

/// A packet key that keeps the packet as it finds it: what stands there after the Length step.
#[derive(Default)]
struct Kept(RefCell<Option<Vec<u8>>>);
impl PacketKey for Kept {
    fn encrypt(&self, _packet: u64, buf: &mut [u8], _header_len: usize) {
        self.0.replace(Some(buf.to_vec()));
    }
}

/// The packet after the Length step alone: with a number, what encryption finds; without, what there is at the end.
pub(super) fn after_length(step: &Step) -> Vec<u8> {
    let (kept, mut b) = (Kept::default(), step.packet.clone());
    let partial = step.partial(step.has_length);
    let ended = catch_unwind(AssertUnwindSafe(|| partial.finish(&mut b, &MaskKey([0; 5]), Some((0, &kept)))));
    match (kept.0.take(), ended) {
        (Some(found), _) => found,
        (None, Ok(())) => b,
        (None, Err(panic)) => resume_unwind(panic),
    }
}

/// hlen HEADERLEN HASNUMBER NUMBERLEN HASLENGTH B -> ok B' | no 14 B
pub(crate) fn hlen(a: &mut Args, out: &mut String) -> Result<(), Bad> {
    let (step, ()) = Step::new(a, |_| Ok(()))?;
    let paper = match step.refused().or_else(|| step.length_refused()) {
        Some((n, name)) => decided(name, format!("no {n} {}", hex(&step.packet))),
        None if step.has_length && step.number.is_none() => {
            decided(LENGTH_NO_NUMBER, format!("ok {}", hex(&step.length_alone())))
        }
        None => None,
    };
    settle(out, paper, || format!("ok {}", hex(&after_length(&step))));
    Ok(())
}

/// hmask HEADERLEN HASNUMBER NUMBERLEN HASLENGTH MASK B -> ok B' | no N B
/// The Rust is asked for a header without a Length, so that it does the mask step alone.
pub(crate) fn hmask(a: &mut Args, out: &mut String) -> Result<(), Bad> {
    let (step, mask) = Step::new(a, |a| a.array())?;
    let refused = step.refused().or_else(|| step.mask_refused());
    settle(out, refused.and_then(|(n, name)| decided(name, format!("no {n} {}", hex(&step.packet)))), || {
        let mut b = step.packet.clone();
        step.partial(false).finish(&mut b, &MaskKey(mask), None);
        format!("ok {}", hex(&b))
    });
    Ok(())
}

/// whole KIND .. MASK XOR PAYLOAD -> ok B | no N: the header, the payload, then finish; XOR, one byte, is the encryption
pub(crate) fn whole(a: &mut Args, out: &mut String) -> Result<(), Bad> {
    let (words, mask, [xor], payload) = (Words::new(a)?, a.array()?, a.array()?, a.bytes()?);
    let refused = words.refused().or_else(|| {
        let (p, header) = words.encode(Types::OfTheRust);
        let (number, has_length) = (p.pn.map(|pn| pn.0), p.pn.is_some_and(|pn| pn.1));
        let step = Step { header_len: p.header_len, number, has_length, packet: [header, payload.clone()].concat() };
        step.refused().or_else(|| step.length_refused()).or_else(|| step.mask_refused())
    });
    version_2::settle(out, refused.and_then(|(n, name)| decided(name, format!("no {n}"))), |types| {
        let (p, mut w) = words.encode(types);
        w.extend_from_slice(&payload);
        p.finish(&mut w, &MaskKey(mask), Some((0, &XorKey(xor))));
        format!("ok {}", hex(&w))
    });
    Ok(())
}
