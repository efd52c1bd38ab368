//! Packets out: a header with its Length, and header protection on.
use super::{Said, kind, no, unless};
use guobbarel::{CutNumber, Header, Kind, Written};
use oracle::harness::words::{Args, Bad, hex};

/// A header as the words name it.
struct Given {
    header: Header,
    dst: Vec<u8>,
    src: Vec<u8>,
    token: Vec<u8>,
}

fn version(a: &mut Args) -> Result<u32, Bad> {
    Ok(a.below(1 << 32)? as u32)
}

fn number(a: &mut Args) -> Result<CutNumber, Bad> {
    Ok(CutNumber::new(a.num()? as usize, a.below(1 << 32)? as u32))
}

impl Given {
    fn new(a: &mut Args) -> Result<Self, Bad> {
        let kind = kind(a)?;
        let header = match kind {
            Kind::Initial => Header::initial(version(a)?, number(a)?),
            Kind::ZeroRtt => Header::zero_rtt(version(a)?, number(a)?),
            Kind::Handshake => Header::handshake(version(a)?, number(a)?),
            Kind::Retry => Header::retry(version(a)?),
            Kind::Short => Header::short(a.flag()?, a.flag()?, number(a)?),
            Kind::VersionNegotiation => Header::version_negotiation(a.below(256)? as u8),
        };
        let dst = a.bytes()?;
        let src = if kind == Kind::Short { Vec::new() } else { a.bytes()? };
        let token = if kind == Kind::Initial { a.bytes()? } else { Vec::new() };
        Ok(Self { header, dst, src, token })
    }

    fn write(&self, payload_len: usize, out: &mut [u8]) -> Result<Written, guobbarel::Error> {
        self.header.write(&self.dst, &self.src, &self.token, payload_len, out)
    }
}

/// henc KIND .. B: the header of no payload. Where it has a Length, the Rust leaves two bytes 0 for it.
pub fn henc(a: &mut Args) -> Said {
    let (given, mut b) = (Given::new(a)?, a.bytes()?);
    Ok(Some(match given.write(0, &mut b) {
        Err(why) => format!("{} {}", no(why), hex(&b)),
        Ok(w) => {
            if w.has_length {
                without_length(&w, &mut b);
            }
            let k = if w.number_len == 0 { "-".into() } else { w.number_len.to_string() };
            format!("ok {} {k} {} {}", w.header_len, u8::from(w.has_length), hex(&b))
        }
    }))
}

/// Takes the Length out of a header of no payload, if it is the right one: in two bytes, that of the number alone.
fn without_length(w: &Written, b: &mut [u8]) {
    let at = w.header_len - w.number_len - 2;
    let length = (1 << 14 | w.number_len as u16).to_be_bytes();
    if b[at..at + 2] == length {
        b[at..at + 2].fill(0);
    }
}

/// hmask HEADERLEN HASNUMBER NUMBERLEN HASLENGTH MASK B: over the surface a number of length 0 is no number.
pub fn hmask(a: &mut Args) -> Said {
    let (header_len, has_number, number_len) = (a.num()? as usize, a.flag()?, a.num()? as usize);
    let (has_length, mask, mut packet) = (a.flag()?, a.array()?, a.bytes()?);
    if has_number && number_len == 0 {
        return Ok(None);
    }
    let said = match (Written { header_len, number_len, has_length }).protect(&mut packet, &mask) {
        Err(why) => no(why),
        Ok(()) => "ok".into(),
    };
    Ok(Some(format!("{said} {}", hex(&packet))))
}

/// What the buffer is filled with, to show what is written.
const FILL: u8 = 0x5a;

/// whole KIND .. MASK XOR PAYLOAD: the header, the payload, encryption of a packet that has a number, the mask step.
pub fn whole(a: &mut Args) -> Said {
    let (given, mask, [xor], payload) = (Given::new(a)?, a.array()?, a.array::<1>()?, a.bytes()?);
    let mut packet = vec![FILL; 21 + given.dst.len() + given.src.len() + given.token.len()];
    let is_filled = |b: &[u8]| b.iter().all(|&x| x == FILL);
    let w = match given.write(payload.len(), &mut packet) {
        Err(why) => return Ok(Some(no(why) + unless(is_filled(&packet)))),
        Ok(w) => w,
    };
    let kept = unless(is_filled(&packet[w.header_len..]));
    packet.truncate(w.header_len);
    let key = if w.number_len == 0 { 0 } else { xor };
    packet.extend(payload.iter().map(|x| x ^ key));
    let before = packet.clone();
    Ok(Some(match w.protect(&mut packet, &mask) {
        Err(why) => no(why) + unless(packet == before),
        Ok(()) => format!("ok {}{kept}", hex(&packet)),
    }))
}
