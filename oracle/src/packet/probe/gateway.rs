//! The C surface's functions: every field of a record as a number, in the record's order, then the bytes at its places and in
//! the lent buffer. Values are the Rust's; places are RFC 9000's arithmetic, and the bytes there are held to what the Rust
//! handed out. What the Rust has no word for (a kind above 5, a flag that is not 0 or 1, a step above 3, a mask that is not of
//! five bytes) is 14 by include/guobbarel.h, without a mark.
use super::super::*;
use super::ends::{Answer, Ends, Said, space_of};
use super::number::raw;
use super::reading::{MAX_DATAGRAM, Reader, Taken, number, sampled};
use super::version_2::{self, Types};
use super::writing::{Refused, Step, Words, after_length};
use crate::crypto::MaskKey;
use crate::harness::differences::{CEILING, FORM_BIT, SHORT_BUFFER, SIZE_65527, decided, mark_if, settle};
use crate::harness::table::KINDS;
use crate::harness::words::{Args, Bad, record};

/// The kind beside which there is no packet.
const NO_PACKET: u64 = 6;

fn byte(a: &mut Args) -> Result<u8, Bad> {
    Ok(a.below(1 << 8)? as u8)
}

fn word(a: &mut Args) -> Result<u32, Bad> {
    Ok(a.below(1 << 32)? as u32)
}

/// Start and length.
type Place = (usize, usize);

fn part(b: &[u8], (start, len): Place) -> &[u8] {
    &b[start..start + len]
}

#[derive(Default)]
struct SplitAnswer {
    refusal: u32,
    kind: u64,
    spin: bool,
    random: u8,
    version: u32,
    packet: Place,
    number_offset: u64,
    length: u64,
    token: Place,
    dst_cid: Place,
    src_cid: Place,
}

impl SplitAnswer {
    fn none(refusal: u32, at: usize) -> Self {
        Self { refusal, kind: NO_PACKET, packet: (at, 0), ..Self::default() }
    }

    /// Behind the version each connection id stands behind its length.
    fn with_cids(mut self, from: &[u8], dst: ConnectionId, src: ConnectionId) -> Self {
        (self.dst_cid, self.src_cid) = ((6, dst.len()), (7 + dst.len(), src.len()));
        assert_eq!((part(from, self.dst_cid), part(from, self.src_cid)), (&dst[..], &src[..]));
        self
    }

    /// All places but the packet's are counted from its first byte, which `from` starts with.
    fn line(&self, from: &[u8]) -> String {
        let mut fields =
            vec![self.refusal.into(), self.kind, self.spin.into(), self.random.into(), self.version.into()];
        fields.extend([self.packet.0 as u64, self.packet.1 as u64, self.number_offset, self.length]);
        let places = [self.token, self.dst_cid, self.src_cid];
        fields.extend(places.iter().flat_map(|&(start, len)| [start as u64, len as u64]));
        let [token, dst, src] = places.map(|place| part(from, place));
        record(&fields, &[&from[..self.packet.1], token, dst, src])
    }
}

/// gsplit AT CIDLEN GREASE VERSIONS B
pub(crate) fn gsplit(a: &mut Args, out: &mut String) -> Result<(), Bad> {
    let (at, local, grease) = (a.num()? as usize, a.num()? as usize, byte(a)?);
    let (reader, datagram) = (Reader { local, grease: grease == 1, versions: a.versions()? }, a.bytes()?);
    let no = SplitAnswer::none(14, at).line(&[]);
    if grease > 1 {
        out.push_str(&no);
    } else {
        version_2::settle(out, reader.outside(&datagram, &no), |types| split(&reader, &datagram, at, types));
    }
    Ok(())
}

/// What the Rust splits off from the place on; past the end there is nothing to ask it.
fn split(reader: &Reader, datagram: &[u8], at: usize, types: Types) -> String {
    let from = datagram.get(at..).unwrap_or_default();
    if from.is_empty() && !datagram.is_empty() {
        return SplitAnswer::none(0, at).line(from);
    }
    let answer = match reader.split(from.into(), types) {
        Err(PacketDecodeError::UnsupportedVersion { src_cid, dst_cid, version }) => {
            SplitAnswer { version, ..SplitAnswer::none(4, at) }.with_cids(from, dst_cid, src_cid)
        }
        Err(e) => SplitAnswer::none(number(&e), at),
        Ok((p, _)) => {
            assert_eq!(p.data(), &from[..p.len()]);
            found(
                &p,
                from,
                SplitAnswer { packet: (at, p.len()), number_offset: p.buf.position(), ..Default::default() },
            )
        }
    };
    answer.line(from)
}

/// What the kind has.
fn found(p: &PartialDecode, from: &[u8], answer: SplitAnswer) -> SplitAnswer {
    let length = p.plain_header.payload_len().unwrap_or(0);
    match p.plain_header {
        ProtectedHeader::Initial(ProtectedInitialHeader { dst_cid, src_cid, ref token_pos, version, .. }) => {
            let token = (token_pos.start, token_pos.len());
            SplitAnswer { kind: 0, version, length, token, ..answer }.with_cids(from, dst_cid, src_cid)
        }
        ProtectedHeader::Long { ty, dst_cid, src_cid, version, .. } => {
            let kind = if ty == LongType::ZeroRtt { 1 } else { 2 };
            SplitAnswer { kind, version, length, ..answer }.with_cids(from, dst_cid, src_cid)
        }
        ProtectedHeader::Retry { dst_cid, src_cid, version } => {
            SplitAnswer { kind: 3, version, ..answer }.with_cids(from, dst_cid, src_cid)
        }
        ProtectedHeader::Short { spin, dst_cid } => {
            let place = (1, dst_cid.len());
            assert_eq!(part(from, place), &dst_cid[..]);
            SplitAnswer { kind: 4, spin, dst_cid: place, ..answer }
        }
        ProtectedHeader::VersionNegotiate { random, dst_cid, src_cid } => {
            SplitAnswer { kind: 5, random, ..answer }.with_cids(from, dst_cid, src_cid)
        }
    }
}

/// A kind by its number, and what it is taken for; none past 5.
fn taken(kind: u8, offset: u64, packet: Vec<u8>) -> Option<Taken> {
    let (kind, _) = KINDS.get(usize::from(kind))?;
    Some(Taken { kind, offset, packet })
}

/// gsample KIND OFFSET B
pub(crate) fn gsample(a: &mut Args, out: &mut String) -> Result<(), Bad> {
    let (kind, offset, packet) = (byte(a)?, a.num()?, a.bytes()?);
    let no = |n: u32| record(&[n.into(), 0, 0], &[&[]]);
    let Some(taken) = taken(kind, offset, packet) else {
        out.push_str(&no(14));
        return Ok(());
    };
    settle(out, taken.decided(no, no(0)), || match sampled(&taken) {
        Err(n) => no(n),
        Ok(None) => no(0),
        Ok(Some(place)) => record(&[0, place.0 as u64, place.1 as u64], &[part(&taken.packet, place)]),
    });
    Ok(())
}

/// gunmask KIND OFFSET MASK B
pub(crate) fn gunmask(a: &mut Args, out: &mut String) -> Result<(), Bad> {
    let (kind, offset, mask, packet) = (byte(a)?, a.num()?, a.bytes()?, a.bytes()?);
    let lent = packet.clone();
    let no = |n: u32| record(&[n.into(), 0, 0, 0, 0, 0, 0, 0, 0], &[&[], &[], &lent]);
    let (Some(taken), Ok(mask)) = (taken(kind, offset, packet), mask.try_into()) else {
        out.push_str(&no(14));
        return Ok(());
    };
    let form = || if taken.has_other_form() { decided(FORM_BIT, no(14)) } else { None };
    settle(out, taken.decided(no, no(0)).or_else(form), || match taken.partial().finish(Some(&MaskKey(mask))) {
        Err(e) => no(number(&e)),
        Ok(p) => unmasked(&p, offset as usize),
    });
    Ok(())
}

/// A packet that was finished: its header ends with its number.
fn unmasked(p: &Packet, offset: usize) -> String {
    let after = [&p.header_data[..], &p.payload[..]].concat();
    let Some(n) = p.header.number() else {
        return record(&[0; 9], &[&[], &[], &after]);
    };
    let (header, payload) = ((0, offset + n.len()), (offset + n.len(), after.len() - offset - n.len()));
    assert_eq!((part(&after, header), part(&after, payload)), (&p.header_data[..], &p.payload[..]));
    let phase = p.header.is_short() && p.header.key_phase();
    let fields = [0, p.reserved_bits_valid().into(), phase.into(), raw(n).into(), n.len() as u64];
    let places = [header, payload].map(|(start, len)| [start as u64, len as u64]).concat();
    record(&[&fields[..], &places].concat(), &[&p.header_data, &p.payload, &after])
}

/// The number ends of a space as the surface has them: NEXT,ACKED,LARGEST,HASACKED,HASLARGEST.
type EndsGiven = [u64; 5];

fn ends(a: &mut Args) -> Result<EndsGiven, Bad> {
    let given: EndsGiven = a.list()?.try_into().map_err(|_| Bad)?;
    if given[3].max(given[4]) > 255 { Err(Bad) } else { Ok(given) }
}

/// gnumber STEP KIND NUMBER LEN VALUE INITIAL HANDSHAKE DATA: the model
pub(crate) fn gnumber(a: &mut Args, out: &mut String) -> Result<(), Bad> {
    let (step, kind, n, k, value) = (byte(a)?, byte(a)?, a.num()?, a.num()?, word(a)?);
    let mut spaces = [ends(a)?, ends(a)?, ends(a)?];
    let said = match space_of(kind) {
        Some(space) => stepped(&mut spaces[space], |ends| ends.call(step, n, k, value)),
        None => Err(14),
    };
    let is_other = matches!(said, Ok(Said::Read(_, true)));
    let answer = match said {
        Err(why) => [why.into(), 0, 0, 0],
        Ok(Said::Read(n, _)) => [0, 0, 0, n],
        Ok(Said::Sent(n, k, value)) => [0, value.into(), k as u64, n],
        Ok(Said::Kept | Said::Set) => [0; 4],
    };
    *out += &record(&[&answer[..], &spaces.concat()].concat(), &[]);
    *out += &mark_if(is_other, CEILING);
    Ok(())
}

/// A step of the space that is named; after a refusal and a read it is as it came.
fn stepped(given: &mut EndsGiven, call: impl FnOnce(&mut Ends) -> Answer) -> Answer {
    let [next, acked, largest, has_acked, has_largest] = *given;
    if has_acked.max(has_largest) > 1 {
        return Err(14);
    }
    let mut ends =
        Ends { next, acked: (has_acked == 1).then_some(acked), largest: (has_largest == 1).then_some(largest) };
    let said = call(&mut ends);
    if matches!(said, Ok(Said::Sent(..) | Said::Kept)) {
        let has = |n: Option<u64>| u64::from(n.is_some());
        let (acked, largest) = (ends.acked.unwrap_or(0), ends.largest.unwrap_or(0));
        *given = [ends.next, acked, largest, has(ends.acked), has(ends.largest)];
    }
    said
}

/// A payload that no memory holds is no payload to ask the Rust for.
const MOST_PAYLOAD: u64 = 1 << 20;

/// gheader KIND SPIN PHASE RANDOM VERSION PAYLOADLEN VALUE,LEN DST SRC TOKEN B
pub(crate) fn gheader(a: &mut Args, out: &mut String) -> Result<(), Bad> {
    let (kind, spin, phase, random, version) = (byte(a)?, byte(a)?, byte(a)?, byte(a)?, word(a)?);
    let payload = a.below(MOST_PAYLOAD)? as usize;
    let [value, k]: [u64; 2] = a.list()?.try_into().map_err(|_| Bad)?;
    let value = value.try_into().map_err(|_| Bad)?;
    let (dst, src, token, b) = (a.bytes()?, a.bytes()?, a.bytes()?, a.bytes()?);
    let no = |n: u32| record(&[n.into(), 0, 0, 0], &[&b]);
    let Some((name, _)) = KINDS.get(usize::from(kind)).filter(|_| spin.max(phase) < 2) else {
        out.push_str(&no(14));
        return Ok(());
    };
    let number = (!matches!(*name, "retry" | "vneg")).then_some((k, value));
    let (spin, key_phase) = (spin == 1, phase == 1);
    let words = Words { kind: name.to_string(), version, spin, key_phase, random, number, dst, src, token };
    let paper = header_refused(&words, payload, b.len()).and_then(|(n, name)| decided(name, no(n)));
    version_2::settle(out, paper, |types| {
        let step = before(&words, payload, types);
        let header = &after_length(&step)[..step.header_len];
        let fields = [0, step.has_length.into(), step.header_len as u64, step.number.unwrap_or(0) as u64];
        record(&fields, &[&[header, b.get(header.len()..).unwrap_or_default()].concat()])
    });
    Ok(())
}

/// A header before so many bytes.
fn before(words: &Words, payload: usize, types: Types) -> Step {
    let (p, mut packet) = words.encode(types);
    packet.resize(p.header_len + payload, 0);
    let (number, has_length) = (p.pn.map(|pn| pn.0), p.pn.is_some_and(|pn| pn.1));
    Step { header_len: p.header_len, number, has_length, packet }
}

fn header_refused(words: &Words, payload: usize, room: usize) -> Option<Refused> {
    if words.token.len().max(payload) > MAX_DATAGRAM {
        return Some((14, SIZE_65527));
    }
    words.refused().or_else(|| {
        let step = before(words, payload, Types::OfTheRust);
        let fits = step.header_len <= room;
        step.refused().or_else(|| step.length_refused()).or((!fits).then_some((15, SHORT_BUFFER)))
    })
}

/// gmask HEADERLEN NUMBERLEN HASLENGTH MASK B
pub(crate) fn gmask(a: &mut Args, out: &mut String) -> Result<(), Bad> {
    let (header_len, k, has_length) = (a.num()? as usize, a.num()? as usize, byte(a)?);
    let (mask, packet) = (a.bytes()?, a.bytes()?);
    let number = (k != 0).then_some(k);
    let step = Step { header_len, number, has_length: has_length == 1, packet };
    let no = |n: u32| record(&[n.into()], &[&step.packet]);
    let Some(mask) = <[u8; 5]>::try_from(mask).ok().filter(|_| has_length < 2) else {
        out.push_str(&no(14));
        return Ok(());
    };
    let refused = step.refused().or_else(|| step.mask_refused());
    settle(out, refused.and_then(|(n, name)| decided(name, no(n))), || {
        let mut b = step.packet.clone();
        step.partial(false).finish(&mut b, &MaskKey(mask), None);
        record(&[0], &[&b])
    });
    Ok(())
}
