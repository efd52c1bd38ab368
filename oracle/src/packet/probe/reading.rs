//! Header decode, the split, the walk over a datagram and its dump, the sample's place, finish.
use super::super::*;
use super::number::raw;
use super::version_2::{self, Types};
use crate::MAX_CID_SIZE;
use crate::crypto::{HeaderKey, MaskKey};
use crate::harness::differences::{
    CID_OVER_20, Decided, FORM_BIT, NUMBER_OFFSET, PLACE_PAST, SIZE_65527, VERSIONS_16, decided, settle,
};
use crate::harness::table::KINDS;
use crate::harness::words::{Args, Bad, hex};
use std::cell::Cell;

/// The longest datagram, packet or header.
pub(super) const MAX_DATAGRAM: usize = 65_527;
/// The most supported versions.
const MAX_VERSIONS: usize = 16;
/// What rule 8 asks for behind the number offset: four bytes, and the sample.
pub(super) const BEHIND_OFFSET: usize = 4 + 16;

/// The paper's number of a refusal, by the source's text.
pub(super) fn number(e: &PacketDecodeError) -> u32 {
    match e {
        PacketDecodeError::UnsupportedVersion { .. } => 4,
        PacketDecodeError::InvalidHeader(text) => match *text {
            "unexpected end of packet" => 1,
            "fixed bit unset" => 2,
            "malformed cid" => 3,
            "token out of bounds" => 5,
            "packet too small" => 6,
            "packet too short to contain payload length" => 7,
            "packet too short to extract header protection sample" => 8,
            other => panic!("oracle: unknown refusal {other:?}"),
        },
    }
}

fn refusal(e: &PacketDecodeError) -> String {
    let said = format!("no {}", number(e));
    match e {
        PacketDecodeError::UnsupportedVersion { src_cid, dst_cid, version } => {
            format!("{said} {version} {} {}", hex(dst_cid), hex(src_cid))
        }
        PacketDecodeError::InvalidHeader(_) => said,
    }
}

/// What reading is told: CIDLEN GREASE VERSIONS.
pub(super) struct Reader {
    pub local: usize,
    pub grease: bool,
    pub versions: Vec<u32>,
}

impl Reader {
    fn new(a: &mut Args) -> Result<Self, Bad> {
        Ok(Self { local: a.num()? as usize, grease: a.flag()?, versions: a.versions()? })
    }

    /// Document 01's answer to an argument outside its rule.
    pub(super) fn outside(&self, datagram: &[u8], answer: &str) -> Option<Decided> {
        let name = if datagram.len() > MAX_DATAGRAM {
            SIZE_65527
        } else if self.local > MAX_CID_SIZE {
            CID_OVER_20
        } else if self.versions.len() > MAX_VERSIONS {
            VERSIONS_16
        } else {
            return None;
        };
        decided(name, answer.into())
    }

    fn parser(&self) -> FixedLengthConnectionIdParser {
        FixedLengthConnectionIdParser::new(self.local)
    }

    /// The header alone.
    fn decode(&self, datagram: &[u8], types: Types) -> Result<PartialDecode, PacketDecodeError> {
        let mut buf = io::Cursor::new(BytesMut::from(datagram));
        types.back(buf.get_mut());
        let plain_header = ProtectedHeader::decode(&mut buf, &self.parser(), &self.versions, self.grease)?;
        Ok(PartialDecode { plain_header, buf })
    }

    /// The first packet, and what is behind it.
    pub(super) fn split(
        &self,
        mut datagram: BytesMut,
        types: Types,
    ) -> Result<(PartialDecode, Option<BytesMut>), PacketDecodeError> {
        types.back(&mut datagram);
        let (mut packet, rest) = PartialDecode::new(datagram, &self.parser(), &self.versions, self.grease)?;
        types.forth(packet.buf.get_mut());
        Ok((packet, rest))
    }
}

/// decode CIDLEN GREASE VERSIONS B -> ok HEADER | no N | no 4 VERSION DCID SCID
pub(crate) fn decode(a: &mut Args, out: &mut String) -> Result<(), Bad> {
    let (reader, datagram) = (Reader::new(a)?, a.bytes()?);
    version_2::settle(out, reader.outside(&datagram, "no 14"), |types| match reader.decode(&datagram, types) {
        Err(e) => refusal(&e),
        Ok(packet) => format!("ok {}", header(&packet)),
    });
    Ok(())
}

/// split CIDLEN GREASE VERSIONS B -> ok HEADER PACKET REST TOKEN | no N | no 4 VERSION DCID SCID
pub(crate) fn split(a: &mut Args, out: &mut String) -> Result<(), Bad> {
    let (reader, datagram) = (Reader::new(a)?, a.bytes()?);
    let paper = reader.outside(&datagram, "no 14");
    version_2::settle(out, paper, |types| match reader.split(datagram[..].into(), types) {
        Err(e) => refusal(&e),
        Ok((packet, rest)) => {
            let rest = rest.map_or("none".into(), |rest| hex(&rest));
            let token = packet.initial_header().map_or(&[][..], |h| &packet.data()[h.token_pos.clone()]);
            format!("ok {} {} {rest} {}", header(&packet), hex(packet.data()), hex(token))
        }
    });
    Ok(())
}

fn kind(header: &ProtectedHeader) -> &'static str {
    match header {
        ProtectedHeader::Initial(_) => "initial",
        ProtectedHeader::Long { ty: LongType::ZeroRtt, .. } => "0rtt",
        ProtectedHeader::Long { .. } => "handshake",
        ProtectedHeader::Retry { .. } => "retry",
        ProtectedHeader::Short { .. } => "short",
        ProtectedHeader::VersionNegotiate { .. } => "vneg",
    }
}

/// HEADER: KIND, what only that kind has, OFFSET VERSION PAYLOADLEN SPACE ISINITIAL IS0RTT ISLONG DCID SCID
fn header(packet: &PartialDecode) -> String {
    let head = &packet.plain_header;
    let (own, version, src) = match head {
        ProtectedHeader::Initial(h) => {
            (format!(" {} {} {}", h.token_pos.start, h.token_pos.len(), h.len), h.version, Some(h.src_cid))
        }
        ProtectedHeader::Long { len, version, src_cid, .. } => (format!(" {len}"), *version, Some(*src_cid)),
        ProtectedHeader::Retry { version, src_cid, .. } => (String::new(), *version, Some(*src_cid)),
        ProtectedHeader::Short { spin, .. } => (format!(" {}", u8::from(*spin)), 0, None),
        ProtectedHeader::VersionNegotiate { random, src_cid, .. } => (format!(" {random}"), 0, Some(*src_cid)),
    };
    format!(
        "{}{own} {} {version} {} {} {} {} {} {} {}",
        kind(head),
        packet.buf.position(),
        head.payload_len().map_or("-".into(), |len| len.to_string()),
        packet.space().map_or("-".into(), |space| (space as u8).to_string()),
        u8::from(packet.is_initial()),
        u8::from(packet.is_0rtt()),
        u8::from(packet.has_long_header()),
        hex(&packet.dst_cid()),
        hex(src.as_deref().unwrap_or_default())
    )
}

/// walk CIDLEN GREASE VERSIONS B -> for each packet START LENGTH KIND OFFSET; then end TOTAL | refused START N
pub(crate) fn walk(a: &mut Args, out: &mut String) -> Result<(), Bad> {
    let (reader, datagram) = (Reader::new(a)?, a.bytes()?);
    version_2::settle(out, reader.outside(&datagram, "refused 0 14"), |types| walked(&reader, &datagram, types));
    Ok(())
}

/// dump ROOM B -> for each packet START LENGTH KIND OFFSET; then end TOTAL; | refused START N; where `;` is a line feed | no 15
pub(crate) fn dump(a: &mut Args, out: &mut String) -> Result<(), Bad> {
    let (room, reader, datagram) = (a.num()?, Reader { local: 0, grease: false, versions: vec![1] }, a.bytes()?);
    let mut text = String::new();
    settle(&mut text, reader.outside(&datagram, "refused 0 14;"), || {
        walked(&reader, &datagram, Types::OfTheRust).replace("; ", ";") + ";"
    });
    let len = text.find(" #").unwrap_or(text.len());
    out.push_str(if len as u64 <= room { &text } else { "no 15" });
    Ok(())
}

fn walked(reader: &Reader, datagram: &[u8], types: Types) -> String {
    let (mut said, mut at) = (String::new(), 0);
    let mut left = Some(BytesMut::from(datagram));
    while let Some(bytes) = left {
        match reader.split(bytes, types) {
            Err(e) => return said + &format!("refused {at} {}", number(&e)),
            Ok((p, rest)) => {
                said += &format!("{at} {} {} {}; ", p.len(), kind(&p.plain_header), p.buf.position());
                at += p.len();
                left = rest;
            }
        }
    }
    said + &format!("end {at}")
}

/// ok FINISHED | no N PACKET. FINISHED: KIND NUMBERLEN NUMBER RESERVEDCLEAR KEYPHASE HEADER PAYLOAD
fn finished(part: PartialDecode, packet: &[u8], key: &dyn HeaderKey) -> String {
    let kind = kind(&part.plain_header);
    let p = match part.finish(Some(key)) {
        Err(e) => return format!("no {} {}", number(&e), hex(packet)),
        Ok(p) => p,
    };
    let phase = if p.header.is_short() { u8::from(p.header.key_phase()).to_string() } else { "-".into() };
    let said = match p.header.number() {
        Some(n) => format!("{} {} {} {phase}", n.len(), raw(n), u8::from(p.reserved_bits_valid())),
        None => "- - - -".into(),
    };
    format!("ok {kind} {said} {} {}", hex(&p.header_data), hex(&p.payload))
}

/// A packet of any bytes, taken for one of a kind whose header ends at any offset.
pub(super) struct Taken {
    pub kind: &'static str,
    pub offset: u64,
    pub packet: Vec<u8>,
}

impl Taken {
    /// KIND OFFSET, and what is behind them
    fn new<T>(a: &mut Args, behind: impl FnOnce(&mut Args) -> Result<T, Bad>) -> Result<(Self, T), Bad> {
        let word = a.word()?;
        let (kind, _) = KINDS.into_iter().find(|kind| kind.0 == word).ok_or(Bad)?;
        let (offset, behind) = (a.num()?, behind(a)?);
        Ok((Self { kind, offset, packet: a.bytes()? }, behind))
    }

    fn has_number(&self) -> bool {
        !matches!(self.kind, "retry" | "vneg")
    }

    pub(super) fn partial(&self) -> PartialDecode {
        let (dst_cid, src_cid) = (ConnectionId::new(&[]), ConnectionId::new(&[]));
        let (len, version) = (0, 1);
        let plain_header = match self.kind {
            "initial" => {
                ProtectedHeader::Initial(ProtectedInitialHeader { dst_cid, src_cid, token_pos: 0..0, len, version })
            }
            "0rtt" => ProtectedHeader::Long { ty: LongType::ZeroRtt, dst_cid, src_cid, len, version },
            "handshake" => ProtectedHeader::Long { ty: LongType::Handshake, dst_cid, src_cid, len, version },
            "retry" => ProtectedHeader::Retry { dst_cid, src_cid, version },
            "short" => ProtectedHeader::Short { spin: false, dst_cid },
            _ => ProtectedHeader::VersionNegotiate { random: 0, dst_cid, src_cid },
        };
        let mut buf = io::Cursor::new(BytesMut::from(&self.packet[..]));
        buf.set_position(self.offset);
        PartialDecode { plain_header, buf }
    }

    /// Where document 01 decides before the first byte is looked at; what it answers where there is no number.
    pub(super) fn decided(&self, no: impl Fn(u32) -> String, unnumbered: String) -> Option<Decided> {
        if self.packet.len() > MAX_DATAGRAM {
            decided(SIZE_65527, no(14))
        } else if !self.has_number() {
            if self.offset <= self.packet.len() as u64 { None } else { decided(PLACE_PAST, unnumbered) }
        } else if self.offset == 0 {
            decided(NUMBER_OFFSET, no(14))
        } else if self.offset.checked_add(BEHIND_OFFSET as u64).is_none() {
            decided(NUMBER_OFFSET, no(8))
        } else {
            None
        }
    }

    /// Whether finish gets as far as the first byte, and 0x80 in it is not as the kind has it.
    pub(super) fn has_other_form(&self) -> bool {
        let reaches = self.packet.len() as u64 >= self.offset + BEHIND_OFFSET as u64;
        self.has_number() && reaches && (self.packet[0] & LONG_HEADER_FORM == 0) != (self.kind == "short")
    }
}

/// finish KIND OFFSET MASK B -> ok FINISHED | no N B
pub(crate) fn finish(a: &mut Args, out: &mut String) -> Result<(), Bad> {
    let (taken, mask) = Taken::new(a, |a| a.array())?;
    let no = |n: u32| format!("no {n} {}", hex(&taken.packet));
    let paper = taken
        .decided(no, format!("ok {} - - - - - -", taken.kind))
        .or_else(|| if taken.has_other_form() { decided(FORM_BIT, no(14)) } else { None });
    settle(out, paper, || finished(taken.partial(), &taken.packet, &MaskKey(mask)));
    Ok(())
}

/// A header key that notes the number offset, and masks nothing.
#[derive(Default)]
struct Noting(Cell<Option<usize>>);
impl HeaderKey for Noting {
    fn decrypt(&self, pn_offset: usize, _packet: &mut [u8]) {
        self.0.set(Some(pn_offset));
    }
    fn encrypt(&self, _pn_offset: usize, _packet: &mut [u8]) {}
    fn sample_size(&self) -> usize {
        16
    }
}

/// The sample's start and length, by the offset that finish gives the header key; a refusal's number.
pub(super) fn sampled(taken: &Taken) -> Result<Option<(usize, usize)>, u32> {
    let key = Noting::default();
    let finished = taken.partial().finish(Some(&key));
    finished.map(|_| key.0.get().map(|offset| (offset + 4, key.sample_size()))).map_err(|e| number(&e))
}

/// sample KIND OFFSET B -> ok START LEN | none | no N: by the offset that finish gives the header key, four bytes on
pub(crate) fn sample(a: &mut Args, out: &mut String) -> Result<(), Bad> {
    let (taken, ()) = Taken::new(a, |_| Ok(()))?;
    settle(out, taken.decided(|n| format!("no {n}"), "none".into()), || match sampled(&taken) {
        Err(n) => format!("no {n}"),
        Ok(Some((start, len))) => format!("ok {start} {len}"),
        Ok(None) => "none".into(),
    });
    Ok(())
}
