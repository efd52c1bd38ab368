//! Answers questions, one on a line, with one line each: for programs in other languages that want to ask the crate
//! (tools/tshark). Bytes are hex, `-` where there are none; a place is START+LEN, in the datagram or in the payload.
//!
//! ```text
//! number NEXT ACKED                  the next number's cut, with the largest acknowledged or -: LEN VALUE
//! header KIND VERSION SPIN PHASE RANDOM LEN VALUE DST SRC TOKEN PAYLOAD_LEN
//!                                    NUMBER_LEN HAS_LENGTH HEADER
//! sample KIND NUMBER_OFFSET PACKET   SAMPLE
//! protect NUMBER_LEN HAS_LENGTH HEADER_LEN MASK PACKET
//!                                    PACKET
//! split CID_LEN GREASE DATAGRAM      for each packet: KIND PACKET NUMBER_OFFSET VERSION DST SRC TOKEN LENGTH SPIN RANDOM
//! unmask KIND NUMBER_OFFSET MASK PACKET
//!                                    LEN VALUE RESERVED_CLEAR PHASE HEADER
//! expand ACCEPTED LEN VALUE          the full number of a cut one, with the largest accepted or -: NUMBER
//! frames PAYLOAD                     for each frame: TYPE PLACE
//! ```
//! Versions 1 and 2 are listed. What is refused is answered with `refused` and the error's number, what cannot be read with `bad`.
use guobbarel::{CutNumber, Ends, Error, Frames, FullNumber, Header, Kind, Packets, Spaces, Written};
use guobbarel::{VERSION_1, VERSION_2, sample, unmask};
use std::io::{BufRead, Write};
use std::str::FromStr;

/// A question that cannot be read, or is refused.
enum No {
    Bad,
    Refused(Error),
}

impl From<Error> for No {
    fn from(error: Error) -> Self {
        No::Refused(error)
    }
}

/// The words of a question that are not read yet.
struct Words<'a>(std::str::SplitWhitespace<'a>);

impl Words<'_> {
    fn word(&mut self) -> Result<&str, No> {
        self.0.next().ok_or(No::Bad)
    }

    fn number<T: FromStr>(&mut self) -> Result<T, No> {
        self.word()?.parse().map_err(|_| No::Bad)
    }

    fn full_or_none(&mut self) -> Result<Option<FullNumber>, No> {
        match self.word()? {
            "-" => Ok(None),
            word => word.parse().map(|number| Some(FullNumber::new(number))).map_err(|_| No::Bad),
        }
    }

    fn flag(&mut self) -> Result<bool, No> {
        Ok(self.number::<u8>()? == 1)
    }

    fn bytes(&mut self) -> Result<Vec<u8>, No> {
        match self.word()? {
            "-" => Ok(Vec::new()),
            hex if hex.is_ascii() && hex.len() % 2 == 0 => {
                (0..hex.len()).step_by(2).map(|i| u8::from_str_radix(&hex[i..i + 2], 16).map_err(|_| No::Bad)).collect()
            }
            _ => Err(No::Bad),
        }
    }

    fn mask(&mut self) -> Result<[u8; 5], No> {
        self.bytes()?.try_into().map_err(|_| No::Bad)
    }

    fn kind(&mut self) -> Result<Kind, No> {
        match self.word()? {
            "initial" => Ok(Kind::Initial),
            "0rtt" => Ok(Kind::ZeroRtt),
            "handshake" => Ok(Kind::Handshake),
            "retry" => Ok(Kind::Retry),
            "short" => Ok(Kind::Short),
            "negotiation" => Ok(Kind::VersionNegotiation),
            _ => Err(No::Bad),
        }
    }
}

fn name(kind: Kind) -> &'static str {
    match kind {
        Kind::Initial => "initial",
        Kind::ZeroRtt => "0rtt",
        Kind::Handshake => "handshake",
        Kind::Retry => "retry",
        Kind::Short => "short",
        Kind::VersionNegotiation => "negotiation",
    }
}

fn hex(bytes: &[u8]) -> String {
    if bytes.is_empty() { "-".to_string() } else { bytes.iter().map(|b| format!("{b:02x}")).collect() }
}

/// Where a part of some bytes lies in them; an empty part is put at 0.
fn place(whole: &[u8], part: &[u8]) -> String {
    let start = if part.is_empty() { 0 } else { part.as_ptr() as usize - whole.as_ptr() as usize };
    format!("{start}+{}", part.len())
}

/// Spaces with these ends, whatever the kind: a question does not name its space.
fn alike(ends: Ends) -> Spaces {
    Spaces::from_parts(ends, ends, ends)
}

fn number(words: &mut Words) -> Result<String, No> {
    let next = FullNumber::new(words.number()?);
    let cut = alike(Ends::from_parts(next, words.full_or_none()?, None)).send(Kind::Short)?.cut;
    Ok(format!("{} {}", cut.len(), cut.value()))
}

fn expand(words: &mut Words) -> Result<String, No> {
    let spaces = alike(Ends::from_parts(FullNumber::new(0), None, words.full_or_none()?));
    Ok(spaces.read(Kind::Short, CutNumber::new(words.number()?, words.number()?))?.to_string())
}

fn header(words: &mut Words) -> Result<String, No> {
    let kind = words.kind()?;
    let version = words.number()?;
    let (spin, key_phase, random) = (words.flag()?, words.flag()?, words.number()?);
    let number = CutNumber::new(words.number()?, words.number()?);
    let (dst_cid, src_cid, token, payload_len) = (words.bytes()?, words.bytes()?, words.bytes()?, words.number()?);
    let header = match kind {
        Kind::Initial => Header::initial(version, number),
        Kind::ZeroRtt => Header::zero_rtt(version, number),
        Kind::Handshake => Header::handshake(version, number),
        Kind::Retry => Header::retry(version),
        Kind::Short => Header::short(spin, key_phase, number),
        Kind::VersionNegotiation => Header::version_negotiation(random),
    };
    let mut out = vec![0; 65_527];
    let written = header.write(&dst_cid, &src_cid, &token, payload_len, &mut out)?;
    Ok(format!("{} {} {}", written.number_len, u8::from(written.has_length), hex(&out[..written.header_len])))
}

fn protect(words: &mut Words) -> Result<String, No> {
    let (number_len, has_length, header_len) = (words.number()?, words.flag()?, words.number()?);
    let mask = words.mask()?;
    let mut packet = words.bytes()?;
    Written { header_len, number_len, has_length }.protect(&mut packet, &mask)?;
    Ok(hex(&packet))
}

fn sampled(words: &mut Words) -> Result<String, No> {
    let (kind, number_offset, packet) = (words.kind()?, words.number()?, words.bytes()?);
    Ok(sample(kind, &packet, number_offset)?.map_or("-".to_string(), |s| hex(s)))
}

fn split(words: &mut Words) -> Result<String, No> {
    let (cid_len, grease, datagram) = (words.number()?, words.flag()?, words.bytes()?);
    let mut line = Vec::new();
    for packet in Packets::new(&datagram, cid_len, &[VERSION_1, VERSION_2], grease) {
        let p = packet.map_err(|refused| refused.error)?;
        let at = |part| place(&datagram, part);
        line.push(format!(
            "{} {} {} {} {} {} {} {} {} {}",
            name(p.kind),
            at(p.bytes),
            p.number_offset,
            p.version,
            at(p.dst_cid),
            at(p.src_cid),
            at(p.token),
            p.length,
            u8::from(p.spin),
            p.random
        ));
    }
    Ok(line.join(" "))
}

fn unmasked(words: &mut Words) -> Result<String, No> {
    let (kind, number_offset, mask) = (words.kind()?, words.number()?, words.mask()?);
    let mut packet = words.bytes()?;
    let open = unmask(kind, &mut packet, number_offset, &mask)?.ok_or(No::Bad)?;
    let (number, clear, phase) = (open.number, u8::from(open.reserved_clear), u8::from(open.key_phase));
    Ok(format!("{} {} {clear} {phase} {}", number.len(), number.value(), hex(&packet[open.header])))
}

fn frames(words: &mut Words) -> Result<String, No> {
    let payload = words.bytes()?;
    let mut line = Vec::new();
    for read in Frames::new(&payload) {
        let read = read.map_err(|refused| refused.error)?;
        line.push(format!("{} {}+{}", read.ty.get(), read.start, read.len));
    }
    Ok(line.join(" "))
}

fn answer(line: &str) -> Result<String, No> {
    let mut words = Words(line.split_whitespace());
    let asked = words.word()?.to_string();
    match asked.as_str() {
        "number" => number(&mut words),
        "header" => header(&mut words),
        "sample" => sampled(&mut words),
        "protect" => protect(&mut words),
        "split" => split(&mut words),
        "unmask" => unmasked(&mut words),
        "expand" => expand(&mut words),
        "frames" => frames(&mut words),
        _ => Err(No::Bad),
    }
}

fn main() -> std::io::Result<()> {
    let mut out = std::io::stdout().lock();
    for line in std::io::stdin().lock().lines() {
        match answer(&line?) {
            Ok(text) => writeln!(out, "{text}")?,
            Err(No::Refused(error)) => writeln!(out, "refused {}", error.number())?,
            Err(No::Bad) => writeln!(out, "bad")?,
        }
        out.flush()?;
    }
    Ok(())
}
