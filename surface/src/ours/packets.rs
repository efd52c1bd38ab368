//! Packets in: the split, the walk over a datagram, the sample's place, header protection off.
use super::{Said, kind, name_of, no, start_of, unless};
use guobbarel::{Error, Kind, Packet, PacketRefused, Packets, sample, unmask};
use oracle::harness::words::{Args, Bad, hex};

/// What reading is told, and the datagram: CIDLEN GREASE VERSIONS B.
struct Reader {
    local: usize,
    grease: bool,
    versions: Vec<u32>,
    datagram: Vec<u8>,
}

impl Reader {
    fn new(a: &mut Args) -> Result<Self, Bad> {
        let (local, grease, versions) = (a.num()? as usize, a.flag()?, a.versions()?);
        Ok(Self { local, grease, versions, datagram: a.bytes()? })
    }

    fn packets(&self) -> Packets<'_> {
        Packets::new(&self.datagram, self.local, &self.versions, self.grease)
    }

    /// The first packet, or the refusal's line.
    fn first(&self) -> Result<Packet<'_>, String> {
        match self.packets().next() {
            Some(first) => first.map_err(|why| refused(&why)),
            None => Err("no packet".into()),
        }
    }
}

fn refused(why: &PacketRefused) -> String {
    let said = no(why.error) + unless(why.start == 0);
    match why.unsupported {
        Some(u) => format!("{said} {} {} {}", u.version, hex(u.dst_cid), hex(u.src_cid)),
        None => said,
    }
}

/// Header decode is asked by the split, which goes on where the header is read: where it refuses 7, this is no counterpart.
pub fn decode(a: &mut Args) -> Said {
    let reader = Reader::new(a)?;
    Ok(match reader.first() {
        Err(said) if said == no(Error::Length) => None,
        Err(said) => Some(said),
        Ok(p) => Some(format!("ok {}", header(&p))),
    })
}

pub fn split(a: &mut Args) -> Said {
    let reader = Reader::new(a)?;
    Ok(Some(match reader.first() {
        Err(said) => said,
        Ok(p) => {
            let rest = &reader.datagram[p.start + p.bytes.len()..];
            let rest = if rest.is_empty() { "none".into() } else { hex(rest) };
            format!("ok {} {} {rest} {}", header(&p), hex(p.bytes), hex(p.token))
        }
    }))
}

/// What a header says. The packet number space and three tests of the kind are no words of the surface.
fn header(p: &Packet) -> String {
    let own = match p.kind {
        Kind::Initial => format!(" {} {} {}", start_of(p.token, p.bytes), p.token.len(), p.length),
        Kind::ZeroRtt | Kind::Handshake => format!(" {}", p.length),
        Kind::Retry => String::new(),
        Kind::Short => format!(" {}", u8::from(p.spin)),
        Kind::VersionNegotiation => format!(" {}", p.random),
    };
    let has_length = matches!(p.kind, Kind::Initial | Kind::ZeroRtt | Kind::Handshake);
    let length = if has_length || p.length != 0 { p.length.to_string() } else { "-".into() };
    let kept = (!p.spin || p.kind == Kind::Short) && (p.random == 0 || p.kind == Kind::VersionNegotiation);
    format!(
        "{}{own} {} {} {length} _ _ _ _ {} {}{}",
        name_of(p.kind),
        p.number_offset,
        p.version,
        hex(p.dst_cid),
        hex(p.src_cid),
        unless(kept)
    )
}

pub fn walk(a: &mut Args) -> Said {
    let reader = Reader::new(a)?;
    let (mut line, mut end) = (String::new(), 0);
    for packet in reader.packets() {
        match packet {
            Err(why) => return Ok(Some(line + &format!("refused {} {}", why.start, why.error.number()))),
            Ok(p) => {
                line += &format!("{} {} {} {}; ", p.start, p.bytes.len(), name_of(p.kind), p.number_offset);
                end = p.start + p.bytes.len();
            }
        }
    }
    Ok(Some(line + &format!("end {end}")))
}

/// finish KIND OFFSET MASK B. All of the packet's bytes stand in the line, or are held to what they were.
pub fn finish(a: &mut Args) -> Said {
    let (kind, offset, mask, mut packet) = (kind(a)?, a.num()? as usize, a.array()?, a.bytes()?);
    let before = packet.clone();
    let found = match unmask(kind, &mut packet, offset, &mask) {
        Err(why) => return Ok(Some(format!("{} {}", no(why), hex(&packet)))),
        Ok(found) => found,
    };
    let part = |part: Option<&[u8]>| hex(part.unwrap_or_default());
    let name = name_of(kind);
    let Some(u) = found else {
        let (header, payload) = (part(packet.get(..offset)), part(packet.get(offset..)));
        return Ok(Some(format!("ok {name} - - - - {header} {payload}{}", unless(packet == before))));
    };
    let phase = if kind == Kind::Short || u.key_phase { u8::from(u.key_phase).to_string() } else { "-".into() };
    let (header, payload) = (part(packet.get(u.header)), part(packet.get(u.payload)));
    let (k, value, clear) = (u.number.len(), u.number.value(), u8::from(u.reserved_clear));
    Ok(Some(format!("ok {name} {k} {value} {clear} {phase} {header} {payload}")))
}

/// sample KIND OFFSET B
pub fn sampled(a: &mut Args) -> Said {
    let (kind, offset, packet) = (kind(a)?, a.num()? as usize, a.bytes()?);
    Ok(Some(match sample(kind, &packet, offset) {
        Err(why) => no(why),
        Ok(None) => "none".into(),
        Ok(Some(found)) => format!("ok {} {}", start_of(found, &packet), found.len()),
    }))
}
