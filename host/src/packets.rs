//! From a datagram to its packets, and header protection off.
use crate::ffi;
use crate::{CutNumber, Error};
use core::ops::Range;

/// Version 1 of QUIC (RFC 9000).
pub const VERSION_1: u32 = 1;

/// Version 2 of QUIC (RFC 9369). Its long headers have type bits of their own; those of any other version have version 1's.
pub const VERSION_2: u32 = 0x6b33_43cf;

/// The kinds of packet, by what they are: a version's type bits do not show.
#[derive(Clone, Copy, Debug, PartialEq, Eq, Hash)]
#[repr(u8)]
pub enum Kind {
    /// An Initial.
    Initial = 0,
    /// A 0-RTT packet.
    ZeroRtt = 1,
    /// A Handshake packet.
    Handshake = 2,
    /// A Retry: it has no packet number and no header protection.
    Retry = 3,
    /// A packet with a short header (1-RTT).
    Short = 4,
    /// A Version Negotiation packet: it has no packet number and no header protection.
    VersionNegotiation = 5,
}

impl Kind {
    fn from_number(number: u8) -> Option<Kind> {
        match number {
            0 => Some(Kind::Initial),
            1 => Some(Kind::ZeroRtt),
            2 => Some(Kind::Handshake),
            3 => Some(Kind::Retry),
            4 => Some(Kind::Short),
            5 => Some(Kind::VersionNegotiation),
            _ => None,
        }
    }
}

/// A packet, with its header as far as it can be read without keys. All its parts lie in the datagram.
#[derive(Clone, Copy, Debug, PartialEq, Eq)]
pub struct Packet<'a> {
    /// What it is.
    pub kind: Kind,
    /// Where it starts in the datagram.
    pub start: usize,
    /// The whole packet.
    pub bytes: &'a [u8],
    /// Where in it the header ends, and the packet number starts if there is one.
    pub number_offset: usize,
    /// The version; 0 in a short header and in Version Negotiation.
    pub version: u32,
    /// The destination CID.
    pub dst_cid: &'a [u8],
    /// The source CID; empty in a short header.
    pub src_cid: &'a [u8],
    /// An Initial's token.
    pub token: &'a [u8],
    /// The Length of an Initial, 0-RTT or Handshake packet: its number and its payload, in bytes.
    pub length: u64,
    /// A short header's spin bit.
    pub spin: bool,
    /// The seven bits below the form bit, of Version Negotiation.
    pub random: u8,
}

impl Packet<'_> {
    /// Where it stands in the datagram: what [`sample`] and [`unmask`] are to be given of it, since other packets may follow.
    pub const fn range(&self) -> Range<usize> {
        self.start..self.start + self.bytes.len()
    }
}

/// A long header of a version that is not listed, which may be answered with Version Negotiation.
#[derive(Clone, Copy, Debug, PartialEq, Eq)]
pub struct Unsupported<'a> {
    /// The version.
    pub version: u32,
    /// The destination CID.
    pub dst_cid: &'a [u8],
    /// The source CID.
    pub src_cid: &'a [u8],
}

/// A packet that was refused.
#[derive(Clone, Copy, Debug, PartialEq, Eq)]
pub struct PacketRefused<'a> {
    /// Why.
    pub error: Error,
    /// Where it starts in the datagram.
    pub start: usize,
    /// What [`Error::Version`] carries.
    pub unsupported: Option<Unsupported<'a>>,
}

/// The packets of a datagram, one after the other. A refused packet is the last item.
#[derive(Clone, Debug)]
pub struct Packets<'a> {
    datagram: &'a [u8],
    at: usize,
    local_cid_len: usize,
    versions: &'a [u32],
    grease: bool,
    ended: bool,
}

impl<'a> Packets<'a> {
    /// Of a datagram, with the length of the CIDs that we hand out, the versions that we speak, and whether a packet may have
    /// its fixed bit clear (RFC 9287).
    pub fn new(datagram: &'a [u8], local_cid_len: usize, versions: &'a [u32], grease: bool) -> Self {
        Packets { datagram, at: 0, local_cid_len, versions, grease, ended: false }
    }
}

impl<'a> Iterator for Packets<'a> {
    type Item = Result<Packet<'a>, PacketRefused<'a>>;

    fn next(&mut self) -> Option<Self::Item> {
        if self.ended {
            return None;
        }
        let a = ffi::split(self.datagram, self.at, self.local_cid_len, self.versions, self.grease.into());
        let start = a.packet.range().start;
        let rest = self.datagram.get(start..).unwrap_or(&[]);
        if let Some(error) = Error::from_number(a.refusal) {
            self.ended = true;
            let unsupported = (error == Error::Version).then(|| Unsupported {
                version: a.version,
                dst_cid: a.dst_cid.of(rest),
                src_cid: a.src_cid.of(rest),
            });
            return Some(Err(PacketRefused { error, start, unsupported }));
        }
        let Some(kind) = Kind::from_number(a.kind) else {
            self.ended = true;
            return None;
        };
        self.at = a.packet.range().end;
        Some(Ok(Packet {
            kind,
            start,
            bytes: a.packet.of(self.datagram),
            number_offset: a.number_offset,
            version: a.version,
            dst_cid: a.dst_cid.of(rest),
            src_cid: a.src_cid.of(rest),
            token: a.token.of(rest),
            length: a.length,
            spin: a.spin == 1,
            random: a.random,
        }))
    }
}

impl core::iter::FusedIterator for Packets<'_> {}

/// The bytes of a packet that its header protection mask is made of (RFC 9001, 5.4.2); none for Retry and Version Negotiation.
///
/// # Errors
/// [`Error::Argument`] for a packet above 65,527 bytes or, but for these two, a number offset of 0; then [`Error::Sample`].
pub fn sample(kind: Kind, packet: &[u8], number_offset: usize) -> Result<Option<&[u8; 16]>, Error> {
    let a = ffi::sample_place(kind as u8, packet, number_offset);
    match Error::from_number(a.refusal) {
        Some(error) => Err(error),
        None => Ok(a.sample.of(packet).first_chunk()),
    }
}

/// What a packet says once its header protection is off.
#[derive(Clone, Debug, PartialEq, Eq)]
pub struct Unmasked {
    /// The cut packet number.
    pub number: CutNumber,
    /// Whether the reserved bits are clear. If not, the connection is to be closed once the packet is authenticated.
    pub reserved_clear: bool,
    /// A short packet's key phase.
    pub key_phase: bool,
    /// The header with the number, which the AEAD authenticates, as a range of the packet.
    pub header: Range<usize>,
    /// What follows, up to the end of the bytes that were given.
    pub payload: Range<usize>,
}

/// Takes the header protection off a packet where it stands (RFC 9001, 5.4.1). Retry and Version Negotiation have none, and
/// stay as they are.
///
/// `packet` is the packet's own bytes, [`Packet::range`] of its datagram: were it the whole datagram, the payload would reach into
/// the packets that follow.
///
/// # Errors
/// [`Error::Argument`] for a packet above 65,527 bytes or, but for these two, a number offset of 0; then [`Error::Sample`]; then
/// [`Error::Argument`] where the packet's form bit does not fit the kind.
pub fn unmask(kind: Kind, packet: &mut [u8], number_offset: usize, mask: &[u8; 5]) -> Result<Option<Unmasked>, Error> {
    let a = ffi::unmask(kind as u8, packet, number_offset, mask);
    match Error::from_number(a.refusal) {
        Some(error) => Err(error),
        None if a.number_len == 0 => Ok(None),
        None => Ok(Some(Unmasked {
            number: CutNumber::new(a.number_len, a.number_value),
            reserved_clear: a.reserved_clear == 1,
            key_phase: a.key_phase == 1,
            header: a.header.range(),
            payload: a.payload.range(),
        })),
    }
}
