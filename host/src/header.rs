//! Packets out: a header with its Length, and header protection on.
use crate::ffi::{self, HeaderGiven};
use crate::{CutNumber, Error, Kind};

/// A header to write, without its connection ids and its token. It is the record that goes over the C surface.
#[derive(Clone, Copy, Debug, PartialEq, Eq)]
pub struct Header(HeaderGiven);

impl Header {
    /// An Initial.
    pub const fn initial(version: u32, number: CutNumber) -> Header {
        Header::of(Kind::Initial, version, number)
    }

    /// A 0-RTT packet.
    pub const fn zero_rtt(version: u32, number: CutNumber) -> Header {
        Header::of(Kind::ZeroRtt, version, number)
    }

    /// A Handshake packet.
    pub const fn handshake(version: u32, number: CutNumber) -> Header {
        Header::of(Kind::Handshake, version, number)
    }

    /// A Retry.
    pub const fn retry(version: u32) -> Header {
        Header::of(Kind::Retry, version, NO_NUMBER)
    }

    /// A packet with a short header.
    pub const fn short(spin: bool, key_phase: bool, number: CutNumber) -> Header {
        let Header(given) = Header::of(Kind::Short, 0, number);
        Header(HeaderGiven { spin: spin as u8, key_phase: key_phase as u8, ..given })
    }

    /// Version Negotiation, with the seven bits below the form bit; the top bit of a number above 0x7f is lost.
    pub const fn version_negotiation(random: u8) -> Header {
        let Header(given) = Header::of(Kind::VersionNegotiation, 0, NO_NUMBER);
        Header(HeaderGiven { random, ..given })
    }

    const fn of(kind: Kind, version: u32, number: CutNumber) -> Header {
        Header(HeaderGiven {
            kind: kind as u8,
            spin: 0,
            key_phase: 0,
            random: 0,
            version,
            number_value: number.value(),
            number_len: number.len(),
        })
    }

    /// Writes the header from byte 0 of `out` on, for a payload of `payload_len` bytes (ciphertext with its tag) to follow it.
    /// A short header has no source CID, and only an Initial has a token: what a kind does not have is not looked at.
    ///
    /// # Errors
    /// [`Error::Argument`] for a CID above 20 bytes, a token or a payload above 65,527, a number outside its rule, a Length of
    /// 16,384 or more, and a packet, header and payload, above 65,527 bytes; then [`Error::Room`].
    pub fn write(
        &self,
        dst_cid: &[u8],
        src_cid: &[u8],
        token: &[u8],
        payload_len: usize,
        out: &mut [u8],
    ) -> Result<Written, Error> {
        let a = ffi::header_write(self.0, dst_cid, src_cid, token, payload_len, out);
        match Error::from_number(a.refusal) {
            Some(error) => Err(error),
            None => Ok(Written { header_len: a.header_len, number_len: a.number_len, has_length: a.has_length == 1 }),
        }
    }
}

/// The number of a header that has none.
const NO_NUMBER: CutNumber = CutNumber::new(0, 0);

/// What a header was written with.
#[derive(Clone, Copy, Debug, PartialEq, Eq)]
pub struct Written {
    /// The header's bytes, its number's among them.
    pub header_len: usize,
    /// The number's bytes; 0 where there is no number.
    pub number_len: usize,
    /// Whether it has a Length.
    pub has_length: bool,
}

impl Written {
    /// Puts the header protection on the packet once its payload is encrypted (RFC 9001, 5.4.1). The mask is made of the
    /// packet's [`crate::sample`] at the number offset `header_len - number_len`. A packet that has no number stays as it is.
    ///
    /// # Errors
    /// [`Error::Argument`] for a packet above 65,527 bytes, shorter than its header, or not of this header, and
    /// [`Error::Sample`].
    pub fn protect(&self, packet: &mut [u8], mask: &[u8; 5]) -> Result<(), Error> {
        let refusal = ffi::mask(self.header_len, self.number_len, self.has_length.into(), packet, mask);
        Error::from_number(refusal).map_or(Ok(()), Err)
    }
}
