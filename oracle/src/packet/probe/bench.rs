//! What the benchmarks time: split, finish, header encode, its finish and packet numbers, with nothing made of the answers.
use super::super::*;
use super::number::{held, raw};
use crate::crypto::HeaderKey;
use std::hint::black_box;

/// A datagram as quinn's endpoint has it: the whole of a counted buffer, which is held here too, so that the last part to go frees
/// nothing.
pub struct Datagram {
    left: Option<BytesMut>,
    _buffer: BytesMut,
}

impl Datagram {
    pub fn new(datagram: &[u8]) -> Self {
        let mut buffer = BytesMut::from(datagram);
        Self { left: Some(buffer.split_to(datagram.len())), _buffer: buffer }
    }

    /// Splits until nothing is left: how many packets, and their bytes. None where one is refused.
    #[inline]
    pub fn walk(&mut self, local_cid_len: usize, versions: &[u32]) -> Option<(u64, u64)> {
        let parser = FixedLengthConnectionIdParser::new(local_cid_len);
        let (mut count, mut bytes) = (0, 0);
        while let Some(datagram) = self.left.take() {
            let (packet, rest) = PartialDecode::new(datagram, &parser, versions, false).ok()?;
            (count, bytes) = (count + 1, bytes + black_box(&packet).len() as u64);
            self.left = rest;
        }
        Some((count, bytes))
    }
}

/// A packet between the split and finish.
pub struct Split {
    packet: Option<PartialDecode>,
    _buffer: BytesMut,
}

impl Split {
    pub fn new(packet: &[u8], local_cid_len: usize, versions: &[u32]) -> Option<Self> {
        let mut buffer = BytesMut::from(packet);
        let parser = FixedLengthConnectionIdParser::new(local_cid_len);
        let (packet, _) = PartialDecode::new(buffer.split_to(packet.len()), &parser, versions, false).ok()?;
        Some(Self { packet: Some(packet), _buffer: buffer })
    }

    /// The cut number, and the bytes of the header with it.
    #[inline]
    pub fn finish(&mut self, key: &dyn HeaderKey) -> Option<(u64, u64)> {
        let packet = self.packet.take()?.finish(Some(key)).ok()?;
        let packet = black_box(&packet);
        Some((raw(packet.header.number()?).into(), packet.header_data.len() as u64))
    }
}

/// A cut number, of length 1 to 4.
pub struct Cut(PacketNumber);

impl Cut {
    pub fn new(len: u64, value: u32) -> Self {
        Self(held(len, value))
    }

    /// The full numbers: how many, and the exclusive or of all.
    #[inline]
    pub fn expand(cuts: &[Self], expected: u64) -> (u64, u64) {
        cuts.iter().fold((0, 0), |(count, mixed), cut| (count + 1, mixed ^ cut.0.expand(expected)))
    }
}

/// A cut number, not of three bytes, with its length above its four bytes.
#[inline]
fn said(cut: PacketNumber) -> u64 {
    u64::from(raw(cut)) | (cut.len() as u64) << 32
}

/// Numbers cut, none of them to three bytes: how many, and the exclusive or of all, each with its length above its four bytes.
#[inline]
pub fn cut(numbers: &[u64], acked: u64) -> (u64, u64) {
    numbers.iter().fold((0, 0), |(count, mixed), &n| (count + 1, mixed ^ said(PacketNumber::new(n, acked))))
}

/// The number ends of the three spaces, kept plainly: quinn has its own in text that is not given.
#[derive(Clone, Copy)]
pub struct Ends([Plain; 3]);

#[derive(Clone, Copy)]
struct Plain {
    next: u64,
    acked: Option<u64>,
    largest: Option<u64>,
}

/// A step in a space.
pub enum Step {
    Send,
    Acknowledge(u64),
    Read(Cut),
    Accept(u64),
}

impl Ends {
    /// The same in each space.
    pub fn new(next: u64, acked: u64, largest: u64) -> Self {
        Self([Plain { next, acked: Some(acked), largest: Some(largest) }; 3])
    }

    /// Steps in spaces 0 to 2: how many, and the exclusive or of the numbers that are sent, as `cut` has them, and read.
    #[inline]
    pub fn take(&mut self, steps: &[(usize, Step)]) -> (u64, u64) {
        steps.iter().fold((0, 0), |(count, mixed), (space, step)| (count + 1, mixed ^ self.0[*space].take(step)))
    }
}

impl Plain {
    #[inline]
    fn take(&mut self, step: &Step) -> u64 {
        match step {
            Step::Send => {
                let sent = said(PacketNumber::new(self.next, self.acked.unwrap_or(0)));
                self.next += 1;
                return sent;
            }
            Step::Acknowledge(n) => self.acked = self.acked.max(Some(*n)),
            Step::Read(cut) => return cut.0.expand(self.largest.map_or(0, |largest| largest + 1)),
            Step::Accept(n) => self.largest = self.largest.max(Some(*n)),
        }
        0
    }
}

/// A header to write.
pub struct Head(Header);

impl Head {
    pub fn initial(version: u32, dst_cid: &[u8], src_cid: &[u8], token: &[u8], number: Cut) -> Self {
        let (dst_cid, src_cid) = (ConnectionId::new(dst_cid), ConnectionId::new(src_cid));
        let token = Bytes::copy_from_slice(token);
        Self(Header::Initial(InitialHeader { dst_cid, src_cid, token, number: number.0, version }))
    }

    pub fn handshake(version: u32, dst_cid: &[u8], src_cid: &[u8], number: Cut) -> Self {
        let (dst_cid, src_cid) = (ConnectionId::new(dst_cid), ConnectionId::new(src_cid));
        Self(Header::Long { ty: LongType::Handshake, dst_cid, src_cid, number: number.0, version })
    }

    pub fn short(dst_cid: &[u8], number: Cut) -> Self {
        let dst_cid = ConnectionId::new(dst_cid);
        Self(Header::Short { spin: false, key_phase: false, dst_cid, number: number.0 })
    }

    /// Appends it: its bytes, and those of its number. The Length is left 0, for finish to set.
    #[inline]
    pub fn encode(&self, w: &mut Vec<u8>) -> Option<(u64, u64)> {
        let partial = self.0.encode(w);
        black_box(&w[..]);
        Some((partial.header_len as u64, partial.pn?.0 as u64))
    }
}

/// PartialEncode::finish of a packet that is encrypted: its Length, where it has one, and the mask.
#[inline]
pub fn protect(header_len: usize, number_len: usize, has_length: bool, packet: &mut [u8], key: &dyn HeaderKey) {
    let partial = PartialEncode { start: 0, header_len, pn: Some((number_len, has_length)) };
    partial.finish(packet, key, None);
}
