//! What the benchmarks time: integers, the walk over a payload, and encoders, with nothing made of what is read.
use super::super::*;
use bytes::BytesMut;
use std::hint::black_box;

/// The integers of a slice, read as the ACK scan reads them: how many, and the exclusive or of all. None where one is cut.
#[inline]
pub fn read_vars(mut bytes: &[u8]) -> Option<(u64, u64)> {
    let (mut count, mut mixed) = (0, 0);
    while bytes.has_remaining() {
        mixed ^= bytes.get_var().ok()?;
        count += 1;
    }
    Some((count, mixed))
}

/// A payload as quinn has it behind decryption: counted, so that a frame's data are a part of it and no copy.
pub struct Payload(Bytes);

impl Payload {
    pub fn new(payload: &[u8]) -> Self {
        Self(BytesMut::from(payload).split_to(payload.len()).freeze())
    }

    /// All frames: how many, and their bytes. None where one is refused.
    #[inline]
    pub fn walk(&self) -> Option<(u64, u64)> {
        let mut frames = Iter::new(self.0.clone()).ok()?;
        let (mut count, mut bytes) = (0, 0);
        while let Some((frame, size)) = frames.next_with_size() {
            if black_box(&frame).is_err() {
                return None;
            }
            (count, bytes) = (count + 1, bytes + size as u64);
        }
        Some((count, bytes))
    }

    /// The ranges of the ACK frame at the start, read by AckIter: how many, and the least number.
    #[inline]
    pub fn ranges(&self) -> Option<(u64, u64)> {
        let Ok(Frame::Ack(ack)) = Iter::new(self.0.clone()).ok()?.next()? else { return None };
        let (mut count, mut least) = (0, 0);
        for range in ack.iter() {
            (count, least) = (count + 1, *black_box(range).start());
        }
        Some((count, least))
    }
}

/// Each of these holds a frame as quinn has it before it is sent, and appends it to a Vec.
pub fn reset_stream(id: u64, error_code: u64, final_offset: u64) -> impl Fn(&mut Vec<u8>) {
    let frame = ResetStream { id: StreamId(id), error_code: VarInt(error_code), final_offset: VarInt(final_offset) };
    move |w| black_box(&frame).encode(w)
}

/// A stream frame up to its data, with its offset and with the data's length.
pub fn stream_meta(id: u64, offsets: Range<u64>) -> impl Fn(&mut Vec<u8>) {
    let (frame, length) = (StreamMeta { id: StreamId(id), offsets, fin: false }, true);
    move |w| black_box(&frame).encode(black_box(length), w)
}

pub fn crypto(offset: u64, data: &'static [u8]) -> impl Fn(&mut Vec<u8>) {
    let frame = Crypto { offset, data: Bytes::from_static(data) };
    move |w| black_box(&frame).encode(w)
}

pub fn new_connection_id(
    sequence: u64,
    retire_prior_to: u64,
    id: &'static [u8],
    token: [u8; 16],
) -> impl Fn(&mut Vec<u8>) {
    let frame = NewConnectionId { sequence, retire_prior_to, id: ConnectionId::new(id), reset_token: token.into() };
    move |w| black_box(&frame).encode(w)
}

pub fn connection_close(
    error_code: TransportErrorCode,
    reason: &'static [u8],
    max_len: usize,
) -> impl Fn(&mut Vec<u8>) {
    let frame = ConnectionClose { error_code, frame_type: None, reason: Bytes::from_static(reason) };
    move |w| black_box(&frame).encode(w, black_box(max_len))
}

/// The set of the ranges is made beforehand, as quinn keeps one.
pub fn ack(delay: u64, ranges: Vec<Range<u64>>) -> impl Fn(&mut Vec<u8>) {
    let mut set = ArrayRangeSet::new();
    for range in ranges {
        set.insert(range);
    }
    move |w| Ack::encode(black_box(delay), black_box(&set), None, w)
}
