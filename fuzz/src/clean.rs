//! What an answer of a C function has, by include/guobbarel.h: all else in it must be 0.
use crate::ffi::{
    FrameAnswer, FrameValue, HeaderAnswer, NumberAnswer, NumberEnds, NumberSpaces, SplitAnswer, UnmaskAnswer,
};
use guobbarel::Value;
use surface::ours::start_of;

/// Kinds of packet, and what stands for none.
pub const INITIAL: u8 = 0;
pub const ZERO_RTT: u8 = 1;
pub const HANDSHAKE: u8 = 2;
pub const RETRY: u8 = 3;
pub const SHORT: u8 = 4;
pub const VERSION_NEGOTIATION: u8 = 5;
pub const NO_PACKET: u8 = 6;
/// Refusals.
const NO_VERSION: u8 = 4;
pub const NO_ARGUMENT: u8 = 14;
/// Steps of the number ends that say a number.
const SEND: u8 = 0;
const READ: u8 = 2;

pub fn has_number(kind: u8) -> bool {
    kind != RETRY && kind != VERSION_NEGOTIATION
}

/// Of the packet at a place.
pub fn is_clean_split(x: &SplitAnswer, at: usize) -> bool {
    let is_packet = x.kind < NO_PACKET;
    let is_long = x.refusal == NO_VERSION || is_packet && x.kind != SHORT;
    (x.refusal == 0 || !is_packet)
        && (x.spin == 0 || x.kind == SHORT)
        && (x.random == 0 || x.kind == VERSION_NEGOTIATION)
        && (x.version == 0 || is_long && x.kind != VERSION_NEGOTIATION)
        && (is_packet || x.packet.range() == (at..at) && x.number_offset == 0)
        && (x.length == 0 || x.kind <= HANDSHAKE)
        && (x.token.range() == (0..0) || x.kind == INITIAL)
        && (x.dst_cid.range() == (0..0) || is_long || x.kind == SHORT)
        && (x.src_cid.range() == (0..0) || is_long)
}

/// Whether it has nothing but a refusal.
pub fn is_empty(x: &UnmaskAnswer) -> bool {
    [x.reserved_clear, x.key_phase] == [0; 2]
        && (x.number_value, x.number_len) == (0, 0)
        && [x.header.range(), x.payload.range()] == [0..0, 0..0]
}

/// Of the frame at a place of a payload, which says these values to the safe crate: each stands alone in its record.
pub fn is_clean_frame(x: &FrameAnswer, at: usize, said: Option<[Value; 6]>, payload: &[u8]) -> bool {
    let is_frame = x.found == 1;
    let values = said.unwrap_or([Value::Nothing; 6]);
    x.start == at
        && is_frame == said.is_some()
        && x.value.iter().zip(values).all(|(value, said)| is_clean_value(value, said, payload))
        && (is_frame || x.next == 0 && x.name == 0)
        && (x.has_type == 1 || x.frame_type == 0)
}

fn is_clean_value(x: &FrameValue, said: Value, payload: &[u8]) -> bool {
    let (kind, number, place) = match said {
        Value::Nothing => (0, 0, 0..0),
        Value::Number(number) => (1, number, 0..0),
        Value::Part(part) => {
            let start = start_of(part, payload);
            (2, 0, start..start + part.len())
        }
    };
    x.kind == kind && x.number == number && x.place.range() == place
}

/// Of a header of this kind.
pub fn is_clean_header(kind: u8, x: &HeaderAnswer) -> bool {
    let is_written = x.refusal == 0;
    (is_written || x.header_len == 0)
        && (x.number_len == 0 || is_written && has_number(kind))
        && (x.has_length == 0 || is_written && kind <= HANDSHAKE)
}

/// The space of a kind; none where it has no number, or is no kind.
pub fn space_of(spaces: &mut NumberSpaces, kind: u8) -> Option<&mut NumberEnds> {
    match kind {
        INITIAL => Some(&mut spaces.initial),
        HANDSHAKE => Some(&mut spaces.handshake),
        ZERO_RTT | SHORT => Some(&mut spaces.data),
        _ => None,
    }
}

/// Spaces with that of a kind, if it has one, as it is in others.
pub fn with(mut spaces: NumberSpaces, kind: u8, mut others: NumberSpaces) -> NumberSpaces {
    if let (Some(ends), Some(others)) = (space_of(&mut spaces, kind), space_of(&mut others, kind)) {
        *ends = *others;
    }
    spaces
}

/// Only a send says a cut number, only a send and a read a full one. A refusal and a read leave all spaces, every step those that its
/// kind does not name.
pub fn is_clean_number(step: u8, kind: u8, given: NumberSpaces, x: &NumberAnswer) -> bool {
    let is_done = x.refusal == 0;
    let left = if is_done && step != READ { with(x.spaces, kind, given) } else { x.spaces };
    (x.number_value == 0 && x.number_len == 0 || is_done && step == SEND)
        && (x.number == 0 || is_done && (step == SEND || step == READ))
        && (x.refusal == NO_ARGUMENT || kind < NO_PACKET && has_number(kind))
        && left == given
}
