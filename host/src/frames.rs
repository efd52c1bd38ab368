//! From a payload in the clear to its frames (RFC 9000, 19; RFC 9221; the ACK frequency draft).
use crate::acks::AckRanges;
use crate::ffi::{self, FrameAnswer, FrameValue};
use crate::{Error, FrameType, FullNumber, StreamId};

/// The ECN counts of an ACK.
#[derive(Clone, Copy, Debug, PartialEq, Eq)]
pub struct EcnCounts {
    /// Packets received with ECT(0).
    pub ect0: u64,
    /// Packets received with ECT(1).
    pub ect1: u64,
    /// Packets received with ECN-CE.
    pub ce: u64,
}

/// An ACK frame.
#[derive(Clone, Copy, Debug, PartialEq, Eq)]
pub struct Ack<'a> {
    /// The largest number that is acknowledged.
    pub largest: FullNumber,
    /// The delay, as it was encoded.
    pub delay: u64,
    /// The bytes of its blocks.
    pub blocks: &'a [u8],
    /// The ECN counts, where it has them.
    pub ecn: Option<EcnCounts>,
}

impl<'a> Ack<'a> {
    /// The ranges of numbers that it acknowledges.
    pub fn ranges(&self) -> AckRanges<'a> {
        AckRanges::new(self.largest, self.blocks)
    }

    /// From the record; its last three values are the ECN counts, or nothing.
    #[inline(always)]
    fn of(value: &[FrameValue; 6], payload: &'a [u8]) -> Self {
        let number = |i: usize| value[i].number;
        Ack {
            largest: FullNumber::new(number(0)),
            delay: number(1),
            blocks: value[2].place.of(payload),
            ecn: (value[3].kind != 0).then(|| EcnCounts { ect0: number(3), ect1: number(4), ce: number(5) }),
        }
    }

    fn values(&self) -> [Value<'a>; 6] {
        let [ect0, ect1, ce] = self.ecn.map_or([Value::Nothing; 3], |x| [x.ect0, x.ect1, x.ce].map(Value::Number));
        [Value::Number(self.largest.get()), Value::Number(self.delay), Value::Part(self.blocks), ect0, ect1, ce]
    }
}

/// Makes, of one list, the enum of frames, how each is read from the C record, and what each says as plain values. A row has the
/// first type of a kind of frame, its name, and its fields in the order of the record's values; an ACK, whose last three come or
/// go together, is a struct of its own.
macro_rules! frames {
    ($(
        $(#[$doc:meta])*
        $first:literal $name:ident $(($whole:ident: $inner:ty))? $({ $($field:ident: $ty:ty),* })?,
    )*) => {
        /// A frame. Its data, reason, token and ids are parts of the payload.
        #[derive(Clone, Copy, Debug, PartialEq, Eq)]
        #[allow(missing_docs)] // the fields have RFC 9000's names
        pub enum Frame<'a> {
            $($(#[$doc])* $name $(($inner))? $({ $($field: $ty),* })?,)*
        }

        impl<'a> Frame<'a> {
            /// Every kind of frame, by its first type, in ascending order.
            pub const KINDS: &'static [FrameType] = &[$(FrameType::new($first)),*];

            /// The first type of its kind.
            pub const fn kind(&self) -> FrameType {
                match self {
                    $(Frame::$name { .. } => FrameType::new($first),)*
                }
            }

            /// What it says, value after value as in `include/guobbarel.h`; past the last there is nothing.
            pub fn values(&self) -> [Value<'a>; 6] {
                let mut said = [Value::Nothing; 6];
                match *self {
                    $(Frame::$name $(($whole))? $({ $($field),* })? => {
                        $(said = $whole.values();)?
                        $(said.iter_mut().zip([$($field.value()),*]).for_each(|(at, value)| *at = value);)?
                    })*
                }
                said
            }

            /// The frame of an answer, by its name; none for a name that no frame has, which no answer says.
            #[inline(always)]
            fn of(a: &FrameAnswer, payload: &'a [u8]) -> Option<Self> {
                let mut at = 0;
                let mut next = || {
                    at += 1;
                    &a.value[at - 1]
                };
                Some(match a.name {
                    $($first => {
                        Frame::$name $((<$inner>::of(&a.value, payload)))? $({ $($field: Field::of(next(), payload)),* })?
                    })*
                    _ => return None,
                })
            }
        }
    };
}

frames! {
    /// PADDING.
    0x00 Padding,
    /// PING.
    0x01 Ping,
    /// ACK.
    0x02 Ack(ack: Ack<'a>),
    /// RESET_STREAM.
    0x04 ResetStream { id: StreamId, error_code: u64, final_size: u64 },
    /// STOP_SENDING.
    0x05 StopSending { id: StreamId, error_code: u64 },
    /// CRYPTO.
    0x06 Crypto { offset: u64, data: &'a [u8] },
    /// NEW_TOKEN.
    0x07 NewToken { token: &'a [u8] },
    /// STREAM, and whether a length stood before its data.
    0x08 Stream { id: StreamId, offset: u64, fin: bool, has_length: bool, data: &'a [u8] },
    /// MAX_DATA.
    0x10 MaxData { maximum: u64 },
    /// MAX_STREAM_DATA.
    0x11 MaxStreamData { id: StreamId, maximum: u64 },
    /// MAX_STREAMS, of streams that go one way or both.
    0x12 MaxStreams { one_way: bool, maximum: u64 },
    /// DATA_BLOCKED.
    0x14 DataBlocked { limit: u64 },
    /// STREAM_DATA_BLOCKED.
    0x15 StreamDataBlocked { id: StreamId, limit: u64 },
    /// STREAMS_BLOCKED, of streams that go one way or both.
    0x16 StreamsBlocked { one_way: bool, limit: u64 },
    /// NEW_CONNECTION_ID; the reset token has 16 bytes.
    0x18 NewConnectionId { sequence: u64, retire_prior_to: u64, id: &'a [u8], reset_token: &'a [u8] },
    /// RETIRE_CONNECTION_ID.
    0x19 RetireConnectionId { sequence: u64 },
    /// PATH_CHALLENGE: its eight bytes as a number, most significant first.
    0x1a PathChallenge { data: u64 },
    /// PATH_RESPONSE.
    0x1b PathResponse { data: u64 },
    /// CONNECTION_CLOSE of the transport; type 0 reads as none.
    0x1c ConnectionClose { error_code: u64, frame_type: Option<FrameType>, reason: &'a [u8] },
    /// CONNECTION_CLOSE of the application.
    0x1d ApplicationClose { error_code: u64, reason: &'a [u8] },
    /// HANDSHAKE_DONE.
    0x1e HandshakeDone,
    /// IMMEDIATE_ACK.
    0x1f ImmediateAck,
    /// DATAGRAM, and whether a length stood before its data.
    0x30 Datagram { has_length: bool, data: &'a [u8] },
    /// ACK_FREQUENCY.
    0xaf AckFrequency { sequence: u64, threshold: u64, max_delay: u64, reordering: u64 },
}

/// What a frame says at one place of its list of values.
#[derive(Clone, Copy, Debug, PartialEq, Eq)]
pub enum Value<'a> {
    /// Nothing, where it may be missing or past the last.
    Nothing,
    /// A number; a flag is 0 or 1.
    Number(u64),
    /// A part of the payload.
    Part(&'a [u8]),
}

/// What may stand in a row of the list: one value of the record.
trait Field<'a> {
    /// From the record.
    fn of(value: &FrameValue, payload: &'a [u8]) -> Self;

    /// As a plain value.
    fn value(self) -> Value<'a>;
}

impl<'a> Field<'a> for u64 {
    #[inline(always)]
    fn of(value: &FrameValue, _: &'a [u8]) -> Self {
        value.number
    }

    fn value(self) -> Value<'a> {
        Value::Number(self)
    }
}

impl<'a> Field<'a> for bool {
    #[inline(always)]
    fn of(value: &FrameValue, _: &'a [u8]) -> Self {
        value.number == 1
    }

    fn value(self) -> Value<'a> {
        Value::Number(self.into())
    }
}

impl<'a> Field<'a> for StreamId {
    #[inline(always)]
    fn of(value: &FrameValue, _: &'a [u8]) -> Self {
        StreamId::new(value.number)
    }

    fn value(self) -> Value<'a> {
        Value::Number(self.get())
    }
}

impl<'a> Field<'a> for Option<FrameType> {
    #[inline(always)]
    fn of(value: &FrameValue, _: &'a [u8]) -> Self {
        (value.kind != 0).then(|| FrameType::new(value.number))
    }

    fn value(self) -> Value<'a> {
        self.map_or(Value::Nothing, |ty| Value::Number(ty.get()))
    }
}

impl<'a> Field<'a> for &'a [u8] {
    #[inline(always)]
    fn of(value: &FrameValue, payload: &'a [u8]) -> Self {
        value.place.of(payload)
    }

    fn value(self) -> Value<'a> {
        Value::Part(self)
    }
}

/// A frame that was read.
#[derive(Clone, Copy, Debug, PartialEq, Eq)]
pub struct Read<'a> {
    /// Where it starts in the payload.
    pub start: usize,
    /// How many bytes it takes, its type among them.
    pub len: usize,
    /// Its type as it was read.
    pub ty: FrameType,
    /// What it says.
    pub frame: Frame<'a>,
}

/// A frame that was refused.
#[derive(Clone, Copy, Debug, PartialEq, Eq)]
pub struct FrameRefused {
    /// Why.
    pub error: Error,
    /// Where it starts in the payload.
    pub start: usize,
    /// Its type, once read.
    pub ty: Option<FrameType>,
}

/// The frames of a payload, one after the other. A refused frame is the last item.
#[derive(Clone, Debug)]
pub struct Frames<'a> {
    payload: &'a [u8],
    at: usize,
    ended: bool,
}

impl<'a> Frames<'a> {
    /// Of a payload in the clear.
    pub fn new(payload: &'a [u8]) -> Self {
        Frames { payload, at: 0, ended: false }
    }
}

impl<'a> Iterator for Frames<'a> {
    type Item = Result<Read<'a>, FrameRefused>;

    #[inline(always)] // a frame that is looked at on the spot need not go through memory
    fn next(&mut self) -> Option<Self::Item> {
        if self.ended {
            return None;
        }
        let a = ffi::frame_read(self.payload, self.at);
        if let Some(error) = Error::from_number(a.refusal) {
            self.ended = true;
            let ty = (a.has_type == 1).then(|| FrameType::new(a.frame_type));
            return Some(Err(FrameRefused { error, start: a.start, ty }));
        }
        let Some(frame) = (a.found == 1).then(|| Frame::of(&a, self.payload)).flatten() else {
            self.ended = true;
            return None;
        };
        self.at = a.next;
        let len = a.next.saturating_sub(a.start);
        Some(Ok(Read { start: a.start, len, ty: FrameType::new(a.frame_type), frame }))
    }
}

impl core::iter::FusedIterator for Frames<'_> {}
