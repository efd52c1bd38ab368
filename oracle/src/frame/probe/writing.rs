//! The encoders, the codecs beside them, the sizes.
use super::super::*;
use crate::TransportErrorCode;
use crate::coding::Codec;
use crate::harness::differences::{
    ACK_LIST, CID_OVER_20, CLOSE_CODE, Decided, MAX_LEN, NCID_OUT, SIZE_65527, STREAM_END, VARINT_62, decided, settle,
    settle_changed,
};
use crate::harness::leaf::{cursor, no_room, written};
use crate::harness::words::{Args, Bad, hex};
use std::panic::{AssertUnwindSafe, catch_unwind};

const END: u64 = 1 << 62;
const MAX_DATAGRAM: usize = 65_527;

/// Writes into any output.
type Writer = dyn Fn(&mut dyn BufMut);

/// What is written; and the difference's name where the documents refuse the arguments with 14.
struct Encoder {
    write: Box<Writer>,
    /// What the Rust writes where it is asked as we are, if `write` asks it something else.
    own: Option<Box<Writer>>,
    outside: Option<&'static str>,
}

impl Encoder {
    fn new(outside: Option<&'static str>, write: impl Fn(&mut dyn BufMut) + 'static) -> Self {
        Self { write: Box::new(write), own: None, outside }
    }

    /// What is written where there is room.
    fn whole(&self) -> Vec<u8> {
        let mut w = Vec::new();
        (self.write)(&mut w);
        w
    }

    /// What the documents decide: 14 for the arguments or for a frame too long, 15 for a buffer too short.
    fn paper(&self, lent: &[u8]) -> Option<Decided> {
        if let Some(name) = self.outside {
            return decided(name, format!("no 14 {}", hex(lent)));
        }
        if self.whole().len() > MAX_DATAGRAM {
            return decided(SIZE_65527, format!("no 14 {}", hex(lent)));
        }
        let paper = no_room(lent, &*self.write)?;
        Some(Decided { name: if self.own_fits(lent) { CLOSE_CODE } else { paper.name }, ..paper })
    }

    /// Whether what the Rust writes where it is asked as we are has room, though what is to be written has not.
    fn own_fits(&self, lent: &[u8]) -> bool {
        self.own.as_ref().is_some_and(|own| catch_unwind(AssertUnwindSafe(|| written(lent, &**own))).is_ok())
    }
}

/// fenc NAME values (table.rs) B
pub(crate) fn fenc(a: &mut Args, out: &mut String) -> Result<(), Bad> {
    let encoder = encoder(a)?;
    let lent = a.bytes()?;
    let (paper, rust) = (encoder.paper(&lent), || written(&lent, &*encoder.write));
    match &encoder.own {
        Some(own) => settle_changed(out, paper, CLOSE_CODE, rust, || written(&lent, &**own)),
        None => settle(out, paper, rust),
    }
    Ok(())
}

fn encoder(a: &mut Args) -> Result<Encoder, Bad> {
    Ok(match a.word()? {
        "reset" => reset(a.num()?, a.num()?, a.num()?),
        "stop" => stop(a.num()?, a.num()?),
        "crypto" => crypto(a.num()?, a.bytes()?.into()),
        "token" => token(a.bytes()?.into()),
        "stream" => stream(a)?,
        "newcid" => newcid(a)?,
        "datagram" => datagram(a.flag()?, a.bytes()?.into()),
        "ackfreq" => ackfreq([a.num()?, a.num()?, a.num()?, a.num()?]),
        "close" => close(a)?,
        "appclose" => appclose(a.flag()?, a.num()?, a.num()? as usize, a.bytes()?.into()),
        "ack" => ack(a)?,
        "counts" => counts([a.num()?, a.num()?, a.num()?]),
        "type" => type_alone(a.num()?),
        "id" => id_alone(a.num()?),
        "code" => code_alone(a.num()?),
        _ => return Err(Bad),
    })
}

/// Each integer is below 2^62.
fn integers(xs: &[u64]) -> Option<&'static str> {
    xs.iter().any(|&x| x >= END).then_some(VARINT_62)
}

/// Panics from 2^62 on, as the Rust does wherever it makes one of a number.
fn var(x: u64) -> VarInt {
    VarInt::from_u64(x).unwrap()
}

/// The bytes of an integer; 8 from 2^62 on.
fn size(x: u64) -> usize {
    VarInt::from_u64(x).map_or(8, VarInt::size)
}

fn reset(id: u64, code: u64, end: u64) -> Encoder {
    Encoder::new(integers(&[id, code, end]), move |mut w| {
        ResetStream { id: StreamId(id), error_code: var(code), final_offset: var(end) }.encode(&mut w)
    })
}

fn stop(id: u64, code: u64) -> Encoder {
    Encoder::new(integers(&[id, code]), move |mut w| {
        StopSending { id: StreamId(id), error_code: var(code) }.encode(&mut w)
    })
}

fn crypto(offset: u64, data: Bytes) -> Encoder {
    Encoder::new(integers(&[offset]), move |mut w| Crypto { offset, data: data.clone() }.encode(&mut w))
}

fn token(token: Bytes) -> Encoder {
    Encoder::new(None, move |mut w| NewToken { token: token.clone() }.encode(&mut w))
}

/// ID START END FIN LENGTH
fn stream(a: &mut Args) -> Result<Encoder, Bad> {
    let (id, start, end, fin, length) = (a.num()?, a.num()?, a.num()?, a.flag()?, a.flag()?);
    let outside = if end < start || end >= END { Some(STREAM_END) } else { integers(&[id]) };
    Ok(Encoder::new(outside, move |mut w| {
        StreamMeta { id: StreamId(id), offsets: start..end, fin }.encode(length, &mut w)
    }))
}

/// SEQUENCE RETIRE CID TOKEN
fn newcid(a: &mut Args) -> Result<Encoder, Bad> {
    let (sequence, retire_prior_to, id) = (a.num()?, a.num()?, a.bytes()?);
    let token: [u8; RESET_TOKEN_SIZE] = a.array()?;
    let outside = match id.len() {
        0 => Some(NCID_OUT),
        _ if retire_prior_to > sequence => Some(NCID_OUT),
        1..=MAX_CID_SIZE => integers(&[sequence]),
        _ => Some(CID_OVER_20),
    };
    Ok(Encoder::new(outside, move |mut w| {
        let id = ConnectionId::new(&id);
        NewConnectionId { sequence, retire_prior_to, id, reset_token: token.into() }.encode(&mut w)
    }))
}

/// The source writes it into a Vec.
fn datagram(length: bool, data: Bytes) -> Encoder {
    Encoder::new(None, move |w| {
        let mut whole = Vec::new();
        Datagram { data: data.clone() }.encode(length, &mut whole);
        w.put_slice(&whole)
    })
}

fn ackfreq(values: [u64; 4]) -> Encoder {
    Encoder::new(integers(&values), move |mut w| {
        let [sequence, threshold, delay, reordering] = values.map(var);
        AckFrequency {
            sequence,
            ack_eliciting_threshold: threshold,
            request_max_ack_delay: delay,
            reordering_threshold: reordering,
        }
        .encode(&mut w)
    })
}

/// A code is made by reading it; panics from 2^62 on, where it cannot be read.
fn code(x: u64) -> TransportErrorCode {
    let mut b = Vec::new();
    b.write_var(x);
    TransportErrorCode::decode(&mut &b[..]).unwrap()
}

/// VIA CODE MAXLEN TYPE|- REASON; VIA is 1 through Close. Request 11 counts the code by its size where the Rust counts
/// two: the Rust is asked with a max_len that is more or less by as much.
fn close(a: &mut Args) -> Result<Encoder, Bad> {
    let (via, x, max_len) = (a.flag()?, a.num()?, a.num()? as usize);
    let frame_type = match a.list()?[..] {
        [] => None,
        [ty] => Some(FrameType(ty)),
        _ => return Err(Bad),
    };
    let reason: Bytes = a.bytes()?.into();
    let ty = frame_type.map_or(0, |ty| ty.0);
    let others = 1 + size(ty) + size(reason.len() as u64);
    let too_small = if max_len < others + 2 { MAX_LEN } else { CLOSE_CODE };
    let outside = integers(&[x, ty]).or((max_len < others + size(x)).then_some(too_small));
    let asked = move |max_len: usize| {
        let reason = reason.clone();
        move |mut w: &mut dyn BufMut| {
            let close = ConnectionClose { error_code: code(x), frame_type, reason: reason.clone() };
            if via { Close::from(close).encode(&mut w, max_len) } else { close.encode(&mut w, max_len) }
        }
    };
    let changed = max_len.saturating_add(2).saturating_sub(size(x));
    Ok(Encoder { own: Some(Box::new(asked(max_len))), ..Encoder::new(outside, asked(changed)) })
}

fn appclose(via: bool, x: u64, max_len: usize, reason: Bytes) -> Encoder {
    let fixed = 1 + size(x) + size(reason.len() as u64);
    let outside = integers(&[x]).or((max_len < fixed).then_some(MAX_LEN));
    Encoder::new(outside, move |mut w| {
        let close = ApplicationClose { error_code: var(x), reason: reason.clone() };
        if via { Close::from(close).encode(&mut w, max_len) } else { close.encode(&mut w, max_len) }
    })
}

/// DELAY ECT0,ECT1,CE|- START,END,START,END,..|-
fn ack(a: &mut Args) -> Result<Encoder, Bad> {
    let (delay, counts, ends) = (a.num()?, a.list()?, a.list()?);
    let ecn = match counts[..] {
        [] => None,
        [ect0, ect1, ce] => Some(EcnCounts { ect0, ect1, ce }),
        _ => return Err(Bad),
    };
    let outside = if is_list(&ends) { integers(&[&[delay], &counts[..]].concat()) } else { Some(ACK_LIST) };
    Ok(Encoder::new(outside, move |mut w| Ack::encode(delay, &set_of(&ends), ecn.as_ref(), &mut w)))
}

/// Pairs that ascend strictly, at most up to 2^62.
fn is_list(ends: &[u64]) -> bool {
    ends.len().is_multiple_of(2) && ends.is_sorted_by(|a, b| a < b) && ends.last().is_some_and(|&end| end <= END)
}

/// The Rust's set of the ranges, which drops empty ones, merges those that touch and sorts them; a start with no end is left out.
fn set_of(ends: &[u64]) -> ArrayRangeSet {
    let mut set = ArrayRangeSet::new();
    for pair in ends.chunks_exact(2) {
        set.insert(pair[0]..pair[1]);
    }
    set
}

fn counts(values: [u64; 3]) -> Encoder {
    let [ect0, ect1, ce] = values;
    Encoder::new(integers(&values), move |mut w| EcnCounts { ect0, ect1, ce }.encode(&mut w))
}

fn type_alone(x: u64) -> Encoder {
    Encoder::new(integers(&[x]), move |mut w| FrameType(x).encode(&mut w))
}

fn id_alone(x: u64) -> Encoder {
    Encoder::new(integers(&[x]), move |mut w| StreamId(x).encode(&mut w))
}

fn code_alone(x: u64) -> Encoder {
    Encoder::new(integers(&[x]), move |mut w| code(x).encode(&mut w))
}

/// fdec WHAT AT B: a frame type (0), a stream id (1), an error code (2)
pub(crate) fn fdec(a: &mut Args, out: &mut String) -> Result<(), Bad> {
    let (what, at, b) = (a.below(3)?, a.num()?, a.bytes()?);
    let mut r = cursor(&b, at);
    let value = match what {
        0 => FrameType::decode(&mut r).map(|ty| ty.0),
        1 => StreamId::decode(&mut r).map(|id| id.0),
        _ => TransportErrorCode::decode(&mut r).map(u64::from),
    };
    match value {
        Ok(x) => *out += &format!("ok {x} {}", r.position()),
        Err(_) => out.push_str("no 10"),
    }
    Ok(())
}

/// fsize WHAT B: NEW_TOKEN (0), DATAGRAM without its length (1), with it (2)
pub(crate) fn fsize(a: &mut Args, out: &mut String) -> Result<(), Bad> {
    let (what, b) = (a.below(3)?, Bytes::from(a.bytes()?));
    let n = match what {
        0 => NewToken { token: b }.size(),
        1 => Datagram { data: b }.size(false),
        _ => Datagram { data: b }.size(true),
    };
    let paper = if n <= MAX_DATAGRAM { None } else { decided(SIZE_65527, "no 14".into()) };
    settle(out, paper, || format!("ok {n}"));
    Ok(())
}

/// bounds: the SIZE_BOUNDs of the frames that have an encoder
pub(crate) fn bounds(_: &mut Args, out: &mut String) -> Result<(), Bad> {
    let bounds = [
        ConnectionClose::SIZE_BOUND,
        ApplicationClose::SIZE_BOUND,
        Stream::SIZE_BOUND,
        Crypto::SIZE_BOUND,
        ResetStream::SIZE_BOUND,
        StopSending::SIZE_BOUND,
        NewConnectionId::SIZE_BOUND,
        Datagram::SIZE_BOUND,
    ];
    *out += &bounds.map(|bound| bound.to_string()).join(" ");
    Ok(())
}
