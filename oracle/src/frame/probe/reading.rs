//! Iter: the walk over a payload.
use super::super::*;
use super::ack::ranges;
use super::{LONGEST, number};
use crate::harness::differences::{LAST_TY, SIZE_65527, decided, settle};
use crate::harness::words::{Args, Bad};
use std::fmt;

/// frames B: each frame's start, size, type as it was read, Frame::ty, is_ack_eliciting, name and values. A place is START LEN
/// within the payload.
pub(crate) fn frames(a: &mut Args, out: &mut String) -> Result<(), Bad> {
    let payload: Bytes = a.bytes()?.into();
    let paper = if payload.len() > LONGEST { decided(SIZE_65527, "no 14".into()) } else { None };
    settle(out, paper, || walk(&payload));
    Ok(())
}

fn walk(payload: &Bytes) -> String {
    let Ok(mut it) = Iter::new(payload.clone()) else {
        return "no 13".into();
    };
    let mut line = String::from("ok");
    loop {
        let start = payload.len() - it.bytes.len();
        let Some((frame, size)) = it.next_with_size() else {
            return line;
        };
        line += &format!(" ; {start} {size} ");
        match frame {
            Ok(frame) => {
                let read = it.last_ty.unwrap();
                let (ty, elicits) = (frame.ty().0, u8::from(frame.is_ack_eliciting()));
                let shown = Shown { payload, read, end: start + size }.frame(&frame);
                let ranges = if let Frame::Ack(x) = &frame { ranges(x.iter()) } else { String::new() };
                line += &format!("{} {ty} {elicits} {shown}{ranges}", read.0);
            }
            Err(e) => {
                line += &refused(&e, &payload[start..]);
                assert!(it.next().is_none());
            }
        }
    }
}

/// A refusal, with its type once read; marked where the type is cut and the Rust has the earlier frame's.
fn refused(e: &InvalidFrame, mut left: &[u8]) -> String {
    let no = number(e.reason);
    match (left.get_var(), e.ty) {
        (Err(_), Some(_)) => format!("no {no} - # {LAST_TY}"),
        (_, ty) => format!("no {no} {}", word(ty)),
    }
}

fn word(ty: Option<FrameType>) -> String {
    ty.map_or("-".into(), |ty| ty.0.to_string())
}

/// What a frame says at an index; a place is START LEN within the payload.
pub(super) enum Value {
    Nothing,
    Number(u64),
    Place(usize, usize),
}
use Value::{Nothing, Number, Place};

impl fmt::Display for Value {
    fn fmt(&self, f: &mut fmt::Formatter) -> fmt::Result {
        match self {
            Nothing => write!(f, "-"),
            Number(n) => write!(f, "{n}"),
            Place(start, len) => write!(f, "{start} {len}"),
        }
    }
}

/// A frame by its word, the first type of its kind, and its values.
pub(super) struct Said {
    pub word: &'static str,
    pub name: u64,
    pub values: Vec<Value>,
}

fn said(word: &'static str, name: u64, values: Vec<Value>) -> Said {
    Said { word, name, values }
}

fn numbers(word: &'static str, name: u64, values: &[u64]) -> Said {
    said(word, name, values.iter().map(|&n| Number(n)).collect())
}

impl fmt::Display for Said {
    fn fmt(&self, f: &mut fmt::Formatter) -> fmt::Result {
        write!(f, "{}", self.word)?;
        self.values.iter().try_for_each(|value| write!(f, " {value}"))
    }
}

/// A frame whose type was read as `read` and that ends at `end`.
pub(super) struct Shown<'a> {
    pub payload: &'a Bytes,
    pub read: FrameType,
    pub end: usize,
}

impl Shown<'_> {
    /// Where a part that was handed out stands; an empty one, which has no address, stands at the frame's end.
    fn place(&self, part: &Bytes) -> Value {
        let start = match part.is_empty() {
            true => self.end,
            false => part.as_ptr() as usize - self.payload.as_ptr() as usize,
        };
        assert_eq!(self.payload[start..start + part.len()], part[..]);
        Place(start, part.len())
    }

    pub(super) fn frame(&self, frame: &Frame) -> Said {
        match frame {
            Frame::Padding => said("padding", 0x00, vec![]),
            Frame::Ping => said("ping", 0x01, vec![]),
            Frame::Ack(x) => self.ack(x),
            Frame::ResetStream(x) => numbers("reset", 0x04, &[x.id.0, x.error_code.0, x.final_offset.0]),
            Frame::StopSending(x) => numbers("stop", 0x05, &[x.id.0, x.error_code.0]),
            Frame::Crypto(x) => said("crypto", 0x06, vec![Number(x.offset), self.place(&x.data)]),
            Frame::NewToken(x) => said("token", 0x07, vec![self.place(&x.token)]),
            Frame::Stream(x) => {
                let (fin, len) = (u64::from(x.fin), u64::from(self.read.stream().unwrap().len()));
                let values = vec![Number(x.id.0), Number(x.offset), Number(fin), Number(len), self.place(&x.data)];
                said("stream", 0x08, values)
            }
            Frame::MaxData(x) => numbers("maxdata", 0x10, &[x.0]),
            Frame::MaxStreamData { id, offset } => numbers("maxstreamdata", 0x11, &[id.0, *offset]),
            Frame::MaxStreams { dir, count } => numbers("maxstreams", 0x12, &[*dir as u64, *count]),
            Frame::DataBlocked { offset } => numbers("datablocked", 0x14, &[*offset]),
            Frame::StreamDataBlocked { id, offset } => numbers("streamdatablocked", 0x15, &[id.0, *offset]),
            Frame::StreamsBlocked { dir, limit } => numbers("streamsblocked", 0x16, &[*dir as u64, *limit]),
            Frame::NewConnectionId(x) => self.newcid(x),
            Frame::RetireConnectionId { sequence } => numbers("retirecid", 0x19, &[*sequence]),
            Frame::PathChallenge(x) => numbers("challenge", 0x1a, &[*x]),
            Frame::PathResponse(x) => numbers("response", 0x1b, &[*x]),
            Frame::Close(Close::Connection(x)) => {
                let ty = x.frame_type.map_or(Nothing, |ty| Number(ty.0));
                said("close", 0x1c, vec![Number(x.error_code.into()), ty, self.place(&x.reason)])
            }
            Frame::Close(Close::Application(x)) => {
                said("appclose", 0x1d, vec![Number(x.error_code.0), self.place(&x.reason)])
            }
            Frame::Datagram(x) => {
                let len = u64::from(self.read.datagram().unwrap().len());
                said("datagram", 0x30, vec![Number(len), self.place(&x.data)])
            }
            Frame::AckFrequency(x) => numbers(
                "ackfreq",
                0xaf,
                &[x.sequence, x.ack_eliciting_threshold, x.request_max_ack_delay, x.reordering_threshold].map(|x| x.0),
            ),
            Frame::ImmediateAck => said("immediateack", 0x1f, vec![]),
            Frame::HandshakeDone => said("done", 0x1e, vec![]),
        }
    }

    fn ack(&self, x: &Ack) -> Said {
        let mut values = vec![Number(x.largest), Number(x.delay), self.place(&x.additional)];
        match x.ecn {
            Some(counts) => values.extend([counts.ect0, counts.ect1, counts.ce].map(Number)),
            None => values.push(Nothing),
        }
        said("ack", 0x02, values)
    }

    /// The CID and the token are copies; they are the frame's last bytes.
    fn newcid(&self, x: &NewConnectionId) -> Said {
        let token = self.end - 16;
        let cid = token - x.id.len();
        assert_eq!(self.payload[cid..token], x.id[..]);
        assert_eq!(self.payload[token..self.end], x.reset_token[..]);
        let numbers = [x.sequence, x.retire_prior_to].map(Number);
        said("newcid", 0x18, numbers.into_iter().chain([Place(cid, x.id.len()), Place(token, 16)]).collect())
    }
}
