//! The two number ends, of one space and of three: a model, from documents 01 and 02 (request 08). The given text has no such records;
//! the space of a packet is quinn's own word, the cut too, and the reading, but where request 04 follows A.3.
use super::super::PacketNumber;
use super::number::{is_cut, read, sent};
use super::reading::Taken;
use crate::harness::differences::{CEILING, mark_if};
use crate::harness::rng::END;
use crate::harness::table::KINDS;
use crate::harness::words::{Args, Bad};

/// The bytes of a step in a run behind its first ones: a number of 8 bytes and one of 4.
const NUMBERS: usize = 12;
/// From this step on a step sets the record.
const SET: u8 = 4;

#[derive(Default)]
pub(super) struct Ends {
    pub next: u64,
    pub acked: Option<u64>,
    pub largest: Option<u64>,
}

/// Initial, Handshake, Data.
#[derive(Default)]
struct Spaces([Ends; 3]);

/// ends STEPS, each its number, then two numbers
pub(crate) fn ends(a: &mut Args, out: &mut String) -> Result<(), Bad> {
    let mut ends = Ends::default();
    run(a, out, |[step], n, v| Ok((ends.step(step, n, v)?, ends.shown())))
}

/// spaces STEPS, each its number, the packet's kind, then two numbers
pub(crate) fn spaces(a: &mut Args, out: &mut String) -> Result<(), Bad> {
    let mut spaces = Spaces::default();
    run(a, out, |[step, kind], n, v| Ok((spaces.step(step, kind, n, v)?, spaces.shown())))
}

/// A run of steps: what each says, and the record after it.
fn run<const FIRST: usize>(
    a: &mut Args,
    out: &mut String,
    mut step: impl FnMut([u8; FIRST], u64, u32) -> Result<(Answer, String), Bad>,
) -> Result<(), Bad> {
    let steps = a.bytes()?;
    if !steps.len().is_multiple_of(FIRST + NUMBERS) {
        return Err(Bad);
    }
    let mut is_other = false;
    for bytes in steps.chunks(FIRST + NUMBERS) {
        let (first, numbers) = bytes.split_at(FIRST);
        let n = u64::from_be_bytes(numbers[..8].try_into().unwrap());
        let v = u32::from_be_bytes(numbers[8..].try_into().unwrap());
        let (said, record) = step(first.try_into().unwrap(), n, v)?;
        match said {
            Ok(Said::Set) => out.push_str("set"),
            Ok(Said::Kept) => out.push_str("ok"),
            Ok(Said::Read(n, other)) => {
                *out += &format!("ok {n}");
                is_other |= other;
            }
            Ok(Said::Sent(n, k, value)) => *out += &format!("ok {n} {k} {value}"),
            Err(why) => *out += &format!("no {why}"),
        }
        *out += &format!(" :{record};");
    }
    *out += &mark_if(is_other, CEILING);
    Ok(())
}

/// What a step says: nothing but that it was done; the number that was read, and whether the Rust reads another; the one that
/// was sent, and what of it goes out.
pub(super) enum Said {
    Set,
    Kept,
    Read(u64, bool),
    Sent(u64, usize, u32),
}

/// Or the refusal's number.
pub(super) type Answer = Result<Said, u32>;

/// The place of a packet's space in the record of three, which is quinn's own word for it: 0-RTT and short packets use Data; Retry and
/// Version Negotiation have no number, and no space.
pub(super) fn space_of(kind: u8) -> Option<usize> {
    let (kind, _) = KINDS.get(usize::from(kind))?;
    let packet = Taken { kind, offset: 0, packet: Vec::new() }.partial();
    packet.space().map(|space| space as usize)
}

impl Spaces {
    /// A step in the space of this kind. Where there is none, a call is 14 and nothing is set.
    fn step(&mut self, step: u8, kind: u8, n: u64, v: u32) -> Result<Answer, Bad> {
        if usize::from(kind) >= KINDS.len() {
            return Err(Bad);
        }
        match space_of(kind) {
            Some(space) => self.0[space].step(step, n, v),
            None if step < SET => Ok(Err(14)),
            None => Ends::default().step(step, n, v),
        }
    }

    fn shown(&self) -> String {
        self.0.iter().map(Ends::shown).collect()
    }
}

impl Ends {
    fn shown(&self) -> String {
        let or_none = |n: Option<u64>| n.map_or("-".into(), |n| n.to_string());
        format!(" {} {} {}", self.next, or_none(self.acked), or_none(self.largest))
    }

    fn step(&mut self, step: u8, n: u64, v: u32) -> Result<Answer, Bad> {
        let at = (v != 0).then_some(n);
        match step {
            ..SET => return Ok(self.call(step, n, n, v)),
            4 => self.next = n,
            5 => self.acked = at,
            6 => self.largest = at,
            _ => return Err(Bad),
        }
        Ok(Ok(Said::Set))
    }

    /// A call by its number; past 3 there is none.
    pub(super) fn call(&mut self, step: u8, n: u64, k: u64, value: u32) -> Answer {
        match step {
            0 => self.send(),
            1 => self.acknowledge(n),
            2 => self.read(k, value),
            3 => self.accept(n),
            _ => Err(14),
        }
    }

    /// Whether calls can have made it: acknowledged numbers were sent, and none is past 2^62 - 1.
    fn can_send(&self) -> bool {
        self.next <= END && self.acked.is_none_or(|m| m < self.next)
    }

    fn can_receive(&self) -> bool {
        self.largest.is_none_or(|m| m < END)
    }

    fn send(&mut self) -> Answer {
        let (n, acked) = (self.next, self.acked.unwrap_or(0));
        if !self.can_send() || n >= END {
            return Err(14);
        }
        if n - acked >= 1 << 31 {
            return Err(16);
        }
        let (k, value) = sent(PacketNumber::new(n, acked));
        self.next += 1;
        Ok(Said::Sent(n, k, value))
    }

    fn acknowledge(&mut self, n: u64) -> Answer {
        if !self.can_send() || n >= self.next {
            return Err(14);
        }
        self.acked = self.acked.max(Some(n));
        Ok(Said::Kept)
    }

    fn read(&self, k: u64, value: u32) -> Answer {
        if !self.can_receive() || !is_cut(k, value) {
            return Err(14);
        }
        let expected = self.largest.map_or(0, |m| m + 1);
        let (n, is_other) = read(k, value, expected);
        Ok(Said::Read(n, is_other))
    }

    fn accept(&mut self, n: u64) -> Answer {
        if !self.can_receive() || n >= END {
            return Err(14);
        }
        self.largest = self.largest.max(Some(n));
        Ok(Said::Kept)
    }
}
