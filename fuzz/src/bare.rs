//! The C functions themselves, asked what a case asks, over bytes that end at a fence; and asked with a value that the safe crate cannot
//! pass, which must be refused. What an answer does not have must be 0.
use crate::clean::{
    HANDSHAKE, INITIAL, NO_ARGUMENT, NO_PACKET, SHORT, VERSION_NEGOTIATION, ZERO_RTT, has_number, is_clean_frame,
    is_clean_header, is_clean_number, is_clean_split, is_empty, space_of, with,
};
use crate::fence::Fence;
use crate::ffi::{self, HeaderGiven, NumberAnswer, NumberEnds, NumberSpaces, UnmaskAnswer};
use guobbarel::Frames;
use oracle::harness::words::{Args, Bad};
use std::io;

const KINDS: [&str; 6] = ["initial", "0rtt", "handshake", "retry", "short", "vneg"];
/// The bytes of a step of the number ends that names its kind.
const STEP: usize = 14;

/// What is lent, each behind its own fence.
pub struct Bare {
    bytes: Fence<u8>,
    mask: Fence<u8>,
    dst: Fence<u8>,
    src: Fence<u8>,
    token: Fence<u8>,
    versions: Fence<u32>,
}

impl Bare {
    pub fn new() -> io::Result<Self> {
        let bytes = Fence::of_bytes;
        let versions = Fence::of_numbers()?;
        Ok(Self { bytes: bytes()?, mask: bytes()?, dst: bytes()?, src: bytes()?, token: bytes()?, versions })
    }

    /// Whether all that is asked for a case is answered as it must be.
    pub fn ask(&mut self, case: &str) -> bool {
        self.run(&mut Args::new(case), Odd(case.len())).is_ok_and(|holds| holds)
    }

    fn run(&mut self, a: &mut Args, odd: Odd) -> Result<bool, Bad> {
        match a.word()? {
            "decode" | "split" | "walk" => self.split(a, odd),
            "sample" => self.sample(a, odd),
            "finish" => self.unmask(a, odd),
            "frames" => self.frames(a),
            "spaces" => spaces(a, odd),
            "henc" => self.header(a, odd),
            "hmask" => self.mask(a, odd),
            _ => Ok(true),
        }
    }

    fn split(&mut self, a: &mut Args, odd: Odd) -> Result<bool, Bad> {
        let (local, grease, versions, datagram) = (a.num()? as usize, a.flag()?, a.versions()?, a.bytes()?);
        let (datagram, versions) = (self.bytes.lend(&datagram), self.versions.lend(&versions));
        let refused = ffi::split(datagram, 0, local, versions, odd.from(2));
        let mut holds = refused.refusal == NO_ARGUMENT && is_clean_split(&refused, 0);
        let mut at = 0;
        loop {
            let answer = ffi::split(datagram, at, local, versions, grease.into());
            holds &= is_clean_split(&answer, at);
            if answer.kind == NO_PACKET {
                return Ok(holds);
            }
            at = answer.packet.range().end;
        }
    }

    fn sample(&mut self, a: &mut Args, odd: Odd) -> Result<bool, Bad> {
        let (kind, offset, packet) = (kind(a)?, a.num()? as usize, a.bytes()?);
        let packet = self.bytes.lend(&packet);
        let refused = ffi::sample_place(odd.from(NO_PACKET), packet, offset);
        let answer = ffi::sample_place(kind, packet, offset);
        let has_none = answer.refusal != 0 || !has_number(kind);
        Ok(refused.refusal == NO_ARGUMENT
            && refused.sample.range() == (0..0)
            && (!has_none || answer.sample.range() == (0..0)))
    }

    fn unmask(&mut self, a: &mut Args, odd: Odd) -> Result<bool, Bad> {
        let (kind, offset, mask, before) = (kind(a)?, a.num()? as usize, a.array()?, a.bytes()?);
        let packet = self.bytes.lend(&before);
        let is_refused = |answer: UnmaskAnswer| answer.refusal == NO_ARGUMENT && is_empty(&answer);
        let mut holds = is_refused(ffi::unmask(odd.from(NO_PACKET), packet, offset, self.mask.lend(&mask)));
        holds &= is_refused(ffi::unmask(kind, packet, offset, self.mask.lend(odd.mask(&mask))));
        holds &= packet == before;
        let answer = ffi::unmask(kind, packet, offset, self.mask.lend(&mask));
        let has_none = answer.refusal != 0 || !has_number(kind);
        Ok(holds && (!has_none || is_empty(&answer)) && (kind == SHORT || answer.key_phase == 0))
    }

    fn frames(&mut self, a: &mut Args) -> Result<bool, Bad> {
        let payload = a.bytes()?;
        let payload: &[u8] = self.bytes.lend(&payload);
        let (mut at, mut holds) = (0, true);
        let mut safe = Frames::new(payload);
        loop {
            let answer = ffi::frame_read(payload, at);
            let said = safe.next().and_then(Result::ok).map(|read| read.frame.values());
            holds &= is_clean_frame(&answer, at, said, payload);
            if answer.found == 0 {
                return Ok(holds);
            }
            at = answer.next;
        }
    }

    fn header(&mut self, a: &mut Args, odd: Odd) -> Result<bool, Bad> {
        let (given, dst) = (header(a)?, a.bytes()?);
        let src = if given.kind == SHORT { Vec::new() } else { a.bytes()? };
        let token = if given.kind == INITIAL { a.bytes()? } else { Vec::new() };
        let before = a.bytes()?;
        let (dst, src, token) = (self.dst.lend(&dst), self.src.lend(&src), self.token.lend(&token));
        let out = self.bytes.lend(&before);
        let mut holds = true;
        for outside in [
            HeaderGiven { kind: odd.from(NO_PACKET), ..given },
            HeaderGiven { spin: odd.from(2), ..given },
            HeaderGiven { key_phase: odd.from(2), ..given },
        ] {
            let refused = ffi::header_write(outside, dst, src, token, 0, out);
            holds &= refused.refusal == NO_ARGUMENT && is_clean_header(given.kind, &refused);
        }
        holds &= out == before;
        Ok(holds && is_clean_header(given.kind, &ffi::header_write(given, dst, src, token, 0, out)))
    }

    fn mask(&mut self, a: &mut Args, odd: Odd) -> Result<bool, Bad> {
        let (header_len, _, number_len) = (a.num()? as usize, a.flag()?, a.num()? as usize);
        let (has_length, mask, before) = (a.flag()?, a.array()?, a.bytes()?);
        let packet = self.bytes.lend(&before);
        let mut refusals = [0; 2];
        refusals[0] = ffi::mask(header_len, number_len, odd.from(2), packet, self.mask.lend(&mask));
        refusals[1] = ffi::mask(header_len, number_len, has_length.into(), packet, self.mask.lend(odd.mask(&mask)));
        let holds = refusals == [NO_ARGUMENT; 2] && packet == before;
        ffi::mask(header_len, number_len, has_length.into(), packet, self.mask.lend(&mask));
        Ok(holds)
    }
}

/// Chooses values that the safe crate cannot pass.
#[derive(Clone, Copy)]
struct Odd(usize);

impl Odd {
    /// A number from this one on.
    fn from(self, least: u8) -> u8 {
        [least, least + 1, u8::MAX][self.0 % 3]
    }

    /// Spaces as no step leaves them: flags that are none, numbers beside a flag of 0, numbers past 2^62.
    fn spaces(self) -> NumberSpaces {
        let ends = |next, acked, largest, [has_acked, has_largest]: [u8; 2]| NumberEnds {
            next,
            acked,
            largest,
            has_acked,
            has_largest,
        };
        let all = [ends(7, 8, 9, [2, 255]), ends(5, 9, 9, [0, 0]), ends(u64::MAX, 1 << 62, u64::MAX, [1, 1])];
        let [initial, handshake, data] = [0, 1, 2].map(|i| all[(self.0 + i) % 3]);
        NumberSpaces { initial, handshake, data }
    }

    /// A mask that is too short.
    fn mask(self, mask: &[u8; 5]) -> &[u8] {
        &mask[..self.0 % 5]
    }
}

fn kind(a: &mut Args) -> Result<u8, Bad> {
    let word = a.word()?;
    KINDS.iter().position(|kind| *kind == word).map(|at| at as u8).ok_or(Bad)
}

fn header(a: &mut Args) -> Result<HeaderGiven, Bad> {
    let (kind, number) = (kind(a)?, |a: &mut Args| Ok((a.num()? as usize, a.num()? as u32)));
    let mut given = HeaderGiven { kind, spin: 0, key_phase: 0, random: 0, version: 0, number_value: 0, number_len: 0 };
    match kind {
        SHORT => (given.spin, given.key_phase) = (a.flag()?.into(), a.flag()?.into()),
        VERSION_NEGOTIATION => given.random = a.below(256)? as u8,
        _ => given.version = a.below(1 << 32)? as u32,
    }
    if has_number(kind) {
        (given.number_len, given.number_value) = number(a)?;
    }
    Ok(given)
}

/// A step of the number ends.
#[derive(Clone, Copy)]
struct Step {
    step: u8,
    kind: u8,
    n: u64,
    v: u32,
}

impl Step {
    fn of(bytes: &[u8]) -> Self {
        let number = |bytes: &[u8]| bytes.iter().fold(0, |x, &b| x << 8 | u64::from(b));
        Self { step: bytes[0], kind: bytes[1], n: number(&bytes[2..10]), v: number(&bytes[10..]) as u32 }
    }

    fn ask(self, given: NumberSpaces) -> NumberAnswer {
        ffi::number_step(self.step, self.kind, given, self.n, self.n as usize, self.v)
    }

    /// The spaces after it, where it is answered as it must be; beside odd ones too, which must change nothing.
    fn take(self, now: NumberSpaces, odd: Odd) -> Option<NumberSpaces> {
        let given = with(odd.spaces(), self.kind, now);
        let [answer, beside] = [now, given].map(|given| self.ask(given));
        let said = |x: &NumberAnswer| (x.refusal, x.number_value, x.number_len, x.number);
        let holds = is_clean_number(self.step, self.kind, now, &answer)
            && is_clean_number(self.step, self.kind, given, &beside)
            && said(&answer) == said(&beside)
            && with(given, self.kind, answer.spaces) == beside.spaces;
        holds.then_some(answer.spaces)
    }

    fn is_refused(self, given: NumberSpaces) -> bool {
        let answer = self.ask(given);
        answer.refusal == NO_ARGUMENT && is_clean_number(self.step, self.kind, given, &answer)
    }
}

const FRESH: NumberEnds = NumberEnds { next: 0, acked: 0, largest: 0, has_acked: 0, has_largest: 0 };

/// Each step of a run; then steps, kinds and flags that are none.
fn spaces(a: &mut Args, odd: Odd) -> Result<bool, Bad> {
    let mut now = NumberSpaces { initial: FRESH, handshake: FRESH, data: FRESH };
    for step in a.bytes()?.chunks_exact(STEP).map(Step::of) {
        let (n, has) = (step.n, (step.v != 0).into());
        match (step.step, space_of(&mut now, step.kind)) {
            (4, Some(ends)) => ends.next = n,
            (5, Some(ends)) => (ends.acked, ends.has_acked) = (n, has),
            (6, Some(ends)) => (ends.largest, ends.has_largest) = (n, has),
            (4.., None) => {}
            _ => match step.take(now, odd) {
                Some(after) => now = after,
                None => return Ok(false),
            },
        }
    }
    Ok(are_refused(now, odd))
}

/// Whether steps, kinds and flags that are none are refused.
fn are_refused(now: NumberSpaces, odd: Odd) -> bool {
    let step = |step, kind| Step { step, kind, n: 1, v: 0 };
    let acked = each(now, |ends| NumberEnds { has_acked: odd.from(2), ..ends });
    let largest = each(now, |ends| NumberEnds { has_largest: odd.from(2), ..ends });
    let is_no_kind = |kind| [now, odd.spaces()].into_iter().all(|given| step(kind % 4, kind).is_refused(given));
    let mut holds = (NO_PACKET..=u8::MAX).all(is_no_kind);
    for kind in [INITIAL, ZERO_RTT, HANDSHAKE, SHORT] {
        let no_flags = [acked, largest].map(|flagged| with(now, kind, flagged));
        holds &= (0..4).all(|number| no_flags.into_iter().all(|given| step(number, kind).is_refused(given)));
        holds &= step(odd.from(4), kind).is_refused(now);
    }
    holds
}

fn each(spaces: NumberSpaces, f: impl Fn(NumberEnds) -> NumberEnds) -> NumberSpaces {
    NumberSpaces { initial: f(spaces.initial), handshake: f(spaces.handshake), data: f(spaces.data) }
}
