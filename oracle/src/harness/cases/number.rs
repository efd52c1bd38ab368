//! Cases of packet numbers and of the two number ends, of one space and of three.
use super::super::rng::{END, Rng};
use super::super::words::hex;
use super::{Made, around_62, bytes, edges};

pub const MADE: &[Made] = &[
    ("pnnew", 12, pnnew),
    ("pnexp", 14, pnexp),
    ("pndec", 4, pndec),
    ("pnenc", 7, pnenc),
    ("pnlen", 1, |r| r.below(256).to_string()),
    ("pntag", 4, pntag),
    ("ends", 3, ends),
    ("spaces", 16, spaces),
];

/// The distances from which on a number takes more bytes, or is too far.
const DISTANCES: [u64; 6] = [0, 1, 1 << 7, 1 << 15, 1 << 23, 1 << 31];

/// A distance: within one of where the length changes, or of any magnitude.
pub fn distance(r: &mut Rng) -> u64 {
    if r.one_in(4) {
        let shift = 30 + r.below(34);
        return r.bits() >> shift;
    }
    (r.pick(&DISTANCES) + r.below(3)).saturating_sub(1)
}

/// A number as it is sent: of any magnitude, or at the end of all numbers.
fn full(r: &mut Rng) -> u64 {
    if r.one_in(4) { END - 1 - r.below(300) } else { r.integer() }
}

/// How many values k bytes have; for a k that no cut number has, as many as for 1 or 4.
fn window(k: u64) -> u64 {
    1 << (8 * k.clamp(1, 4))
}

fn cut_length(r: &mut Rng) -> u64 {
    if r.one_in(16) { r.pick(&[0, 5, 6, 8, 255, 256, 1 << 32, u64::MAX]) } else { 1 + r.below(4) }
}

/// A length and a value: at the ends of the window or its half, anywhere in it, at times past it.
fn cut(r: &mut Rng) -> (u64, u64) {
    let k = cut_length(r);
    let w = window(k);
    let value = match r.below(8) {
        0 => r.bits() >> 32,
        1 | 2 => (r.pick(&[0, w / 2, w]) + r.below(3)).saturating_sub(1),
        _ => r.below(w),
    };
    (k, value.min(u64::from(u32::MAX)))
}

fn pnnew(r: &mut Rng) -> String {
    let d = distance(r);
    let (n, acked) = match r.below(10) {
        0 => (around_62(r), around_62(r)),
        1 => {
            let n = END + r.below(4) - 2;
            (n, n.saturating_sub(d))
        }
        2 => {
            let acked = full(r);
            (acked.saturating_sub(d), acked)
        }
        _ => {
            let acked = full(r);
            (acked.saturating_add(d), acked)
        }
    };
    format!("{n} {acked}")
}

fn pnexp(r: &mut Rng) -> String {
    let (k, value) = cut(r);
    let w = window(k);
    let near = if r.one_in(3) { r.below(4 * w) } else { full(r) };
    let candidate = near - near % w + value;
    let expected = match r.below(8) {
        0 => around_62(r),
        1 => END + 2 - r.below(5),
        2 => near,
        3..6 => (candidate + w / 2 + r.below(3)).saturating_sub(1),
        _ => (candidate + r.below(3)).saturating_sub(w / 2 + 1),
    };
    format!("{k} {value} {expected}")
}

fn pndec(r: &mut Rng) -> String {
    format!("{} {}", cut_length(r), hex(&r.bytes(4)))
}

fn pnenc(r: &mut Rng) -> String {
    let (k, value) = cut(r);
    let room = match r.below(3) {
        0 => r.below(k.clamp(1, 4)) as usize,
        _ => k.clamp(1, 4) as usize + r.length(4),
    };
    format!("{k} {value} {}", hex(&r.bytes(room)))
}

fn pntag(r: &mut Rng) -> String {
    let (k, value) = cut(r);
    format!("{k} {value}")
}

/// The steps of a run, as their numbers.
const SEND: u8 = 0;
const ACKNOWLEDGE: u8 = 1;
const READ: u8 = 2;
const ACCEPT: u8 = 3;
const SET_NEXT: u8 = 4;
const SET_ACKED: u8 = 5;
const SET_LARGEST: u8 = 6;

type Step = (u8, u64, u32);

/// A packet's kind, as its number, and a step of its space.
type Named = (u8, Step);

/// Of each kind its space: Initial, Handshake, Data, or none.
pub const SPACE: [usize; 6] = [0, 2, 1, 3, 2, 3];
/// The kinds that have a number, and those that have none.
const NUMBERED: [u8; 4] = [0, 1, 2, 4];
const UNNUMBERED: [u8; 2] = [3, 5];

fn put_step(b: &mut Vec<u8>, kind: Option<u8>, (step, n, v): Step) {
    b.push(step);
    b.extend(kind);
    b.extend(n.to_be_bytes());
    b.extend(v.to_be_bytes());
}

fn packed(steps: &[Step]) -> String {
    let mut b = Vec::new();
    steps.iter().for_each(|&step| put_step(&mut b, None, step));
    hex(&b)
}

fn packed_named(steps: &[Named]) -> String {
    let mut b = Vec::new();
    steps.iter().for_each(|&(kind, step)| put_step(&mut b, Some(kind), step));
    hex(&b)
}

/// Roughly where a space stands in a run.
#[derive(Clone, Copy, Default)]
struct Stand {
    next: u64,
    largest: u64,
}

/// A run in one space; in every other one the record is set as well.
fn ends(r: &mut Rng) -> String {
    let (sets, mut at) = (r.one_in(2), Stand::default());
    let mut steps = Vec::new();
    for _ in 0..1 + r.below(40) {
        let about = at;
        steps.push(step(r, sets, &mut at, about));
    }
    packed(&steps)
}

/// A run in three spaces, by packets of every kind. One step in six has its numbers from where any of them stands.
fn spaces(r: &mut Rng) -> String {
    let (sets, mut stands) = (r.one_in(2), [Stand::default(); 4]);
    let mut steps = Vec::new();
    for _ in 0..1 + r.below(120) {
        let kind = if r.one_in(6) { r.pick(&UNNUMBERED) } else { r.pick(&NUMBERED) };
        let own = SPACE[usize::from(kind)];
        let about = if r.one_in(6) { r.pick(&stands) } else { stands[own] };
        steps.push((kind, step(r, sets, &mut stands[own], about)));
    }
    packed_named(&steps)
}

/// A step: about as many of each call, with numbers around those that the calls of a space can have used; where the record is set
/// as well, far on, at the end of all numbers, or as no calls can have made it.
fn step(r: &mut Rng, sets: bool, at: &mut Stand, about: Stand) -> Step {
    match r.below(if sets { 12 } else { 9 }) {
        0..3 => {
            at.next = at.next.saturating_add(1);
            (SEND, 0, 0)
        }
        3 | 4 => (ACKNOWLEDGE, near(r, about.next), 0),
        5 | 6 => read(r, about.largest),
        7 | 8 => {
            let about = r.pick(&[about.next, about.largest]);
            let n = near(r, about);
            at.largest = at.largest.max(n);
            (ACCEPT, n, 0)
        }
        9 => {
            at.next = if r.one_in(2) { near(r, about.next).saturating_add(distance(r)) } else { set_to(r) };
            (SET_NEXT, at.next, 0)
        }
        10 => (
            SET_ACKED,
            if r.one_in(2) { near(r, about.next) } else { about.next.saturating_sub(distance(r)) },
            r.below(4) as u32,
        ),
        _ => {
            at.largest = set_to(r);
            (SET_LARGEST, at.largest, r.below(4) as u32)
        }
    }
}

/// A number of a run: a little below n, n, just past it; rarely any.
pub fn near(r: &mut Rng, n: u64) -> u64 {
    match r.below(8) {
        0 => n,
        1 => n.saturating_add(1 + r.below(2)),
        2 if r.one_in(4) => around_62(r),
        _ => n.saturating_sub(1 + r.below(6)),
    }
}

pub fn set_to(r: &mut Rng) -> u64 {
    match r.below(4) {
        0 => END + r.below(4) - 2,
        1 => around_62(r),
        _ => full(r),
    }
}

/// A reading: the last bytes of a number about half a window from the largest, or any cut number.
pub fn read(r: &mut Rng, largest: u64) -> Step {
    if r.one_in(4) {
        let (k, value) = cut(r);
        return (READ, k, value as u32);
    }
    let k = 1 + r.below(4);
    let w = window(k);
    let n = match r.below(3) {
        0 => largest.saturating_add(w / 2),
        1 => largest.saturating_sub(w / 2),
        _ => largest,
    };
    (READ, k, (near(r, n) % w) as u32)
}

/// Every short case, and those around every boundary.
pub fn exhaust(emit: &mut dyn FnMut(String)) {
    (0..=0xff).for_each(|tag| emit(format!("pnlen {tag}")));
    cutting(emit);
    reading(emit);
    ceiling(emit);
    for k in 0..6 {
        for value in values(k) {
            emit(format!("pntag {k} {value}"));
            (0..6).for_each(|n| emit(format!("pnenc {k} {value} {}", bytes(n))));
            emit(format!("pndec {k} {value:08x}"));
        }
    }
    runs(emit);
}

fn cutting(emit: &mut dyn FnMut(String)) {
    for n in 0..300 {
        (0..300).for_each(|acked| emit(format!("pnnew {n} {acked}")));
    }
    for acked in edges() {
        for d in DISTANCES.iter().flat_map(|d| [d.saturating_sub(1), *d, d + 1]) {
            emit(format!("pnnew {} {acked}", acked.saturating_add(d)));
            emit(format!("pnnew {} {acked}", acked.saturating_sub(d)));
        }
    }
}

/// The values around the ends of each window, within it and past it.
fn values(k: u64) -> Vec<u64> {
    edges().into_iter().filter(|&x| x <= u64::from(u32::MAX).min(8 * window(k))).collect()
}

fn reading(emit: &mut dyn FnMut(String)) {
    for expected in 0..600 {
        (0..=0x100).for_each(|value| emit(format!("pnexp 1 {value} {expected}")));
    }
    for k in 0..6 {
        for value in values(k) {
            for expected in edges().into_iter().chain(0..40) {
                emit(format!("pnexp {k} {value} {expected}"));
            }
        }
    }
}

/// The last three windows below 2^62. For one byte every expected number with every value; for more bytes the numbers around the
/// end of each window and of its half, with the values there and half a window off.
fn ceiling(emit: &mut dyn FnMut(String)) {
    for expected in END - 3 * window(1)..=END {
        (0..window(1)).for_each(|value| emit(format!("pnexp 1 {value} {expected}")));
    }
    for k in 1..=4 {
        let half = window(k) / 2;
        for expected in (0..=6).flat_map(|i| (0..5).map(move |d| END + d - 2 - i * half)).filter(|e| *e <= END) {
            let near = (0..5).flat_map(|d| [expected + d - 2, expected + d - 2 + half]);
            for value in near.chain([0, 1, half - 1, half, half + 1, window(k) - 1]).map(|n| n % window(k)) {
                emit(format!("pnexp {k} {value} {expected}"));
                let steps = [(SET_LARGEST, expected - 1, 1), (READ, k, value as u32)];
                emit(format!("ends {}", packed(&steps)));
                let kind = NUMBERED[value as usize % NUMBERED.len()];
                emit(format!("spaces {}", packed_named(&steps.map(|step| (kind, step)))));
            }
        }
    }
}

/// In one space every run of up to four of these steps; in three, by packets of every kind, of up to two, and of three of the first.
fn runs(emit: &mut dyn FnMut(String)) {
    const FIRST: usize = 10;
    const STEPS: [Step; 18] = [
        (SEND, 0, 0),
        (ACKNOWLEDGE, 0, 0),
        (ACKNOWLEDGE, 1, 0),
        (READ, 1, 255),
        (ACCEPT, 0, 0),
        (ACCEPT, 300, 0),
        (ACCEPT, END, 0),
        (SET_NEXT, 1 << 31, 0),
        (SET_ACKED, 1, 1),
        (SET_LARGEST, END, 1),
        (READ, 1, 0),
        (READ, 5, 0),
        (ACCEPT, END - 1, 0),
        (SET_NEXT, 1 << 7, 0),
        (SET_NEXT, 1 << 15, 0),
        (SET_NEXT, END - 1, 0),
        (SET_NEXT, END + 1, 0),
        (SET_ACKED, 0, 0),
    ];
    let mut in_one = |steps: &[Step]| emit(format!("ends {}", packed(steps)));
    (1..=4).for_each(|len| every_run(&STEPS, len, &mut in_one));
    let mut in_three = |steps: &[Named]| emit(format!("spaces {}", packed_named(steps)));
    (1..=2).for_each(|len| every_run(&by_every_kind(&STEPS), len, &mut in_three));
    every_run(&by_every_kind(&STEPS[..FIRST]), 3, &mut in_three);
}

fn by_every_kind(steps: &[Step]) -> Vec<Named> {
    (0..6).flat_map(|kind| steps.iter().map(move |&step| (kind, step))).collect()
}

/// Hands out every run of so many of these steps.
fn every_run<T: Copy>(steps: &[T], len: u32, each: &mut dyn FnMut(&[T])) {
    for run in 0..steps.len().pow(len) {
        let run: Vec<T> = (0..len).map(|i| steps[run / steps.len().pow(i) % steps.len()]).collect();
        each(&run);
    }
}
