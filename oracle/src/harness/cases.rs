//! Cases: lines around every boundary at random, and all of the short ones. Each module has those of one replay program.
mod frame;
mod frame_out;
mod gateway;
mod leaf;
mod number;
mod packet;
mod packet_out;

use super::ask;
use super::rng::{END, Rng};
use super::words::hex;

/// An operation, how often it comes up among those of its module, and a random case of it.
type Made = (&'static str, u64, fn(&mut Rng) -> String);

/// The modules' operations, and how often each module comes up.
const MADE: [(u64, &[Made]); 7] = [
    (10, leaf::MADE),
    (5, number::MADE),
    (8, packet::MADE),
    (5, packet_out::MADE),
    (8, frame::MADE),
    (6, frame_out::MADE),
    (6, gateway::MADE),
];

/// Hands out every short line.
pub fn exhaust(emit: &mut dyn FnMut(String)) {
    leaf::exhaust(emit);
    number::exhaust(emit);
    packet::exhaust(emit);
    packet_out::exhaust(emit);
    frame::exhaust(emit);
    frame_out::exhaust(emit);
    gateway::exhaust(emit);
}

/// The case of this number, of the operations that are named, by weight, or of any; none where one is no operation.
pub fn random(seed: u64, case: u64, ops: &[&str]) -> Option<String> {
    let mut r = Rng::new(seed, case);
    let all = || MADE.iter().flat_map(|&(weight, made)| made.iter().map(move |made| (weight * made.1, made)));
    if !ops.iter().all(|op| all().any(|(_, made)| made.0 == *op)) {
        return None;
    }
    let asked = || all().filter(|(_, made)| ops.is_empty() || ops.contains(&made.0));
    let mut left = r.below(asked().map(|(weight, _)| weight).sum());
    for (weight, (name, _, make)) in asked() {
        match left.checked_sub(weight) {
            Some(less) => left = less,
            None => return Some(format!("{name} {}", make(&mut r)).trim_end().into()),
        }
    }
    None
}

/// What the oracle answers, without its mark.
fn answered(question: &str) -> String {
    let mut answer = String::new();
    ask::answer(question, &mut answer);
    answer.truncate(answer.find(" #").unwrap_or(answer.len()));
    answer
}

/// An integer, or one time in four a number past them all.
fn around_62(r: &mut Rng) -> u64 {
    if !r.one_in(4) {
        return r.integer();
    }
    match r.below(3) {
        0 => END + r.below(3),
        1 => u64::MAX - r.below(3),
        _ => r.bits() | END,
    }
}

/// The bytes that x takes, 1 where it has no form.
fn size(x: u64) -> usize {
    match x {
        0..0x40 => 1,
        0x40..0x4000 => 2,
        0x4000..0x4000_0000 => 4,
        0x4000_0000..END => 8,
        _ => 1,
    }
}

/// Bytes that tell their place.
fn bytes(n: u64) -> String {
    hex(&(0..n).map(|i| (0xa0 + i) as u8).collect::<Vec<u8>>())
}

/// The same with another first byte, where there is one.
fn begun(first: u8, n: u64) -> String {
    if n == 0 { bytes(n) } else { format!("{first:02x}{}", &bytes(n)[2..]) }
}

/// Every number within three of a power of two.
fn edges() -> Vec<u64> {
    let mut all: Vec<u64> =
        (0..64).flat_map(|e| (0..7).map(move |d| (1u64 << e).wrapping_add(d).wrapping_sub(3))).collect();
    all.extend((0..3).map(|d| u64::MAX - d));
    all.sort_unstable();
    all.dedup();
    all
}
