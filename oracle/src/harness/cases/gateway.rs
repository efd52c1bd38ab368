//! Cases of the C surface: those of the operations that its functions stand on, as these are asked. One time in some dozens an
//! argument is what only the surface can be given.
use super::super::rng::{END, Rng};
use super::super::table::KINDS;
use super::super::words::{hex, unhex};
use super::number::{SPACE, distance, near, read, set_to};
use super::{Made, answered, frame, packet, packet_out};

pub const MADE: &[Made] = &[
    ("gsplit", 10, gsplit),
    ("gsample", 3, gsample),
    ("gunmask", 12, gunmask),
    ("gframe", 20, gframe),
    ("gnumber", 15, gnumber),
    ("gheader", 10, gheader),
    ("gmask", 8, gmask),
];

/// What is asked, in four words.
fn four(line: &str) -> [&str; 4] {
    let mut words = line.split(' ');
    [(); 4].map(|()| words.next().unwrap_or("-"))
}

fn len(bytes: &str) -> usize {
    unhex(bytes).map_or(0, |b| b.len())
}

/// The places where a walk's answer says that a packet or a frame starts.
fn starts(question: &str, between: &str) -> Vec<u64> {
    answered(question).split(between).filter_map(|said| said.split(' ').next()?.parse().ok()).collect()
}

/// The start, one of these places, or any.
fn place(r: &mut Rng, starts: &[u64], len: usize) -> u64 {
    match r.below(8) {
        0 => r.place(len),
        1..5 if !starts.is_empty() => r.pick(starts),
        _ => 0,
    }
}

/// A number that has this rule, or rarely one of a byte that is past it.
fn or_past(r: &mut Rng, n: u64, rule: u64) -> u64 {
    if r.one_in(60) { rule + r.below(256 - rule) } else { n }
}

/// A number below this, or rarely past it.
fn below(r: &mut Rng, rule: u64) -> u64 {
    let n = r.below(rule);
    or_past(r, n, rule)
}

fn kind_number(name: &str) -> u64 {
    KINDS.iter().position(|kind| kind.0 == name).unwrap_or(0) as u64
}

fn mask(r: &mut Rng, mask: &str) -> String {
    let n = if r.one_in(60) { r.below(9) } else { 5 };
    if n == 5 { mask.into() } else { hex(&r.bytes(n as usize)) }
}

fn gsplit(r: &mut Rng) -> String {
    let line = packet::read(r);
    let [local, grease, versions, datagram] = four(&line);
    let starts = starts(&format!("walk {line}"), "; ");
    let at = place(r, &starts, len(datagram));
    let grease = or_past(r, grease.parse().unwrap_or(0), 2);
    format!("{at} {local} {grease} {versions} {datagram}")
}

fn gsample(r: &mut Rng) -> String {
    let line = packet::sample(r);
    let [kind, offset, packet, _] = four(&line);
    let kind = or_past(r, kind_number(kind), 6);
    format!("{kind} {offset} {packet}")
}

fn gunmask(r: &mut Rng) -> String {
    let line = packet::finish(r);
    let [kind, offset, bits, packet] = four(&line);
    let kind = or_past(r, kind_number(kind), 6);
    format!("{kind} {offset} {} {packet}", mask(r, bits))
}

fn gframe(r: &mut Rng) -> String {
    let payload = hex(&if r.one_in(1_500) { frame::long_payload(r) } else { frame::payload(r) });
    let starts = starts(&format!("frames {payload}"), " ; ");
    format!("{} {payload}", place(r, &starts, len(&payload)))
}

/// The number ends of a space, as numbers: next, acked, largest, and whether there is each of the two.
type Ends = [u64; 5];

/// A step by a kind, over ends around those that steps can have made; one time in four with numbers from where any space stands. Of
/// the spaces that it does not name half have any fields.
fn gnumber(r: &mut Rng) -> String {
    let (step, kind) = (below(r, 4), below(r, 6));
    let mut spaces = [(); 4].map(|()| ends(r));
    let named = SPACE.get(kind as usize).copied().unwrap_or(3);
    let [next, acked, largest, ..] = if r.one_in(4) { r.pick(&spaces) } else { spaces[named] };
    let about = r.pick(&[next, acked, largest]);
    let (n, (_, k, value)) = (near(r, about), read(r, largest));
    for (_, other) in spaces.iter_mut().enumerate().filter(|(space, _)| *space != named) {
        if r.one_in(2) {
            *other = [r.any(), r.any(), r.any(), r.pick(&[0, 1, 2, 255]), r.pick(&[0, 1, 2, 255])];
        }
    }
    format!("{step} {kind} {n} {k} {value} {}", three(&spaces[..3]))
}

fn ends(r: &mut Rng) -> Ends {
    let next = if r.one_in(4) { set_to(r) } else { distance(r) };
    let largest = if r.one_in(2) { set_to(r) } else { r.below(1 << 33) };
    let acked = if r.one_in(3) { near(r, next) } else { next.saturating_sub(distance(r)) };
    [next, acked, largest, below(r, 2), below(r, 2)]
}

/// The words of three spaces.
fn three(spaces: &[Ends]) -> String {
    spaces.iter().map(|ends| ends.map(|n| n.to_string()).join(",")).collect::<Vec<String>>().join(" ")
}

/// A header for the surface, of the words of `henc`: what its kind does not have is any.
fn header(line: &str, payload: u64, flags: [u64; 2], other: u64) -> String {
    let words: Vec<&str> = line.split(' ').collect();
    let [spin, phase] = flags.map(|flag| flag.to_string());
    let (other, kind) = (other.to_string(), kind_number(words[0]));
    let long = |at: usize| (words[1], format!("{},{}", words[at + 1], words[at]));
    let (random, version, number, dst, src, token) = match words[0] {
        "initial" => (&*other, long(2).0, long(2).1, words[4], words[5], words[6]),
        "0rtt" | "handshake" => (&*other, long(2).0, long(2).1, words[4], words[5], "-"),
        "retry" => (&*other, words[1], format!("{other},{other}"), words[2], words[3], "-"),
        "short" => (&*other, &*other, long(3).1, words[5], "-", "-"),
        _ => (words[1], &*other, format!("{other},{other}"), words[2], words[3], "-"),
    };
    let buffer = words[words.len() - 1];
    format!("{kind} {spin} {phase} {random} {version} {payload} {number} {dst} {src} {token} {buffer}")
}

fn gheader(r: &mut Rng) -> String {
    let line = packet_out::henc(r);
    let payload = match r.below(40) {
        0 => 65_400 + r.below(200),
        1 => (1 << 14) - 8 + r.below(12),
        2 => r.below(1 << 17),
        _ => r.below(1500),
    };
    let flags = [below(r, 2), below(r, 2)];
    let line = header(&line, payload, flags, r.below(256));
    if r.one_in(60) { format!("{}{}", 6 + r.below(250), &line[1..]) } else { line }
}

fn gmask(r: &mut Rng) -> String {
    let line = packet_out::hmask(r);
    let words: Vec<&str> = line.split(' ').collect();
    let has_length = or_past(r, words[3].parse().unwrap_or(0), 2);
    format!("{} {} {has_length} {} {}", words[0], words[2], mask(r, words[4]), words[5])
}

/// Every short case of the operations below, as the surface is asked it; every argument that only the surface can be given.
pub fn exhaust(emit: &mut dyn FnMut(String)) {
    let mut each = |line: String| of_surface(emit, &line);
    packet::exhaust(&mut each);
    packet_out::exhaust(&mut each);
    frame::exhaust(&mut each);
    numbers(emit);
    for x in 0..=0xff {
        emit(format!("gsplit 0 0 {x} 1 e000000001000001aa40"));
        emit(format!("gsample {x} 1 {}", hex(&[0xc0; 30])));
        emit(format!("gunmask {x} 1 0102040810 {}", hex(&[0xc0; 30])));
        emit(format!("gheader {x} 0 0 5 1 20 1,1 aa bb cc {}", hex(&[0; 30])));
        emit(format!("gheader 4 {x} 1 5 1 20 1,1 aa bb cc {}", hex(&[0; 30])));
        emit(format!("gheader 3 0 {x} 5 1 20 1,1 aa bb cc {}", hex(&[0; 30])));
        emit(format!("gmask 5 1 {x} 0102040810 {}", hex(&[0xc0; 30])));
    }
    for n in 0..9 {
        emit(format!("gunmask 0 1 {} {}", hex(&[7; 8][..n.min(8)]), hex(&[0xc0; 30])));
        emit(format!("gmask 5 1 1 {} {}", hex(&[7; 8][..n.min(8)]), hex(&[0xc0; 30])));
    }
    for payload in [0, 16_382, 16_383, 16_384, 65_510, 65_519, 65_520, 65_521, 65_527, 65_528] {
        (0..6).for_each(|kind| emit(format!("gheader {kind} 0 0 0 1 {payload} 1,1 - - - {}", hex(&[0; 12]))));
    }
}

/// A case of an operation below as the surface is asked it.
fn of_surface(emit: &mut dyn FnMut(String), line: &str) {
    let (op, asked) = line.split_once(' ').unwrap_or((line, ""));
    let [first, second, third, fourth] = four(asked);
    match op {
        "split" => emit(format!("gsplit 0 {asked}")),
        "walk" if len(fourth) < 200 => {
            let starts = starts(line, "; ");
            starts.iter().skip(1).for_each(|at| emit(format!("gsplit {at} {asked}")));
            emit(format!("gsplit {} {asked}", len(fourth)));
        }
        "sample" => emit(format!("gsample {} {second} {third}", kind_number(first))),
        "finish" => emit(format!("gunmask {} {second} {third} {fourth}", kind_number(first))),
        "frames" => {
            emit(format!("gframe 0 {asked}"));
            emit(format!("gframe {} {asked}", len(asked)));
            if len(asked) < 200 {
                emit(format!("gframe 1 01{}", asked.trim_start_matches('-')));
            }
        }
        "henc" => emit(format!("gheader {}", header(asked, 20, [0, 1], 7))),
        "hmask" => {
            let words: Vec<&str> = asked.split(' ').collect();
            emit(format!("gmask {} {} {} {} {}", words[0], words[2], words[3], words[4], words[5]));
        }
        _ => {}
    }
}

/// Every step with ends and numbers at their edges; every kind and step.
fn numbers(emit: &mut dyn FnMut(String)) {
    let nexts = [0, 1, 128, 1 << 15, 1 << 23, (1 << 31) + 1, END - 1, END, END + 1, u64::MAX];
    let largests = [0, 300, END - 2, END - 1, END];
    let mut turn = 0;
    for (next, largest) in nexts.into_iter().flat_map(|next| largests.map(|largest| (next, largest))) {
        for (acked, flags) in [0, 1, next.wrapping_sub(1)].into_iter().flat_map(|a| (0..9).map(move |f| (a, f))) {
            let ends = [next, acked, largest, flags / 3, flags % 3];
            let mut ask = |step: u64, asked: [u64; 3]| in_each_space(emit, &mut turn, step, asked, ends);
            for n in [0, 1, next.wrapping_sub(1), next, END - 1, END] {
                (1..4).step_by(2).for_each(|step| ask(step, [n, 9, 9]));
            }
            for (k, value) in [(0, 0), (1, 0), (1, 255), (1, 256), (2, 1), (3, 1 << 24), (4, 77), (5, 0)] {
                ask(2, [9, k, value]);
            }
            [0, 4, 255].iter().for_each(|&step| ask(step, [9; 3]));
        }
    }
    // each space answers these steps otherwise
    let apart = [[20, 11, END, 1, 1], [30, 21, 22, 1, 1], [40, 40, 32, 1, 1]];
    for (kind, spaces) in (0..=0xff).flat_map(|kind| [(kind, &apart), (kind, &[ODD[0], ODD[1], ODD[2]])]) {
        [0, 1, 2, 3, 4, 255].iter().for_each(|step| emit(format!("gnumber {step} {kind} 25 1 7 {}", three(spaces))));
    }
}

/// What a space that is not named may hold: flags that are none, numbers beside a flag of 0, numbers past 2^62, acknowledged but
/// not sent.
const ODD: [Ends; 5] = [
    [7, 8, 9, 2, 255],
    [5, 9, 9, 0, 0],
    [END + 1, u64::MAX, END, 1, 1],
    [u64::MAX, END, 1 << 63, 255, 2],
    [3, 3, 0, 1, 0],
];

/// A step over these ends as each of the three spaces, beside two odd ones, which go by turns; so do the kinds that use Data.
fn in_each_space(emit: &mut dyn FnMut(String), turn: &mut usize, step: u64, [n, k, value]: [u64; 3], ends: Ends) {
    for (space, kinds) in [[0, 0], [2, 2], [1, 4]].iter().enumerate() {
        let mut spaces = [ODD[*turn % 5], ODD[(*turn + 1) % 5], ODD[(*turn + 2) % 5]];
        spaces[space] = ends;
        emit(format!("gnumber {step} {} {n} {k} {value} {}", kinds[*turn % 2], three(&spaces)));
        *turn += 1;
    }
}
