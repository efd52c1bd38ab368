//! Cases of packets out: encode, the Length step, the mask step, and all of it.
use super::super::rng::{Rng, VERSION_2};
use super::super::words::hex;
use super::{Made, begun, bytes};

pub const MADE: &[Made] = &[("henc", 10, henc), ("hlen", 6, hlen), ("hmask", 8, hmask), ("whole", 8, whole)];

/// The longest packet.
pub const MOST: usize = 65_527;
/// A Length that two bytes do not hold.
const TOO_LONG: usize = 1 << 14;
/// Version 2, as the words have a version.
const TWO: u64 = VERSION_2 as u64;

/// A header's words, and its length where it has one.
struct Header {
    words: String,
    len: usize,
}

/// The length of a connection id: what QUIC uses, any that the rule allows, rarely past it.
pub fn cid_len(r: &mut Rng) -> usize {
    match r.below(64) {
        0 => r.pick(&[21, 22, 64, 255]),
        1..32 => r.pick(&[0, 0, 4, 8, 8, 20]),
        _ => r.below(21) as usize,
    }
}

/// A token's length, so that its length field has each size.
pub fn token_len(r: &mut Rng) -> usize {
    match r.below(2_000) {
        0..6 => TOO_LONG - 1 + r.below(3) as usize,
        6..50 => 62 + r.below(5) as usize,
        50..60 => r.below(600) as usize,
        60..600 => r.below(40) as usize,
        _ => 0,
    }
}

/// The bytes of a token's length field.
fn size(n: usize) -> usize {
    if n < 64 {
        1
    } else if n < TOO_LONG {
        2
    } else {
        4
    }
}

/// A cut number: its length and value, rarely outside their rule.
fn number(r: &mut Rng) -> (u64, u64) {
    let k = if r.one_in(40) { r.pick(&[0, 5, 8, 255, 1 << 32, u64::MAX]) } else { 1 + r.below(4) };
    let window = 1u64 << (8 * k.clamp(1, 4));
    let value = if r.one_in(30) { window - 1 + r.below(2) } else { r.below(window) };
    (k, value.min(u64::from(u32::MAX)))
}

fn version(r: &mut Rng) -> u64 {
    if r.one_in(4) { r.bits() >> 32 } else { r.pick(&[1, 1, 1, 0, TWO, TWO]) }
}

fn long(kind: &str, number: (u64, u64), version: u64, cids: [&[u8]; 2], token: Option<&[u8]>) -> Header {
    let (k, value) = number;
    let words = format!("{kind} {version} {k} {value} {} {}", hex(cids[0]), hex(cids[1]));
    let len = 7 + cids[0].len() + cids[1].len() + 2 + k.min(4) as usize;
    match token {
        Some(token) => Header { words: words + " " + &hex(token), len: len + size(token.len()) + token.len() },
        None => Header { words, len },
    }
}

fn plain(kind: &str, first: u64, cids: [&[u8]; 2]) -> Header {
    let words = format!("{kind} {first} {} {}", hex(cids[0]), hex(cids[1]));
    Header { words, len: 7 + cids[0].len() + cids[1].len() }
}

fn short(spin: u64, phase: u64, number: (u64, u64), cid: &[u8]) -> Header {
    let (k, value) = number;
    let words = format!("short {spin} {phase} {k} {value} {}", hex(cid));
    Header { words, len: 1 + cid.len() + k.min(4) as usize }
}

fn header(r: &mut Rng, token: usize) -> Header {
    let (d, s) = (cid_len(r), cid_len(r));
    let (dst, src) = (r.bytes(d), r.bytes(s));
    let cids = [&dst[..], &src[..]];
    let (number, version) = (number(r), version(r));
    match r.below(6) {
        0 => long("initial", number, version, cids, Some(&r.bytes(token))),
        1 => long("0rtt", number, version, cids, None),
        2 => long("handshake", number, version, cids, None),
        3 => plain("retry", version, cids),
        4 => short(r.below(2), r.below(2), number, &dst),
        _ => plain("vneg", r.below(256), cids),
    }
}

pub fn henc(r: &mut Rng) -> String {
    let token = if r.one_in(300) { MOST - 70 + r.below(70) as usize } else { token_len(r) };
    let header = header(r, token);
    let room = match r.below(6) {
        0 => r.below(header.len as u64 + 1) as usize,
        1 => r.near(header.len),
        _ => header.len + r.length(12),
    };
    format!("{} {}", header.words, hex(&r.bytes(room)))
}

/// What the steps are told of a header: mostly one that fits, at times short of its fields, or a number's length that no
/// number has.
fn told(r: &mut Rng) -> (usize, Option<u64>, bool) {
    let has_length = r.one_in(2);
    let k = match r.below(16) {
        0 => None,
        1 => Some(r.pick(&[0, 5, 6, 255, u64::MAX])),
        _ => Some(1 + r.below(4)),
    };
    let least = 1 + k.unwrap_or(0).min(6) as usize + if has_length { 2 } else { 0 };
    let len = match r.below(8) {
        0 => r.near(least),
        1 => r.below(least as u64) as usize,
        _ => least + r.below(50) as usize,
    };
    (len, k, has_length)
}

fn told_words(header_len: usize, k: Option<u64>, has_length: bool) -> String {
    format!("{header_len} {} {} {}", u8::from(k.is_some()), k.unwrap_or(0), u8::from(has_length))
}

/// A packet's length: behind its header, short of it, around the longest Length, past the longest packet.
fn packet_len(r: &mut Rng, header_len: usize, around: usize) -> usize {
    match r.below(10_000) {
        0..30 => MOST - 2 + r.below(5) as usize,
        30..100 => header_len + TOO_LONG - 6 + r.below(8) as usize,
        100..1000 => r.below(header_len as u64 + 1) as usize,
        1000..4000 => r.near(around),
        _ => header_len + r.below(60) as usize,
    }
}

fn hlen(r: &mut Rng) -> String {
    let (header_len, k, has_length) = told(r);
    let n = packet_len(r, header_len, header_len);
    let header_len = if r.one_in(500) { usize::MAX - r.below(9) as usize } else { header_len };
    format!("{} {}", told_words(header_len, k, has_length), hex(&r.bytes(n)))
}

pub fn hmask(r: &mut Rng) -> String {
    let (header_len, k, has_length) = told(r);
    let n = packet_len(r, header_len, (header_len + 20).saturating_sub(k.unwrap_or(0).min(4) as usize));
    let mut packet = r.bytes(n);
    if let Some(first) = packet.first_mut() {
        *first = *first & 0x7f | if has_length { 0x80 } else { 0 };
        *first ^= if r.one_in(12) { 0x80 } else { 0 };
    }
    let header_len = if r.one_in(500) { usize::MAX - r.below(9) as usize } else { header_len };
    format!("{} {} {}", told_words(header_len, k, has_length), hex(&r.bytes(5)), hex(&packet))
}

fn whole(r: &mut Rng) -> String {
    let token = token_len(r);
    let header = header(r, token);
    let n = match r.below(10_000) {
        0..30 => (MOST - 2 + r.below(5) as usize).saturating_sub(header.len),
        30..100 => TOO_LONG - 6 + r.below(8) as usize,
        100..3000 => r.below(24) as usize,
        _ => 16 + r.below(60) as usize,
    };
    format!("{} {} {} {}", header.words, hex(&r.bytes(5)), hex(&r.bytes(1)), hex(&r.bytes(n)))
}

/// A packet that the Rust is to write, with its header, of a kind that ends at its Length or of any; its version and its
/// connection ids are such as a reader expects.
pub fn good(r: &mut Rng, local: usize, version: u32, has_length: bool) -> String {
    let version = u64::from(version);
    let (d, s, t) = (r.below(21) as usize, r.below(21) as usize, token_len(r).min(600));
    let (dst, src, token, own) = (r.bytes(d), r.bytes(s), r.bytes(t), r.bytes(local));
    let (cids, k) = ([&dst[..], &src[..]], 1 + r.below(4));
    let number = (k, r.below(1 << (8 * k)));
    let header = match r.below(if has_length { 3 } else { 6 }) {
        0 => long("initial", number, version, cids, Some(&token)),
        1 => long("0rtt", number, version, cids, None),
        2 => long("handshake", number, version, cids, None),
        3 => plain("retry", version, cids),
        4 => short(r.below(2), r.below(2), number, &own),
        _ => plain("vneg", 0x40 | r.below(64), cids),
    };
    let n = 20 + r.below(20) as usize;
    format!("whole {} {} {} {}", header.words, hex(&r.bytes(5)), hex(&r.bytes(1)), hex(&r.bytes(n)))
}

/// Every kind with every length of its connection ids, its number and the buffer; every short step.
pub fn exhaust(emit: &mut dyn FnMut(String)) {
    for n in 0..=22 {
        headers(emit, n);
    }
    for random in 0..=0xff {
        emit(format!("henc {} {}", plain("vneg", random, [&[], &[]]).words, bytes(8)));
    }
    steps(emit);
    wholes(emit);
    longest(emit);
}

/// Every header whose connection ids have n bytes, in every buffer up to one that is longer than it.
fn headers(emit: &mut dyn FnMut(String), n: usize) {
    let cid = vec![0x11; n];
    let cids = [&cid[..], &cid[..n.min(20) / 2]];
    let mut all: Vec<Header> = [1, TWO, 0xffff_ffff].map(|version| plain("retry", version, cids)).into();
    all.push(plain("vneg", 0x2a, cids));
    for k in 0..6 {
        let w = 1u64 << (8 * k.clamp(1, 4));
        for value in [w / 3, w - 1, w] {
            let number = (k, value.min(u64::from(u32::MAX)));
            for spin in 0..2 {
                all.extend((0..2).map(|phase| short(spin, phase, number, &cid)));
            }
            for version in [1, TWO] {
                all.extend(["0rtt", "handshake"].map(|kind| long(kind, number, version, cids, None)));
                all.push(long("initial", number, version, cids, Some(&[0x77; 3])));
            }
            all.extend([&[][..], &[0x77; 70]].map(|token| long("initial", number, 1, cids, Some(token))));
        }
    }
    for header in all {
        let step = if header.len > 40 { 7 } else { 1 };
        let rooms = (0..header.len).step_by(step).chain([header.len.saturating_sub(1), header.len, header.len + 3]);
        rooms.for_each(|room| emit(format!("henc {} {}", header.words, bytes(room as u64))));
    }
}

/// The lengths of a number, and none.
fn number_lens() -> impl Iterator<Item = Option<u64>> {
    [None, Some(u64::MAX)].into_iter().chain((0..6).map(Some))
}

fn steps(emit: &mut dyn FnMut(String)) {
    for k in number_lens() {
        for has_length in [false, true] {
            for header_len in (0..=44).chain([usize::MAX - 1, usize::MAX]) {
                let told = told_words(header_len, k, has_length);
                for n in 0..=40 {
                    emit(format!("hlen {told} {}", bytes(n)));
                    for first in (0x40..0x44).chain(0xe0..0xe4) {
                        emit(format!("hmask {told} 0102040810 {}", begun(first, n)));
                    }
                }
            }
        }
    }
    for k in [None, Some(1), Some(4)] {
        let n = 9 + TOO_LONG - k.unwrap_or(0) as usize;
        (n - 2..n + 2).for_each(|n| emit(format!("hlen {} {}", told_words(9, k, true), hex(&vec![0xc5; n]))));
    }
    for first in 0..=0xff {
        for m in 0..=0xff {
            let told = told_words(4, Some(1), first & 0x80 != 0);
            emit(format!("hmask {told} {m:02x}11223344 {}", begun(first, 24)));
        }
    }
}

/// Every kind with every length of its number, and payloads around what the sample asks for.
fn wholes(emit: &mut dyn FnMut(String)) {
    let cids = [&[1, 2, 3, 4][..], &[5, 6][..]];
    for k in 0..6 {
        let number = (k, 0x2a);
        let mut headers = vec![short(1, 0, number, cids[0]), plain("vneg", 0x4a, cids)];
        for version in [1, TWO] {
            headers.push(long("initial", number, version, cids, Some(&[9; 5])));
            headers.extend(["0rtt", "handshake"].map(|kind| long(kind, number, version, cids, None)));
            headers.push(plain("retry", version, cids));
        }
        for header in headers {
            (0..24).for_each(|n| emit(format!("whole {} 0102040810 5a {}", header.words, bytes(n))));
        }
    }
    let wide = long("handshake", (1, 2), 1, [&[7; 21], &[]], None).words;
    emit(format!("whole {wide} 0102040810 5a {}", bytes(24)));
    let past = long("handshake", (3, 1 << 24), 1, cids, None).words;
    emit(format!("whole {past} 0102040810 5a {}", bytes(24)));
}

/// Around the longest header, the longest Length and the longest packet.
fn longest(emit: &mut dyn FnMut(String)) {
    let handshake = long("handshake", (2, 1), 1, [&[], &[]], None);
    for n in [TOO_LONG - 3, TOO_LONG - 2] {
        emit(format!("whole {} 0102040810 5a {}", handshake.words, hex(&vec![0; n])));
    }
    let short = short(0, 1, (2, 1), &[]);
    for all in MOST - 1..=MOST + 1 {
        emit(format!("whole {} 0102040810 5a {}", short.words, hex(&vec![0; all - short.len])));
        let initial = long("initial", (2, 1), 1, [&[], &[]], Some(&vec![0x77; all - 15]));
        emit(format!("henc {} {}", initial.words, hex(&vec![0xaa; MOST + 2])));
        let packet = hex(&vec![0x41; all]);
        emit(format!("hlen 9 1 1 0 {packet}"));
        emit(format!("hmask 9 1 1 0 0102040810 {packet}"));
    }
}
