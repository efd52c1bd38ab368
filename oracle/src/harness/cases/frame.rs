//! Cases of frames read: payloads, ACK blocks, ECN counts.
use super::super::rng::{END, Rng};
use super::super::words::hex;
use super::{Made, around_62};

pub const MADE: &[Made] =
    &[("frames", 20, |r| hex(&payload(r))), ("ackscan", 5, ackscan), ("ackiter", 5, ackiter), ("ecn", 1, ecn)];

/// The longest payload.
const LONGEST: usize = 65_527;

/// Types that no frame has, around those that one has.
const UNKNOWN: [u64; 10] = [0x20, 0x2f, 0x32, 0x3f, 0x40, 0xae, 0xb0, 0xff, 0x4000, END - 1];

/// What follows a type, a letter for each field: `v` an integer, `t` a frame type or 0, `d` a length and bytes, `r` the rest,
/// `8` eight bytes, `a` an ACK up to its blocks, `n` a NEW_CONNECTION_ID.
fn fields(ty: u64) -> &'static str {
    match ty {
        0x02 => "a",
        0x03 => "avvv",
        0x04 => "vvv",
        0x05 | 0x11 | 0x15 => "vv",
        0x06 | 0x0a | 0x0b | 0x1d => "vd",
        0x07 | 0x31 => "d",
        0x08 | 0x09 => "vr",
        0x0c | 0x0d => "vvr",
        0x0e | 0x0f => "vvd",
        0x10 | 0x12..=0x14 | 0x16 | 0x17 | 0x19 => "v",
        0x18 => "n",
        0x1a | 0x1b => "8",
        0x1c => "vtd",
        0x30 => "r",
        0xaf => "vvvv",
        _ => "",
    }
}

/// Frames in a run, cut or changed at times; rarely anything, or a payload as long as there is.
pub fn payload(r: &mut Rng) -> Vec<u8> {
    if r.one_in(8_000) {
        return long_payload(r);
    }
    if r.one_in(12) {
        let n = r.length(30);
        return r.bytes(n);
    }
    let mut d = Vec::new();
    for _ in 0..r.pick(&[1, 1, 1, 2, 3, 6, 12]) {
        frame(r, &mut d);
    }
    r.damaged(d)
}

fn frame(r: &mut Rng, d: &mut Vec<u8>) {
    let ty = match r.below(20) {
        0 if r.one_in(2) => r.integer(),
        0 => r.pick(&UNKNOWN),
        1 => 0xaf,
        2 | 3 => 0x30 + r.below(2),
        _ => r.below(0x20),
    };
    if ty == 0 && r.one_in(2) {
        let n = r.length(12);
        d.extend(vec![0; n]);
    }
    d.extend(r.form(ty));
    for letter in fields(ty).chars() {
        field(r, d, letter);
    }
}

fn field(r: &mut Rng, d: &mut Vec<u8>, letter: char) {
    match letter {
        'v' => d.extend(r.integer_form()),
        't' => {
            let ty = if r.one_in(2) { 0 } else { r.integer() };
            d.extend(r.form(ty));
        }
        'd' => {
            let n = r.length(16);
            let said = match r.below(20) {
                0 => r.integer(),
                1 => r.near(n) as u64,
                _ => n as u64,
            };
            d.extend(r.form(said));
            d.extend(r.bytes(n));
        }
        'r' => {
            let n = r.length(6);
            d.extend(r.bytes(n));
        }
        '8' => d.extend(r.bytes(8)),
        'a' => ack(r, d),
        _ => new_cid(r, d),
    }
}

/// Largest, delay, count and blocks: the count mostly exact, at times one off, or far past the bytes.
fn ack(r: &mut Rng, d: &mut Vec<u8>) {
    let (largest, extra) = (largest(r), r.pick(&[0, 0, 1, 2, 3, 7]));
    let count = declared(r, extra);
    d.extend(r.form(largest));
    d.extend(r.integer_form());
    d.extend(r.form(count));
    blocks(r, d, largest, extra);
}

fn largest(r: &mut Rng) -> u64 {
    if r.one_in(2) { r.below(60) } else { r.integer() }
}

fn declared(r: &mut Rng, extra: u64) -> u64 {
    match r.below(20) {
        0 => END - 1,
        1 => r.integer(),
        2 => (extra + r.below(3)).saturating_sub(1),
        _ => extra,
    }
}

/// The first block and so many rounds, mostly above zero, at times at the edge of it.
fn blocks(r: &mut Rng, d: &mut Vec<u8>, largest: u64, extra: u64) {
    let mut left = largest;
    for i in 0..=extra {
        if i > 0 {
            let gap = at_most(r, left.saturating_sub(2));
            d.extend(r.form(gap));
            left = left.saturating_sub(gap + 2);
        }
        let block = at_most(r, left);
        d.extend(r.form(block));
        left = left.saturating_sub(block);
    }
}

/// A small number up to n, mostly; n itself, one more or less; any.
fn at_most(r: &mut Rng, n: u64) -> u64 {
    match r.below(40) {
        0 => r.integer(),
        1 => n.min(END - 1),
        2 => (n + 1).min(END - 1),
        3 => n.saturating_sub(1).min(END - 1),
        _ => r.below(n.min(8) + 1),
    }
}

/// NEW_CONNECTION_ID, at times at the edge of one of its tests.
fn new_cid(r: &mut Rng, d: &mut Vec<u8>) {
    let sequence = r.integer();
    let retire = match r.below(12) {
        0 => (sequence + 1).min(END - 1),
        1 => r.integer(),
        2 => sequence,
        _ => sequence - r.below(sequence.min(8) + 1),
    };
    d.extend(r.form(sequence));
    d.extend(r.form(retire));
    let length = if r.one_in(6) { r.pick(&[0, 21, 22, 64, 255]) } else { 1 + r.below(20) as usize };
    d.push(length as u8);
    let (cid, token) = if r.one_in(8) { (r.near(length), r.near(16)) } else { (length, 16) };
    d.extend(r.bytes(cid + token));
}

/// One large frame that ends a payload of about the longest.
pub fn long_payload(r: &mut Rng) -> Vec<u8> {
    let mut d = Vec::new();
    while r.one_in(2) {
        frame(r, &mut d);
    }
    let len = LONGEST + r.below(4) as usize - 1;
    match r.below(3) {
        0 => d.push(0x30),
        1 => d.extend([0x08, 0x04]),
        _ => {
            let data = (len - d.len() - 6) as u32;
            d.extend([0x06, 0x00]);
            d.extend((data | 0x8000_0000).to_be_bytes());
        }
    }
    d.resize(len.max(d.len()), 0x5a);
    d
}

/// Integers of eight bytes, small, up to about the longest slice.
fn long_blocks(r: &mut Rng) -> Vec<u8> {
    let mut d: Vec<u8> = (0..LONGEST / 8).flat_map(|_| (r.below(8) | 3 << 62).to_be_bytes()).collect();
    d.resize(LONGEST + r.below(4) as usize - 1, 0);
    d
}

fn ackscan(r: &mut Rng) -> String {
    if r.one_in(3_000) {
        let b = long_blocks(r);
        return format!("0 {} {} {}", around_62(r), 4_094 + r.below(4), hex(&b));
    }
    let before = if r.one_in(3) { r.length(6) } else { 0 };
    let (largest, extra) = (largest(r), r.below(6));
    let mut d = r.bytes(before);
    blocks(r, &mut d, largest, extra);
    let d = r.damaged(d);
    let count = if r.one_in(20) { around_62(r) } else { declared(r, extra) };
    let largest = if r.one_in(20) { around_62(r) } else { largest };
    let at = if r.one_in(10) { r.place(d.len()) } else { before as u64 };
    format!("{at} {largest} {count} {}", hex(&d))
}

/// Blocks of a run, whole or damaged; or anything.
fn ackiter(r: &mut Rng) -> String {
    if r.one_in(800) {
        let b = long_blocks(r);
        return format!("{} {}", around_62(r), hex(&b));
    }
    let (largest, extra) = (largest(r), r.below(6));
    let mut d = Vec::new();
    if r.one_in(8) {
        let n = r.length(8);
        d.extend(r.bytes(n));
    } else {
        blocks(r, &mut d, largest, extra);
    }
    let d = if r.one_in(2) { r.damaged(d) } else { d };
    let largest = if r.one_in(20) { around_62(r) } else { largest };
    format!("{largest} {}", hex(&d))
}

fn ecn(r: &mut Rng) -> String {
    let mut count = || if r.one_in(3) { END - 3 + r.below(4) } else { around_62(r) };
    let counts = [count(), count(), count()].map(|n| n.to_string()).join(" ");
    let bits = if r.one_in(8) { r.below(256) } else { r.below(4) };
    format!("{counts} {bits}")
}

/// Every short case, and those at the edge of each test.
pub fn exhaust(emit: &mut dyn FnMut(String)) {
    short_payloads(emit);
    every_type(emit);
    new_cids(emit);
    block_runs(emit);
    arguments(emit);
    longest(emit);
    ecns(emit);
}

fn frames(emit: &mut dyn FnMut(String), payload: &[u8]) {
    emit(format!("frames {}", hex(payload)));
}

/// Every run of this length of these bytes.
fn runs(of: &[u8], len: u32, each: &mut dyn FnMut(&[u8])) {
    for run in 0..of.len().pow(len) {
        let bytes: Vec<u8> = (0..len).map(|i| of[run / of.len().pow(i) % of.len()]).collect();
        each(&bytes);
    }
}

/// All payloads of up to two bytes, and longer ones of fewer bytes.
fn short_payloads(emit: &mut dyn FnMut(String)) {
    const SOME: [u8; 24] = [
        0, 1, 2, 3, 4, 6, 7, 8, 0x0b, 0x0e, 0x12, 0x14, 0x15, 0x18, 0x1a, 0x1c, 0x1d, 0x1f, 0x20, 0x30, 0x31, 0x40,
        0xaf, 0xc0,
    ];
    let all: Vec<u8> = (0..=255).collect();
    (0..=2).for_each(|len| runs(&all, len, &mut |b| frames(emit, b)));
    runs(&SOME, 3, &mut |b| frames(emit, b));
    runs(&SOME[..12], 4, &mut |b| frames(emit, b));
}

fn types() -> impl Iterator<Item = u64> {
    (0..0x20).chain([0x30, 0x31, 0xaf]).chain(UNKNOWN)
}

/// Each type in each form, followed by small bytes; and a good frame with integers of each size, cut at each of its bytes,
/// alone and after a PING.
fn every_type(emit: &mut dyn FnMut(String)) {
    for ty in types() {
        for tag in (0..4).filter(|tag| ty >> (8 * (1 << tag) - 2) == 0) {
            for (n, from, step) in (0..=20).flat_map(|n| [(n, 0, 0), (n, 1, 0), (n, 3, 0), (n, 0, 1), (n, 9, 255)]) {
                let mut d = sized(ty, tag);
                d.extend((0..n).map(|i: u8| i.wrapping_mul(step).wrapping_add(from) % 32));
                frames(emit, &d);
            }
            for size in 0..4 {
                let mut d = vec![1];
                d.extend(sized(ty, tag));
                fields(ty).chars().for_each(|letter| good(&mut d, letter, size));
                (1..=d.len()).for_each(|n| frames(emit, &d[..n]));
                (2..=d.len()).for_each(|n| frames(emit, &d[1..n]));
            }
        }
    }
}

/// An integer in the form of this tag.
fn sized(x: u64, tag: u32) -> Vec<u8> {
    let n = 1 << tag;
    (x | u64::from(tag) << (8 * n - 2)).to_be_bytes()[8 - n..].to_vec()
}

/// A field that is read, with its integers in the form of this tag.
fn good(d: &mut Vec<u8>, letter: char, tag: u32) {
    match letter {
        'v' => d.extend(sized(0x21 + d.len() as u64 % 8, tag)),
        't' => d.extend(sized(u64::from(tag) * 6, tag)),
        'd' => {
            d.extend(sized(3, tag));
            d.extend([0xd1, 0xd2, 0xd3]);
        }
        'r' => d.extend([0xe1, 0xe2]),
        '8' => d.extend([0x81, 2, 3, 4, 5, 6, 7, 8]),
        'a' => [60, 5, 2, 3, 4, 5, 6, 7].iter().for_each(|&x| d.extend(sized(x, tag))),
        _ => {
            d.extend(sized(9, tag));
            d.extend(sized(9 - u64::from(tag), tag));
            d.push(4);
            d.extend(0xc0..0xd4);
        }
    }
}

/// NEW_CONNECTION_ID at the edge of each test.
fn new_cids(emit: &mut dyn FnMut(String)) {
    for (sequence, retire) in (0..4).flat_map(|a| (0..4).map(move |b| (a, b))) {
        frames(emit, &[0x18, sequence, retire]);
        for length in (0..24).chain([63, 64, 255]) {
            let whole = usize::from(length) + 16;
            for n in [0, 1, whole.saturating_sub(17), whole - 16, whole - 15, whole - 1, whole, whole + 1] {
                let mut d = vec![0x18, sequence, retire, length];
                d.resize(4 + n, 0x01);
                frames(emit, &d);
            }
        }
    }
}

/// Every run of up to four small integers as blocks, below every small number, through the scan and the reader.
fn block_runs(emit: &mut dyn FnMut(String)) {
    let small: Vec<u8> = (0..8).collect();
    for len in 0..=4 {
        runs(&small, len, &mut |b| {
            for largest in 0..8 {
                emit(format!("ackiter {largest} {}", hex(b)));
                (0..4).for_each(|extra| emit(format!("ackscan 0 {largest} {extra} {}", hex(b))));
            }
        });
    }
    let cut = [0x00, 0x01, 0x02, 0x40, 0x80, 0xc0];
    for len in 1..=4 {
        runs(&cut, len, &mut |b| {
            emit(format!("ackiter 5 {}", hex(b)));
            (0..3).for_each(|extra| emit(format!("ackscan 0 5 {extra} {}", hex(b))));
        });
    }
}

/// The arguments of the scan and the reader at the ends of their rules.
fn arguments(emit: &mut dyn FnMut(String)) {
    let ends = [0, 1, END - 2, END - 1, END, END + 1, u64::MAX - 1, u64::MAX];
    for b in ["-", "00", "0000", "000000", "05000102", "ffffffffffffffff", "ffffffffffffffff00ffffffffffffffff"] {
        for largest in ends {
            emit(format!("ackiter {largest} {b}"));
            for at in (0..6).chain([END, u64::MAX]) {
                ends.iter().for_each(|extra| emit(format!("ackscan {at} {largest} {extra} {b}")));
            }
        }
    }
}

/// Payloads and slices of about the longest, of frames and integers of one byte.
fn longest(emit: &mut dyn FnMut(String)) {
    for len in LONGEST - 1..=LONGEST + 1 {
        for ty in [0x00, 0x01, 0x1f, 0x30, 0x08] {
            frames(emit, &vec![ty; len]);
        }
        let b = hex(&vec![0; len]);
        emit(format!("ackiter 131050 {b}"));
        emit(format!("ackiter 131056 {b}"));
        for extra in [32_762, 32_763, 32_764, END - 1] {
            emit(format!("ackscan 0 131056 {extra} {b}"));
        }
    }
}

fn ecns(emit: &mut dyn FnMut(String)) {
    (0..=0xff).for_each(|bits| emit(format!("ecn 1 2 3 {bits}")));
    let ends = [0, 1, END - 3, END - 2, END - 1, END, u64::MAX - 1, u64::MAX];
    runs(&[0, 1, 2, 3, 4, 5, 6, 7], 3, &mut |counts| {
        let counts: Vec<String> = counts.iter().map(|&i| ends[usize::from(i)].to_string()).collect();
        (0..4).for_each(|bits| emit(format!("ecn {} {bits}", counts.join(" "))));
    });
}
