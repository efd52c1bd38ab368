//! Cases of the encoders of frames, of the codecs beside them, and of the sizes.
use super::super::rng::{END, Rng};
use super::super::words::hex;
use super::{Made, around_62, bytes, size};

pub const MADE: &[Made] =
    &[("fenc", 40, fenc), ("fdec", 4, fdec), ("fsize", 2, fsize), ("bounds", 1, |_| String::new())];

/// All short inputs.
pub fn exhaust(emit: &mut dyn FnMut(String)) {
    integers(emit);
    streams(emit);
    ids(emit);
    closes(emit);
    acks(emit);
    longest(emit);
    small(emit);
}

fn sizes(xs: &[u64]) -> usize {
    xs.iter().map(|&x| size(x)).sum()
}

/// An integer, rarely a number past them all.
fn integer(r: &mut Rng) -> u64 {
    if r.one_in(12) { around_62(r) } else { r.integer() }
}

fn join(xs: &[u64]) -> String {
    if xs.is_empty() {
        return "-".into();
    }
    xs.iter().map(u64::to_string).collect::<Vec<_>>().join(",")
}

/// Words with spaces between.
fn words(xs: &[u64]) -> String {
    xs.iter().map(u64::to_string).collect::<Vec<_>>().join(" ")
}

/// A buffer for n bytes: longer, of that length, shorter.
fn room(r: &mut Rng, n: usize) -> String {
    let len = match r.below(5) {
        0 => r.below(n as u64 + 1) as usize,
        1 => n.saturating_sub(1),
        2 => n,
        _ if n > 10_000 => n + r.below(8) as usize, // a record is to fit
        _ => n + r.length(8),
    };
    hex(&r.bytes(len))
}

/// A frame's words and the bytes that it takes, about.
type Frame = (String, usize);

fn fenc(r: &mut Rng) -> String {
    let makers: [fn(&mut Rng) -> Frame; 15] = [
        |r| numbers(r, "reset", 3),
        |r| numbers(r, "stop", 2),
        |r| numbers(r, "ackfreq", 4),
        |r| numbers(r, "counts", 3),
        |r| numbers(r, "type", 1),
        |r| numbers(r, "id", 1),
        |r| numbers(r, "code", 1),
        crypto,
        token,
        datagram,
        stream,
        newcid,
        close,
        appclose,
        ack,
    ];
    let make = if r.one_in(4) { ack } else { r.pick(&makers) };
    let (frame, n) = make(r);
    format!("{frame} {}", room(r, n))
}

fn numbers(r: &mut Rng, name: &str, count: usize) -> Frame {
    let xs: Vec<u64> = (0..count).map(|_| integer(r)).collect();
    let before = match name {
        "reset" | "stop" => 1,
        "ackfreq" => 2,
        _ => 0,
    };
    (format!("{name} {}", words(&xs)), before + sizes(&xs))
}

/// Data: short, about where its length takes two bytes, rarely about where a frame is too long.
fn data(r: &mut Rng) -> Vec<u8> {
    let n = match r.below(200) {
        0 => 65_515 + r.below(15) as usize,
        1..50 => r.near(64),
        _ => r.length(40),
    };
    r.bytes(n)
}

fn crypto(r: &mut Rng) -> Frame {
    let (offset, data) = (integer(r), data(r));
    (format!("crypto {offset} {}", hex(&data)), 1 + sizes(&[offset, data.len() as u64]) + data.len())
}

fn token(r: &mut Rng) -> Frame {
    let data = data(r);
    (format!("token {}", hex(&data)), 1 + size(data.len() as u64) + data.len())
}

fn datagram(r: &mut Rng) -> Frame {
    let (length, data) = (r.below(2), data(r));
    let n = if length == 1 { size(data.len() as u64) } else { 0 };
    (format!("datagram {length} {}", hex(&data)), 1 + n + data.len())
}

fn stream(r: &mut Rng) -> Frame {
    let (id, start) = (integer(r), if r.one_in(3) { 0 } else { integer(r) });
    let end = match r.below(10) {
        0 => start.saturating_sub(1 + r.below(3)),
        1 => END - 2 + r.below(4),
        2 => r.any(),
        _ => start.saturating_add(r.integer()).min(END - 1),
    };
    let (fin, length) = (r.below(2), r.below(2));
    let mut n = 1 + size(id);
    n += if start == 0 { 0 } else { size(start) };
    n += if length == 1 { size(end.wrapping_sub(start)) } else { 0 };
    (format!("stream {id} {start} {end} {fin} {length}"), n)
}

fn newcid(r: &mut Rng) -> Frame {
    let sequence = integer(r);
    let retire = match r.below(6) {
        0 => sequence.saturating_add(1 + r.below(2)),
        1 => integer(r),
        2 => sequence,
        _ => r.below(sequence.saturating_add(1).max(1)),
    };
    let n = if r.one_in(8) { r.pick(&[0, 21, 22, 255]) } else { 1 + r.below(20) as usize };
    let frame = format!("newcid {sequence} {retire} {} {}", hex(&r.bytes(n)), hex(&r.bytes(16)));
    (frame, 1 + sizes(&[sequence, retire]) + 1 + n + 16)
}

/// A max_len about what a close takes: its fields, the length of a reason of n bytes, the reason.
fn max_len(r: &mut Rng, fields: usize, n: usize) -> u64 {
    let fixed = fields + size(n as u64);
    match r.below(8) {
        0 => r.any(),
        1 | 2 => r.near(fixed) as u64,
        3 | 4 => r.near(fixed + n) as u64,
        5 => (fixed + r.below(n as u64 + 1) as usize) as u64,
        _ => (fixed + n) as u64 + r.below(40),
    }
}

/// The bytes that a close takes: its fields, and as much of its reason as max_len leaves.
fn close_size(fields: usize, max_len: u64, n: usize) -> usize {
    let kept = usize::try_from(max_len).map_or(n, |m| m.saturating_sub(fields + size(n as u64)).min(n));
    fields + size(kept as u64) + kept
}

fn close(r: &mut Rng) -> Frame {
    let (code, reason) = (integer(r), data(r));
    let ty: Vec<u64> = match r.below(4) {
        0 => vec![],
        1 => vec![r.below(2)],
        _ => vec![integer(r)],
    };
    let n = reason.len();
    let fields = 1 + size(code) + size(ty.first().copied().unwrap_or(0));
    let max_len = max_len(r, fields, n);
    let frame = format!("close {} {code} {max_len} {} {}", r.below(2), join(&ty), hex(&reason));
    (frame, close_size(fields, max_len, n))
}

fn appclose(r: &mut Rng) -> Frame {
    let (code, reason) = (integer(r), data(r));
    let (n, fields) = (reason.len(), 1 + size(code));
    let max_len = max_len(r, fields, n);
    let frame = format!("appclose {} {code} {max_len} {}", r.below(2), hex(&reason));
    (frame, close_size(fields, max_len, n))
}

/// Numbers that ascend, each a little or far above the one before; the last ones at times at the end of all numbers.
fn ascending(r: &mut Rng, count: usize) -> Vec<u64> {
    let mut ends = Vec::new();
    let mut at = if r.one_in(4) { 0 } else { r.integer() >> 2 };
    for _ in 0..count {
        ends.push(at);
        at += 1 + if r.one_in(2) { r.below(4) } else { r.integer() >> (2 + r.below(50)) };
    }
    if r.one_in(8) && count > 0 {
        let up = (END + r.below(3)).saturating_sub(1 + ends[count - 1]);
        ends.iter_mut().for_each(|end| *end = end.saturating_add(up));
    }
    ends
}

/// Numbers whose differences take eight bytes each: 8,190 of them are too many for a frame.
fn far_apart(count: u64) -> Vec<u64> {
    (0..count).map(|i| i << 31).collect()
}

/// A list that keeps the rule, or one that is damaged: a number more or less, two of them equal, exchanged or any.
fn ranges(r: &mut Rng) -> Vec<u64> {
    if r.one_in(1_500) {
        return far_apart(8_188 + 2 * r.below(3));
    }
    let pairs = if r.one_in(60) { r.below(60) } else { r.below(5) };
    let count = if r.one_in(12) { pairs * 2 + 1 } else { pairs * 2 };
    let mut ends = ascending(r, count as usize);
    if ends.len() > 1 && r.one_in(5) {
        let i = 1 + r.below(ends.len() as u64 - 1) as usize;
        match r.below(3) {
            0 => ends[i] = ends[i - 1],
            1 => ends.swap(i, i - 1),
            _ => ends[i] = r.any(),
        }
    }
    ends
}

fn ack(r: &mut Rng) -> Frame {
    let (delay, ends) = (integer(r), ranges(r));
    let counts: Vec<u64> = if r.one_in(2) { vec![] } else { (0..3).map(|_| integer(r)).collect() };
    (format!("ack {delay} {} {}", join(&counts), join(&ends)), ack_size(delay, &counts, &ends))
}

fn ack_size(delay: u64, counts: &[u64], ends: &[u64]) -> usize {
    let Some(&last) = ends.last() else { return 0 };
    let blocks: usize = ends.windows(2).map(|w| size(w[1].wrapping_sub(w[0]).wrapping_sub(1))).sum();
    1 + sizes(&[last.wrapping_sub(1), delay, (ends.len() as u64 / 2).wrapping_sub(1)]) + blocks + sizes(counts)
}

fn fdec(r: &mut Rng) -> String {
    let before = r.length(6);
    let mut b = r.bytes(before);
    b.extend(r.integer_form());
    let b = r.damaged(b);
    let at = if r.one_in(6) { r.place(b.len()) } else { before as u64 };
    format!("{} {at} {}", r.below(3), hex(&b))
}

fn fsize(r: &mut Rng) -> String {
    let n = if r.one_in(60) { 65_518 + r.below(12) as usize } else { r.length(70) };
    format!("{} {}", r.below(3), hex(&vec![7; n]))
}

// ---- every short case

/// Where an integer's size changes, and where it has none.
const EDGES: [u64; 9] = [0, 63, 64, 16_383, 16_384, 0x3fff_ffff, 0x4000_0000, END - 1, END];

/// A frame of n bytes into a buffer longer than it, of its length, shorter by one.
fn lent(emit: &mut dyn FnMut(String), frame: &str, n: usize) {
    for len in [n + 2, n, n.saturating_sub(1)] {
        emit(format!("fenc {frame} {}", bytes(len as u64)));
    }
}

/// Every choice of `count` edges.
fn each_edges(count: usize, each: &mut dyn FnMut(&[u64])) {
    for i in 0..EDGES.len().pow(count as u32) {
        let xs: Vec<u64> = (0..count).map(|k| EDGES[i / EDGES.len().pow(k as u32) % EDGES.len()]).collect();
        each(&xs);
    }
}

fn integers(emit: &mut dyn FnMut(String)) {
    for (name, before, count) in [
        ("reset", 1, 3),
        ("stop", 1, 2),
        ("ackfreq", 2, 4),
        ("counts", 0, 3),
        ("type", 0, 1),
        ("id", 0, 1),
        ("code", 0, 1),
    ] {
        each_edges(count, &mut |xs| lent(emit, &format!("{name} {}", words(xs)), before + sizes(xs)));
    }
    for n in [0, 1, 63, 64, 65] {
        let data = bytes(n);
        for offset in EDGES {
            lent(emit, &format!("crypto {offset} {data}"), 1 + sizes(&[offset, n]) + n as usize);
        }
        lent(emit, &format!("token {data}"), 1 + size(n) + n as usize);
        lent(emit, &format!("datagram 0 {data}"), 1 + n as usize);
        lent(emit, &format!("datagram 1 {data}"), 1 + size(n) + n as usize);
    }
}

fn streams(emit: &mut dyn FnMut(String)) {
    each_edges(3, &mut |xs| {
        let (id, start, end) = (xs[0], xs[1], xs[2]);
        let n = 1 + size(id) + if start == 0 { 0 } else { size(start) };
        for fin in 0..2 {
            lent(emit, &format!("stream {id} {start} {end} {fin} 0"), n);
            lent(emit, &format!("stream {id} {start} {end} {fin} 1"), n + size(end.wrapping_sub(start)));
        }
    });
}

fn ids(emit: &mut dyn FnMut(String)) {
    let token = bytes(16);
    for n in (0..24).chain([255]) {
        for (sequence, retire) in [(0, 0), (1, 0), (0, 1), (63, 64), (64, 63), (END - 1, END - 1), (END, 0), (END, END)]
        {
            let frame = format!("newcid {sequence} {retire} {} {token}", bytes(n));
            lent(emit, &frame, 18 + sizes(&[sequence, retire]) + n as usize);
        }
    }
}

/// Error codes of each size, and one past them all.
const CODES: [u64; 5] = [63, 64, 16_384, 0x4000_0000, END];

fn closes(emit: &mut dyn FnMut(String)) {
    for max_len in 0..41 {
        for code in CODES {
            let frame = format!("close 1 {code} {max_len} 6 {}", bytes(50));
            lent(emit, &frame, close_size(2 + size(code), max_len, 50));
        }
        for n in 0..71 {
            let reason = bytes(n);
            for code in CODES {
                let room = bytes(32 + n);
                emit(format!("fenc appclose {} {code} {max_len} {reason} {room}", max_len % 2));
                for ty in ["-", "0", "64", "4611686018427387904"] {
                    emit(format!("fenc close {} {code} {max_len} {ty} {reason} {room}", n % 2));
                }
            }
        }
    }
}

/// Every list of up to four numbers below six, and lists at the end of all numbers.
fn acks(emit: &mut dyn FnMut(String)) {
    for count in 0..5 {
        for i in 0..6_u64.pow(count) {
            let ends: Vec<u64> = (0..count).map(|k| i / 6_u64.pow(k) % 6).collect();
            for counts in [&[][..], &[0, 64, 5]] {
                lent(emit, &format!("ack 3 {} {}", join(counts), join(&ends)), ack_size(3, counts, &ends));
            }
        }
    }
    for start in [0, END - 3, END - 2, END - 1, END] {
        for end in [END - 1, END, END + 1, u64::MAX] {
            for ends in [vec![start, end], vec![0, 1, start, end], vec![0, 70, 134, 135, start, end]] {
                lent(emit, &format!("ack 0 - {}", join(&ends)), ack_size(0, &[], &ends));
            }
        }
    }
    each_edges(4, &mut |xs| {
        let (delay, counts) = (xs[0], &xs[1..]);
        let n = ack_size(delay, counts, &[5, 8]);
        emit(format!("fenc ack {delay} {} 5,8 {}", join(counts), bytes(n as u64)));
    });
}

/// Frames of about 65,527 bytes, mostly into a short buffer: a record is to fit.
fn longest(emit: &mut dyn FnMut(String)) {
    let short = bytes(20);
    for n in 65_516..65_530 {
        let data = "c5".repeat(n);
        for frame in ["crypto 9", "token", "datagram 0", "datagram 1", "close 0 7 70000 6", "appclose 1 7 70000"] {
            emit(format!("fenc {frame} {data} {short}"));
        }
        (0..3).for_each(|what| emit(format!("fsize {what} {data}")));
    }
    let whole = "11".repeat(65_530);
    for n in [65_520, 65_521, 65_522, 65_523] {
        emit(format!("fenc crypto 9 {} {whole}", "c5".repeat(n)));
    }
    for count in [8_188, 8_190, 8_192] {
        emit(format!("fenc ack 0 - {} {short}", join(&far_apart(count))));
    }
}

fn small(emit: &mut dyn FnMut(String)) {
    for what in 0..3 {
        for x in 0..=0xff {
            (0..9).for_each(|n| emit(format!("fdec {what} 0 {x:02x}{}", bytes(n).replace('-', ""))));
        }
        for at in [0, 1, 2, 3, 9, u64::MAX] {
            emit(format!("fdec {what} {at} 4025"));
            emit(format!("fdec {what} {at} -"));
        }
        (0..70).for_each(|n| emit(format!("fsize {what} {}", bytes(n))));
    }
    emit("bounds".into());
}
