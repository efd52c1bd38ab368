//! Cases of integers, reads and puts, connection ids, stream ids, ECN bits, frame types.
use super::super::rng::Rng;
use super::super::words::hex;
use super::{Made, around_62, bytes, edges, size};

pub const MADE: &[Made] = &[
    ("vread", 12, vread),
    ("vfrom", 3, |r| around_62(r).to_string()),
    ("vsize", 5, |r| around_62(r).to_string()),
    ("vwrite", 12, vwrite),
    ("vput", 10, vput),
    ("get", 8, get),
    ("put", 8, put),
    ("puts", 6, puts),
    ("take", 6, take),
    ("part", 6, part),
    ("cidnew", 4, |r| hex(&cid_bytes(r))),
    ("cidbuf", 7, cidbuf),
    ("ciddec", 7, ciddec),
    ("cidenc", 7, cidenc),
    ("ecnbits", 2, |r| r.below(256).to_string()),
    ("sidnew", 4, sidnew),
    ("sid", 2, |r| r.any().to_string()),
    ("ftypes", 1, |_| String::new()),
];

/// All short inputs.
pub fn exhaust(emit: &mut dyn FnMut(String)) {
    integers(emit);
    fixed(emit);
    parts(emit);
    cids(emit);
    small_kinds(emit);
    longest(emit);
}

/// A place, and a buffer in which about n bytes fit there.
fn place_for(r: &mut Rng, n: usize) -> (u64, String) {
    let before = r.length(8);
    let after = r.pick(&[0, 0, 3]);
    let len = r.near(before + n + after);
    let at = if r.one_in(4) { r.place(len) } else { before as u64 };
    (at, hex(&r.bytes(len)))
}

fn vread(r: &mut Rng) -> String {
    let before = r.length(6);
    let mut b = r.bytes(before);
    b.extend(r.integer_form());
    let after = r.below(3) as usize;
    b.extend(r.bytes(after));
    let b = r.damaged(b);
    let at = if r.one_in(6) { r.place(b.len()) } else { before as u64 };
    format!("{at} {}", hex(&b))
}

fn vwrite(r: &mut Rng) -> String {
    let x = around_62(r);
    let n = match r.below(3) {
        0 => r.below(size(x) as u64) as usize,
        _ => size(x) + r.length(6),
    };
    format!("{x} {}", hex(&r.bytes(n)))
}

fn vput(r: &mut Rng) -> String {
    let x = around_62(r);
    let (at, b) = place_for(r, size(x));
    format!("{at} {x} {b}")
}

fn get(r: &mut Rng) -> String {
    let width = r.pick(&[1, 2, 4, 8]);
    let (at, b) = place_for(r, width);
    format!("{width} {at} {b}")
}

fn put(r: &mut Rng) -> String {
    let width = r.pick(&[1, 2, 4, 8]);
    let (at, b) = place_for(r, width);
    let most = u64::MAX >> (64 - 8 * width);
    let x = match r.below(4) {
        0 => most - r.below(2),
        1 => r.below(2),
        _ => r.bits() & most,
    };
    format!("{width} {at} {x} {b}")
}

fn puts(r: &mut Rng) -> String {
    let n = r.length(12);
    let (at, b) = place_for(r, n);
    format!("{at} {} {b}", hex(&r.bytes(n)))
}

fn take(r: &mut Rng) -> String {
    let len = r.length(16);
    let at = r.place(len);
    let left = len.saturating_sub(at as usize);
    let n = match r.below(6) {
        0 => around_62(r),
        1 | 2 => r.near(left) as u64,
        _ => r.below(left as u64 + 1),
    };
    format!("{at} {n} {}", hex(&r.bytes(len)))
}

fn part(r: &mut Rng) -> String {
    let len = r.length(16);
    let start = r.place(len);
    let left = len.saturating_sub(start as usize);
    let n = match r.below(6) {
        0 => r.any(),
        1 => 0u64.wrapping_sub(start).wrapping_add(r.below(3)), // the end wraps
        2 => r.near(left) as u64,
        _ => r.below(left as u64 + 1),
    };
    format!("{start} {n} {}", hex(&r.bytes(len)))
}

/// A CID's length: what QUIC uses, the ends of the rule, past it.
fn cid_len(r: &mut Rng) -> usize {
    r.pick(&[0, 1, 4, 8, 8, 12, 18, 19, 20, 20, 21, 22, 64, 255])
}

fn cid_bytes(r: &mut Rng) -> Vec<u8> {
    let n = if r.one_in(100) { 250 + r.length(12) } else { cid_len(r) };
    r.bytes(n)
}

fn cidbuf(r: &mut Rng) -> String {
    let n = cid_len(r);
    let (at, b) = place_for(r, n);
    let n = if r.one_in(50) { r.any() } else { n as u64 };
    format!("{at} {n} {b}")
}

fn ciddec(r: &mut Rng) -> String {
    let (before, n) = (r.length(6), cid_len(r));
    let mut b = r.bytes(before);
    b.push(n as u8);
    let n = if r.one_in(4) { r.near(n) } else { n };
    b.extend(r.bytes(n));
    let b = r.damaged(b);
    let at = if r.one_in(6) { r.place(b.len()) } else { before as u64 };
    format!("{at} {}", hex(&b))
}

fn cidenc(r: &mut Rng) -> String {
    let len = cid_len(r);
    let mut bytes = r.bytes(20);
    if r.one_in(2) && len < 20 {
        bytes[len..].fill(0);
    }
    let room = match r.below(3) {
        0 => r.below(len as u64 + 2) as usize,
        _ => len + 1 + r.length(6),
    };
    format!("{len} {} {}", hex(&bytes), hex(&r.bytes(room)))
}

fn sidnew(r: &mut Rng) -> String {
    let index = match r.below(4) {
        0 => (1 << 60) + r.below(5) - 2,
        1 => r.any(),
        _ => r.integer() >> 2,
    };
    format!("{} {} {index}", r.below(2), r.below(2))
}

fn integers(emit: &mut dyn FnMut(String)) {
    for at in 0..4 {
        emit(format!("vread {at} -"));
        (0..=0xff).for_each(|x| emit(format!("vread {at} {x:02x}")));
        (0..=0xffff).for_each(|x| emit(format!("vread {at} {x:04x}")));
    }
    for first in 0..=0xff {
        (0..9).for_each(|n| emit(format!("vread 0 {first:02x}{}", bytes(n).replace('-', ""))));
    }
    for x in edges() {
        emit(format!("vfrom {x}"));
        emit(format!("vsize {x}"));
        for n in 0..10 {
            emit(format!("vwrite {x} {}", bytes(n)));
            (0..11).for_each(|at| emit(format!("vput {at} {x} {}", bytes(n))));
        }
    }
}

fn fixed(emit: &mut dyn FnMut(String)) {
    (0..=0xff).for_each(|x| emit(format!("get 1 0 {x:02x}")));
    (0..=0xffff).for_each(|x| emit(format!("get 2 0 {x:04x}")));
    (0..=0xff).for_each(|x| emit(format!("put 1 1 {x} 112233")));
    (0..=0xffff).for_each(|x| emit(format!("put 2 1 {x} 11223344")));
    for n in 0..10 {
        for at in 0..12 {
            for width in [1, 2, 4, 8] {
                emit(format!("get {width} {at} {}", bytes(n)));
                let most = u64::MAX >> (64 - 8 * width);
                for x in [0, 1, most / 3, most] {
                    emit(format!("put {width} {at} {x} {}", bytes(n)));
                }
            }
            (0..6).for_each(|m| emit(format!("puts {at} {} {}", bytes(m).replace('a', "5"), bytes(n))));
        }
    }
}

fn parts(emit: &mut dyn FnMut(String)) {
    for n in 0..6 {
        for at in (0..8).chain([1 << 62, 1 << 63, u64::MAX - 1, u64::MAX]) {
            for len in (0..8).chain([1 << 62, 1 << 63, u64::MAX - 1, u64::MAX]) {
                emit(format!("take {at} {len} {}", bytes(n)));
                emit(format!("part {at} {len} {}", bytes(n)));
            }
        }
    }
}

fn cids(emit: &mut dyn FnMut(String)) {
    for n in (0..=64).chain([255, 256, 257, 276, 512, 1 << 16]) {
        emit(format!("cidnew {}", hex(&vec![7; n])));
    }
    let tail: String = (0..20).map(|i| format!("{:02x}", 0x40 + i)).collect();
    for room in 0..24 {
        for len in 0..=0xff {
            emit(format!("ciddec 0 {len:02x}{}", bytes(room).replace('-', "")));
            emit(format!("ciddec 2 {room:02x}ff{len:02x}{}", bytes(room).replace('-', "")));
            emit(format!("cidenc {len} {tail} {}", bytes(room)));
        }
        for at in (0..4).chain([room.saturating_sub(1), room, room + 1, u64::MAX]) {
            emit(format!("ciddec {at} {}", bytes(room)));
            for len in (0..24).chain([255, 256, 276, 1 << 32, u64::MAX]) {
                emit(format!("cidbuf {at} {len} {}", bytes(room)));
            }
        }
    }
}

fn small_kinds(emit: &mut dyn FnMut(String)) {
    (0..=0xff).for_each(|x| emit(format!("ecnbits {x}")));
    for x in (0..1024).chain(edges()) {
        emit(format!("sid {x}"));
        for kind in ["0 0", "0 1", "1 0", "1 1"] {
            emit(format!("sidnew {kind} {x}"));
        }
    }
    emit("ftypes".into());
}

/// A payload as long as there is.
fn longest(emit: &mut dyn FnMut(String)) {
    let b = "c5".repeat(65_527);
    for at in [0, 65_519, 65_520, 65_526, 65_527, 65_528] {
        emit(format!("vread {at} {b}"));
        emit(format!("vput {at} 1073741824 {b}"));
        emit(format!("get 4 {at} {b}"));
        emit(format!("take {at} {} {b}", 65_527 - at.min(65_527)));
        emit(format!("part {at} 1 {b}"));
    }
}
