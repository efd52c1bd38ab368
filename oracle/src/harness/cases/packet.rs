//! Cases of packets in: header decode, split, walk, dump, the sample's place, finish.
use super::super::rng::{Rng, VERSION_2};
use super::super::table::KINDS;
use super::super::words::{hex, unhex};
use super::packet_out::{MOST, cid_len, good, token_len};
use super::{Made, answered, begun, bytes};
use crate::packet::probe::version_2::Types;

pub const MADE: &[Made] = &[
    ("decode", 4, read),
    ("split", 10, read),
    ("walk", 8, read),
    ("dump", 3, dump),
    ("finish", 14, finish),
    ("sample", 3, sample),
];

/// What a datagram is read with: the local CID's length, grease, the versions.
struct Reader {
    local: u64,
    grease: bool,
    versions: Vec<u32>,
}

const VERSIONS: [u32; 6] = [1, 1, 1, VERSION_2, 2, 0];

fn a_version(r: &mut Rng) -> u32 {
    if r.one_in(4) { r.bits() as u32 } else { r.pick(&VERSIONS) }
}

/// One version; often version 2 alone, after 1 or before it; any number of versions, rarely too many.
fn list(r: &mut Rng) -> Vec<u32> {
    let count = match r.below(100) {
        0 => 17 + r.below(3),
        1..26 => r.below(17),
        26..32 => return vec![VERSION_2],
        32..38 => return vec![1, VERSION_2],
        38..44 => return vec![VERSION_2, 1],
        _ => 1,
    };
    (0..count).map(|_| a_version(r)).collect()
}

impl Reader {
    /// Rarely outside the rules.
    fn new(r: &mut Rng) -> Self {
        let local = match r.below(100) {
            0 => r.pick(&[21, 22, 255, 1 << 16, u64::MAX]),
            1..50 => r.pick(&[0, 0, 4, 8, 20]),
            _ => r.below(21),
        };
        Self { local, grease: r.one_in(3), versions: list(r) }
    }

    fn words(&self) -> String {
        let versions: Vec<String> = self.versions.iter().map(u32::to_string).collect();
        let versions = if versions.is_empty() { "-".into() } else { versions.join(",") };
        format!("{} {} {versions}", self.local, u8::from(self.grease))
    }

    /// A version of the list, mostly; at times version 2 or any, listed or not.
    fn listed(&self, r: &mut Rng) -> u32 {
        match r.below(20) {
            0 => VERSION_2,
            2.. if !self.versions.is_empty() => r.pick(&self.versions),
            _ => a_version(r),
        }
    }
}

/// A long header up to its connection ids. The type bits are given as version 1 has them.
fn long(first: u8, version: u32, dst: &[u8], src: &[u8]) -> Vec<u8> {
    let mut b = vec![first];
    b.extend(version.to_be_bytes());
    for cid in [dst, src] {
        b.push(cid.len() as u8);
        b.extend(cid);
    }
    Types::OfTheRfc.forth(&mut b);
    b
}

/// An integer in a form of this many bytes, or of more where it needs them.
fn integer(x: u64, least: usize) -> Vec<u8> {
    let n = [1, 2, 4, 8].into_iter().find(|&n| n >= least && x < 1 << (8 * n - 2)).unwrap_or(8);
    let top = (n.trailing_zeros() as u64) << (8 * n - 2);
    (x | top).to_be_bytes()[8 - n..].to_vec()
}

/// Behind a packet's Length: mostly as many bytes as it says, at times a few more or fewer; or a Length of any size, or one that is cut.
fn with_length(r: &mut Rng, mut b: Vec<u8>) -> Vec<u8> {
    let n = r.below(44) as usize;
    let said = match r.below(24) {
        0 => r.near(n) as u64,
        1 => r.integer(),
        _ => n as u64,
    };
    let least = if r.one_in(2) { 2 } else { r.pick(&[1, 1, 4, 8]) };
    let length = integer(said, least);
    if r.one_in(40) {
        b.extend(&length[..r.below(length.len() as u64) as usize]);
        return b;
    }
    b.extend(length);
    b.extend(r.bytes(n));
    b
}

/// A packet made by hand, at times with another type's bits.
fn made(r: &mut Rng, reader: &Reader, has_length: bool) -> Vec<u8> {
    let mut b = fitting(r, reader, has_length);
    if r.one_in(20) {
        b[0] ^= 0x10 << r.below(2);
    }
    b
}

/// A packet made by hand: of a kind that has a Length, or of any kind.
fn fitting(r: &mut Rng, reader: &Reader, has_length: bool) -> Vec<u8> {
    let low = r.bits() as u8 & 0x0f;
    let fixed = if r.one_in(10) { 0 } else { 0x40 };
    let (d, s) = (cid_len(r), cid_len(r));
    let (dst, src) = (r.bytes(d), r.bytes(s));
    let version = reader.listed(r);
    let kind = r.below(if has_length { 3 } else { 6 }) as u8;
    match kind {
        0 => {
            let mut b = long(0x80 | fixed | low, version, &dst, &src);
            let n = token_len(r);
            let said = if r.one_in(12) { r.near(n) as u64 + r.below(70) } else { n as u64 };
            b.extend(integer(said, r.pick(&[1, 1, 1, 2, 4, 8])));
            b.extend(r.bytes(n));
            with_length(r, b)
        }
        1 | 2 => with_length(r, long(0x80 | fixed | kind << 4 | low, version, &dst, &src)),
        3 | 4 => {
            let first = 0x80 | fixed | if kind == 3 { 0x30 | low } else { r.bits() as u8 & 0x3f };
            let version = if kind == 3 { version } else { 0 };
            let n = r.below(40) as usize;
            [long(first, version, &dst, &src), r.bytes(n)].concat()
        }
        _ => {
            let n = reader.local.min(64) as usize + r.below(40) as usize;
            let n = if r.one_in(8) { r.near(reader.local.min(64) as usize) } else { n };
            [vec![fixed | r.bits() as u8 & 0x3f], r.bytes(n)].concat()
        }
    }
}

/// A packet that the Rust wrote.
fn written(r: &mut Rng, reader: &Reader, has_length: bool) -> Vec<u8> {
    let version = reader.listed(r);
    let answer = answered(&good(r, reader.local.min(20) as usize, version, has_length));
    unhex(answer.trim_start_matches("ok ")).unwrap_or_default()
}

/// Packets one after the other, damaged or not; random bytes; rarely about as long as a datagram can be.
fn datagram(r: &mut Rng, reader: &Reader) -> Vec<u8> {
    let n = match r.below(16) {
        0 => {
            let n = r.length(40);
            return r.bytes(n);
        }
        1..9 => 1,
        _ => 1 + r.below(4),
    };
    let mut b = Vec::new();
    for i in 1..=n {
        let has_length = i < n || r.one_in(4);
        b.extend(if r.one_in(3) { written(r, reader, has_length) } else { made(r, reader, has_length) });
    }
    if r.one_in(600) {
        b.resize(MOST - 1 + r.below(3) as usize, 0x45);
    }
    if r.one_in(2) { b } else { r.damaged(b) }
}

pub fn read(r: &mut Rng) -> String {
    let reader = Reader::new(r);
    let datagram = datagram(r, &reader);
    format!("{} {}", reader.words(), hex(&datagram))
}

/// A datagram for the dump's reader, rarely the smallest packets, as many as a datagram can have; and a buffer, often about as long
/// as the text.
fn dump(r: &mut Rng) -> String {
    let datagram = if r.one_in(3_000) {
        let n = r.near(MOST);
        smallest_up_to(n)
    } else {
        datagram(r, &Reader { local: 0, grease: false, versions: vec![1] })
    };
    let room = match r.below(8) {
        0..3 => r.near(text_len(&datagram)),
        3 => r.below(text_len(&datagram) as u64) as usize,
        _ => ROOM,
    };
    format!("{room} {}", hex(&datagram))
}

/// Room for the text of every datagram.
const ROOM: usize = 4 * MOST + 64;

/// How long the dump's text is.
fn text_len(datagram: &[u8]) -> usize {
    answered(&format!("dump {ROOM} {}", hex(datagram))).len()
}

/// The first packet of a datagram, with the kind and the offset that the Rust reads in it; none where it refuses it.
fn split_off(reader: &str, datagram: &[u8]) -> Option<(String, u64, Vec<u8>)> {
    let answer = answered(&format!("walk {reader} {}", hex(datagram)));
    let words: Vec<&str> = answer.split(';').next()?.split(' ').collect();
    let ["0", len, kind, offset] = words[..] else {
        return None;
    };
    Some((kind.into(), offset.parse().ok()?, datagram[..len.parse().ok()?].into()))
}

/// A kind, an offset, and a packet that mostly reaches as far behind it as the sample asks for.
fn taken(r: &mut Rng) -> (String, u64, Vec<u8>) {
    let kind = r.pick(&KINDS).0;
    let offset = match r.below(20) {
        0 => 0,
        1 => r.any(),
        2 if r.one_in(4) => u64::MAX - r.below(24),
        _ => 1 + r.below(60),
    };
    let near = offset.min(80) as usize + 20;
    let n = match r.below(10_000) {
        0..30 => MOST - 1 + r.below(3) as usize,
        30..1500 => r.below(near as u64) as usize,
        1500..5000 => r.near(near),
        _ => near + r.below(30) as usize,
    };
    let mut packet = r.bytes(n);
    if let Some(first) = packet.first_mut() {
        *first = *first & 0x7f | if kind == "short" { 0 } else { 0x80 };
        *first ^= if r.one_in(12) { 0x80 } else { 0 };
    }
    (kind.into(), offset, packet)
}

pub fn finish(r: &mut Rng) -> String {
    let (mask, reader) = (r.bytes(5), Reader::new(r));
    let datagram = datagram(r, &reader);
    let from = if r.one_in(2) { None } else { split_off(&reader.words(), &datagram) };
    let (kind, offset, packet) = from.unwrap_or_else(|| taken(r));
    format!("{kind} {offset} {} {}", hex(&mask), hex(&packet))
}

pub fn sample(r: &mut Rng) -> String {
    let (kind, offset, packet) = taken(r);
    format!("{kind} {offset} {}", hex(&packet))
}

const MASK: &str = "0102040810";
/// What the dump reads with.
const DUMP: &str = "0 0 1";

fn each_read(emit: &mut dyn FnMut(String), reader: &str, datagram: &[u8]) {
    for op in ["decode", "split", "walk"] {
        emit(format!("{op} {reader} {}", hex(datagram)));
    }
    if reader == DUMP {
        let len = text_len(datagram);
        for room in [ROOM, len, len - 1] {
            emit(format!("dump {room} {}", hex(datagram)));
        }
    }
    if let Some((kind, offset, packet)) = split_off(reader, datagram) {
        emit(format!("finish {kind} {offset} {MASK} {}", hex(&packet)));
    }
}

/// Every short datagram and every field at its edges; every offset around rule 8; every first byte with every mask.
pub fn exhaust(emit: &mut dyn FnMut(String)) {
    for reader in ["0 0 1", "0 1 1", "1 0 1"] {
        emit(format!("split {reader} -"));
        (0..=0xff).for_each(|x| emit(format!("split {reader} {x:02x}")));
        (0..=0xffff).for_each(|x| emit(format!("split {reader} {x:04x}")));
    }
    first_bytes(emit);
    prefixes(emit);
    cids(emit);
    versions(emit);
    lengths(emit);
    offsets(emit);
    masks(emit);
    longest(emit);
}

/// The smallest packet that others can follow.
fn smallest(version: u32) -> Vec<u8> {
    [long(0xe0, version, &[], &[]), vec![0]].concat()
}

/// The smallest packets, one after the other, up to so many bytes.
fn smallest_up_to(n: usize) -> Vec<u8> {
    smallest(1).into_iter().cycle().take(n).collect()
}

fn first_bytes(emit: &mut dyn FnMut(String)) {
    let tails =
        ["", "00", "0000", "0000 00", "0000 00 00", "0000 05 aa", "0000 01 aa 02 bbcc", "0102 03 04 00 01 dd ee"];
    for first in 0..=0xff {
        for version in [0, 1, 2, VERSION_2] {
            for tail in tails {
                let tail = unhex(&tail.replace(' ', "")).unwrap_or_default();
                let b = [&[first][..], &version.to_be_bytes(), &tail].concat();
                ["0 0 1", "0 1 1"].iter().for_each(|reader| each_read(emit, reader, &b));
                let second = hex(&[smallest(1), b.clone()].concat());
                emit(format!("walk {DUMP} {second}"));
                emit(format!("dump {ROOM} {second}"));
                if version == VERSION_2 {
                    let readers = ["0 0 V", "0 0 1,V", "0 0 V,1", "0 1 V"].map(with_2);
                    readers.iter().for_each(|reader| each_read(emit, reader, &b));
                    emit(format!("walk 0 0 1,{VERSION_2} {second}"));
                    emit(format!("walk 0 0 {VERSION_2} {}", hex(&[smallest(VERSION_2), b].concat())));
                }
            }
        }
    }
}

/// A reader in whose list V is version 2.
fn with_2(reader: &str) -> String {
    reader.replace('V', &VERSION_2.to_string())
}

/// One good packet of each kind, with another behind it where it has a Length; the last two kinds have no version. Then a datagram of
/// several, which are of this version and of version 1 in turn.
fn good_packets(version: u32) -> Vec<Vec<u8>> {
    let (dst, src) = ([0x83, 0x94, 0xc8, 0xf0], [0xf0, 0x67]);
    let payload = |n: u8| (0..n).map(|i| 0x60 + i).collect::<Vec<u8>>();
    let sized = |mut b: Vec<u8>, n: u8| {
        b.extend(integer(u64::from(n), 2));
        b.extend(payload(n));
        b
    };
    let token = [integer(3, 1), vec![0x70, 0x71, 0x72]].concat();
    let initial = |version| sized([long(0xc1, version, &dst, &src), token.clone()].concat(), 24);
    let zero_rtt = |version| sized(long(0xd2, version, &dst, &src), 21);
    let handshake = |version| sized(long(0xe3, version, &dst, &src), 20);
    vec![
        [initial(version), handshake(version), payload(22)].concat(),
        [zero_rtt(version), payload(25)].concat(),
        [handshake(version), vec![0x41]].concat(),
        [long(0xf0, version, &dst, &src), payload(20)].concat(),
        [vec![0x63], payload(28)].concat(),
        [long(0xca, 0, &dst, &src), payload(8)].concat(),
        [zero_rtt(version), initial(1), handshake(version), zero_rtt(1), payload(28)].concat(),
    ]
}

fn prefixes(emit: &mut dyn FnMut(String)) {
    let of_1 = ["0 0 1", "4 0 1", "20 1 2,1"].map(String::from);
    let of_2 = ["0 0 V", "4 0 1,V", "20 1 V,1"].map(with_2);
    for (version, readers) in [(1, of_1), (VERSION_2, of_2)] {
        for packet in good_packets(version) {
            for n in 0..=packet.len() {
                readers.iter().for_each(|reader| each_read(emit, reader, &packet[..n]));
            }
        }
    }
}

/// Every length byte of both connection ids, and every local length, with fewer and with enough bytes.
fn cids(emit: &mut dyn FnMut(String)) {
    for len in 0..=0xff {
        for n in (0..24).chain([254, 255, 256]) {
            let tail = vec![0x21; n];
            emit(format!("decode 0 0 1 {}", hex(&[&[0xe0, 0, 0, 0, 1, len][..], &tail].concat())));
            emit(format!("decode 0 0 1 {}", hex(&[&[0xf0, 0, 0, 0, 2, 1, 9, len][..], &tail].concat())));
        }
    }
    for local in (0..24).chain([255, 256, 276, 1 << 32, u64::MAX]) {
        for n in 0..26 {
            each_read(emit, &format!("{local} 0 1"), &[&[0x40][..], &vec![0x33; n]].concat());
        }
        each_read(emit, &format!("{local} 0 1"), &long(0xf0, 1, &[], &[]));
    }
}

/// Every number of versions, with the packet's at every place and at none.
fn versions(emit: &mut dyn FnMut(String)) {
    for (n, listed) in (0..=18).flat_map(|n| [7, VERSION_2].map(|listed| (n, listed))) {
        for at in 0..=n {
            let list: Vec<String> = (0..n).map(|i| if i == at { listed } else { 100 + i }.to_string()).collect();
            let list = if n == 0 { "-".into() } else { list.join(",") };
            for version in [listed, 0] {
                each_read(emit, &format!("0 0 {list}"), &long(0xf0, version, &[1], &[2, 3]));
            }
        }
    }
}

/// A token's length and a Length in every form, at, below and above what remains.
fn lengths(emit: &mut dyn FnMut(String)) {
    for form in [1, 2, 4, 8] {
        for said in (0..6).chain([63, 64, 16_383, 16_384, 1 << 30, (1 << 62) - 1]) {
            for n in 0..6 {
                let tail = [integer(said, form), vec![0x44; n]].concat();
                for first in [0xd0, 0xe0] {
                    each_read(emit, "0 0 1", &[long(first, 1, &[], &[]), tail.clone()].concat());
                }
                each_read(emit, "0 0 1", &[long(0xc0, 1, &[], &[]), tail.clone()].concat());
                each_read(emit, "0 0 1", &[long(0xc0, 1, &[], &[]), vec![0], tail].concat());
            }
        }
    }
}

/// Every kind with every packet of up to 40 bytes and those around what rule 8 asks for, every offset in them and past them, and
/// every length of a number under either form.
fn offsets(emit: &mut dyn FnMut(String)) {
    let far = [50, 1 << 32, u64::MAX - 20, u64::MAX - 19, u64::MAX];
    for (kind, _) in KINDS {
        for offset in (0..=41).chain(far) {
            let around = offset.min(50) + 16..offset.min(50) + 24;
            for n in (0..=40).chain(around.start.max(41)..around.end) {
                emit(format!("sample {kind} {offset} {}", bytes(n)));
                for first in (0x44..0x48).chain(0xc4..0xc8) {
                    emit(format!("finish {kind} {offset} {MASK} {}", begun(first, n)));
                }
            }
        }
    }
}

fn masks(emit: &mut dyn FnMut(String)) {
    for first in 0..=0xff {
        let long = ["initial", "0rtt", "handshake", "initial"][first / 16 % 4];
        let kind = if first < 0x80 { "short" } else { long };
        for m in 0..=0xff {
            emit(format!("finish {kind} 1 {m:02x}11223344 {first:02x}{}", bytes(24)));
        }
    }
}

/// Around the longest datagram: one short packet, the smallest packets, and one that takes all.
fn longest(emit: &mut dyn FnMut(String)) {
    for n in [MOST - 1, MOST, MOST + 1] {
        let one = vec![0x45; n];
        let sized = [long(0xd0, 1, &[], &[]), integer(n as u64 - 11, 4), vec![0x66; n - 11]].concat();
        for datagram in [smallest_up_to(n), one.clone(), sized] {
            each_read(emit, DUMP, &datagram);
        }
        for kind in ["short", "retry"] {
            emit(format!("sample {kind} {} {}", n - 20, hex(&one)));
            emit(format!("finish {kind} {} {MASK} {}", n - 20, hex(&one)));
        }
    }
}
