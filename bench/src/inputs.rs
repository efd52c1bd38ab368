//! The inputs: the same bytes for both sides.
use oracle::harness::rng::Rng;

/// The longest payload and datagram.
pub const LONGEST: usize = 65_527;
/// The length of the CIDs that we hand out, and the versions that we speak.
pub const LOCAL: usize = 8;
pub const VERSIONS: [u32; 1] = [1];
pub const CID: [u8; LOCAL] = [0x83, 0x94, 0xc8, 0xf0, 0x3e, 0x51, 0x57, 0x08];
pub const MASK: [u8; 5] = [0x43, 0x7b, 0x9a, 0xec, 0x36];

/// The widths of a list of integers.
#[derive(Clone, Copy)]
pub enum Widths {
    All(usize),
    Mixed,
}

impl Widths {
    pub fn name(self) -> String {
        match self {
            Widths::All(width) => format!("{width}-byte"),
            Widths::Mixed => "mixed".into(),
        }
    }

    fn pick(self, rng: &mut Rng) -> usize {
        match self {
            Widths::All(width) => width,
            Widths::Mixed => rng.pick(&[1, 2, 4, 8]),
        }
    }
}

/// An integer (RFC 9000, 16) of this width.
fn put(out: &mut Vec<u8>, width: usize, number: u64) {
    let start = out.len();
    out.extend_from_slice(&number.to_be_bytes()[8 - width..]);
    out[start] |= (width.trailing_zeros() as u8) << 6;
}

/// A number that needs this width, small for it.
fn number_of(rng: &mut Rng, width: usize) -> u64 {
    let least = [1, 1 << 6, 1 << 14, 1 << 30][width.trailing_zeros() as usize];
    least + rng.below(32)
}

/// So many integers, each behind these bytes: a frame's type, or none.
pub fn integers(count: usize, widths: Widths, before: &[u8]) -> Vec<u8> {
    let (mut out, mut rng) = (Vec::new(), Rng::new(1, 0));
    for _ in 0..count {
        out.extend(before);
        let width = widths.pick(&mut rng);
        let number = number_of(&mut rng, width);
        put(&mut out, width, number);
    }
    out
}

/// So many ranges, ascending, whose gaps and blocks need these widths: each range's start, and its end past it.
pub fn ranges(count: usize, widths: Widths) -> Vec<u64> {
    let (mut rng, mut last) = (Rng::new(4, 0), 0);
    let steps = (0..2 * count).map(|_| {
        let width = widths.pick(&mut rng);
        last += number_of(&mut rng, width) + 1;
        last
    });
    steps.collect()
}

/// An ACK frame with so many blocks behind the first, or as many as a payload holds: the frame, and their number.
pub fn ack(blocks: usize, widths: Widths) -> (Vec<u8>, usize) {
    let mut rng = Rng::new(2, blocks as u64);
    let (mut fields, mut held) = (Vec::new(), 0);
    let first = widths.pick(&mut rng);
    put(&mut fields, first, 0);
    while held < blocks {
        let kept = fields.len();
        for _ in 0..2 {
            let width = widths.pick(&mut rng);
            let number = number_of(&mut rng, width);
            put(&mut fields, width, number);
        }
        if fields.len() > LONGEST - 32 {
            fields.truncate(kept);
            break;
        }
        held += 1;
    }
    let mut out = vec![0x02];
    put(&mut out, 8, (1 << 62) - 1);
    put(&mut out, 2, 100);
    put(&mut out, 4, held as u64);
    out.extend(fields);
    (out, held)
}

/// STREAM with its offset, and with its length unless it is the last.
fn stream(out: &mut Vec<u8>, id: u64, offset: u64, data: usize, is_last: bool) {
    out.push(if is_last { 0x0c } else { 0x0e });
    put(out, 1, id);
    put(out, 4, offset);
    if !is_last {
        put(out, 2, data as u64);
    }
    out.resize(out.len() + data, 0x5a);
}

/// 1,200 bytes as a busy connection sends them: an ACK of four ranges, limits, a new id, and data of four streams.
pub fn busy() -> Vec<u8> {
    let (mut out, _) = ack(3, Widths::All(1));
    out.push(0x10);
    put(&mut out, 4, 1 << 20);
    out.push(0x11);
    put(&mut out, 1, 4);
    put(&mut out, 4, 1 << 18);
    out.push(0x18);
    put(&mut out, 1, 3);
    put(&mut out, 1, 1);
    out.push(CID.len() as u8);
    out.extend(CID);
    out.extend([0x77; 16]);
    stream(&mut out, 4, 70_000, 400, false);
    stream(&mut out, 8, 90_000, 300, false);
    stream(&mut out, 12, 20_000, 60, false);
    let data = 1200 - out.len() - 6;
    stream(&mut out, 16, 50_000, data, true);
    out
}

/// The payload of the client Initial of RFC 9001, A.2: CRYPTO and PADDING.
pub fn client_initial() -> Vec<u8> {
    let hex = include_str!("../../host/examples/a2/payload.hex");
    let digits: Vec<u8> = hex.chars().filter_map(|c| c.to_digit(16)).map(|d| d as u8).collect();
    digits.chunks(2).map(|pair| pair[0] << 4 | pair[1]).collect()
}

/// Small frames of seven kinds, one after the other, up to so many bytes; PING fills what is left.
pub fn small_frames(bytes: usize) -> Vec<u8> {
    let (mut out, mut rng) = (Vec::new(), Rng::new(3, 0));
    while out.len() + 32 <= bytes {
        match rng.below(7) {
            0 => out.push(0x01),
            1 => numbers(&mut out, 0x10, &[4]),
            2 => numbers(&mut out, 0x11, &[1, 4]),
            3 => numbers(&mut out, 0x04, &[1, 2, 4]),
            4 => numbers(&mut out, 0x05, &[2, 1]),
            5 => numbers(&mut out, 0x19, &[1]),
            _ => stream(&mut out, 4, 1000, 8, false),
        }
    }
    out.resize(bytes, 0x01);
    out
}

fn numbers(out: &mut Vec<u8>, ty: u8, widths: &[usize]) {
    out.push(ty);
    for (i, &width) in widths.iter().enumerate() {
        put(out, width, [5, 60, 1000][i] % 64);
    }
}

/// One STREAM frame that fills a payload.
pub fn one_stream(bytes: usize) -> Vec<u8> {
    let mut out = Vec::new();
    stream(&mut out, 4, 0, bytes - 6, true);
    out
}

/// A long header's packet of so many bytes, with a Length of two and the number's four bytes behind it.
fn long(first: u8, has_token: bool, bytes: usize) -> Vec<u8> {
    let mut out = vec![first, 0, 0, 0, 1, LOCAL as u8];
    out.extend(CID);
    out.push(LOCAL as u8);
    out.extend(CID);
    if has_token {
        out.push(0);
    }
    let length = bytes - out.len() - 2;
    put(&mut out, 2, length as u64);
    out.resize(bytes, 0xa5);
    out
}

pub fn initial(bytes: usize) -> Vec<u8> {
    long(0xc3, true, bytes)
}

pub fn short(bytes: usize) -> Vec<u8> {
    let mut out = vec![0x43];
    out.extend(CID);
    out.resize(bytes, 0xa5);
    out
}

/// Initial, Handshake and short, as a server's first flight has them: 1,200 bytes.
pub fn three_packets() -> Vec<u8> {
    [initial(180), long(0xe3, false, 820), short(200)].concat()
}

/// So many Handshake packets of 100 bytes.
pub fn handshakes(count: usize) -> Vec<u8> {
    long(0xe3, false, 100).repeat(count)
}

/// A step of the number ends.
#[derive(Clone, Copy)]
pub enum Step {
    Send,
    Acknowledge(u64),
    Read(usize, u32),
    Accept(u64),
}

/// So many steps, each with its space: in turn each space sends a number, from `next` on, hears that it was acknowledged, and reads and
/// accepts one like it, cut to two bytes.
pub fn steps(count: usize, next: u64) -> Vec<(usize, Step)> {
    let step = |i: usize| {
        let n = next + (i / 12) as u64;
        let all = [Step::Send, Step::Acknowledge(n), Step::Read(2, n as u16 as u32), Step::Accept(n)];
        (i % 3, all[i / 3 % 4])
    };
    (0..count).map(step).collect()
}
