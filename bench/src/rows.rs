//! The rows: an operation, its input, and both sides of it.
mod timed;

use crate::clock::{Sides, Tally, plain, prepared};
use crate::inputs::{self, CID, LOCAL, LONGEST, MASK, Step, VERSIONS, Widths};
use crate::place::{Appended, Room};
use guobbarel::{CutNumber, Ends, Frame, Frames, FullNumber, Header, Kind, Packets, Spaces, Written, unmask};
use oracle::bench as rust;
use oracle::crypto::MaskKey;
use std::hint::black_box;

/// A row of the table, or a point of the plot.
pub struct Row {
    /// The group that it stands in.
    pub group: &'static str,
    /// The input in words.
    pub input: String,
    pub bytes: usize,
    /// How many frames, packets or blocks; 0 where that says nothing.
    pub items: usize,
    pub sides: Sides,
}

pub const INTEGERS: &str = "Integers alone";
pub const INTEGER_FRAMES: &str = "Frames of one integer (MAX_DATA)";
pub const SPLIT: &str = "Split";
pub const FINISH: &str = "Finish";
pub const HEADERS: &str = "Header write";
pub const PROTECT: &str = "Protect";
pub const WHOLE: &str = "Header write and protect together";
pub const WALK: &str = "Frame walk";
pub const SCAN: &str = "ACK scan";
pub const RANGES: &str = "ACK ranges";
pub const ENCODERS: &str = "Encoders";
pub const NUMBERS: &str = "Packet numbers";
pub const DUMP: &str = "Dump";

type Rows = Result<Vec<Row>, String>;

/// A row of bytes and items.
fn row(
    group: &'static str,
    input: String,
    [bytes, items]: [usize; 2],
    sides: Result<Sides, String>,
) -> Result<Row, String> {
    let sides = sides.map_err(|why| format!("{group}, {input}: {why}"))?;
    Ok(Row { group, input, bytes, items, sides })
}

/// Every row of the table.
pub fn all() -> Rows {
    let reading = [timed::integers()?, integer_frames()?, split()?, finish()?];
    let frames = [headers()?, protect()?, whole()?, walks()?, scans()?, timed::encoders()?, numbers()?];
    Ok(reading.into_iter().chain(frames).flatten().collect())
}

/// The frames of a payload: how many, and their bytes.
fn walk(payload: &[u8]) -> Tally {
    let (mut count, mut bytes) = (0, 0);
    for frame in Frames::new(payload) {
        let Ok(read) = black_box(&frame) else { return None };
        (count, bytes) = (count + 1, bytes + read.len as u64);
    }
    Some((count, bytes))
}

fn walked(group: &'static str, input: String, payload: Vec<u8>, items: Option<usize>) -> Result<Row, String> {
    let theirs = rust::Payload::new(&payload);
    let sizes = [payload.len(), items.or(walk(&payload).map(|tally| tally.0 as usize)).unwrap_or(0)];
    let sides = Sides::plain([plain(move || walk(black_box(&payload))), plain(move || black_box(&theirs).walk())]);
    row(group, input, sizes, sides)
}

fn integer_frames() -> Rows {
    [1, 2, 4, 8]
        .map(|width| {
            let payload = inputs::integers(1000, Widths::All(width), &[0x10]);
            walked(INTEGER_FRAMES, format!("{width}-byte integer"), payload, None)
        })
        .into_iter()
        .collect()
}

fn walks() -> Rows {
    [
        ("busy connection: ACK, limits, new id, four streams", inputs::busy()),
        ("client Initial of RFC 9001, A.2: CRYPTO, PADDING", inputs::client_initial()),
        ("small frames of seven kinds", inputs::small_frames(LONGEST)),
        ("PADDING alone", vec![0; LONGEST]),
        ("one STREAM frame", inputs::one_stream(LONGEST)),
    ]
    .map(|(input, payload)| walked(WALK, input.into(), payload, None))
    .into_iter()
    .collect()
}

fn scan(blocks: usize, widths: Widths) -> Result<Row, String> {
    let (payload, held) = inputs::ack(blocks, widths);
    walked(SCAN, format!("{} fields", widths.name()), payload, Some(held))
}

/// The ranges of the ACK frame at the start: how many, and the least number.
fn ranges(payload: &[u8]) -> Tally {
    let Frame::Ack(ack) = Frames::new(payload).next()?.ok()?.frame else { return None };
    let (mut count, mut least) = (0, 0);
    for range in ack.ranges() {
        (count, least) = (count + 1, black_box(range).ok()?.smallest.get());
    }
    Some((count, least))
}

fn scans() -> Rows {
    let mut rows = Vec::new();
    for blocks in [100, 1000, 10_000] {
        for widths in [Widths::All(1), Widths::All(2), Widths::All(4), Widths::All(8), Widths::Mixed] {
            rows.push(scan(blocks, widths)?);
        }
    }
    let (payload, held) = inputs::ack(1000, Widths::Mixed);
    let theirs = rust::Payload::new(&payload);
    let sizes = [payload.len(), held];
    let sides = Sides::plain([plain(move || ranges(black_box(&payload))), plain(move || black_box(&theirs).ranges())]);
    rows.push(row(RANGES, "mixed fields, scanned and then read".into(), sizes, sides)?);
    Ok(rows)
}

/// The packets of a datagram: how many, and their bytes.
fn packets(datagram: &[u8]) -> Tally {
    let (mut count, mut bytes) = (0, 0);
    for packet in Packets::new(datagram, LOCAL, &VERSIONS, false) {
        let Ok(packet) = black_box(&packet) else { return None };
        (count, bytes) = (count + 1, bytes + packet.bytes.len() as u64);
    }
    Some((count, bytes))
}

fn splits(input: String, datagram: Vec<u8>, items: usize) -> Result<Row, String> {
    let sizes = [datagram.len(), items];
    let given = datagram.clone();
    let ours = prepared(move || datagram.clone(), |datagram| packets(datagram));
    let theirs = prepared(move || rust::Datagram::new(&given), |datagram| datagram.walk(LOCAL, black_box(&VERSIONS)));
    row(SPLIT, input, sizes, Sides::prepared([ours, theirs], sizes[0]))
}

fn split() -> Rows {
    [("Initial, Handshake and short", inputs::three_packets(), 3), ("short", inputs::short(1200), 1)]
        .map(|(input, datagram, items)| splits(input.into(), datagram, items))
        .into_iter()
        .collect()
}

fn finished(input: &str, kind: Kind, packet: Vec<u8>) -> Result<Row, String> {
    let offset = match Packets::new(&packet, LOCAL, &VERSIONS, false).next() {
        Some(Ok(packet)) => packet.number_offset,
        _ => return Err(format!("{FINISH}, {input}: ours refuses the packet")),
    };
    let (sizes, given) = ([packet.len(), 0], packet.clone());
    let ours = prepared(
        move || packet.clone(),
        move |packet| {
            let found = unmask(black_box(kind), packet, black_box(offset), black_box(&MASK)).ok()??;
            let found = black_box(&found);
            Some((found.number.value().into(), found.header.len() as u64))
        },
    );
    let key = MaskKey(MASK);
    let theirs = prepared(
        move || rust::Split::new(&given, LOCAL, &VERSIONS),
        move |packet| packet.as_mut()?.finish(black_box(&key)),
    );
    row(FINISH, input.into(), sizes, Sides::prepared([ours, theirs], sizes[0]))
}

fn finish() -> Rows {
    [finished("Initial", Kind::Initial, inputs::initial(1200)), finished("short", Kind::Short, inputs::short(1200))]
        .into_iter()
        .collect()
}

/// A header as both sides have it.
struct Head {
    name: &'static str,
    ours: Header,
    theirs: rust::Head,
    src_cid: &'static [u8],
    token: &'static [u8],
}

const CUT: (usize, u32) = (2, 0x1234);

fn heads() -> [Head; 3] {
    let number = CutNumber::new(CUT.0, CUT.1);
    let cut = || rust::Cut::new(CUT.0 as u64, CUT.1);
    let token: &[u8] = &[0x99; 32];
    [
        Head {
            name: "Initial, token of 32 bytes",
            ours: Header::initial(1, number),
            theirs: rust::Head::initial(1, &CID, &CID, token, cut()),
            src_cid: &CID,
            token,
        },
        Head {
            name: "Handshake",
            ours: Header::handshake(1, number),
            theirs: rust::Head::handshake(1, &CID, &CID, cut()),
            src_cid: &CID,
            token: &[],
        },
        Head {
            name: "short",
            ours: Header::short(false, false, number),
            theirs: rust::Head::short(&CID, cut()),
            src_cid: &[],
            token: &[],
        },
    ]
}

const PAYLOAD: usize = 1000;

impl Head {
    fn write(&self, out: &mut [u8]) -> Option<Written> {
        let (src_cid, token) = (black_box(self.src_cid), black_box(self.token));
        self.ours.write(black_box(&CID), src_cid, token, black_box(PAYLOAD), out).ok()
    }
}

/// The same header for each side.
fn pair(i: usize) -> Result<(Head, Head), String> {
    let [ours, theirs] = [heads(), heads()].map(|heads| heads.into_iter().nth(i));
    Ok(ours.zip(theirs).ok_or("no such header")?)
}

fn headers() -> Rows {
    let one = |i: usize| {
        let (ours, theirs) = pair(i)?;
        let (mut out, mut w) = (Room::new(1500), Appended::new(1500));
        let (name, bytes) = (ours.name, ours.write(out.bytes()).map_or(0, |written| written.header_len));
        let ours = plain(move || {
            let out = out.bytes();
            let written = black_box(&ours).write(out)?;
            black_box(&*out);
            Some((written.header_len as u64, written.number_len as u64))
        });
        let theirs = plain(move || black_box(&theirs.theirs).encode(w.empty()));
        row(HEADERS, name.into(), [bytes, 0], Sides::plain([ours, theirs]))
    };
    (0..3).map(one).collect()
}

/// Header protection over a packet as encryption leaves it. `whole`: the call writes the header too, into another buffer.
fn protected(section: &'static str, i: usize, whole: bool) -> Result<Row, String> {
    let (ours, theirs) = pair(i)?;
    let (name, mut packet) = (ours.name, vec![0xa5; 1500]);
    let told = ours.write(&mut packet).ok_or("the header is refused")?;
    packet.truncate(told.header_len + PAYLOAD);
    let (sizes, given) = ([packet.len(), 0], packet.clone());
    let first = |packet: &[u8]| Some((packet[0].into(), packet.len() as u64));
    let (mut out, mut w) = (Room::new(1500), Appended::new(1500));
    let ours = prepared(
        move || packet.clone(),
        move |packet| {
            let written = if whole { black_box(&ours).write(out.bytes())? } else { *black_box(&told) };
            written.protect(packet, black_box(&MASK)).ok()?;
            first(packet)
        },
    );
    let key = MaskKey(MASK);
    let theirs = prepared(
        move || given.clone(),
        move |packet| {
            if whole {
                black_box(&theirs.theirs).encode(w.empty())?;
            }
            let told = black_box(&told);
            rust::protect(told.header_len, told.number_len, told.has_length, packet, black_box(&key));
            first(packet)
        },
    );
    row(section, name.into(), sizes, Sides::prepared([ours, theirs], sizes[0]))
}

fn protect() -> Rows {
    (1..3).map(|i| protected(PROTECT, i, false)).collect()
}

/// Both together: the Length is written by our header write, and by the Rust's protection.
fn whole() -> Rows {
    (0..3).map(|i| protected(WHOLE, i, true)).collect()
}

fn numbers() -> Rows {
    let (next, acked, accepted) = (1_000_100, 1_000_000, 1_000_000);
    let ends = Ends::from_parts(FullNumber::new(next), Some(FullNumber::new(acked)), Some(FullNumber::new(accepted)));
    let spaces = Spaces::from_parts(ends, ends, ends);
    let sent = plain(move || {
        let mut spaces = black_box(spaces);
        let sent = spaces.send(Kind::Short).ok()?;
        black_box(&spaces);
        Some((sent.cut.len() as u64, sent.number.get()))
    });
    let number = CutNumber::new(CUT.0, CUT.1);
    let read = plain(move || {
        let full = black_box(&spaces).read(Kind::Short, black_box(number)).ok()?;
        Some((number.len() as u64, full.get()))
    });
    let mut rows = timed::numbers(acked, accepted + 1)?;
    rows.push(row(NUMBERS, "send, a step in one of three spaces".into(), [0, 0], Sides::plain([sent]))?);
    rows.push(row(NUMBERS, "read, a step in one of three spaces".into(), [0, 0], Sides::plain([read]))?);
    rows.push(stepped(spaces, rust::Ends::new(next, acked, accepted), next)?);
    Ok(rows)
}

/// A thousand steps, over Initial, Handshake and Data.
fn stepped(spaces: Spaces, plainly: rust::Ends, next: u64) -> Result<Row, String> {
    const KINDS: [Kind; 3] = [Kind::Initial, Kind::Handshake, Kind::Short];
    let steps = inputs::steps(1000, next);
    let theirs: Vec<(usize, rust::Step)> = steps.iter().map(|&(space, step)| (space, of_the_rust(step))).collect();
    let steps: Vec<(Kind, Step)> = steps.into_iter().map(|(space, step)| (KINDS[space], step)).collect();
    let sizes = [0, steps.len()];
    let ours = plain(move || {
        let (mut spaces, mut mixed) = (black_box(spaces), 0);
        for (kind, step) in black_box(&steps) {
            mixed ^= take(&mut spaces, *kind, *step)?;
        }
        Some((steps.len() as u64, mixed))
    });
    let theirs = plain(move || Some(black_box(plainly).take(black_box(&theirs))));
    row(NUMBERS, "steps over three spaces: send, acknowledge, read, accept".into(), sizes, Sides::plain([ours, theirs]))
}

/// What a step says, as the Rust's side has it.
fn take(spaces: &mut Spaces, kind: Kind, step: Step) -> Option<u64> {
    match step {
        Step::Send => spaces.send(kind).ok().map(|sent| u64::from(sent.cut.value()) | (sent.cut.len() as u64) << 32),
        Step::Acknowledge(n) => spaces.acknowledge(kind, FullNumber::new(n)).ok().map(|()| 0),
        Step::Read(len, value) => spaces.read(kind, CutNumber::new(len, value)).ok().map(FullNumber::get),
        Step::Accept(n) => spaces.accept(kind, FullNumber::new(n)).ok().map(|()| 0),
    }
}

fn of_the_rust(step: Step) -> rust::Step {
    match step {
        Step::Send => rust::Step::Send,
        Step::Acknowledge(n) => rust::Step::Acknowledge(n),
        Step::Read(len, value) => rust::Step::Read(rust::Cut::new(len as u64, value)),
        Step::Accept(n) => rust::Step::Accept(n),
    }
}

/// The points of the plot: for each of four operations its inputs, from small to large.
pub fn growth() -> Result<[Vec<Row>; 4], String> {
    const PACKETS: [usize; 10] = [1, 2, 5, 10, 20, 50, 100, 200, 400, 655];
    let dump = PACKETS.map(timed::dumped);
    let split = PACKETS.map(|n| splits(String::new(), inputs::handshakes(n), n));
    let walk = [500, 1000, 2000, 5000, 10_000, 20_000, 40_000, LONGEST]
        .map(|bytes| walked(WALK, String::new(), inputs::small_frames(bytes), None));
    let scans = [100, 200, 500, 1000, 2000, 4000, 8000, 16_000].map(|blocks| scan(blocks, Widths::All(2)));
    Ok([
        dump.into_iter().collect::<Rows>()?,
        split.into_iter().collect::<Rows>()?,
        walk.into_iter().collect::<Rows>()?,
        scans.into_iter().collect::<Rows>()?,
    ])
}
