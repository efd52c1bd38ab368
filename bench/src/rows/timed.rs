//! Rows over `libtimed.a`: integers by themselves, packet numbers, encoders, and the dump.
use super::{DUMP, ENCODERS, INTEGERS, NUMBERS, Row, Rows, row};
use crate::clock::{Sides, plain};
use crate::ffi;
use crate::inputs::{self, CID, Widths};
use crate::place::{Appended, Room, carried};
use oracle::TransportErrorCode;
use oracle::bench as rust;
use std::hint::black_box;

pub fn integers() -> Rows {
    [Widths::All(1), Widths::All(2), Widths::All(4), Widths::All(8), Widths::Mixed]
        .map(|widths| {
            let ours = inputs::integers(1000, widths, &[]);
            let (sizes, theirs) = ([ours.len(), 1000], ours.clone());
            let ours = plain(move || ffi::read_vars(black_box(&ours)));
            let theirs = plain(move || rust::read_vars(black_box(&theirs)));
            row(INTEGERS, format!("{} integers", widths.name()), sizes, Sides::plain([ours, theirs]))
        })
        .into_iter()
        .collect()
}

/// The numbers that a sender counts on from the acknowledged one, cut; and as many of two bytes around the expected one, read back.
pub fn numbers(acked: u64, expected: u64) -> Rows {
    let numbers: Vec<u64> = (1..=NUMBERED).map(|n| acked + n).collect();
    let given = numbers.clone();
    let cut = plain(move || ffi::cut(black_box(&numbers), black_box(acked)));
    let new = plain(move || Some(rust::cut(black_box(&given), black_box(acked))));
    let values: Vec<u32> = (0..NUMBERED).map(|n| (expected - NUMBERED / 2 + n) as u16 as u32).collect();
    let cuts: Vec<rust::Cut> = values.iter().map(|&value| rust::Cut::new(2, value)).collect();
    let read = plain(move || ffi::expand(black_box(&values), black_box(2), black_box(expected)));
    let expand = plain(move || Some(rust::Cut::expand(black_box(&cuts), black_box(expected))));
    let sizes = [0, NUMBERED as usize];
    Ok(vec![
        row(NUMBERS, "cut by the largest acknowledged".into(), sizes, Sides::plain([cut, new]))?,
        row(NUMBERS, "read back by the expected one".into(), sizes, Sides::plain([read, expand]))?,
    ])
}

/// An odd number, so that lengths, which are alike, do not cancel out in the exclusive or.
const NUMBERED: u64 = 1001;

const ROOM: usize = 2000;

/// A frame that both sides write; an error where the bytes are not the same.
fn encoded(
    input: &str,
    items: usize,
    ours: impl Fn(&mut [u8]) -> Option<usize> + 'static,
    theirs: impl Fn(&mut Vec<u8>) + 'static,
) -> Result<Row, String> {
    let (mut out, mut w) = (Room::new(ROOM), Appended::new(ROOM));
    let bytes = ours(out.bytes()).unwrap_or(0);
    theirs(w.empty());
    if out.bytes()[..bytes] != *w.bytes() {
        return Err(format!("{ENCODERS}, {input}: the bytes are not the Rust's"));
    }
    let ours = plain(move || {
        let out = out.bytes();
        let len = ours(out)?;
        black_box(&*out);
        Some((len as u64, out[0].into()))
    });
    let theirs = plain(move || {
        theirs(w.empty());
        let out = black_box(w.bytes());
        Some((out.len() as u64, out[0].into()))
    });
    row(ENCODERS, input.into(), [bytes, items], Sides::plain([ours, theirs]))
}

/// An ACK of so many ranges.
fn acked(count: usize, widths: Widths) -> Result<Row, String> {
    let ranges = inputs::ranges(count, widths);
    let theirs = rust::ack(100, ranges.chunks(2).map(|range| range[0]..range[1]).collect());
    let ours = move |out: &mut [u8]| ffi::ack(black_box(100), black_box(&ranges), out);
    encoded(&format!("ACK, {} fields", widths.name()), count, ours, theirs)
}

pub fn encoders() -> Rows {
    let code = TransportErrorCode::PROTOCOL_VIOLATION;
    let (data, reason, token) = (carried(1000), carried(40), [0x77; 16]);
    let mut id = [0; 20];
    id[..CID.len()].copy_from_slice(&CID);
    [
        encoded(
            "RESET_STREAM: three integers",
            0,
            |out| ffi::reset_stream(black_box(4), black_box(256), black_box(70_000), out),
            rust::reset_stream(4, 256, 70_000),
        ),
        encoded(
            "STREAM up to its data: id, offset and length",
            0,
            |out| {
                let [fin, has_length] = black_box([false, true]);
                ffi::stream_meta(black_box(4), black_box(70_000), black_box(71_000), fin, has_length, out)
            },
            rust::stream_meta(4, 70_000..71_000),
        ),
        encoded(
            "CRYPTO, data of 1,000 bytes",
            0,
            move |out| ffi::crypto(black_box(70_000), black_box(data), out),
            rust::crypto(70_000, data),
        ),
        encoded(
            "NEW_CONNECTION_ID, an id of 8 bytes",
            0,
            move |out| {
                ffi::new_connection_id(black_box(3), black_box(1), black_box(&id), black_box(8), black_box(&token), out)
            },
            rust::new_connection_id(3, 1, &CID, token),
        ),
        encoded(
            "CONNECTION_CLOSE, a reason of 40 bytes",
            0,
            move |out| {
                ffi::connection_close(black_box(code.into()), black_box(0), black_box(reason), black_box(1200), out)
            },
            rust::connection_close(code, reason, 1200),
        ),
        acked(4, Widths::All(1)),
        acked(100, Widths::All(1)),
        acked(100, Widths::Mixed),
    ]
    .into_iter()
    .collect()
}

/// The dump of so many packets of 100 bytes. The Rust has no such text.
pub fn dumped(packets: usize) -> Result<Row, String> {
    let datagram = inputs::handshakes(packets);
    let sizes = [datagram.len(), packets];
    let mut out = vec![0; 4 * datagram.len() + 64];
    let ours = plain(move || {
        let len = ffi::dump(black_box(&datagram), &mut out)?;
        black_box(&out[..]);
        Some((packets as u64, len as u64))
    });
    row(DUMP, String::new(), sizes, Sides::plain([ours]))
}
