//! Frames: the walk over a payload, and the ranges of ACK blocks.
use super::{Said, no, start_of};
use guobbarel::{Ack, AckRanges, Frame, Frames, FullNumber, Read, Value};
use oracle::harness::rng::END;
use oracle::harness::words::Args;

/// The longest payload.
const LONGEST: usize = 65_527;

/// frames B. The type that stands for a frame and whether it elicits an acknowledgement are no words of the surface.
pub fn frames(a: &mut Args) -> Said {
    let payload = a.bytes()?;
    let mut line = String::from("ok");
    for read in Frames::new(&payload) {
        match read {
            Ok(x) => line += &format!(" ; {} {} {} _ _ {}", x.start, x.len, x.ty, shown(&x.frame, &payload)),
            Err(why) if matches!(why.error.number(), 13 | 14) => return Ok(Some(no(why.error))),
            Err(why) => {
                // the walk ends with it, so that it takes all the rest
                let ty = why.ty.map_or("-".into(), |ty| ty.to_string());
                line += &format!(" ; {} {} {} {ty}", why.start, payload.len() - why.start, no(why.error));
            }
        }
    }
    Ok(Some(line))
}

/// The oracle's words for the kinds of frame, by their first types.
const WORDS: [(u64, &str); 24] = [
    (0x00, "padding"),
    (0x01, "ping"),
    (0x02, "ack"),
    (0x04, "reset"),
    (0x05, "stop"),
    (0x06, "crypto"),
    (0x07, "token"),
    (0x08, "stream"),
    (0x10, "maxdata"),
    (0x11, "maxstreamdata"),
    (0x12, "maxstreams"),
    (0x14, "datablocked"),
    (0x15, "streamdatablocked"),
    (0x16, "streamsblocked"),
    (0x18, "newcid"),
    (0x19, "retirecid"),
    (0x1a, "challenge"),
    (0x1b, "response"),
    (0x1c, "close"),
    (0x1d, "appclose"),
    (0x1e, "done"),
    (0x1f, "immediateack"),
    (0x30, "datagram"),
    (0xaf, "ackfreq"),
];

/// The words for the kinds of frame.
pub fn words() -> Vec<&'static str> {
    WORDS.iter().map(|row| row.1).collect()
}

/// A frame's word and its values, a part by its place in the payload; of an ACK the ranges behind them.
fn shown(frame: &Frame, payload: &[u8]) -> String {
    let word = WORDS.iter().find(|row| row.0 == frame.kind().get()).map_or("no word", |row| row.1);
    let values = frame.values();
    let count = values.iter().rposition(|value| *value != Value::Nothing).map_or(0, |last| last + 1);
    let said = values[..count].iter().map(|value| match *value {
        Value::Nothing => " -".into(),
        Value::Number(n) => format!(" {n}"),
        Value::Part(part) => format!(" {} {}", start_of(part, payload), part.len()),
    });
    let line = word.to_string() + &said.collect::<String>();
    match frame {
        Frame::Ack(x) => line + if x.ecn.is_none() { " -" } else { "" } + &ranges(x),
        _ => line,
    }
}

fn ranges(x: &Ack) -> String {
    x.ranges().map(|range| range.map_or_else(no, |r| format!(" {}-{}", r.smallest, r.largest))).collect()
}

/// ackscan AT LARGEST EXTRA B: by an ACK frame that has these blocks. Where such a frame cannot be made, or it or the slice passes
/// the longest payload, there is no counterpart.
pub fn ackscan(a: &mut Args) -> Said {
    let (at, largest, extra, b) = (a.num()? as usize, a.num()?, a.num()?, a.bytes()?);
    let Some(blocks) = b.get(at..).filter(|_| largest < END && extra < END) else {
        return Ok(None);
    };
    let form = |x: u64| (3 << 62 | x).to_be_bytes();
    let payload = [&[0x02][..], &form(largest), &form(0), &form(extra), blocks].concat();
    if payload.len().max(b.len()) > LONGEST {
        return Ok(None);
    }
    let before = payload.len() - blocks.len();
    Ok(Some(match Frames::new(&payload).next() {
        Some(Ok(Read { frame: Frame::Ack(x), .. })) => {
            format!("ok {}{}", start_of(x.blocks, &payload) - before + at + x.blocks.len(), ranges(&x))
        }
        Some(Err(why)) => no(why.error),
        _ => "no ACK".into(),
    }))
}

/// ackiter LARGEST B. How the reader stands after a step is no word of the surface.
pub fn ackiter(a: &mut Args) -> Said {
    let (largest, b) = (a.num()?, a.bytes()?);
    let mut line = String::new();
    for range in AckRanges::new(FullNumber::new(largest), &b) {
        match range {
            Ok(r) => line += &format!("{} {} : _ _;", r.smallest, r.largest),
            Err(why) => return Ok(Some(line + &no(why) + " : _ _;")),
        }
    }
    Ok(Some(line + "end : _ _;"))
}

#[cfg(test)]
mod tests {
    use super::{Frame, WORDS};

    #[test]
    fn every_kind_of_frame_has_a_word() {
        assert!(WORDS.iter().map(|row| row.0).eq(Frame::KINDS.iter().map(|kind| kind.get())));
    }
}
