//! The ACK block scan, AckIter, and the ECN counts.
use super::super::*;
use super::{LONGEST, number};
use crate::harness::differences::{
    ACK_ITER_UNSCANNED, ECN_LIMIT, NUMBER_62, PLACE_PAST, SIZE_65527, VARINT_62, decided, settle,
};
use crate::harness::rng::END;
use crate::harness::words::{Args, Bad};

/// ackscan AT LARGEST EXTRA B: scan_ack_blocks from the place on, and AckIter over the bytes that it took
pub(crate) fn ackscan(a: &mut Args, out: &mut String) -> Result<(), Bad> {
    let (at, largest, extra, b) = (a.num()?, a.num()?, a.num()?, a.bytes()?);
    let paper = if b.len() > LONGEST {
        decided(SIZE_65527, "no 14".into())
    } else if largest >= END {
        decided(NUMBER_62, "no 14".into())
    } else if extra >= END {
        decided(VARINT_62, "no 14".into())
    } else if at > b.len() as u64 {
        decided(PLACE_PAST, "no 10".into())
    } else {
        None
    };
    settle(out, paper, || scan(&b, at as usize, largest, extra as usize));
    Ok(())
}

fn scan(b: &[u8], at: usize, largest: u64, extra: usize) -> String {
    match scan_ack_blocks(&b[at..], largest, extra) {
        Ok(n) => format!("ok {}{}", at + n, ranges(AckIter::new(largest, &b[at..at + n]))),
        Err(e) => format!("no {}", number(e.reason())),
    }
}

/// All that a reader hands out.
pub(super) fn ranges(it: AckIter) -> String {
    it.map(|r| format!(" {}-{}", r.start(), r.end())).collect()
}

/// ackiter LARGEST B: each step, and the reader after it
pub(crate) fn ackiter(a: &mut Args, out: &mut String) -> Result<(), Bad> {
    let (largest, b) = (a.num()?, a.bytes()?);
    let mut it = AckIter::new(largest, &b);
    loop {
        if let Some((number, name)) = refusal(&it) {
            let paper = decided(name, format!("no {number}{}", stands(&it)));
            settle(out, paper, || step(&mut it).0);
            return Ok(());
        }
        let (said, is_last) = step(&mut it);
        *out += &said;
        if is_last {
            return Ok(());
        }
    }
}

/// A step of the Rust, and whether it was the end.
fn step(it: &mut AckIter) -> (String, bool) {
    let range = it.next();
    let said = range.as_ref().map_or("end".into(), |r| format!("{} {}", r.start(), r.end()));
    (said + &stands(it), range.is_none())
}

fn stands(it: &AckIter) -> String {
    format!(" : {} {};", it.largest, it.data.len())
}

/// The number with which document 01 refuses a reader's step, and the difference's name.
fn refusal(it: &AckIter) -> Option<(u32, &'static str)> {
    if it.data.len() > LONGEST {
        return Some((14, SIZE_65527));
    }
    if it.largest >= END {
        return Some((14, NUMBER_62));
    }
    let why = scanned(it.largest, it.data).err()?;
    Some((number(why.reason()), ACK_ITER_UNSCANNED))
}

/// What a step meets, in the scan's order: a block and, if bytes are left, the gap after it and a byte more.
fn scanned(largest: u64, mut data: &[u8]) -> Result<(), IterErr> {
    if data.is_empty() {
        return Ok(());
    }
    let smallest = largest.checked_sub(data.get_var()?).ok_or(IterErr::Malformed)?;
    if data.is_empty() {
        return Ok(());
    }
    smallest.checked_sub(data.get_var()? + 2).ok_or(IterErr::Malformed)?;
    if data.is_empty() { Err(IterErr::UnexpectedEnd) } else { Ok(()) }
}

/// ecn ECT0 ECT1 CE BITS: EcnCounts += codepoint
pub(crate) fn ecn(a: &mut Args, out: &mut String) -> Result<(), Bad> {
    let counts = EcnCounts { ect0: a.num()?, ect1: a.num()?, ce: a.num()? };
    let Some(point) = EcnCodepoint::from_bits(a.below(256)? as u8) else {
        out.push_str("none");
        return Ok(());
    };
    let count = match point {
        EcnCodepoint::Ect0 => counts.ect0,
        EcnCodepoint::Ect1 => counts.ect1,
        EcnCodepoint::Ce => counts.ce,
    };
    let paper = if count < END - 1 { None } else { decided(ECN_LIMIT, format!("no 14 {}", shown(counts))) };
    settle(out, paper, || {
        let mut counts = counts;
        counts += point;
        format!("ok {}", shown(counts))
    });
    Ok(())
}

pub(super) fn shown(counts: EcnCounts) -> String {
    format!("{} {} {}", counts.ect0, counts.ect1, counts.ce)
}
