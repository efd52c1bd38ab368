//! Packet numbers: runs of steps over the number ends of one space and of three, and the cut and the reading by one step.
use super::{KINDS, Said, no, unless};
use guobbarel::{CutNumber, Ends, Error, FullNumber, Kind, Spaces};
use oracle::harness::words::{Args, Bad};

/// The bytes of a step in a run behind its first ones: a number of 8 bytes and one of 4.
const NUMBERS: usize = 12;

/// What the oracle asks of one space is asked in that of each kind in turn, by a number of the question's own.
fn in_turn(n: u64) -> Kind {
    [Kind::Initial, Kind::ZeroRtt, Kind::Handshake, Kind::Short][(n % 4) as usize]
}

/// Initial, Handshake, Data.
fn parts(spaces: &Spaces) -> [Ends; 3] {
    [Kind::Initial, Kind::Handshake, Kind::Short].map(|kind| spaces.ends(kind).unwrap())
}

/// Spaces with other ends in that of a kind, if it has one.
fn with(spaces: &Spaces, kind: Kind, ends: Ends) -> Spaces {
    let [initial, handshake, data] = parts(spaces);
    match kind {
        Kind::Initial => Spaces::from_parts(ends, handshake, data),
        Kind::Handshake => Spaces::from_parts(initial, ends, data),
        Kind::ZeroRtt | Kind::Short => Spaces::from_parts(initial, handshake, ends),
        Kind::Retry | Kind::VersionNegotiation => *spaces,
    }
}

/// Spaces with these ends in that of a kind, beside two others as no steps can have made them.
fn beside(kind: Kind, ends: Ends) -> Spaces {
    let other = |n| Ends::from_parts(FullNumber::new(n), Some(FullNumber::new(n + 1)), Some(FullNumber::new(n << 61)));
    with(&Spaces::from_parts(other(5), other(6), other(7)), kind, ends)
}

/// Behind a line that does not show them: whether the two others are as they were.
fn if_left(kind: Kind, spaces: &Spaces) -> &'static str {
    unless(spaces.ends(kind).is_some_and(|ends| *spaces == beside(kind, ends)))
}

fn shown(ends: Ends) -> String {
    let or_none = |n: Option<FullNumber>| n.map_or("-".into(), |n| n.to_string());
    format!(" {} {} {}", ends.next(), or_none(ends.acknowledged()), or_none(ends.accepted()))
}

/// ends STEPS
pub fn ends(a: &mut Args) -> Said {
    let steps = a.bytes()?;
    let kind = in_turn(steps.iter().map(|&b| u64::from(b)).sum());
    let mut spaces = beside(kind, Ends::new());
    run(&steps, |[number], n, v| {
        let said = step(&mut spaces, number, kind, n, v).unwrap_or_else(no);
        Ok(format!("{said} :{}{};", shown(spaces.ends(kind).unwrap()), if_left(kind, &spaces)))
    })
}

/// spaces STEPS
pub fn spaces(a: &mut Args) -> Said {
    let mut spaces = Spaces::new();
    run(&a.bytes()?, |[number, kind], n, v| {
        let (_, kind) = KINDS.get(usize::from(kind)).ok_or(Bad)?;
        let said = step(&mut spaces, number, *kind, n, v).unwrap_or_else(no);
        Ok(format!("{said} :{};", parts(&spaces).map(shown).concat()))
    })
}

/// The lines of a run's steps, one behind the other.
fn run<const FIRST: usize>(steps: &[u8], mut each: impl FnMut([u8; FIRST], u64, u32) -> Result<String, Bad>) -> Said {
    let mut line = String::new();
    for bytes in steps.chunks(FIRST + NUMBERS) {
        let (first, numbers) = bytes.split_at_checked(FIRST).ok_or(Bad)?;
        let (n, v) = numbers.split_at_checked(8).ok_or(Bad)?;
        let n = u64::from_be_bytes(n.try_into().map_err(|_| Bad)?);
        let v = u32::from_be_bytes(v.try_into().map_err(|_| Bad)?);
        line += &each(first.try_into().map_err(|_| Bad)?, n, v)?;
    }
    Ok(Some(line))
}

/// A step in the space of a kind; those from 4 on set a part of it.
fn step(spaces: &mut Spaces, step: u8, kind: Kind, n: u64, v: u32) -> Result<String, Error> {
    let number = FullNumber::new(n);
    match step {
        0 => spaces.send(kind).map(|s| format!("ok {} {} {}", s.number, s.cut.len(), s.cut.value())),
        1 => spaces.acknowledge(kind, number).map(|()| "ok".into()),
        2 => spaces.read(kind, CutNumber::new(n as usize, v)).map(|n| format!("ok {n}")),
        3 => spaces.accept(kind, number).map(|()| "ok".into()),
        _ => {
            let set = spaces.ends(kind).map(|ends| set(ends, step, number, v));
            *spaces = set.map_or(*spaces, |ends| with(spaces, kind, ends));
            Ok("set".into())
        }
    }
}

fn set(ends: Ends, step: u8, number: FullNumber, v: u32) -> Ends {
    let (next, acked, largest) = (ends.next(), ends.acknowledged(), ends.accepted());
    let at = (v != 0).then_some(number);
    match step {
        4 => Ends::from_parts(number, acked, largest),
        5 => Ends::from_parts(next, at, largest),
        _ => Ends::from_parts(next, acked, at),
    }
}

/// pnnew N ACKED: by sending N. A number that is acknowledged before it is sent has no counterpart; 0 is none acknowledged.
pub fn pnnew(a: &mut Args) -> Said {
    let (n, acked) = (a.num()?, a.num()?);
    if n == acked && n != 0 {
        return Ok(None);
    }
    let (kind, acknowledged) = (in_turn(n), (acked != 0).then_some(FullNumber::new(acked)));
    let mut spaces = beside(kind, Ends::from_parts(FullNumber::new(n), acknowledged, None));
    let said = spaces.send(kind).map_or_else(no, |s| format!("ok {} {}", s.cut.len(), s.cut.value()));
    Ok(Some(said + if_left(kind, &spaces)))
}

/// pnexp K VALUE EXPECTED: by reading after the number before the expected one was accepted.
pub fn pnexp(a: &mut Args) -> Said {
    let (k, value, expected) = (a.num()? as usize, a.below(1 << 32)? as u32, a.num()?);
    let (kind, accepted) = (in_turn(expected), expected.checked_sub(1).map(FullNumber::new));
    let spaces = beside(kind, Ends::from_parts(FullNumber::new(0), None, accepted));
    Ok(Some(spaces.read(kind, CutNumber::new(k, value)).map_or_else(no, |n| format!("ok {n}"))))
}
