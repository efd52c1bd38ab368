//! Our side: what the C surface answers to a case, over the crate host, as a line in the oracle's form.
mod frames;
mod headers;
mod numbers;
mod packets;

pub use frames::words as frame_words;
use guobbarel::{Error, Kind};
use oracle::harness::words::{Args, Bad};

/// Stands in a line for a word that the surface does not say.
pub const UNSAID: char = '_';

/// The line for a case; none where the surface has no counterpart to one of its arguments.
type Said = Result<Option<String>, Bad>;
type Run = fn(&mut Args) -> Said;

/// The operations that the surface can answer.
const OPERATIONS: [(&str, Run); 15] = [
    ("decode", packets::decode),
    ("split", packets::split),
    ("walk", packets::walk),
    ("finish", packets::finish),
    ("sample", packets::sampled),
    ("henc", headers::henc),
    ("hmask", headers::hmask),
    ("whole", headers::whole),
    ("frames", frames::frames),
    ("ackscan", frames::ackscan),
    ("ackiter", frames::ackiter),
    ("ends", numbers::ends),
    ("spaces", numbers::spaces),
    ("pnnew", numbers::pnnew),
    ("pnexp", numbers::pnexp),
];

pub fn operations() -> impl Iterator<Item = &'static str> {
    OPERATIONS.iter().map(|operation| operation.0)
}

/// The answer to a case of one of the operations; none where it cannot be asked.
pub fn answer(question: &str) -> Option<String> {
    let mut args = Args::new(question);
    let said = args.word().and_then(|word| {
        let (_, run) = OPERATIONS.iter().find(|operation| operation.0 == word).ok_or(Bad)?;
        run(&mut args)
    });
    said.unwrap_or_else(|Bad| Some("BAD REQUEST".into()))
}

const KINDS: [(&str, Kind); 6] = [
    ("initial", Kind::Initial),
    ("0rtt", Kind::ZeroRtt),
    ("handshake", Kind::Handshake),
    ("retry", Kind::Retry),
    ("short", Kind::Short),
    ("vneg", Kind::VersionNegotiation),
];

/// The words for the kinds of packet.
pub fn kinds() -> Vec<&'static str> {
    KINDS.iter().map(|kind| kind.0).collect()
}

fn name_of(kind: Kind) -> &'static str {
    KINDS[kind as usize].0
}

fn kind(a: &mut Args) -> Result<Kind, Bad> {
    let word = a.word()?;
    KINDS.iter().find(|kind| kind.0 == word).map(|kind| kind.1).ok_or(Bad)
}

fn no(error: Error) -> String {
    format!("no {}", error.number())
}

/// Where a part that was handed out starts in the slice that it is of.
pub fn start_of(part: &[u8], whole: &[u8]) -> usize {
    (part.as_ptr() as usize).wrapping_sub(whole.as_ptr() as usize)
}

/// Behind a line that does not show lent bytes, or a field that must be empty: nothing, or a word that no oracle's line has.
fn unless(holds: bool) -> &'static str {
    if holds { "" } else { " STRAY" }
}
