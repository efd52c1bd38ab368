//! Child of the given frame.rs: sees its private items.
mod ack;
pub(crate) mod bench;
mod gateway;
mod leaf;
mod reading;
mod writing;

pub(crate) use ack::{ackiter, ackscan, ecn};
pub(crate) use gateway::gframe;
pub(crate) use leaf::{ftypes, take};
pub(crate) use reading::frames;
pub(crate) use writing::{bounds, fdec, fenc, fsize};

/// The longest payload.
const LONGEST: usize = 65_527;

/// The paper's number of a refusal, by the source's text.
fn number(reason: &str) -> u32 {
    match reason {
        "unexpected end" => 10,
        "invalid frame ID" => 11,
        "malformed" => 12,
        _ => panic!("oracle: unknown reason {reason:?}"),
    }
}
