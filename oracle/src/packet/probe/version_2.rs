//! Version 2 (RFC 9369): long headers with other type bits, which the Rust reads and writes as version 1's.
use super::super::LONG_HEADER_FORM;
use crate::harness::differences::{self, Decided, settle_changed};
use crate::harness::rng::VERSION_2;

/// The types of long packets in the order of their bits, 0 to 3: RFC 9000, 17.2, and RFC 9369, 3.2.
const OF_1: [&str; 4] = ["initial", "0rtt", "handshake", "retry"];
const OF_2: [&str; 4] = ["retry", "initial", "0rtt", "handshake"];

/// Whose type bits version 2 has.
#[derive(Clone, Copy, PartialEq)]
pub(crate) enum Types {
    /// Version 1's, as the Rust takes them.
    OfTheRust,
    /// RFC 9369's: the Rust is given them turned back, and what it hands out or writes is turned forth.
    OfTheRfc,
}

impl Types {
    /// Turns a packet of version 2 to what the Rust takes for one of the same type.
    pub(super) fn back(self, packet: &mut [u8]) {
        self.turn(packet, OF_2, OF_1);
    }

    /// Turns a packet of version 2, whose type bits are version 1's, to what RFC 9369 has.
    pub(crate) fn forth(self, packet: &mut [u8]) {
        self.turn(packet, OF_1, OF_2);
    }

    fn turn(self, packet: &mut [u8], from: [&str; 4], to: [&str; 4]) {
        if self == Self::OfTheRfc && is_long(packet) {
            let named = from[usize::from(packet[0] >> 4 & 3)];
            let bits = to.iter().position(|name| *name == named).expect("both versions have each type");
            packet[0] = packet[0] & 0xcf | (bits as u8) << 4;
        }
    }
}

/// Whether these bytes start a long packet of version 2.
fn is_long(b: &[u8]) -> bool {
    b.get(1..5) == Some(&VERSION_2.to_be_bytes()[..]) && b[0] & LONG_HEADER_FORM != 0
}

/// As in differences.rs; where document 01 decides nothing, RFC 9369 does if it makes the answer another.
pub(super) fn settle(out: &mut String, paper: Option<Decided>, ask: impl Fn(Types) -> String) {
    settle_changed(out, paper, differences::VERSION_2, || ask(Types::OfTheRfc), || ask(Types::OfTheRust));
}
