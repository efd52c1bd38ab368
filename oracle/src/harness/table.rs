//! The one table of operations: what a line names, what a record numbers, and the function that asks the Rust.
use super::leaf;
use super::words::{Args, Bad};
use crate::{frame, packet, shared};

pub type Run = fn(&mut Args, &mut String) -> Result<(), Bad>;

/// The fields of a line, a letter each, all numbers before all bytes. In a record they stand in the same order, as a
/// number (8 bytes, most significant first) or as bytes (a length of 3 bytes, then the bytes); the numbers are filled up to
/// six with zeros:
/// - `n` a number, `b` bytes;
/// - `v` numbers of 4 bytes, `r` numbers of 8 bytes: bytes;
/// - `K` a kind of header, `F` a kind of frame: the number of its place in the list, then its own fields;
/// - `k` a kind of header alone.
pub struct Op {
    pub code: u8,
    pub name: &'static str,
    pub fields: &'static str,
    pub run: Run,
}

const fn op(code: u8, name: &'static str, fields: &'static str, run: Run) -> Op {
    Op { code, name, fields, run }
}

pub const OPS: [Op; 51] = [
    // varint.rs, coding.rs
    op(1, "vread", "nb", leaf::vread),
    op(2, "vfrom", "n", leaf::vfrom),
    op(3, "vsize", "n", leaf::vsize),
    op(4, "vwrite", "nb", leaf::vwrite),
    op(5, "vput", "nnb", leaf::vput),
    op(6, "get", "nnb", leaf::get),
    op(7, "put", "nnnb", leaf::put),
    op(8, "puts", "nbb", leaf::puts),
    op(9, "take", "nnb", frame::probe::take),
    op(10, "part", "nnb", leaf::part),
    // shared.rs, lib.rs
    op(11, "cidnew", "b", shared::probe::cidnew),
    op(12, "cidbuf", "nnb", shared::probe::cidbuf),
    op(13, "ciddec", "nb", shared::probe::ciddec),
    op(14, "cidenc", "nbb", shared::probe::cidenc),
    op(15, "ecnbits", "n", shared::probe::ecnbits),
    op(16, "sidnew", "nnn", shared::probe::sidnew),
    op(17, "sid", "n", shared::probe::sid),
    op(18, "ftypes", "", frame::probe::ftypes),
    // packet.rs
    op(32, "split", "nnvb", packet::probe::split),
    op(33, "walk", "nnvb", packet::probe::walk),
    op(34, "finish", "knbb", packet::probe::finish),
    op(35, "dump", "nb", packet::probe::dump),
    op(36, "henc", "Kb", packet::probe::henc),
    op(37, "hlen", "nnnnb", packet::probe::hlen),
    op(38, "whole", "Kbbb", packet::probe::whole),
    op(39, "pnnew", "nn", packet::probe::pnnew),
    op(40, "pnexp", "nnn", packet::probe::pnexp),
    op(41, "pndec", "nb", packet::probe::pndec),
    op(42, "pnenc", "nnb", packet::probe::pnenc),
    op(43, "pnlen", "n", packet::probe::pnlen),
    op(44, "pntag", "nn", packet::probe::pntag),
    op(45, "ends", "b", packet::probe::ends),
    op(46, "decode", "nnvb", packet::probe::decode),
    op(47, "sample", "knb", packet::probe::sample),
    op(48, "hmask", "nnnnbb", packet::probe::hmask),
    op(49, "spaces", "b", packet::probe::spaces),
    // frame.rs
    op(64, "frames", "b", frame::probe::frames),
    op(66, "ackscan", "nnnb", frame::probe::ackscan),
    op(67, "ackiter", "nb", frame::probe::ackiter),
    op(68, "fenc", "Fb", frame::probe::fenc),
    op(69, "ecn", "nnnn", frame::probe::ecn),
    op(70, "bounds", "", frame::probe::bounds),
    op(71, "fdec", "nnb", frame::probe::fdec),
    op(72, "fsize", "nb", frame::probe::fsize),
    // include/guobbarel.h
    op(96, "gsplit", "nnnvb", packet::probe::gsplit),
    op(97, "gsample", "nnb", packet::probe::gsample),
    op(98, "gunmask", "nnbb", packet::probe::gunmask),
    op(99, "gframe", "nb", frame::probe::gframe),
    op(100, "gnumber", "nnnnnrrr", packet::probe::gnumber),
    op(101, "gheader", "nnnnnnrbbbb", packet::probe::gheader),
    op(102, "gmask", "nnnbb", packet::probe::gmask),
];

/// Kinds of header, with their fields.
pub const KINDS: [(&str, &str); 6] = [
    ("initial", "nnnbbb"),
    ("0rtt", "nnnbb"),
    ("handshake", "nnnbb"),
    ("retry", "nbb"),
    ("short", "nnnnb"),
    ("vneg", "nbb"),
];

/// What has an encoder, with its fields.
pub const FRAMES: [(&str, &str); 15] = [
    ("reset", "nnn"),
    ("stop", "nn"),
    ("crypto", "nb"),
    ("token", "b"),
    ("stream", "nnnnn"),
    ("newcid", "nnbb"),
    ("datagram", "nb"),
    ("ackfreq", "nnnn"),
    ("close", "nnnrb"),
    ("appclose", "nnnb"),
    ("ack", "nrr"),
    ("counts", "nnn"),
    ("type", "n"),
    ("id", "n"),
    ("code", "n"),
];

pub fn by_name(name: &str) -> Option<&'static Op> {
    OPS.iter().find(|op| op.name == name)
}

pub fn by_code(code: u8) -> Option<&'static Op> {
    OPS.iter().find(|op| op.code == code)
}
