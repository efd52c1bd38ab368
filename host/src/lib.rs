//! The packet layer of QUIC (RFC 9000, 9001, 9221, 9369) on lent bytes: from a datagram to its packets, header protection off and
//! on, from a payload to its frames, packet numbers, and headers out.
//!
//! Every call but one goes to `libgateway.a`, whose functions are proved equal to definitions written from the RFCs, for all bytes
//! and numbers. The one is a step of [`AckRanges`], which reads the ranges of an ACK here, in Rust. No proof covers it, nor the rest
//! of this crate, which lends the slices and turns the answers into Rust types; all of it is run beside quinn's own code
//! (`tools/beside surface`).
//!
//! Nothing is allocated, kept or locked. A call that says no answers an [`Error`] and changes no lent byte.
//!
//! Encryption is the caller's: it makes the mask from a packet's [`sample`], and decrypts and encrypts the payload.
//!
//! ```
//! use guobbarel::{Frame, Frames, Packets, VERSION_1};
//!
//! // a Handshake packet whose payload is one byte, and a short packet of one byte
//! let datagram = [0xe0, 0, 0, 0, 1, 0, 0, 1, 0xaa, 0x40];
//! let packets = Packets::new(&datagram, 0, &[VERSION_1], false);
//! assert_eq!(packets.map(|p| p.unwrap().bytes.len()).collect::<Vec<_>>(), [9, 1]);
//!
//! // PING, and a CRYPTO frame of two bytes at offset 0
//! let payload = [0x01, 0x06, 0x00, 0x02, 0xaa, 0xbb];
//! let frames: Vec<Frame> = Frames::new(&payload).map(|f| f.unwrap().frame).collect();
//! assert_eq!(frames, [Frame::Ping, Frame::Crypto { offset: 0, data: &[0xaa, 0xbb] }]);
//! ```
#![no_std]

mod acks;
mod error;
mod ffi;
mod frames;
mod header;
mod numbers;
mod packets;
mod values;

pub use acks::{AckRange, AckRanges};
pub use error::Error;
pub use frames::{Ack, EcnCounts, Frame, FrameRefused, Frames, Read, Value};
pub use header::{Header, Written};
pub use numbers::{Ends, Sent, Spaces};
pub use packets::{Kind, Packet, PacketRefused, Packets, Unmasked, Unsupported, VERSION_1, VERSION_2, sample, unmask};
pub use values::{CutNumber, FrameType, FullNumber, StreamId};
