//! The oracle: the given files of quinn-proto, byte for byte, in a crate that supplies what they lean on.
#![allow(dead_code, unused_imports)] // of the given text, which is compiled in part

use std::{fmt, ops};

// The given text. `include!` where a probe is to see private items: it is a child module beside the text.
include!(concat!(env!("OUT_DIR"), "/modules.rs"));
include!(concat!(env!("OUT_DIR"), "/root_items.rs"));
#[allow(clippy::all)]
mod range_set {
    mod array_range_set {
        include!(concat!(env!("OUT_DIR"), "/quinn-proto/src/range_set/array_range_set.rs"));
    }
    pub(crate) use array_range_set::ArrayRangeSet;
}
#[allow(clippy::all)]
mod shared {
    include!(concat!(env!("OUT_DIR"), "/quinn-proto/src/shared.rs"));
    #[warn(dead_code, unused_imports, clippy::all)]
    #[forbid(unsafe_code)]
    pub(crate) mod probe;
}
#[allow(clippy::all)]
mod packet {
    include!(concat!(env!("OUT_DIR"), "/quinn-proto/src/packet.rs"));
    #[warn(dead_code, unused_imports, clippy::all)]
    #[forbid(unsafe_code)]
    pub(crate) mod probe;
}
#[allow(clippy::all)]
mod frame {
    include!(concat!(env!("OUT_DIR"), "/quinn-proto/src/frame.rs"));
    #[warn(dead_code, unused_imports, clippy::all)]
    #[forbid(unsafe_code)]
    pub(crate) mod probe;
}
pub use shared::{ConnectionId, EcnCodepoint};
pub use transport_error::{Code as TransportErrorCode, Error as TransportError};
pub use varint::{VarInt, VarIntBoundsExceeded};

// The stand-ins.
#[forbid(unsafe_code)]
mod standin;
pub(crate) use standin::ResetToken;
pub use standin::crypto;
pub(crate) use std::time::Instant; // the same line as in lib.rs

// Our own: operations asked by a line or a record, and the cases.
#[warn(dead_code, unused_imports)]
#[forbid(unsafe_code)]
pub mod harness;

/// What the benchmarks time.
pub mod bench {
    pub use crate::frame::probe::bench::{
        Payload, ack, connection_close, crypto, new_connection_id, read_vars, reset_stream, stream_meta,
    };
    pub use crate::packet::probe::bench::{Cut, Datagram, Ends, Head, Split, Step, cut, protect};
}
