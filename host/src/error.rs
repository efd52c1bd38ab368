//! What a call may say no with.
use core::fmt;

/// Why a call says no. The numbers are those of `guobbarel_refusal` in `include/guobbarel.h`.
#[derive(Clone, Copy, Debug, PartialEq, Eq, Hash)]
#[repr(u8)]
pub enum Error {
    /// A first byte, version, token length or Length is cut.
    PacketEnd = 1,
    /// 0x40 is clear in the first byte, and grease is off.
    FixedBit = 2,
    /// A long header's CID is longer than 20 bytes, or it or its length byte is cut.
    Cid = 3,
    /// The version is neither 0 nor listed.
    Version = 4,
    /// An Initial's token is longer than what remains.
    Token = 5,
    /// Fewer bytes follow a short header's first byte than the local CID has.
    ShortCid = 6,
    /// The Length exceeds what remains.
    Length = 7,
    /// The packet is shorter than its number offset + 4 + 16.
    Sample = 8,
    /// A frame's field is cut.
    UnexpectedEnd = 10,
    /// No frame has this type.
    InvalidFrameId = 11,
    /// A frame's fields do not go together.
    Malformed = 12,
    /// A payload of no bytes.
    NoFrames = 13,
    /// An argument is outside its rule.
    Argument = 14,
    /// The lent output is too small.
    Room = 15,
    /// The number is 2^31 or more above the largest acknowledged.
    TooFar = 16,
}

impl Error {
    /// Every error, in the order of their numbers.
    pub const ALL: [Error; 15] = [
        Error::PacketEnd,
        Error::FixedBit,
        Error::Cid,
        Error::Version,
        Error::Token,
        Error::ShortCid,
        Error::Length,
        Error::Sample,
        Error::UnexpectedEnd,
        Error::InvalidFrameId,
        Error::Malformed,
        Error::NoFrames,
        Error::Argument,
        Error::Room,
        Error::TooFar,
    ];

    /// Its number, 1 to 16 but not 9.
    pub const fn number(self) -> u8 {
        self as u8
    }

    /// The error of a number; none for 0, 9 and above 16.
    pub const fn from_number(number: u8) -> Option<Error> {
        // most calls are not refused: 0 is told before the table is looked at
        if 1 <= number && (number as usize) < BY_NUMBER.len() { BY_NUMBER[number as usize] } else { None }
    }

    const fn text(self) -> &'static str {
        match self {
            Error::PacketEnd => "unexpected end of packet",
            Error::FixedBit => "the fixed bit is clear",
            Error::Cid => "a connection id is cut or longer than 20 bytes",
            Error::Version => "the version is not supported",
            Error::Token => "the token is longer than the packet",
            Error::ShortCid => "a short header is cut",
            Error::Length => "the Length is longer than the datagram",
            Error::Sample => "the packet is too short for header protection",
            Error::UnexpectedEnd => "unexpected end of frame",
            Error::InvalidFrameId => "no frame has this type",
            Error::Malformed => "malformed frame",
            Error::NoFrames => "the payload has no frames",
            Error::Argument => "an argument is outside its rule",
            Error::Room => "the output is too small",
            Error::TooFar => "the number is too far above the largest acknowledged",
        }
    }
}

/// The error of each number.
const BY_NUMBER: [Option<Error>; 17] = {
    let mut found = [None; 17];
    let mut i = 0;
    while i < Error::ALL.len() {
        found[Error::ALL[i].number() as usize] = Some(Error::ALL[i]);
        i += 1;
    }
    found
};

impl fmt::Display for Error {
    fn fmt(&self, f: &mut fmt::Formatter<'_>) -> fmt::Result {
        write!(f, "{} ({})", self.text(), self.number())
    }
}

impl core::error::Error for Error {}
