//! Four kinds of number that are not to be taken for one another.
use core::fmt;

macro_rules! kind {
    ($(#[$doc:meta])* $name:ident) => {
        $(#[$doc])*
        #[derive(Clone, Copy, Debug, PartialEq, Eq, PartialOrd, Ord, Hash)]
        pub struct $name(u64);

        impl $name {
            /// Of a number. One outside the rule of its kind is refused where it is used.
            pub const fn new(number: u64) -> Self {
                $name(number)
            }

            /// The number.
            pub const fn get(self) -> u64 {
                self.0
            }
        }

        impl fmt::Display for $name {
            fn fmt(&self, f: &mut fmt::Formatter<'_>) -> fmt::Result {
                self.0.fmt(f)
            }
        }
    };
}

kind! {
    /// A stream's id.
    StreamId
}

kind! {
    /// A frame's type.
    FrameType
}

kind! {
    /// A full packet number.
    FullNumber
}

/// A packet number cut to its last bytes: its length, 1 to 4, and its value, below 2^(8 length).
#[derive(Clone, Copy, Debug, PartialEq, Eq, Hash)]
pub struct CutNumber {
    len: usize,
    value: u32,
}

impl CutNumber {
    /// Of a length and a value. What is outside their rules is refused where it is used.
    pub const fn new(len: usize, value: u32) -> Self {
        CutNumber { len, value }
    }

    /// How many bytes it has.
    // a cut number is never empty, so there is no is_empty beside it
    #[allow(clippy::len_without_is_empty)]
    pub const fn len(self) -> usize {
        self.len
    }

    /// The number that its bytes make.
    pub const fn value(self) -> u32 {
        self.value
    }
}
