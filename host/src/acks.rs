//! The ranges of an ACK frame (RFC 9000, 19.3.1). This is Rust of our own, and not proved: no export of `libgateway.a` reads them.
use crate::{Error, FullNumber};

const MAX_PAYLOAD: usize = 65_527;
const MAX_NUMBER: u64 = (1 << 62) - 1;

/// Numbers that are acknowledged, both ends among them.
#[derive(Clone, Copy, Debug, PartialEq, Eq)]
pub struct AckRange {
    /// The smallest.
    pub smallest: FullNumber,
    /// The largest.
    pub largest: FullNumber,
}

/// The ranges of ACK blocks, the one with the largest numbers first. Over the blocks of an [`crate::Ack`] that was read no step
/// is refused; over other bytes a refusal is the last item.
///
/// That the blocks of an ACK hold as many ranges as it says, none cut and none below 0, is proved of `libgateway.a`, which scanned
/// them. This reader of them is not proved: it is run beside quinn's AckIter.
#[derive(Clone, Debug)]
pub struct AckRanges<'a> {
    largest: u64,
    blocks: &'a [u8],
    ended: bool,
}

impl<'a> AckRanges<'a> {
    /// Of the largest number that is acknowledged, and the bytes of the blocks.
    pub fn new(largest: FullNumber, blocks: &'a [u8]) -> Self {
        AckRanges { largest: largest.get(), blocks, ended: false }
    }

    fn step(&mut self) -> Result<Option<AckRange>, Error> {
        if MAX_PAYLOAD < self.blocks.len() || MAX_NUMBER < self.largest {
            return Err(Error::Argument);
        }
        if self.blocks.is_empty() {
            return Ok(None);
        }
        let (block, rest) = integer(self.blocks).ok_or(Error::UnexpectedEnd)?;
        let smallest = self.largest.checked_sub(block).ok_or(Error::Malformed)?;
        let range = AckRange { smallest: FullNumber::new(smallest), largest: FullNumber::new(self.largest) };
        if rest.is_empty() {
            self.blocks = rest;
            return Ok(Some(range));
        }
        let (gap, rest) = integer(rest).ok_or(Error::UnexpectedEnd)?;
        let largest = smallest.checked_sub(gap + 2).ok_or(Error::Malformed)?;
        if rest.is_empty() {
            return Err(Error::UnexpectedEnd);
        }
        (self.largest, self.blocks) = (largest, rest);
        Ok(Some(range))
    }
}

impl Iterator for AckRanges<'_> {
    type Item = Result<AckRange, Error>;

    fn next(&mut self) -> Option<Self::Item> {
        if self.ended {
            return None;
        }
        let step = self.step();
        self.ended = !matches!(step, Ok(Some(_)));
        step.transpose()
    }
}

impl core::iter::FusedIterator for AckRanges<'_> {}

/// The variable-length integer (RFC 9000, 16) that bytes start with, and what follows it.
fn integer(bytes: &[u8]) -> Option<(u64, &[u8])> {
    let first = *bytes.first()?;
    let (number, rest) = bytes.split_at_checked(1 << (first >> 6))?;
    let high = u64::from(first & 0x3f);
    Some((number.iter().skip(1).fold(high, |n, &b| n << 8 | u64::from(b)), rest))
}
