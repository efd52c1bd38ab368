//! The number ends of the three packet number spaces (RFC 9000, 12.3, 17.1 and A.3).
use crate::ffi::{self, NumberAnswer, NumberEnds, NumberSpaces};
use crate::{CutNumber, Error, FullNumber, Kind};

const SEND: u8 = 0;
const ACKNOWLEDGE: u8 = 1;
const READ: u8 = 2;
const ACCEPT: u8 = 3;

/// The three packet number spaces of a connection: Initial, Handshake, and Data, which 0-RTT and short packets use. Each has an end
/// that sends and an end that receives. A step names the kind of its packet, and leaves the spaces of other kinds as they were; a
/// refused one leaves all three.
///
/// An acknowledgement speaks of the space of the packet that carried it. Fed to another, it is refused where that space has not
/// sent the number:
///
/// ```
/// use guobbarel::{Error, FullNumber, Kind, Spaces};
///
/// let mut spaces = Spaces::new();
/// spaces.send(Kind::Handshake)?;
/// for _ in 0..=1000 {
///     spaces.send(Kind::Short)?;
/// }
/// let before = spaces;
/// assert_eq!(spaces.acknowledge(Kind::Handshake, FullNumber::new(1000)), Err(Error::Argument));
/// assert_eq!(spaces, before);
/// spaces.acknowledge(Kind::Short, FullNumber::new(1000))?;
/// assert_eq!(spaces.ends(Kind::Short).unwrap().acknowledged(), Some(FullNumber::new(1000)));
/// assert_eq!(spaces.ends(Kind::Handshake), before.ends(Kind::Handshake));
/// # Ok::<(), Error>(())
/// ```
#[derive(Clone, Copy, Debug, PartialEq, Eq, Hash)]
pub struct Spaces(NumberSpaces);

/// The two ends of one space, to look at or to keep elsewhere: steps are those of [`Spaces`].
#[derive(Clone, Copy, Debug, PartialEq, Eq, Hash)]
pub struct Ends(NumberEnds);

/// A number that was used up, and what of it the packet carries.
#[derive(Clone, Copy, Debug, PartialEq, Eq)]
pub struct Sent {
    /// The number.
    pub number: FullNumber,
    /// Its last bytes.
    pub cut: CutNumber,
}

impl Default for Spaces {
    fn default() -> Self {
        Spaces::new()
    }
}

impl Spaces {
    /// Nothing is sent, acknowledged or accepted yet.
    pub const fn new() -> Self {
        Spaces::from_parts(Ends::new(), Ends::new(), Ends::new())
    }

    /// Spaces that were kept elsewhere.
    pub const fn from_parts(initial: Ends, handshake: Ends, data: Ends) -> Self {
        Spaces(NumberSpaces { initial: initial.0, handshake: handshake.0, data: data.0 })
    }

    /// The ends of the space that packets of a kind use; none for Retry and Version Negotiation, which have no number.
    pub const fn ends(&self, kind: Kind) -> Option<Ends> {
        match kind {
            Kind::Initial => Some(Ends(self.0.initial)),
            Kind::Handshake => Some(Ends(self.0.handshake)),
            Kind::ZeroRtt | Kind::Short => Some(Ends(self.0.data)),
            Kind::Retry | Kind::VersionNegotiation => None,
        }
    }

    /// Uses up the next number, for a packet of this kind.
    ///
    /// # Errors
    /// [`Error::Argument`] past 2^62 - 1 and for a kind that has no number, [`Error::TooFar`] where four bytes are too few.
    pub fn send(&mut self, kind: Kind) -> Result<Sent, Error> {
        let a = self.step(SEND, kind, 0, CutNumber::new(0, 0))?;
        Ok(Sent { number: FullNumber::new(a.number), cut: CutNumber::new(a.number_len, a.number_value) })
    }

    /// Hears that a number was acknowledged, by a packet of this kind.
    ///
    /// # Errors
    /// [`Error::Argument`] for a number that was not sent in this kind's space, and for a kind that has no number.
    pub fn acknowledge(&mut self, kind: Kind, number: FullNumber) -> Result<(), Error> {
        self.step(ACKNOWLEDGE, kind, number.get(), CutNumber::new(0, 0)).map(|_| ())
    }

    /// The full number of a cut one, of a packet of this kind: the nearest to the one that is expected next. It is below 2^62 unless
    /// 2^62 - 1 was accepted.
    ///
    /// # Errors
    /// [`Error::Argument`] for a cut number outside its rule, and for a kind that has no number.
    pub fn read(&self, kind: Kind, cut: CutNumber) -> Result<FullNumber, Error> {
        let mut spaces = *self;
        spaces.step(READ, kind, 0, cut).map(|a| FullNumber::new(a.number))
    }

    /// Counts a number as accepted, after its packet, of this kind, was authenticated.
    ///
    /// # Errors
    /// [`Error::Argument`] for a number past 2^62 - 1, and for a kind that has no number.
    pub fn accept(&mut self, kind: Kind, number: FullNumber) -> Result<(), Error> {
        self.step(ACCEPT, kind, number.get(), CutNumber::new(0, 0)).map(|_| ())
    }

    fn step(&mut self, step: u8, kind: Kind, number: u64, cut: CutNumber) -> Result<NumberAnswer, Error> {
        let a = ffi::number_step(step, kind as u8, self.0, number, cut.len(), cut.value());
        self.0 = a.spaces;
        Error::from_number(a.refusal).map_or(Ok(a), Err)
    }
}

impl Default for Ends {
    fn default() -> Self {
        Ends::new()
    }
}

impl Ends {
    /// Nothing is sent, acknowledged or accepted yet.
    pub const fn new() -> Self {
        Ends(NumberEnds { next: 0, acked: 0, largest: 0, has_acked: 0, has_largest: 0 })
    }

    /// Ends that were kept elsewhere, by what [`Ends::next`], [`Ends::acknowledged`] and [`Ends::accepted`] said. Ends that no
    /// steps can have made are refused where they are used, each step looking at its half alone: [`Spaces::send`] and
    /// [`Spaces::acknowledge`] at the next and the acknowledged number, [`Spaces::read`] and [`Spaces::accept`] at the accepted one.
    pub const fn from_parts(next: FullNumber, acknowledged: Option<FullNumber>, accepted: Option<FullNumber>) -> Self {
        let (acked, has_acked) = flagged(acknowledged);
        let (largest, has_largest) = flagged(accepted);
        Ends(NumberEnds { next: next.get(), acked, largest, has_acked, has_largest })
    }

    /// The number that is sent next.
    pub const fn next(&self) -> FullNumber {
        FullNumber::new(self.0.next)
    }

    /// The largest number that was acknowledged.
    pub const fn acknowledged(&self) -> Option<FullNumber> {
        if self.0.has_acked == 1 { Some(FullNumber::new(self.0.acked)) } else { None }
    }

    /// The largest number that was accepted.
    pub const fn accepted(&self) -> Option<FullNumber> {
        if self.0.has_largest == 1 { Some(FullNumber::new(self.0.largest)) } else { None }
    }
}

/// A number and its flag, as the surface has them.
const fn flagged(number: Option<FullNumber>) -> (u64, u8) {
    match number {
        Some(number) => (number.get(), 1),
        None => (0, 0),
    }
}
