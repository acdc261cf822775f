//! Errors, and how the library's numbers are read.

use core::fmt;

use crate::{Reason, Refusal};

/// The numbers of a call's status, as `include/cose.h` has them.
#[allow(dead_code, reason = "each status is named")]
pub(crate) mod number {
    // made by ci/edge_tables: statuses
    pub(crate) const MORE: u8 = 0;
    pub(crate) const AUTHENTIC: u8 = 1;
    pub(crate) const SIGNED: u8 = 2;
    pub(crate) const REFUSED: u8 = 3;
    pub(crate) const KEYS_REFUSED: u8 = 4;
    pub(crate) const AAD_TOO_LONG: u8 = 5;
    pub(crate) const PAYLOAD_NEXT: u8 = 6;
    pub(crate) const COMPLETE: u8 = 7;
    pub(crate) const CLAIMS_REFUSED: u8 = 8;
    pub(crate) const BAD_AUDIENCE: u8 = 9;
    pub(crate) const CLOSED: u8 = 10;
    pub(crate) const STOPPED: u8 = 11;
    pub(crate) const BAD_ARGUMENT: u8 = 12;
    pub(crate) const UNMET: u8 = 13;
    // end of what ci/edge_tables makes
}

/// Why there is no payload, no claims or no message.
#[derive(Clone, Copy, Debug, PartialEq, Eq, Hash)]
pub enum Error {
    /// The key set is refused. The place is relative to its first byte. Of the key of a message that is made the place isn't known,
    /// and is 0 here.
    Keys(Refusal),
    /// The message is refused. The place is relative to its first byte.
    Message(Refusal),
    /// The message is authentic, and its claims are refused. The place is relative to the first byte of the payload.
    Claims(Refusal),
    /// The token is a `COSE_Sign1`, whose signature nobody verified: pass it to [`verify`](crate::verify), and the payload, if the
    /// signature is good, to [`claims`](crate::claims).
    Signed,
    /// The externally supplied data has more than 65,535 bytes.
    AadTooLong,
    /// The key of a message that is made doesn't make MACs by the algorithm.
    WrongKey,
    /// The message isn't complete, so that there is no verdict; or a message that is made lacks bytes of its payload.
    Incomplete,
    /// An argument of [`Maker::begin`](crate::Maker::begin) is out of its range.
    BadArgument,
    /// The library that is linked isn't that of this crate: its blocks are larger, or it answered what isn't known here.
    OtherLibrary,
}

impl Error {
    /// The refusal, where something is refused.
    #[must_use]
    pub const fn refusal(&self) -> Option<Refusal> {
        match *self {
            Error::Keys(refusal) | Error::Message(refusal) | Error::Claims(refusal) => {
                Some(refusal)
            }
            Error::Signed
            | Error::AadTooLong
            | Error::WrongKey
            | Error::Incomplete
            | Error::BadArgument
            | Error::OtherLibrary => None,
        }
    }

    /// Why something is refused.
    #[must_use]
    pub fn reason(&self) -> Option<Reason> {
        self.refusal().map(|refusal| refusal.reason)
    }

    /// Where.
    #[must_use]
    pub fn place(&self) -> Option<u64> {
        self.refusal().map(|refusal| refusal.place)
    }

    /// The error of a status that isn't the one that a call succeeds with.
    pub(crate) fn of(status: u8, reason: u8, place: u64) -> Self {
        let refusal = Reason::from_number(reason).map(|reason| Refusal { reason, place });
        match (status, refusal) {
            (number::REFUSED, Some(refusal)) => Error::Message(refusal),
            (number::KEYS_REFUSED, Some(refusal)) => Error::Keys(refusal),
            (number::CLAIMS_REFUSED, Some(refusal)) => Error::Claims(refusal),
            (number::SIGNED, None) => Error::Signed,
            (number::KEYS_REFUSED, None) => Error::WrongKey,
            (number::AAD_TOO_LONG, None) => Error::AadTooLong,
            (number::MORE | number::PAYLOAD_NEXT, None) => Error::Incomplete,
            (number::BAD_ARGUMENT, None) => Error::BadArgument,
            _ => Error::OtherLibrary,
        }
    }
}

impl fmt::Display for Error {
    fn fmt(&self, formatter: &mut fmt::Formatter<'_>) -> fmt::Result {
        match self {
            Error::Keys(refusal) => write!(formatter, "the key set is refused: {refusal}"),
            Error::Message(refusal) => write!(formatter, "the message is refused: {refusal}"),
            Error::Claims(refusal) => write!(formatter, "the claims are refused: {refusal}"),
            Error::Signed => formatter.write_str("the token has a signature, which isn't verified"),
            Error::AadTooLong => {
                formatter.write_str("the externally supplied data has more than 65,535 bytes")
            }
            Error::WrongKey => formatter.write_str("the key doesn't make MACs by this algorithm"),
            Error::Incomplete => formatter.write_str("the message isn't complete"),
            Error::BadArgument => formatter.write_str("an argument is out of its range"),
            Error::OtherLibrary => {
                formatter.write_str("the library that is linked isn't that of this crate")
            }
        }
    }
}

impl core::error::Error for Error {}

/// A part of these bytes, by the library's numbers.
pub(crate) fn part(bytes: &[u8], at: u64, length: u64) -> Result<&[u8], Error> {
    let found = || {
        let from = usize::try_from(at).ok()?;
        let to = from.checked_add(usize::try_from(length).ok()?)?;
        bytes.get(from..to)
    };
    found().ok_or(Error::OtherLibrary)
}
