//! A message in memory, by one call.

use crate::error::{number, part, Error};
use crate::{raw, SignInput, Size, Small};

/// The kind of a message.
#[derive(Clone, Copy, Debug, PartialEq, Eq, Hash)]
pub enum Kind {
    /// `COSE_Mac0` ([RFC 9052 section 6.2](https://www.rfc-editor.org/rfc/rfc9052#section-6.2)).
    Mac0,
    /// `COSE_Sign1` ([RFC 9052 section 4.2](https://www.rfc-editor.org/rfc/rfc9052#section-4.2)).
    Sign1,
}

impl Kind {
    /// The kind of a tag.
    pub(crate) fn from_number(number: u8) -> Result<Self, Error> {
        match number {
            17 => Ok(Kind::Mac0),
            18 => Ok(Kind::Sign1),
            _ => Err(Error::OtherLibrary),
        }
    }
}

/// Which messages are wanted.
#[derive(Clone, Copy, Debug, Default, PartialEq, Eq, Hash)]
#[repr(u8)]
pub enum Wanted {
    /// Both kinds, as the message's tag says.
    #[default]
    Tagged = 0,
    /// `COSE_Mac0`, with its tag or without.
    Mac0 = 17,
    /// `COSE_Sign1`, with its tag or without.
    Sign1 = 18,
}

/// What a message is verified under, in addition to the keys. By default there is no externally supplied data, and the message has
/// its tag.
#[derive(Clone, Copy, Debug, Default, PartialEq, Eq)]
pub struct Options<'a> {
    /// The externally supplied data ([RFC 9052 section 4.3](https://www.rfc-editor.org/rfc/rfc9052#section-4.3)), of at most 65,535
    /// bytes.
    pub aad: &'a [u8],
    /// Which messages are wanted.
    pub wanted: Wanted,
}

/// A message that is authentic.
#[derive(Clone, Copy, Debug, PartialEq, Eq)]
pub struct Message<'m> {
    /// Its kind.
    pub kind: Kind,
    /// The number of its algorithm ([RFC 9053](https://www.rfc-editor.org/rfc/rfc9053)): 4 to 7 of a MAC, -7, -35, -36, -9, -51 or -52 of a
    /// signature.
    pub alg: i32,
    /// Its payload.
    pub payload: &'m [u8],
}

/// A `COSE_Sign1` that is authentic if its signature is good, **and not authentic yet**: it gives the payload to nobody who doesn't
/// verify the signature.
#[derive(Clone, Copy, Debug)]
#[must_use = "nobody has verified the signature yet"]
pub struct Signed<'m> {
    message: Message<'m>,
    input: SignInput,
}

impl<'m> Signed<'m> {
    /// What the signature is verified with.
    #[must_use]
    pub fn input(&self) -> &SignInput {
        &self.input
    }

    /// The number of the algorithm, of a message that isn't known to be authentic.
    #[must_use]
    pub fn alg(&self) -> i32 {
        self.message.alg
    }

    /// The payload, if the function finds the signature good.
    pub fn payload_if(self, is_good: impl FnOnce(&SignInput) -> bool) -> Option<&'m [u8]> {
        is_good(&self.input).then_some(self.message.payload)
    }
}

/// What a message is that isn't refused.
#[derive(Clone, Copy, Debug)]
#[expect(clippy::large_enum_variant, reason = "nothing is allocated")]
#[must_use]
pub enum Verdict<'m> {
    /// A `COSE_Mac0` that is authentic.
    Authentic(Message<'m>),
    /// A `COSE_Sign1` whose signature is still to be verified.
    Signed(Signed<'m>),
}

impl<'m> Verdict<'m> {
    /// The payload of a `COSE_Mac0`, and of a `COSE_Sign1` if the function finds its signature good.
    pub fn payload_if(self, is_good: impl FnOnce(&SignInput) -> bool) -> Option<&'m [u8]> {
        match self {
            Verdict::Authentic(message) => Some(message.payload),
            Verdict::Signed(signed) => signed.payload_if(is_good),
        }
    }

    /// The library's answer, with the bytes that have the payload.
    pub(crate) fn of(
        verdict: &raw::Verdict,
        input: &raw::SignInput,
        bytes: &'m [u8],
    ) -> Result<Self, Error> {
        if !matches!(verdict.status, number::AUTHENTIC | number::SIGNED) {
            return Err(Error::of(verdict.status, verdict.reason, verdict.place));
        }
        let message = Message {
            kind: Kind::from_number(verdict.kind)?,
            alg: verdict.alg,
            payload: part(bytes, verdict.payload_at, verdict.payload_length)?,
        };
        match (verdict.status, message.kind) {
            (number::AUTHENTIC, Kind::Mac0) => Ok(Verdict::Authentic(message)),
            (number::SIGNED, Kind::Sign1) => {
                let input = SignInput::of(input)?;
                Ok(Verdict::Signed(Signed { message, input }))
            }
            _ => Err(Error::OtherLibrary),
        }
    }
}

/// Verifies a message that has its tag, with no externally supplied data. The bytes are the message, and nothing follows it.
///
/// `keys` is a `COSE_Key` or a `COSE_KeySet` ([RFC 9052 section 7](https://www.rfc-editor.org/rfc/rfc9052#section-7)); exactly one of
/// its keys has to fit the message.
///
/// # Errors
///
/// The key set or the message is refused.
///
/// ```
/// use cose::{verify, Reason, Verdict};
///
/// let keys = b"\xa2\x01\x04\x20\x44Jefe";
/// let mut message = *b"\xd1\x84\x43\xa1\x01\x05\xa0\x42hi\x58\x20\
///     \x7d\x81\xe9\x64\xaa\xee\x5f\xbd\x8a\xdf\xb3\xf5\x33\x65\x7a\x9e\
///     \xf9\xf7\x82\xf0\x4b\x91\x87\x7b\x60\x04\x27\x2a\x03\x52\xf9\x60";
/// let Verdict::Authentic(found) = verify(keys, &message)? else {
///     panic!("a COSE_Sign1")
/// };
/// assert_eq!((found.alg, found.payload), (5, b"hi".as_slice()));
///
/// message[8] = b'H';
/// let error = verify(keys, &message).unwrap_err();
/// assert_eq!((error.reason(), error.place()), (Some(Reason::BadAuth), Some(10)));
/// # Ok::<(), cose::Error>(())
/// ```
pub fn verify<'m>(keys: &[u8], message: &'m [u8]) -> Result<Verdict<'m>, Error> {
    verify_with(keys, &Options::default(), message)
}

/// The same under [`Options`].
///
/// # Errors
///
/// The key set or the message is refused, or the externally supplied data is too long. A header of more than 1,024 bytes is refused
/// ([`Reason::PastRoom`](crate::Reason::PastRoom)): [`Large`](crate::Large) takes it.
///
/// ```
/// use cose::{verify_with, Options, Reason, Wanted};
///
/// let keys = b"\xa2\x01\x04\x20\x44Jefe";
/// let options = Options { wanted: Wanted::Sign1, ..Options::default() };
/// let error = verify_with(keys, &options, b"\xd1\x84").unwrap_err();
/// assert_eq!(error.to_string(), "the message is refused: WrongTag at 0");
/// ```
pub fn verify_with<'m>(
    keys: &[u8],
    options: &Options<'_>,
    message: &'m [u8],
) -> Result<Verdict<'m>, Error> {
    Small::verify(keys, options, message)
}

/// Verifies a message that has nil for its payload, which is detached and in memory too. The verdict's payload is this one.
///
/// # Errors
///
/// The key set or the message is refused, or the externally supplied data is too long. A message that has its payload is refused
/// ([`Reason::Attached`](crate::Reason::Attached)).
///
/// ```
/// use cose::{verify_detached, Options};
///
/// let keys = b"\xa2\x01\x04\x20\x44Jefe";
/// let message = b"\xd1\x84\x43\xa1\x01\x05\xa0\xf6\x58\x20\
///     \x7d\x81\xe9\x64\xaa\xee\x5f\xbd\x8a\xdf\xb3\xf5\x33\x65\x7a\x9e\
///     \xf9\xf7\x82\xf0\x4b\x91\x87\x7b\x60\x04\x27\x2a\x03\x52\xf9\x60";
/// let verdict = verify_detached(keys, &Options::default(), message, b"hi")?;
/// assert_eq!(verdict.payload_if(|_| false), Some(b"hi".as_slice()));
/// # Ok::<(), cose::Error>(())
/// ```
pub fn verify_detached<'p>(
    keys: &[u8],
    options: &Options<'_>,
    message: &[u8],
    payload: &'p [u8],
) -> Result<Verdict<'p>, Error> {
    Small::verify_detached(keys, options, message, payload)
}

/// The shape of a message. **Nothing of it is authenticated**: no key is looked at.
#[derive(Clone, Copy, Debug, PartialEq, Eq)]
pub struct Shape {
    /// Its kind.
    pub kind: Kind,
    /// The number of bytes of its payload.
    pub payload_length: u64,
    /// That of its tag or signature.
    pub auth_length: u64,
    /// That of the message.
    pub taken: u64,
}

/// The shape of a message. The bytes are the message, and nothing follows it.
///
/// # Errors
///
/// They aren't.
///
/// ```
/// let shape = cose::shape(cose::Wanted::Tagged, b"\xd1\x84\x43\xa1\x01\x05\xa0\x42hi\x43tag")?;
/// assert_eq!((shape.payload_length, shape.auth_length, shape.taken), (2, 3, 14));
/// # Ok::<(), cose::Error>(())
/// ```
pub fn shape(wanted: Wanted, message: &[u8]) -> Result<Shape, Error> {
    let mut shape = raw::Shape::default();
    // SAFETY: the pointer with the length is that of one slice, which is borrowed for the call, and the struct is this function's.
    unsafe {
        raw::cose_edge_shape(wanted as u8, message.as_ptr(), message.len(), &mut shape);
    }
    match shape.status {
        number::COMPLETE => Ok(Shape {
            kind: Kind::from_number(shape.kind)?,
            payload_length: shape.payload_length,
            auth_length: shape.auth_length,
            taken: shape.taken,
        }),
        status => Err(Error::of(status, shape.reason, shape.place)),
    }
}

/// How many keys of a key set are usable.
///
/// # Errors
///
/// The key set is refused.
///
/// ```
/// assert_eq!(cose::usable_keys(b"\xa2\x01\x04\x20\x44Jefe"), Ok(1));
/// let error = cose::usable_keys(b"\x80").unwrap_err();
/// assert_eq!(error.to_string(), "the key set is refused: BadKeySet at 0");
/// ```
pub fn usable_keys(keys: &[u8]) -> Result<u64, Error> {
    let mut key_set = raw::KeySet::default();
    // SAFETY: the pointer with the length is that of one slice, which is borrowed for the call, and the struct is this function's.
    unsafe { raw::cose_edge_read_keys(keys.as_ptr(), keys.len(), &mut key_set) };
    match key_set.status {
        number::COMPLETE => Ok(key_set.usable),
        status => Err(Error::of(status, key_set.reason, key_set.place)),
    }
}
