//! Messages and tokens under what a caller states and requires of them. What isn't stated is safe.

use core::fmt;

use crate::error::number;
use crate::{raw, Claims, Error, Options, Size, Small, Verdict};

/// How many algorithms, and how many labels, may be stated.
const ROOM: usize = 16;

/// What a caller states of messages. By default there are no keys, keys for HMAC 256/64 and keys that name no algorithm are left out,
/// and nothing else is stated.
#[derive(Clone, Copy, Debug, Default, PartialEq, Eq)]
pub struct Terms<'t> {
    /// A `COSE_Key` or a `COSE_KeySet`. A key that is left out fits no message.
    pub keys: &'t [u8],
    /// The externally supplied data, and which messages are wanted.
    pub options: Options<'t>,
    /// The numbers of the algorithms that are allowed, from 1 to 16 of them: a key has to name one as its own.
    pub algorithms: Option<&'t [i32]>,
    /// The fewest bytes of a secret.
    pub least_secret: u64,
    /// The most bytes of a payload, more than 0.
    pub payload_limit: Option<u64>,
    /// The labels that crit may list in addition to those of RFC 9052, at most 16 that aren't 0.
    pub understood: &'t [i64],
    /// Where no algorithms are stated, allow keys for HMAC 256/64, whose tag one guess in 2^64 meets.
    pub short_mac: bool,
    /// Where no algorithms are stated, allow keys that name no algorithm, a secret only with `short_mac` too: the sender chooses the
    /// algorithm.
    pub without_alg: bool,
}

/// What a caller requires of tokens: by default `exp`, and a current time that isn't 0.
#[derive(Clone, Copy, Debug, Default, PartialEq, Eq)]
pub struct Requirements<'r> {
    /// The current time, in seconds since 1970, which isn't 0: the library reads no clock.
    pub now: i64,
    /// By how many seconds the clocks of issuer and caller may differ.
    pub leeway: u32,
    /// What `iss` has to be.
    pub issuer: Option<&'r str>,
    /// What `sub` has to be.
    pub subject: Option<&'r str>,
    /// What `aud` has to name.
    pub audience: Option<&'r str>,
    /// The claims that have to be present.
    pub present: &'r [Claim],
    /// `exp` is at most so many seconds after now, and after `iat` where it is there. More than 0.
    pub max_lifetime: Option<u64>,
    /// `iat` is at most so many seconds before now, and not after it. More than 0.
    pub max_age: Option<u64>,
    /// Admit a token without `exp`, which never expires.
    pub without_exp: bool,
}

/// A registered claim ([RFC 8392 section 3.1](https://www.rfc-editor.org/rfc/rfc8392#section-3.1)).
#[derive(Clone, Copy, Debug, PartialEq, Eq, Hash)]
#[repr(u8)]
pub enum Claim {
    /// The issuer.
    Iss = 1,
    /// The subject.
    Sub = 2,
    /// The audience.
    Aud = 3,
    /// The expiration time.
    Exp = 4,
    /// The time from which on the token is valid.
    Nbf = 5,
    /// When the token was issued.
    Iat = 6,
    /// The token's identifier.
    Cti = 7,
}

/// A requirement of [`Requirements`].
#[derive(Clone, Copy, Debug, PartialEq, Eq, Hash)]
pub enum Requirement {
    /// The claim is present.
    Present(Claim),
    /// `iss` is the issuer.
    Issuer,
    /// `sub` is the subject.
    Subject,
    /// `aud` names the audience.
    Audience,
    /// The token has `exp`, and lasts no longer than is stated.
    Lifetime,
    /// The token has `iat`, and is no older than is stated.
    Age,
    /// The token wasn't issued in the future.
    Issued,
}

/// Why a token isn't admitted.
#[derive(Clone, Copy, Debug, PartialEq, Eq, Hash)]
pub enum NotAdmitted {
    /// What [`verify_cwt`](crate::verify_cwt) fails with too.
    Error(Error),
    /// The message is authentic and its claims are in time, and a requirement isn't met: of several the first. The place is that of
    /// the claim's value in the payload, 0 where the claim isn't there.
    Unmet {
        /// The requirement.
        requirement: Requirement,
        /// The place.
        place: u64,
    },
}

impl From<Error> for NotAdmitted {
    fn from(error: Error) -> Self {
        NotAdmitted::Error(error)
    }
}

impl fmt::Display for NotAdmitted {
    fn fmt(&self, formatter: &mut fmt::Formatter<'_>) -> fmt::Result {
        match self {
            NotAdmitted::Error(error) => error.fmt(formatter),
            NotAdmitted::Unmet { requirement, place } => {
                write!(
                    formatter,
                    "a requirement isn't met: {requirement:?} at {place}"
                )
            }
        }
    }
}

impl core::error::Error for NotAdmitted {}

impl Requirement {
    /// The requirement of this number.
    fn from_number(number: u8) -> Option<Self> {
        Some(match number {
            1 => Requirement::Present(Claim::Iss),
            2 => Requirement::Present(Claim::Sub),
            3 => Requirement::Present(Claim::Aud),
            4 => Requirement::Present(Claim::Exp),
            5 => Requirement::Present(Claim::Nbf),
            6 => Requirement::Present(Claim::Iat),
            7 => Requirement::Present(Claim::Cti),
            8 => Requirement::Issuer,
            9 => Requirement::Subject,
            10 => Requirement::Audience,
            11 => Requirement::Lifetime,
            12 => Requirement::Age,
            13 => Requirement::Issued,
            _ => return None,
        })
    }
}

/// Numbers that aren't 0, with zeros after them.
fn listed<T: Copy + Default + PartialEq>(numbers: &[T]) -> Result<[T; ROOM], Error> {
    let mut room = [T::default(); ROOM];
    if numbers.contains(&T::default()) {
        return Err(Error::BadArgument);
    }
    room.get_mut(..numbers.len())
        .ok_or(Error::BadArgument)?
        .copy_from_slice(numbers);
    Ok(room)
}

/// A number that is stated, or 0.
fn stated(number: Option<u64>) -> Result<u64, Error> {
    match number {
        Some(0) => Err(Error::BadArgument),
        number => Ok(number.unwrap_or_default()),
    }
}

/// A text that is stated, or no bytes.
fn named(text: Option<&str>) -> Result<&str, Error> {
    match text {
        Some("") => Err(Error::BadArgument),
        text => Ok(text.unwrap_or_default()),
    }
}

/// The number of bytes of a struct, which it begins with.
fn size_of<T>() -> u32 {
    u32::try_from(core::mem::size_of::<T>()).unwrap_or_default()
}

impl Terms<'_> {
    /// As the library has them. What is returned borrows what the terms borrow.
    pub(crate) fn raw(&self) -> Result<raw::Terms, Error> {
        if self.algorithms.is_some_and(<[i32]>::is_empty) {
            return Err(Error::BadArgument);
        }
        Ok(raw::Terms {
            size: size_of::<raw::Terms>(),
            kind: self.options.wanted as u8,
            permitted: u8::from(self.short_mac) + 2 * u8::from(self.without_alg),
            least_secret: self.least_secret,
            payload_limit: stated(self.payload_limit)?,
            keys: self.keys.as_ptr(),
            keys_length: self.keys.len(),
            aad: self.options.aad.as_ptr(),
            aad_length: self.options.aad.len(),
            algorithms: listed(self.algorithms.unwrap_or_default())?,
            understood: listed(self.understood)?,
        })
    }
}

impl Requirements<'_> {
    /// As the library has them. What is returned borrows what the requirements borrow.
    pub(crate) fn raw(&self) -> Result<raw::Requirements, Error> {
        let (iss, sub, aud) = (
            named(self.issuer)?,
            named(self.subject)?,
            named(self.audience)?,
        );
        Ok(raw::Requirements {
            size: size_of::<raw::Requirements>(),
            leeway: self.leeway,
            now: self.now,
            lifetime: stated(self.max_lifetime)?,
            age: stated(self.max_age)?,
            iss: iss.as_ptr(),
            iss_length: iss.len(),
            sub: sub.as_ptr(),
            sub_length: sub.len(),
            aud: aud.as_ptr(),
            aud_length: aud.len(),
            present: self
                .present
                .iter()
                .fold(0, |flags, claim| flags | 1 << (*claim as u8 - 1)),
            permitted: u8::from(self.without_exp),
        })
    }
}

/// The claims that the library gives, of these bytes.
pub(crate) fn admitted<'t>(
    claims: &raw::Claims,
    bytes: &'t [u8],
) -> Result<Claims<'t>, NotAdmitted> {
    if claims.status == number::UNMET {
        let requirement = Requirement::from_number(claims.reason).ok_or(Error::OtherLibrary)?;
        return Err(NotAdmitted::Unmet {
            requirement,
            place: claims.place,
        });
    }
    Ok(Claims::of(claims, bytes)?)
}

/// Verifies a message under terms: [`authenticate`] is that of [`Small`].
///
/// # Errors
///
/// Those of [`verify`](crate::verify), and [`Error::BadArgument`] where the terms are out of their range.
pub fn authenticate_sized<'m, S: Size>(
    terms: &Terms<'_>,
    message: &'m [u8],
) -> Result<Verdict<'m>, Error> {
    let terms = terms.raw()?;
    let mut verdict = raw::Verdict::default();
    let mut input = raw::SignInput::BLANK;
    // SAFETY: each pointer with its length is that of one slice, which is borrowed for the call, those of the terms too; the call keeps
    // none of them, and writes to the two structs, which are this function's own.
    unsafe {
        (S::FUNCTIONS.authenticate)(
            &terms,
            message.as_ptr(),
            message.len(),
            &mut verdict,
            &mut input,
        );
    }
    Verdict::of(&verdict, &input, message)
}

/// Verifies a message whose payload is detached, under terms: [`authenticate_detached`] is that of [`Small`].
///
/// # Errors
///
/// Those of [`verify_detached`](crate::verify_detached), and [`Error::BadArgument`] where the terms are out of their range.
pub fn authenticate_detached_sized<'p, S: Size>(
    terms: &Terms<'_>,
    message: &[u8],
    payload: &'p [u8],
) -> Result<Verdict<'p>, Error> {
    let terms = terms.raw()?;
    let mut verdict = raw::Verdict::default();
    let mut input = raw::SignInput::BLANK;
    // SAFETY: as of `authenticate_sized`.
    unsafe {
        (S::FUNCTIONS.authenticate_detached)(
            &terms,
            message.as_ptr(),
            message.len(),
            payload.as_ptr(),
            payload.len(),
            &mut verdict,
            &mut input,
        );
    }
    verdict.payload_at = 0;
    Verdict::of(&verdict, &input, payload)
}

/// Verifies a token under terms, and returns its claims where they meet the requirements: [`admit`] is that of [`Small`].
///
/// # Errors
///
/// Those of [`verify_cwt`](crate::verify_cwt), [`Error::BadArgument`] where an argument is out of its range, and
/// [`NotAdmitted::Unmet`].
pub fn admit_sized<'t, S: Size>(
    terms: &Terms<'_>,
    requirements: &Requirements<'_>,
    token: &'t [u8],
) -> Result<Claims<'t>, NotAdmitted> {
    let (terms, requirements) = (terms.raw()?, requirements.raw()?);
    let mut claims = raw::Claims::default();
    // SAFETY: each pointer with its length is that of one slice, which is borrowed for the call, those of the two structs too; the call
    // keeps none of them, and writes to the struct of claims, which is this function's own.
    unsafe {
        (S::FUNCTIONS.admit)(
            &terms,
            &requirements,
            token.as_ptr(),
            token.len(),
            &mut claims,
        );
    }
    admitted(&claims, token)
}

/// The claims of a payload **that is known to be authentic**, where they meet the requirements: [`admit_claims`] is that of [`Small`].
///
/// # Errors
///
/// They are refused, or don't meet the requirements, or an argument is out of its range.
pub fn admit_claims_sized<'t, S: Size>(
    requirements: &Requirements<'_>,
    payload: &'t [u8],
) -> Result<Claims<'t>, NotAdmitted> {
    let requirements = requirements.raw()?;
    let mut claims = raw::Claims::default();
    // SAFETY: as of `admit_sized`.
    unsafe {
        (S::FUNCTIONS.admit_claims)(&requirements, payload.as_ptr(), payload.len(), &mut claims);
    }
    admitted(&claims, payload)
}

/// Verifies a message under terms, whose defaults are safe. A key that they leave out fits no message, and makes none ambiguous.
///
/// # Errors
///
/// Those of [`verify`](crate::verify), and [`Error::BadArgument`] where the terms are out of their range.
///
/// ```
/// use cose::{authenticate, Reason, Terms};
///
/// // a secret that names HMAC 256/256
/// let keys = b"\xa3\x01\x04\x03\x05\x20\x44Jefe";
/// let message = b"\xd1\x84\x43\xa1\x01\x05\xa0\x42hi\x58\x20\
///     \x7d\x81\xe9\x64\xaa\xee\x5f\xbd\x8a\xdf\xb3\xf5\x33\x65\x7a\x9e\
///     \xf9\xf7\x82\xf0\x4b\x91\x87\x7b\x60\x04\x27\x2a\x03\x52\xf9\x60";
/// let terms = Terms { keys, ..Terms::default() };
/// let verdict = authenticate(&terms, message)?;
/// assert_eq!(verdict.payload_if(|_| false), Some(b"hi".as_slice()));
///
/// // one that names none
/// let terms = Terms { keys: b"\xa2\x01\x04\x20\x44Jefe", ..Terms::default() };
/// assert_eq!(authenticate(&terms, message).unwrap_err().reason(), Some(Reason::NoKey));
/// let terms = Terms { short_mac: true, without_alg: true, ..terms };
/// assert!(authenticate(&terms, message).is_ok());
/// # Ok::<(), cose::Error>(())
/// ```
pub fn authenticate<'m>(terms: &Terms<'_>, message: &'m [u8]) -> Result<Verdict<'m>, Error> {
    authenticate_sized::<Small>(terms, message)
}

/// Verifies a message whose payload is detached, as [`authenticate`] does.
///
/// # Errors
///
/// Those of [`verify_detached`](crate::verify_detached), and [`Error::BadArgument`] where the terms are out of their range.
pub fn authenticate_detached<'p>(
    terms: &Terms<'_>,
    message: &[u8],
    payload: &'p [u8],
) -> Result<Verdict<'p>, Error> {
    authenticate_detached_sized::<Small>(terms, message, payload)
}

/// Verifies a token whose message is a `COSE_Mac0` under terms, and returns its claims where they meet the requirements. A token that is
/// signed is [`Error::Signed`]: pass it to [`authenticate`], and its payload, if the signature is good, to [`admit_claims`].
///
/// # Errors
///
/// Those of [`verify_cwt`](crate::verify_cwt), [`Error::BadArgument`] where an argument is out of its range, and
/// [`NotAdmitted::Unmet`].
pub fn admit<'t>(
    terms: &Terms<'_>,
    requirements: &Requirements<'_>,
    token: &'t [u8],
) -> Result<Claims<'t>, NotAdmitted> {
    admit_sized::<Small>(terms, requirements, token)
}

/// The claims of a payload **that is known to be authentic**, where they meet the requirements.
///
/// # Errors
///
/// They are refused, or don't meet the requirements, or an argument is out of its range.
///
/// ```
/// use cose::{admit_claims, Claim, NotAdmitted, Requirement, Requirements};
///
/// let requirements = Requirements { now: 1_444_064_943, issuer: Some("as"), ..Requirements::default() };
/// let payload = b"\xa2\x01\x62as\x04\x1a\x56\x12\xae\xb0";
/// assert_eq!(admit_claims(&requirements, payload)?.iss, Some("as"));
///
/// let without_exp = NotAdmitted::Unmet { requirement: Requirement::Present(Claim::Exp), place: 0 };
/// assert_eq!(admit_claims(&requirements, b"\xa1\x01\x62as").unwrap_err(), without_exp);
/// # Ok::<(), NotAdmitted>(())
/// ```
pub fn admit_claims<'t>(
    requirements: &Requirements<'_>,
    payload: &'t [u8],
) -> Result<Claims<'t>, NotAdmitted> {
    admit_claims_sized::<Small>(requirements, payload)
}
