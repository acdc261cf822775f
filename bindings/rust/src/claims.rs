//! Tokens and their claims.

use core::str;

use crate::error::{number, part, Error};
use crate::item::Item;
use crate::sign_input::{Curve, PublicKey, Y};
use crate::{raw, Size, Small};

/// The conditions under which a token is admitted.
#[derive(Clone, Copy, Debug, PartialEq, Eq)]
pub struct Policy<'p> {
    /// The current time, in seconds since 1970: the library reads no clock.
    pub now: i64,
    /// By how many seconds the clocks of issuer and caller may differ.
    pub leeway: u32,
    /// The caller's name in an audience: a token that names an audience without it is refused, and one that names none is admitted.
    /// With `None` the caller compares [`Claims::audiences`].
    pub audience: Option<&'p str>,
}

impl Policy<'_> {
    /// As the library has it. The struct borrows the audience, and so does what is returned.
    pub(crate) fn raw(&self) -> raw::Policy {
        let audience = self.audience.unwrap_or_default();
        raw::Policy {
            now: self.now,
            leeway: self.leeway,
            has_audience: u8::from(self.audience.is_some()),
            audience: audience.as_ptr(),
            audience_length: audience.len(),
        }
    }
}

/// What a token confirms of its presenter ([RFC 8747 section 3](https://www.rfc-editor.org/rfc/rfc8747#section-3)).
#[derive(Clone, Copy, Debug, PartialEq, Eq)]
pub struct Confirmation<'t> {
    /// The identifier of the presenter's key.
    pub kid: Option<&'t [u8]>,
    /// The presenter's key.
    pub key: Option<PublicKey<'t>>,
}

/// The claims of a token ([RFC 8392 section 3.1](https://www.rfc-editor.org/rfc/rfc8392#section-3.1)) that is admitted. Dates are in
/// seconds since 1970.
#[derive(Clone, Copy, Debug, PartialEq, Eq)]
pub struct Claims<'t> {
    /// The issuer.
    pub iss: Option<&'t str>,
    /// The subject.
    pub sub: Option<&'t str>,
    /// From then on the token isn't valid.
    pub exp: Option<i128>,
    /// From then on it is.
    pub nbf: Option<i128>,
    /// When it was issued.
    pub iat: Option<i128>,
    /// The token's identifier.
    pub cti: Option<&'t [u8]>,
    /// What it confirms of its presenter.
    pub cnf: Option<Confirmation<'t>>,
    payload: &'t [u8],
    first: raw::Range,
    count: u64,
}

impl<'t> Claims<'t> {
    /// The texts of the audience, each of which is read after the one before it.
    #[must_use]
    pub fn audiences(&self) -> Audiences<'t> {
        Audiences {
            payload: self.payload,
            next: self.first,
            left: self.count,
        }
    }

    /// All claims, with those that aren't registered, as a map in CBOR.
    #[must_use]
    pub fn payload(&self) -> &'t [u8] {
        self.payload
    }

    /// The claim of any label that is an integer ([RFC 8392 section 9.1](https://www.rfc-editor.org/rfc/rfc8392#section-9.1)), if the
    /// token has it.
    #[must_use]
    pub fn claim(&self, label: i64) -> Option<Item<'t>> {
        Item::of_label(self.payload, label).ok().flatten()
    }

    /// The same of a label that is a text string.
    #[must_use]
    pub fn claim_named(&self, name: &str) -> Option<Item<'t>> {
        Item::of_name(self.payload, name).ok().flatten()
    }

    /// All claims, as the map that they are.
    #[must_use]
    pub fn item(&self) -> Option<Item<'t>> {
        Item::at(self.payload, 0).ok().flatten()
    }

    /// The library's answer, with the bytes that have the payload.
    pub(crate) fn of(claims: &raw::Claims, bytes: &'t [u8]) -> Result<Self, Error> {
        if claims.status != number::AUTHENTIC {
            return Err(Error::of(claims.status, claims.reason, claims.place));
        }
        let payload = part(bytes, claims.payload_at, claims.payload_length)?;
        let bytes = |range| bytes_in(payload, range);
        let text = |range| text_in(payload, range);
        Ok(Claims {
            iss: text(claims.iss)?,
            sub: text(claims.sub)?,
            exp: date(claims.exp),
            nbf: date(claims.nbf),
            iat: date(claims.iat),
            cti: bytes(claims.cti)?,
            cnf: confirmation(claims, payload)?,
            payload,
            first: claims.aud,
            count: claims.aud_count,
        })
    }
}

/// The bytes of a claim, if it is there.
fn bytes_in(payload: &[u8], range: raw::Range) -> Result<Option<&[u8]>, Error> {
    if range.present == 0 {
        return Ok(None);
    }
    part(payload, range.at, range.length).map(Some)
}

/// The text of a claim, if it is there.
fn text_in(payload: &[u8], range: raw::Range) -> Result<Option<&str>, Error> {
    let bytes = bytes_in(payload, range)?;
    let text = bytes.map(str::from_utf8).transpose();
    text.map_err(|_| Error::OtherLibrary)
}

fn date(date: raw::Date) -> Option<i128> {
    let number = i128::from(date.number);
    let number = if date.negative == 0 {
        number
    } else {
        -1 - number
    };
    (date.present != 0).then_some(number)
}

fn confirmation<'t>(
    claims: &raw::Claims,
    payload: &'t [u8],
) -> Result<Option<Confirmation<'t>>, Error> {
    let kid = bytes_in(payload, claims.cnf_kid)?;
    let key = match claims.cnf_crv {
        0 => None,
        number => {
            let curve = Curve::from_number(number).ok_or(Error::OtherLibrary)?;
            let x = bytes_in(payload, claims.cnf_x)?.unwrap_or_default();
            let y = bytes_in(payload, claims.cnf_y)?.unwrap_or_default();
            let y = Y::of(claims.cnf_y_sign, y).ok_or(Error::OtherLibrary)?;
            Some(PublicKey::new(curve, x, y)?)
        }
    };
    let is_there = kid.is_some() || key.is_some();
    Ok(is_there.then_some(Confirmation { kid, key }))
}

/// The texts of an audience.
#[derive(Clone, Debug)]
pub struct Audiences<'t> {
    payload: &'t [u8],
    next: raw::Range,
    left: u64,
}

impl<'t> Iterator for Audiences<'t> {
    type Item = &'t str;

    fn next(&mut self) -> Option<&'t str> {
        self.left = self.left.checked_sub(1)?;
        let this = self.next;
        if self.left > 0 {
            let place = this.at.saturating_add(this.length);
            // SAFETY: the pointer with the length is that of one slice, which is borrowed for the call, and the struct is this iterator's.
            unsafe {
                raw::cose_edge_next_audience(
                    self.payload.as_ptr(),
                    self.payload.len(),
                    place,
                    &mut self.next,
                );
            }
        }
        text_in(self.payload, this).ok().flatten()
    }
}

/// Verifies a token whose message is a `COSE_Mac0`, and returns its claims where they are admitted. The CWT tag may come before the
/// message's own; the bytes are the token, and nothing follows it. `aad` is the externally supplied data, mostly none.
///
/// # Errors
///
/// The key set, the message or the claims are refused, or the externally supplied data is too long. A token that is signed is
/// [`Error::Signed`]: it is verified with [`verify`](crate::verify), its signature by the caller, and the payload is passed to
/// [`claims`].
///
/// ```
/// use cose::{verify_cwt, Policy, Reason};
///
/// let keys = b"\xa2\x01\x04\x20\x44Jefe";
/// let token = b"\xd1\x84\x43\xa1\x01\x05\xa0\x58\x50\xa7\x01\x75coap://as.example.com\x02\x65erikw\
///     \x03\x78\x18coap://light.example.com\x04\x1a\x56\x12\xae\xb0\x05\x1a\x56\x10\xd9\xf0\
///     \x06\x1a\x56\x10\xd9\xf0\x07\x42\x0b\x71\x58\x20\
///     \xa1\x5d\x56\xd6\x58\x6b\x2c\x74\x02\xfc\x5d\xf1\x6a\xb8\x76\x23\
///     \x78\x1e\x3b\xfa\xde\x70\xe0\x1a\x90\x6c\xb7\x4b\xfa\x31\xc2\xae";
/// let mut policy = Policy {
///     now: 1_444_064_943,
///     leeway: 0,
///     audience: Some("coap://light.example.com"),
/// };
/// let claims = verify_cwt(keys, b"", &policy, token)?;
/// assert_eq!(claims.sub, Some("erikw"));
/// assert!(claims.audiences().eq(["coap://light.example.com"]));
///
/// policy.now += 1;
/// let error = verify_cwt(keys, b"", &policy, token).unwrap_err();
/// assert_eq!(error.reason(), Some(Reason::Expired));
/// # Ok::<(), cose::Error>(())
/// ```
pub fn verify_cwt<'t>(
    keys: &[u8],
    aad: &[u8],
    policy: &Policy<'_>,
    token: &'t [u8],
) -> Result<Claims<'t>, Error> {
    Small::verify_cwt(keys, aad, policy, token)
}

/// The claims of a payload **that is known to be authentic**, where they are admitted.
///
/// # Errors
///
/// They are refused.
///
/// ```
/// use cose::{claims, Policy};
///
/// let policy = Policy { now: 0, leeway: 0, audience: None };
/// let claims = claims(b"\xa1\x02\x65erikw", &policy)?;
/// assert_eq!((claims.sub, claims.exp), (Some("erikw"), None));
/// # Ok::<(), cose::Error>(())
/// ```
pub fn claims<'t>(payload: &'t [u8], policy: &Policy<'_>) -> Result<Claims<'t>, Error> {
    Small::claims(payload, policy)
}
