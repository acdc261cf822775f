//! Messages that are signed by `EdDSA`, whose signature the caller's library verifies.

use core::{ptr, slice};

use crate::error::number;
use crate::{raw, Error, FrontPieces, Options, Reason};

/// A curve of `EdDSA` ([RFC 9053 section 7.1](https://www.rfc-editor.org/rfc/rfc9053#section-7.1)).
#[derive(Clone, Copy, Debug, PartialEq, Eq)]
pub enum EddsaCurve {
    /// Ed25519.
    Ed25519 = 6,
    /// Ed448.
    Ed448 = 7,
}

/// What an `EdDSA` signature is verified with.
#[derive(Debug)]
pub struct EddsaInput<'m> {
    /// The number of the algorithm: -8 of `EdDSA`, -19 of Ed25519, -53 of Ed448.
    pub alg: i32,
    /// The curve of the key.
    pub curve: EddsaCurve,
    /// The identifier of the key.
    pub kid: Option<&'m [u8]>,
    /// The public key.
    pub x: &'m [u8],
    /// The signature.
    pub signature: &'m [u8],
    front: FrontPieces<'m>,
    payload: &'m [u8],
}

impl EddsaInput<'_> {
    /// What is signed ([RFC 9052 section 4.4](https://www.rfc-editor.org/rfc/rfc9052#section-4.4)), in pieces: `EdDSA` hashes it itself.
    #[must_use]
    pub fn structure(&self) -> [&[u8]; 7] {
        let [context, protected_head, protected, aad_head, aad, payload_head] = self.front.pieces();
        let payload = self.payload;
        [
            context,
            protected_head,
            protected,
            aad_head,
            aad,
            payload_head,
            payload,
        ]
    }
}

impl raw::EddsaInput {
    /// Room for an answer.
    fn nothing() -> Self {
        let (at, length) = (ptr::NonNull::<u8>::dangling().as_ptr().cast_const(), 0);
        raw::EddsaInput {
            status: 0,
            reason: 0,
            crv: 0,
            has_kid: 0,
            alg: 0,
            place: 0,
            kid: at,
            kid_length: length,
            x: at,
            x_length: length,
            header: at,
            header_length: length,
            payload: at,
            payload_length: length,
            signature: at,
            signature_length: length,
        }
    }
}

/// The payload, where the signature that was asked about is good.
fn decided<'m>(
    found: &raw::EddsaInput,
    heads: raw::FrontPieces,
    aad: &'m [u8],
    is_good: impl FnOnce(&EddsaInput<'m>) -> bool,
) -> Result<&'m [u8], Error> {
    if found.status != number::SIGNED {
        return Err(Error::of(found.status, found.reason, found.place));
    }
    // SAFETY: the library gives parts of the key set, the message and the payload, which are borrowed for `'m`.
    let part = |at, length| unsafe { slice::from_raw_parts::<'m, u8>(at, length) };
    let input = EddsaInput {
        alg: found.alg,
        curve: match found.crv {
            6 => EddsaCurve::Ed25519,
            7 => EddsaCurve::Ed448,
            _ => return Err(Error::OtherLibrary),
        },
        kid: (found.has_kid == 1).then(|| part(found.kid, found.kid_length)),
        x: part(found.x, found.x_length),
        signature: part(found.signature, found.signature_length),
        front: FrontPieces {
            heads,
            protected: part(found.header, found.header_length),
            aad,
        },
        payload: part(found.payload, found.payload_length),
    };
    if is_good(&input) {
        Ok(input.payload)
    } else {
        Err(Error::of(
            number::REFUSED,
            Reason::BadAuth as u8,
            found.place,
        ))
    }
}

/// The payload of a `COSE_Sign1` that is signed by `EdDSA` ([RFC 9053 section 2.2](https://www.rfc-editor.org/rfc/rfc9053#section-2.2)),
/// Ed25519 or Ed448, under one of the OKP keys of a key set, where `is_good` says that the signature is one of
/// [`structure`](EddsaInput::structure). It is asked once, and only of a message that nothing else refuses. The bytes are the message, and
/// nothing follows it.
///
/// [`verify`](crate::verify) refuses such a message: it knows no `EdDSA`.
///
/// # Errors
///
/// The key set or the message is refused, or the externally supplied data is too long.
///
/// ```
/// use cose::{verify_eddsa, EddsaCurve, Options, Reason};
///
/// // the first key of RFC 8032 section 7.1
/// let keys = b"\xa3\x01\x01\x20\x06\x21\x58\x20\xd7\x5a\x98\x01\x82\xb1\x0a\xb7\xd5\x4b\xfe\xd3\xc9\x64\x07\x3a\
///     \x0e\xe1\x72\xf3\xda\xa6\x23\x25\xaf\x02\x1a\x68\xf7\x07\x51\x1a";
/// let mut message = b"\xd2\x84\x43\xa1\x01\x27\xa0\x42hi\x58\x40".to_vec();
/// message.extend([7; 64]);
/// let mut structure = Vec::new();
/// let payload = verify_eddsa(keys, &Options::default(), &message, |input| {
///     assert_eq!((input.alg, input.curve, input.x.len()), (-8, EddsaCurve::Ed25519, 32));
///     structure = input.structure().concat();
///     input.signature == [7; 64] // a stand-in for a library that verifies it
/// })?;
/// assert_eq!(payload, b"hi");
/// assert_eq!(structure, b"\x84\x6aSignature1\x43\xa1\x01\x27\x40\x42hi");
///
/// let error = verify_eddsa(keys, &Options::default(), &message, |_| false).unwrap_err();
/// assert_eq!((error.reason(), error.place()), (Some(Reason::BadAuth), Some(10)));
/// # Ok::<(), cose::Error>(())
/// ```
pub fn verify_eddsa<'m>(
    keys: &'m [u8],
    options: &Options<'m>,
    message: &'m [u8],
    is_good: impl FnOnce(&EddsaInput<'m>) -> bool,
) -> Result<&'m [u8], Error> {
    let (mut found, mut heads) = (raw::EddsaInput::nothing(), raw::FrontPieces::BLANK);
    // SAFETY: each pointer with its length is that of one slice, which is borrowed for the call; the call writes to the two structs,
    // which are this function's own.
    unsafe {
        raw::cose_edge_verify_eddsa(
            keys.as_ptr(),
            keys.len(),
            options.aad.as_ptr(),
            options.aad.len(),
            options.wanted as u8,
            message.as_ptr(),
            message.len(),
            &mut found,
            &mut heads,
        );
    }
    decided(&found, heads, options.aad, is_good)
}

/// The same of a message that has nil for its payload, which is detached and in memory too.
///
/// # Errors
///
/// As [`verify_eddsa`]. A message that has its payload is refused ([`Reason::Attached`](crate::Reason::Attached)).
pub fn verify_eddsa_detached<'m>(
    keys: &'m [u8],
    options: &Options<'m>,
    message: &'m [u8],
    payload: &'m [u8],
    is_good: impl FnOnce(&EddsaInput<'m>) -> bool,
) -> Result<&'m [u8], Error> {
    let (mut found, mut heads) = (raw::EddsaInput::nothing(), raw::FrontPieces::BLANK);
    // SAFETY: as in `verify_eddsa`.
    unsafe {
        raw::cose_edge_verify_eddsa_detached(
            keys.as_ptr(),
            keys.len(),
            options.aad.as_ptr(),
            options.aad.len(),
            options.wanted as u8,
            message.as_ptr(),
            message.len(),
            payload.as_ptr(),
            payload.len(),
            &mut found,
            &mut heads,
        );
    }
    decided(&found, heads, options.aad, is_good)
}
