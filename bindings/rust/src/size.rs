//! The two sizes. A size is a type, and no option, since a block has one already.

use core::fmt::Debug;

use crate::block::Memory;
use crate::functions::Library;
use crate::{
    raw, Bucket, Claims, Error, Item, Label, LargeVerifierBlock, Options, Policy, Verdict,
    VerifierBlock, Wanted,
};

/// Header buckets of at most 1,024 bytes that nest 8 deep, and claims that nest 8 deep: the size where none is named.
#[derive(Clone, Copy, Debug)]
pub enum Small {}

/// Header buckets of at most 65,535 bytes that nest 16 deep, and claims that nest 16 deep: for messages with a chain of certificates in
/// the header.
///
/// A call over memory ([`verify`](Size::verify), [`verify_detached`](Size::verify_detached), [`verify_cwt`](Size::verify_cwt)) needs
/// 160 KiB of stack. A [`Verifier`] has a [`LargeVerifierBlock`] of 132 KiB instead, and its calls need 16 KiB, as those of [`Small`].
///
/// [`Verifier`]: crate::Verifier
///
/// ```
/// use cose::{verify, Large, Options, Reason, Size, Verifier};
///
/// let keys = b"\xa2\x01\x04\x20\x44Jefe";
/// // the unprotected bucket has a certificate (x5chain, RFC 9360 section 2) of 1,500 bytes
/// let before = b"\xd1\x84\x43\xa1\x01\x05\xa1\x18\x21\x59\x05\xdc";
/// let after = b"\x42hi\x58\x20\
///     \x7d\x81\xe9\x64\xaa\xee\x5f\xbd\x8a\xdf\xb3\xf5\x33\x65\x7a\x9e\
///     \xf9\xf7\x82\xf0\x4b\x91\x87\x7b\x60\x04\x27\x2a\x03\x52\xf9\x60";
/// let message = [before.as_slice(), &[0x30; 1_500], after].concat();
///
/// let verdict = Large::verify(keys, &Options::default(), &message)?;
/// assert_eq!(verdict.payload_if(|_| false), Some(b"hi".as_slice()));
///
/// let mut block = Box::default();
/// let mut verifier = Verifier::<Large>::open(&mut block, keys, &Options::default())?;
/// for piece in message.chunks(100) {
///     let _fed = verifier.feed(piece)?;
/// }
/// assert_eq!(verifier.verdict(|_| false)?.payload_length, 2);
///
/// let error = verify(keys, &message).unwrap_err();
/// assert_eq!(error.reason(), Some(Reason::PastRoom));
/// # Ok::<(), cose::Error>(())
/// ```
#[derive(Clone, Copy, Debug)]
pub enum Large {}

/// A size: [`Small`] or [`Large`].
#[expect(private_bounds, reason = "there is no third size")]
pub trait Size: Library + Sized {
    /// Memory for a [`Verifier`](crate::Verifier).
    type Block: Memory + Debug + Default;

    /// Verifies a message. [`verify_with`](crate::verify_with) is that of [`Small`].
    ///
    /// # Errors
    ///
    /// The key set or the message is refused, or the externally supplied data is too long.
    fn verify<'m>(
        keys: &[u8],
        options: &Options<'_>,
        message: &'m [u8],
    ) -> Result<Verdict<'m>, Error> {
        let mut verdict = raw::Verdict::default();
        let mut input = raw::SignInput::BLANK;
        // SAFETY: each pointer with its length is that of one slice, which is borrowed for the call; the call keeps none of them, and
        // writes to the two structs, which are this function's own.
        unsafe {
            (Self::FUNCTIONS.verify)(
                keys.as_ptr(),
                keys.len(),
                options.aad.as_ptr(),
                options.aad.len(),
                options.wanted as u8,
                message.as_ptr(),
                message.len(),
                &mut verdict,
                &mut input,
            );
        }
        Verdict::of(&verdict, &input, message)
    }

    /// Verifies a message whose payload is detached. [`verify_detached`](crate::verify_detached) is that of [`Small`].
    ///
    /// # Errors
    ///
    /// The key set or the message is refused, or the externally supplied data is too long. A message that has its payload is refused
    /// ([`Reason::Attached`](crate::Reason::Attached)).
    fn verify_detached<'p>(
        keys: &[u8],
        options: &Options<'_>,
        message: &[u8],
        payload: &'p [u8],
    ) -> Result<Verdict<'p>, Error> {
        let mut verdict = raw::Verdict::default();
        let mut input = raw::SignInput::BLANK;
        // SAFETY: each pointer with its length is that of one slice, which is borrowed for the call; the call keeps none of them, and
        // writes to the two structs, which are this function's own.
        unsafe {
            (Self::FUNCTIONS.verify_detached)(
                keys.as_ptr(),
                keys.len(),
                options.aad.as_ptr(),
                options.aad.len(),
                options.wanted as u8,
                message.as_ptr(),
                message.len(),
                payload.as_ptr(),
                payload.len(),
                &mut verdict,
                &mut input,
            );
        }
        verdict.payload_at = 0;
        Verdict::of(&verdict, &input, payload)
    }

    /// Verifies a token. [`verify_cwt`](crate::verify_cwt) is that of [`Small`].
    ///
    /// # Errors
    ///
    /// The key set, the message or the claims are refused, or the externally supplied data is too long. A token that is signed is
    /// [`Error::Signed`].
    fn verify_cwt<'t>(
        keys: &[u8],
        aad: &[u8],
        policy: &Policy<'_>,
        token: &'t [u8],
    ) -> Result<Claims<'t>, Error> {
        let mut claims = raw::Claims::default();
        // SAFETY: each pointer with its length is that of one slice, which is borrowed for the call, that of the policy too; the call
        // keeps none of them, and writes to the struct, which is this function's own.
        unsafe {
            (Self::FUNCTIONS.verify_cwt)(
                keys.as_ptr(),
                keys.len(),
                aad.as_ptr(),
                aad.len(),
                &policy.raw(),
                token.as_ptr(),
                token.len(),
                &mut claims,
            );
        }
        Claims::of(&claims, token)
    }

    /// A header parameter of a message **that is known to be authentic**, by its label. [`parameter`](crate::parameter) is that of
    /// [`Small`].
    #[must_use]
    fn parameter<'m>(
        message: &'m [u8],
        wanted: Wanted,
        bucket: Bucket,
        label: Label<'_>,
    ) -> Option<Item<'m>> {
        let mut item = raw::Item::default();
        let is_protected = u32::from(bucket == Bucket::Protected);
        match label {
            // SAFETY: the pointer with the length is that of one slice, which is borrowed for the call, and the struct is this function's.
            Label::Int(label) => unsafe {
                (Self::FUNCTIONS.parameter)(
                    wanted as u8,
                    message.as_ptr(),
                    message.len(),
                    is_protected,
                    label,
                    &mut item,
                );
            },
            // SAFETY: the same, of two slices.
            Label::Text(name) => unsafe {
                (Self::FUNCTIONS.parameter_named)(
                    wanted as u8,
                    message.as_ptr(),
                    message.len(),
                    is_protected,
                    name.as_ptr(),
                    name.len(),
                    &mut item,
                );
            },
        }
        Item::of(message, item).ok().flatten()
    }

    /// The claims of a payload **that is known to be authentic**, where they are admitted. [`claims`](crate::claims) is that of
    /// [`Small`].
    ///
    /// # Errors
    ///
    /// They are refused.
    fn claims<'t>(payload: &'t [u8], policy: &Policy<'_>) -> Result<Claims<'t>, Error> {
        let mut claims = raw::Claims::default();
        // SAFETY: each pointer with its length is that of one slice, which is borrowed for the call, that of the policy too; the call
        // keeps none of them, and writes to the struct, which is this function's own.
        unsafe {
            (Self::FUNCTIONS.claims)(payload.as_ptr(), payload.len(), &policy.raw(), &mut claims);
        }
        Claims::of(&claims, payload)
    }
}

impl Size for Small {
    type Block = VerifierBlock;
}

impl Size for Large {
    type Block = LargeVerifierBlock;
}
