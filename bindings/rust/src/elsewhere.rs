//! A verifier whose message the caller authenticates.

use core::{fmt, slice};

use crate::verifier::VerifierBlock;
use crate::{raw, Accepted, Curve, Error, Fed, Options, Size, Small, Status, Verifier, Y};

/// What is hashed before the payload
/// ([RFC 9052 sections 4.4 and 6.3](https://www.rfc-editor.org/rfc/rfc9052#section-6.3)).
pub struct FrontPieces<'p> {
    pub(crate) heads: raw::FrontPieces,
    pub(crate) protected: &'p [u8],
    pub(crate) aad: &'p [u8],
}

impl FrontPieces<'_> {
    /// The pieces, in the order in which they are hashed.
    #[must_use]
    pub fn pieces(&self) -> [&[u8]; 6] {
        let it = &self.heads;
        [
            beginning(&it.context, it.context_length),
            beginning(&it.protected_head, it.protected_head_length),
            self.protected,
            beginning(&it.aad_head, it.aad_head_length),
            self.aad,
            beginning(&it.payload_head, it.payload_head_length),
        ]
    }
}

impl fmt::Debug for FrontPieces<'_> {
    /// Writes the pieces.
    fn fmt(&self, formatter: &mut fmt::Formatter<'_>) -> fmt::Result {
        formatter.debug_list().entries(self.pieces()).finish()
    }
}

fn beginning(bytes: &[u8], length: u8) -> &[u8] {
    &bytes[..bytes.len().min(usize::from(length))]
}

/// The material of a key, where it is in the key set.
#[derive(Clone, Copy, Debug, PartialEq, Eq)]
pub enum AskedMaterial<'k> {
    /// The bytes of a symmetric key, or whatever handle stands in their place.
    Symmetric(&'k [u8]),
    /// A point.
    Point {
        /// Its curve.
        curve: Curve,
        /// The coordinate x.
        x: &'k [u8],
        /// The coordinate y.
        y: Y<'k>,
    },
}

/// The key that was chosen for a message.
#[derive(Clone, Copy, Debug, PartialEq, Eq)]
pub struct AskedKey<'k> {
    /// The number of the algorithm that it is used with, as in [`Message`](crate::Message).
    pub alg: i32,
    /// Its identifier.
    pub kid: Option<&'k [u8]>,
    /// Its material.
    pub material: AskedMaterial<'k>,
}

/// The signature of a message, as it was received.
#[derive(Clone, Copy, Debug)]
pub struct AskedSignature {
    length: u64,
    signature: [u8; 132],
    message: u64,
}

impl AskedSignature {
    /// Its bytes: of ECDSA the integers r and s in this order.
    #[must_use]
    pub fn bytes(&self) -> &[u8] {
        let length = usize::try_from(self.length).unwrap_or(self.signature.len());
        &self.signature[..length.min(self.signature.len())]
    }
}

/// A verifier of messages that the caller authenticates, since it has the hash or the key: nothing is hashed here, and the bytes of a
/// symmetric key are not used. [`Verifier::elsewhere`] makes one.
///
/// Feed the message. Once its payload's head was read, hash the pieces of [`front`](Self::front), then the payload, and nothing after,
/// with the key of [`asked_key`](Self::asked_key). Then state what you found: the first verdict stands until [`reset`](Self::reset).
///
/// ```
/// use cose::{AskedMaterial, Block, Options, Status, Verifier};
///
/// // the key set has a handle in the place of the secret
/// let keys = b"\xa2\x01\x04\x20\x41\x07";
/// let message = b"\xd1\x84\x43\xa1\x01\x05\xa0\x42hi\x58\x20\
///     \x7d\x81\xe9\x64\xaa\xee\x5f\xbd\x8a\xdf\xb3\xf5\x33\x65\x7a\x9e\
///     \xf9\xf7\x82\xf0\x4b\x91\x87\x7b\x60\x04\x27\x2a\x03\x52\xf9\x60";
/// let mut block = Block::new();
/// let mut verifier = Verifier::elsewhere(&mut block, keys, &Options::default())?;
/// let fed = verifier.feed(message)?;
/// assert_eq!((fed.payload, fed.status), (b"hi".as_slice(), Status::Complete));
/// let asked = verifier.asked_key()?.unwrap();
/// assert_eq!((asked.alg, asked.material), (5, AskedMaterial::Symmetric(b"\x07")));
/// let mut room = [0; 1_024];
/// let front = verifier.front(&mut room).unwrap();
/// assert_eq!(front.pieces().concat(), b"\x84\x64MAC0\x43\xa1\x01\x05\x40\x42");
/// // a stand-in for what the element with the secret computes of the pieces and the payload
/// let mac = &message[12..];
/// assert!(verifier.verdict_of_mac(&mac[..31]).is_err());
/// assert_eq!(verifier.verdict_of_mac(mac)?.payload_length, 2);
/// assert!(verifier.verdict_of_mac(mac).is_err());
/// # Ok::<(), cose::Error>(())
/// ```
#[derive(Debug)]
pub struct Elsewhere<'k, S: Size = Small> {
    verifier: Verifier<'k, S>,
    aad: &'k [u8],
}

impl<'k> Verifier<'k> {
    /// A verifier of messages that the caller authenticates, in the size [`Small`].
    ///
    /// # Errors
    ///
    /// The key set is refused, or the externally supplied data is too long.
    pub fn elsewhere(
        block: &'k mut VerifierBlock,
        keys: &'k [u8],
        options: &Options<'k>,
    ) -> Result<Elsewhere<'k>, Error> {
        Elsewhere::open(block, keys, options)
    }
}

impl<'k, S: Size> Elsewhere<'k, S> {
    /// One in a size that is named, as in `Elsewhere::<Large>::open`.
    ///
    /// # Errors
    ///
    /// The key set is refused, or the externally supplied data is too long.
    pub fn open(
        block: &'k mut S::Block,
        keys: &'k [u8],
        options: &Options<'k>,
    ) -> Result<Self, Error> {
        let mut verifier = Verifier::begun(block)?;
        let mut status = raw::Status::default();
        // SAFETY: the block was begun; each pointer with its length is that of one slice, and what the block keeps of these slices
        // stays as it is while `'k` lasts, so as long as the verifier.
        unsafe {
            (S::FUNCTIONS.open_elsewhere)(
                &mut verifier.handle(),
                keys.as_ptr(),
                keys.len(),
                options.aad.as_ptr(),
                options.aad.len(),
                options.wanted as u8,
                &mut status,
            );
        }
        Status::of(&status)?;
        Ok(Elsewhere {
            verifier,
            aad: options.aad,
        })
    }

    /// One of messages whose payload is detached and has so many bytes: hash what [`feed_payload`](Self::feed_payload) takes.
    ///
    /// # Errors
    ///
    /// The key set is refused, or the externally supplied data is too long.
    pub fn open_detached(
        block: &'k mut S::Block,
        keys: &'k [u8],
        options: &Options<'k>,
        payload_length: u64,
    ) -> Result<Self, Error> {
        let mut verifier = Verifier::begun(block)?;
        let mut status = raw::Status::default();
        // SAFETY: as in `open`.
        unsafe {
            (S::FUNCTIONS.open_elsewhere_detached)(
                &mut verifier.handle(),
                keys.as_ptr(),
                keys.len(),
                options.aad.as_ptr(),
                options.aad.len(),
                options.wanted as u8,
                payload_length,
                &mut status,
            );
        }
        Status::of(&status)?;
        Ok(Elsewhere {
            verifier,
            aad: options.aad,
        })
    }

    /// As [`Verifier::feed`].
    ///
    /// # Errors
    ///
    /// The message is refused: it is again, until [`reset`](Self::reset).
    pub fn feed<'p>(&mut self, piece: &'p [u8]) -> Result<Fed<'p>, Error> {
        self.verifier.feed(piece)
    }

    /// As [`Verifier::feed_payload`].
    pub fn feed_payload(&mut self, piece: &[u8]) -> usize {
        self.verifier.feed_payload(piece)
    }

    /// As [`Verifier::end`].
    ///
    /// # Errors
    ///
    /// The message is refused: it isn't whole, or was refused before.
    pub fn end(&mut self) -> Result<(), Error> {
        self.verifier.end()
    }

    /// Begins the next message, under the same keys.
    pub fn reset(&mut self) {
        self.verifier.reset();
    }

    /// How many bytes of the message were taken.
    #[must_use]
    pub fn taken(&mut self) -> u64 {
        self.verifier.taken()
    }

    /// What is hashed before the payload: from its head on and until the verdict, where the protected header fits into the room (1,024
    /// bytes, or 65,535 in the size [`Large`](crate::Large), are always enough).
    pub fn front<'p>(&mut self, room: &'p mut [u8]) -> Option<FrontPieces<'p>>
    where
        'k: 'p,
    {
        let mut heads = raw::FrontPieces::BLANK;
        let (into, count) = (room.as_mut_ptr(), room.len());
        // SAFETY: the block was begun, and the pointer with the length is that of one slice, which is borrowed for the call.
        let found = unsafe {
            (S::FUNCTIONS.front_pieces)(&mut self.verifier.handle(), into, count, &mut heads)
        };
        let length = usize::try_from(heads.protected_length).ok()?;
        if found == 0 || length > count {
            return None;
        }
        let (protected, aad) = (&room[..length], self.aad);
        Some(FrontPieces {
            heads,
            protected,
            aad,
        })
    }

    /// The key that was chosen: from the payload's head on and until the verdict.
    ///
    /// # Errors
    ///
    /// The library that is linked isn't that of this crate.
    pub fn asked_key(&mut self) -> Result<Option<AskedKey<'k>>, Error> {
        let mut asked = raw::AskedKey::nothing();
        // SAFETY: the block was begun, and the call writes to the struct alone.
        let found = unsafe { (S::FUNCTIONS.asked_key)(&mut self.verifier.handle(), &mut asked) };
        if found == 0 {
            return Ok(None);
        }
        // SAFETY: the library gives parts of the key set, which stays as it is while `'k` lasts.
        let part = |at, length| unsafe { slice::from_raw_parts::<'k, u8>(at, length) };
        let y = match asked.y_sign {
            0 => Y::Bytes(part(asked.y, asked.y_length)),
            1 => Y::Even,
            _ => Y::Odd,
        };
        let material = if asked.crv == 0 {
            AskedMaterial::Symmetric(part(asked.k, asked.k_length))
        } else {
            AskedMaterial::Point {
                curve: Curve::from_number(asked.crv).ok_or(Error::OtherLibrary)?,
                x: part(asked.x, asked.x_length),
                y,
            }
        };
        Ok(Some(AskedKey {
            alg: asked.alg,
            kid: (asked.has_kid == 1).then(|| part(asked.kid, asked.kid_length)),
            material,
        }))
    }

    /// The signature of a complete `COSE_Sign1`, until the verdict.
    pub fn asked_signature(&mut self) -> Option<AskedSignature> {
        let mut signature = raw::AskedSignature::BLANK;
        let mut handle = self.verifier.handle();
        // SAFETY: the block was begun, and the call writes to the struct alone.
        let found = unsafe { (S::FUNCTIONS.asked_signature)(&mut handle, &mut signature) };
        // SAFETY: the block was begun.
        let message = unsafe { (S::FUNCTIONS.message_number)(&mut handle) };
        (found == 1).then_some(AskedSignature {
            length: signature.length,
            signature: signature.signature,
            message,
        })
    }

    /// The verdict on a complete `COSE_Mac0`, whose tag is compared with this MAC, in steps that don't depend on where they differ.
    ///
    /// # Errors
    ///
    /// The message is refused, or isn't complete; or no such MAC is asked for: of a `COSE_Sign1`, of another length, or after a verdict.
    pub fn verdict_of_mac(&mut self, mac: &[u8]) -> Result<Accepted, Error> {
        let mut verdict = raw::Verdict::default();
        // SAFETY: the block was begun, and the pointer with the length is that of one slice, of which the call keeps nothing.
        unsafe {
            (S::FUNCTIONS.verdict_of_mac)(
                &mut self.verifier.handle(),
                mac.as_ptr(),
                mac.len(),
                &mut verdict,
            );
        }
        Accepted::of(&verdict)
    }

    /// The verdict on a complete `COSE_Sign1`, whose signature, which was asked for, holds or doesn't.
    ///
    /// # Errors
    ///
    /// The message is refused, or isn't complete; or no such answer is asked for: the signature is that of another message, or there was a
    /// verdict.
    pub fn verdict_of_answer(
        &mut self,
        asked: &AskedSignature,
        holds: bool,
    ) -> Result<Accepted, Error> {
        let mut verdict = raw::Verdict::default();
        let mut handle = self.verifier.handle();
        // SAFETY: the block was begun, and the call writes to the struct alone.
        unsafe {
            (S::FUNCTIONS.verdict_of_answer)(
                &mut handle,
                asked.message,
                i32::from(holds),
                &mut verdict,
            );
        }
        Accepted::of(&verdict)
    }
}

impl raw::FrontPieces {
    pub(crate) const BLANK: Self = raw::FrontPieces {
        protected_length: 0,
        context_length: 0,
        protected_head_length: 0,
        aad_head_length: 0,
        payload_head_length: 0,
        context: [0; 12],
        protected_head: [0; 9],
        aad_head: [0; 9],
        payload_head: [0; 9],
    };
}

impl raw::AskedSignature {
    const BLANK: Self = raw::AskedSignature {
        length: 0,
        signature: [0; 132],
    };
}

impl raw::AskedKey {
    /// Room for a key. Each pointer is that of an empty slice.
    fn nothing() -> Self {
        let at = [].as_ptr();
        raw::AskedKey {
            alg: 0,
            crv: 0,
            y_sign: 0,
            has_kid: 0,
            kid: at,
            kid_length: 0,
            k: at,
            k_length: 0,
            x: at,
            x_length: 0,
            y: at,
            y_length: 0,
        }
    }
}
