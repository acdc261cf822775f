//! Making a `COSE_Sign1` with a signature of the caller's.

use crate::block::Memory;
use crate::error::{number, part};
use crate::{raw, Block, Error, HEAD_ROOM};

/// Memory for a [`Sign1Maker`].
pub type SignerBlock = Block<1_024>;

/// The bytes of the room for a digest.
pub const DIGEST_ROOM: usize = 64;

/// The bytes of the room for what follows the payload of a `COSE_Sign1`.
pub const SIGNATURE_ROOM: usize = 134;

/// An algorithm of signatures ([RFC 9053 section 2.1](https://www.rfc-editor.org/rfc/rfc9053#section-2.1),
/// [RFC 9864 section 2.1](https://www.rfc-editor.org/rfc/rfc9864#section-2.1)).
#[derive(Clone, Copy, Debug, PartialEq, Eq, Hash)]
#[repr(i8)]
pub enum SignatureAlg {
    /// ECDSA with SHA-256.
    Es256 = -7,
    /// ECDSA with SHA-384.
    Es384 = -35,
    /// ECDSA with SHA-512.
    Es512 = -36,
    /// ECDSA on P-256 with SHA-256.
    Esp256 = -9,
    /// ECDSA on P-384 with SHA-384.
    Esp384 = -51,
    /// ECDSA on P-521 with SHA-512.
    Esp512 = -52,
}

/// What a message is made with.
#[derive(Clone, Copy, Debug, PartialEq, Eq)]
pub struct Signing<'a> {
    /// The algorithm.
    pub alg: SignatureAlg,
    /// The key identifier in the unprotected header, of at most 255 bytes; empty for none.
    pub kid: &'a [u8],
    /// The externally supplied data, of at most 65,535 bytes.
    pub aad: &'a [u8],
}

/// What signs a digest: of the shape of `PrehashSigner` of the crate `signature`, on which this one doesn't depend.
///
/// A closure is one too. The signature is r and then s, each as long as a coordinate
/// ([RFC 9053 section 2.1](https://www.rfc-editor.org/rfc/rfc9053#section-2.1)): of `p256`, `p384` and `p521` what `to_bytes` of their
/// `Signature` gives.
pub trait PrehashSigner<S> {
    /// Why a signature isn't made.
    type Error;

    /// The signature of a digest.
    ///
    /// # Errors
    ///
    /// No signature is made.
    fn sign_prehash(&self, digest: &[u8]) -> Result<S, Self::Error>;
}

impl<S, E, F: Fn(&[u8]) -> Result<S, E>> PrehashSigner<S> for F {
    type Error = E;

    fn sign_prehash(&self, digest: &[u8]) -> Result<S, E> {
        self(digest)
    }
}

/// A `COSE_Sign1` that is made while its payload passes by. The message is what [`begin`](Self::begin) returns, the payload, and what
/// [`end`](Self::end) returns.
///
/// ```
/// use cose::{Block, SignatureAlg, Sign1Maker, Signing, DIGEST_ROOM, HEAD_ROOM, SIGNATURE_ROOM};
///
/// let signing = Signing { alg: SignatureAlg::Es256, kid: b"", aad: b"" };
/// let (mut block, mut head, mut tail) = (Block::new(), [0; HEAD_ROOM], [0; SIGNATURE_ROOM]);
/// let (mut maker, head) = Sign1Maker::begin(&mut block, &signing, 2, &mut head)?;
/// let mut message = head.to_vec();
/// for piece in [b"h", b"i"] {
///     assert_eq!(maker.piece(piece), 1);
///     message.extend_from_slice(piece);
/// }
/// let mut room = [0; DIGEST_ROOM];
/// let digest = maker.digest(&mut room)?;
/// assert_eq!(digest.len(), 32);
/// // what a private key makes of the digest
/// let signature = [7; 64];
/// message.extend_from_slice(maker.end(&signature, &mut tail)?);
/// assert_eq!(&message[..12], b"\xd2\x84\x43\xa1\x01\x26\xa0\x42hi\x58\x40");
/// # Ok::<(), cose::Error>(())
/// ```
#[derive(Debug)]
pub struct Sign1Maker<'b> {
    block: &'b mut SignerBlock,
}

impl<'b> Sign1Maker<'b> {
    /// Begins a message whose payload has so many bytes.
    ///
    /// # Errors
    ///
    /// The externally supplied data is too long; or the payload or the key identifier is ([`Error::BadArgument`]).
    pub fn begin<'h>(
        block: &'b mut SignerBlock,
        signing: &Signing<'_>,
        payload_length: u64,
        head: &'h mut [u8; HEAD_ROOM],
    ) -> Result<(Self, &'h [u8]), Error> {
        SignerBlock::holds(raw::cose_signer_size(), raw::cose_signer_align())?;
        // SAFETY: the block has the size and the alignment that the library asks for, and is borrowed, so that it stays where it is.
        unsafe { raw::cose_signer_begin(block.at()) };
        let mut maker = Sign1Maker { block };
        let mut made = raw::Made::default();
        // SAFETY: the block was begun; each pointer with its length is that of one slice, which is borrowed for the call, `head` to be
        // written; the call keeps none of them.
        unsafe {
            raw::cose_edge_make_sign1(
                &mut maker.handle(),
                signing.alg as i32,
                signing.kid.as_ptr(),
                signing.kid.len(),
                signing.aad.as_ptr(),
                signing.aad.len(),
                payload_length,
                head.as_mut_ptr(),
                head.len(),
                &mut made,
            );
        }
        match made.status {
            number::MORE => Ok((maker, part(head, 0, made.length)?)),
            status => Err(Error::of(status, made.reason, 0)),
        }
    }

    fn handle(&mut self) -> raw::Signer {
        raw::Signer {
            at: self.block.at(),
        }
    }

    /// Hashes the next bytes of the payload, and returns how many it used: none after the length that was stated.
    pub fn piece(&mut self, piece: &[u8]) -> usize {
        // SAFETY: the block was begun, and the pointer with the length is that of one slice, of which the call keeps nothing.
        let used = unsafe {
            raw::cose_edge_make_sign1_piece(&mut self.handle(), piece.as_ptr(), piece.len())
        };
        usize::try_from(used).map_or(piece.len(), |used| used.min(piece.len()))
    }

    /// The digest of the `Sig_structure` ([RFC 9052 section 4.4](https://www.rfc-editor.org/rfc/rfc9052#section-4.4)), which is to be
    /// signed.
    ///
    /// # Errors
    ///
    /// Bytes of the payload are missing.
    pub fn digest<'d>(&mut self, room: &'d mut [u8; DIGEST_ROOM]) -> Result<&'d [u8], Error> {
        let mut made = raw::Made::default();
        // SAFETY: the block was begun, and the pointer with the length is that of one slice, which is borrowed for the call.
        unsafe {
            raw::cose_edge_make_sign1_digest(
                &mut self.handle(),
                room.as_mut_ptr(),
                room.len(),
                &mut made,
            );
        }
        match made.status {
            number::COMPLETE => part(room, 0, made.length),
            status => Err(Error::of(status, made.reason, 0)),
        }
    }

    /// Ends the message, and returns what follows the payload. The signature is r and then s, and isn't verified.
    ///
    /// # Errors
    ///
    /// Bytes of the payload are missing, or the signature hasn't the length of those of the algorithm ([`Error::BadArgument`]): another
    /// one may be given then.
    pub fn end<'t>(
        &mut self,
        signature: &[u8],
        tail: &'t mut [u8; SIGNATURE_ROOM],
    ) -> Result<&'t [u8], Error> {
        let mut made = raw::Made::default();
        // SAFETY: the block was begun, and each pointer with its length is that of one slice, which is borrowed for the call.
        unsafe {
            raw::cose_edge_make_sign1_end(
                &mut self.handle(),
                signature.as_ptr(),
                signature.len(),
                tail.as_mut_ptr(),
                tail.len(),
                &mut made,
            );
        }
        match made.status {
            number::COMPLETE => part(tail, 0, made.length),
            status => Err(Error::of(status, made.reason, 0)),
        }
    }

    /// The same with the signature that a signer makes of the digest.
    ///
    /// # Errors
    ///
    /// Those of [`end`](Self::end), and the signer's.
    pub fn end_by<'t, S, P>(
        &mut self,
        signer: &P,
        tail: &'t mut [u8; SIGNATURE_ROOM],
    ) -> Result<&'t [u8], SignError<P::Error>>
    where
        S: AsRef<[u8]>,
        P: PrehashSigner<S>,
    {
        let mut room = [0; DIGEST_ROOM];
        let digest = self.digest(&mut room).map_err(SignError::Message)?;
        let signature = signer.sign_prehash(digest).map_err(SignError::Signer)?;
        self.end(signature.as_ref(), tail)
            .map_err(SignError::Message)
    }
}

/// Why [`Sign1Maker::end_by`] ends no message.
#[derive(Clone, Copy, Debug, PartialEq, Eq)]
pub enum SignError<E> {
    /// Bytes of the payload are missing, or the signature hasn't the length of those of the algorithm.
    Message(Error),
    /// The signer made no signature.
    Signer(E),
}

impl<E: core::fmt::Display> core::fmt::Display for SignError<E> {
    fn fmt(&self, formatter: &mut core::fmt::Formatter<'_>) -> core::fmt::Result {
        match self {
            SignError::Message(error) => error.fmt(formatter),
            SignError::Signer(error) => error.fmt(formatter),
        }
    }
}

impl<E: core::fmt::Debug + core::fmt::Display> core::error::Error for SignError<E> {}
