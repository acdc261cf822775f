//! Making a `COSE_Mac0`.

use crate::block::Memory;
use crate::error::{number, part};
use crate::{raw, Block, Error};

/// Memory for a [`Maker`].
pub type MakerBlock = Block<1_024>;

/// The bytes of the room for what precedes the payload.
pub const HEAD_ROOM: usize = 384;

/// The bytes of the room for what follows it.
pub const TAIL_ROOM: usize = 70;

/// An algorithm of MACs ([RFC 9053 section 3.1](https://www.rfc-editor.org/rfc/rfc9053#section-3.1)).
#[derive(Clone, Copy, Debug, PartialEq, Eq, Hash)]
#[repr(u8)]
pub enum MacAlg {
    /// HMAC 256/64.
    Hmac256Of64 = 4,
    /// HMAC 256/256.
    Hmac256 = 5,
    /// HMAC 384/384.
    Hmac384 = 6,
    /// HMAC 512/512.
    Hmac512 = 7,
}

/// What a message is made under.
#[derive(Clone, Copy, Debug, PartialEq, Eq)]
pub struct Making<'a> {
    /// The algorithm.
    pub alg: MacAlg,
    /// The key identifier in the unprotected header, of at most 255 bytes; empty for none.
    pub kid: &'a [u8],
    /// The externally supplied data, of at most 65,535 bytes.
    pub aad: &'a [u8],
}

/// A `COSE_Mac0` that is made while its payload passes by. The message is what [`begin`](Self::begin) returns, the payload, and what
/// [`end`](Self::end) returns.
///
/// ```
/// use cose::{Block, MacAlg, Maker, Making, HEAD_ROOM, TAIL_ROOM};
///
/// let key = b"\xa2\x01\x04\x20\x44Jefe";
/// let making = Making { alg: MacAlg::Hmac256, kid: b"", aad: b"" };
/// let (mut block, mut head, mut tail) = (Block::new(), [0; HEAD_ROOM], [0; TAIL_ROOM]);
/// let (mut maker, head) = Maker::begin(&mut block, key, &making, 2, &mut head)?;
/// let mut message = head.to_vec();
/// for piece in [b"h", b"i"] {
///     assert_eq!(maker.piece(piece), 1);
///     message.extend_from_slice(piece);
/// }
/// message.extend_from_slice(maker.end(&mut tail)?);
/// assert_eq!(&message[..12], b"\xd1\x84\x43\xa1\x01\x05\xa0\x42hi\x58\x20");
/// assert!(cose::verify(key, &message).is_ok());
/// # Ok::<(), cose::Error>(())
/// ```
#[derive(Debug)]
pub struct Maker<'b> {
    block: &'b mut MakerBlock,
}

impl<'b> Maker<'b> {
    /// Begins a message whose payload has so many bytes. `key` is one symmetric `COSE_Key`.
    ///
    /// # Errors
    ///
    /// The key is refused, or doesn't make MACs by the algorithm ([`Error::WrongKey`]); the externally supplied data is too long; or
    /// the payload or the key identifier is ([`Error::BadArgument`]).
    pub fn begin<'h>(
        block: &'b mut MakerBlock,
        key: &[u8],
        making: &Making<'_>,
        payload_length: u64,
        head: &'h mut [u8; HEAD_ROOM],
    ) -> Result<(Self, &'h [u8]), Error> {
        MakerBlock::holds(raw::cose_maker_size(), raw::cose_maker_align())?;
        // SAFETY: the block has the size and the alignment that the library asks for, and is borrowed, so that it stays where it is.
        unsafe { raw::cose_maker_begin(block.at()) };
        let mut maker = Maker { block };
        let mut made = raw::Made::default();
        // SAFETY: the block was begun; each pointer with its length is that of one slice, which is borrowed for the call, `head` to be
        // written; the call keeps none of them.
        unsafe {
            raw::cose_edge_make(
                &mut maker.handle(),
                making.alg as i32,
                key.as_ptr(),
                key.len(),
                making.kid.as_ptr(),
                making.kid.len(),
                making.aad.as_ptr(),
                making.aad.len(),
                payload_length,
                head.as_mut_ptr(),
                head.len(),
                &mut made,
            );
        }
        match made.status {
            number::MORE => Ok((maker, part(head, 0, made.length)?)),
            status => Err(Error::of(status, made.reason, 0)),
        }
    }

    fn handle(&mut self) -> raw::Maker {
        raw::Maker {
            at: self.block.at(),
        }
    }

    /// Hashes the next bytes of the payload, and returns how many it used: none after the length that was stated.
    pub fn piece(&mut self, piece: &[u8]) -> usize {
        // SAFETY: the block was begun, and the pointer with the length is that of one slice, of which the call keeps nothing.
        let used =
            unsafe { raw::cose_edge_make_piece(&mut self.handle(), piece.as_ptr(), piece.len()) };
        usize::try_from(used).map_or(piece.len(), |used| used.min(piece.len()))
    }

    /// Ends the message, and returns what follows the payload. Without that what was begun is no message.
    ///
    /// # Errors
    ///
    /// Bytes of the payload are missing.
    pub fn end(mut self, tail: &mut [u8; TAIL_ROOM]) -> Result<&[u8], Error> {
        let mut made = raw::Made::default();
        // SAFETY: the block was begun, and the pointer with the length is that of one slice, which is borrowed for the call.
        unsafe {
            raw::cose_edge_make_end(&mut self.handle(), tail.as_mut_ptr(), tail.len(), &mut made);
        }
        match made.status {
            number::COMPLETE => part(tail, 0, made.length),
            status => Err(Error::of(status, made.reason, 0)),
        }
    }
}
