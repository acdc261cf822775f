//! A table of keys, which are read once.

use crate::block::Memory;
use crate::error::number;
use crate::{raw, Block, Claims, Error, Options, Policy, Verdict};

/// Memory for a [`KeyTable`] or a [`TermsTable`](crate::TermsTable).
pub type TableBlock = Block<16_384>;

/// A key set whose keys are read once, for many messages: at most 64 usable keys. Any number of threads may verify under one table at
/// once. It borrows its memory and the bytes of the set. Its calls have the size [`Small`](crate::Small) alone; a
/// [`Verifier`](crate::Verifier) of either size is opened under it.
///
/// ```
/// use cose::{Block, KeyTable, Options};
///
/// let keys = b"\xa2\x01\x04\x20\x44Jefe";
/// let message = b"\xd1\x84\x43\xa1\x01\x05\xa0\x42hi\x58\x20\
///     \x7d\x81\xe9\x64\xaa\xee\x5f\xbd\x8a\xdf\xb3\xf5\x33\x65\x7a\x9e\
///     \xf9\xf7\x82\xf0\x4b\x91\x87\x7b\x60\x04\x27\x2a\x03\x52\xf9\x60";
/// let mut block = Block::new();
/// let table = KeyTable::read(&mut block, keys)?;
/// assert_eq!(table.usable(), 1);
/// for _ in 0..3 {
///     let verdict = table.verify(&Options::default(), message)?;
///     assert_eq!(verdict.payload_if(|_| false), Some(b"hi".as_slice()));
/// }
/// # Ok::<(), cose::Error>(())
/// ```
#[derive(Debug)]
pub struct KeyTable<'k> {
    // nothing is written to it any more; what is in it leads to the keys, which stay for `'k` too
    block: &'k TableBlock,
    usable: u64,
}

impl<'k> KeyTable<'k> {
    /// Reads a key set.
    ///
    /// # Errors
    ///
    /// The key set is refused, or has more than 64 usable keys.
    pub fn read(block: &'k mut TableBlock, keys: &'k [u8]) -> Result<Self, Error> {
        TableBlock::holds(raw::cose_table_size(), raw::cose_table_align())?;
        // SAFETY: the block has the size and the alignment that the library asks for, and is borrowed, so that it stays where it is.
        unsafe { raw::cose_table_begin(block.at()) };
        let mut handle = raw::Table { at: block.at() };
        let mut key_set = raw::KeySet::default();
        // SAFETY: the block was begun, and the keys, of which it keeps slices, stay as they are while `'k` lasts, so as long as the
        // table.
        unsafe {
            raw::cose_edge_table_read(&mut handle, keys.as_ptr(), keys.len(), &mut key_set);
        }
        if key_set.status != number::COMPLETE {
            return Err(Error::of(key_set.status, key_set.reason, key_set.place));
        }
        Ok(KeyTable::of(block, key_set.usable))
    }

    /// The table of a block that has one, to which nobody writes while `'k` lasts, and of which so many keys are usable.
    pub(crate) fn of(block: &'k TableBlock, usable: u64) -> Self {
        KeyTable { block, usable }
    }

    /// A handle for one call, which only reads the block.
    pub(crate) fn handle(&self) -> raw::Table {
        raw::Table {
            at: self.block.at_to_read().cast_mut(),
        }
    }

    /// How many of the keys are usable.
    #[must_use]
    pub fn usable(&self) -> u64 {
        self.usable
    }

    /// Verifies a message, as [`verify_with`](crate::verify_with) does.
    ///
    /// # Errors
    ///
    /// The message is refused, or the externally supplied data is too long.
    pub fn verify<'m>(
        &self,
        options: &Options<'_>,
        message: &'m [u8],
    ) -> Result<Verdict<'m>, Error> {
        let mut verdict = raw::Verdict::default();
        let mut input = raw::SignInput::BLANK;
        // SAFETY: the block has a table, and nobody writes to it while that borrows it: the call only reads it, as calls of other
        // threads may at the same time, and the handle is this call's own. Each pointer with its length is that of one slice,
        // which is borrowed for the call; the call keeps none of them, and writes to the two structs, which are this function's
        // own.
        unsafe {
            raw::cose_edge_table_verify(
                &self.handle(),
                options.aad.as_ptr(),
                options.aad.len(),
                options.wanted as u8,
                message.as_ptr(),
                message.len(),
                &mut verdict,
                &mut input,
            );
        }
        Verdict::of(&verdict, &input, message)
    }

    /// Verifies a token, as [`verify_cwt`](crate::verify_cwt) does.
    ///
    /// # Errors
    ///
    /// The message or the claims are refused, or the externally supplied data is too long.
    pub fn verify_cwt<'t>(
        &self,
        aad: &[u8],
        policy: &Policy<'_>,
        token: &'t [u8],
    ) -> Result<Claims<'t>, Error> {
        let mut claims = raw::Claims::default();
        // SAFETY: of the block as in `verify`. Each pointer with its length is that of one slice, which is borrowed for the call, that of
        // the policy too; the call keeps none of them, and writes to the struct, which is this function's own.
        unsafe {
            raw::cose_edge_table_verify_cwt(
                &self.handle(),
                aad.as_ptr(),
                aad.len(),
                &policy.raw(),
                token.as_ptr(),
                token.len(),
                &mut claims,
            );
        }
        Claims::of(&claims, token)
    }
}
