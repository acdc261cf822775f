//! Keys that terms permit, which are read once.

use crate::block::Memory;
use crate::error::number;
use crate::terms::admitted;
use crate::{raw, Claims, Error, KeyTable, NotAdmitted, Requirements, TableBlock, Terms, Verdict};

/// The keys of [`Terms`] that they permit, read once for many messages, and what the terms state besides: at most 64 keys. Any number
/// of threads may verify under one table at once. It borrows its memory, the keys and the external data, and has the size
/// [`Small`](crate::Small) alone.
///
/// ```
/// use cose::{Block, Reason, Terms, TermsTable};
///
/// // a secret that names HMAC 256/256
/// let keys = b"\xa3\x01\x04\x03\x05\x20\x44Jefe";
/// let message = b"\xd1\x84\x43\xa1\x01\x05\xa0\x42hi\x58\x20\
///     \x7d\x81\xe9\x64\xaa\xee\x5f\xbd\x8a\xdf\xb3\xf5\x33\x65\x7a\x9e\
///     \xf9\xf7\x82\xf0\x4b\x91\x87\x7b\x60\x04\x27\x2a\x03\x52\xf9\x60";
/// let mut block = Block::new();
/// let terms = Terms { keys, ..Terms::default() };
/// let table = TermsTable::read(&mut block, &terms)?;
/// assert_eq!(table.usable(), 1);
/// for _ in 0..3 {
///     let verdict = table.authenticate(message)?;
///     assert_eq!(verdict.payload_if(|_| false), Some(b"hi".as_slice()));
/// }
///
/// // one that is shorter than the terms allow is no key of the table
/// let table = TermsTable::read(&mut block, &Terms { least_secret: 5, ..terms })?;
/// assert_eq!(table.usable(), 0);
/// assert_eq!(table.authenticate(message).unwrap_err().reason(), Some(Reason::NoKey));
/// # Ok::<(), cose::Error>(())
/// ```
#[derive(Debug)]
pub struct TermsTable<'k> {
    // nothing is written to it any more; what is in it leads to the keys and to the external data, which stay for `'k` too
    block: &'k TableBlock,
    usable: u64,
}

impl<'k> TermsTable<'k> {
    /// Reads the keys that the terms permit.
    ///
    /// # Errors
    ///
    /// The key set is refused, the terms permit more than 64 of its keys, or they are out of their range.
    pub fn read(block: &'k mut TableBlock, terms: &Terms<'k>) -> Result<Self, Error> {
        TableBlock::holds(raw::cose_table_size(), raw::cose_table_align())?;
        let terms = terms.raw()?;
        // SAFETY: the block has the size and the alignment that the library asks for, and is borrowed, so that it stays where it is.
        unsafe { raw::cose_table_begin(block.at()) };
        let mut handle = raw::Table { at: block.at() };
        let mut key_set = raw::KeySet::default();
        // SAFETY: the block was begun, and the keys and the external data, of which it keeps slices, stay as they are while `'k`
        // lasts, so as long as the table. The struct of terms is copied.
        unsafe { raw::cose_edge_table_read_under(&mut handle, &terms, &mut key_set) };
        if key_set.status != number::COMPLETE {
            return Err(Error::of(key_set.status, key_set.reason, key_set.place));
        }
        let usable = key_set.usable;
        Ok(TermsTable { block, usable })
    }

    /// A handle for one call, which only reads the block.
    fn handle(&self) -> raw::Table {
        raw::Table {
            at: self.block.at_to_read().cast_mut(),
        }
    }

    /// How many keys are usable and permitted.
    #[must_use]
    pub fn usable(&self) -> u64 {
        self.usable
    }

    /// The keys that are permitted, alone: whatever the terms state besides, as their external data or the most bytes of a payload,
    /// doesn't count for what is verified under them. For a [`Verifier`](crate::Verifier) that is opened under a table.
    #[must_use]
    pub fn keys(&self) -> KeyTable<'k> {
        KeyTable::of(self.block, self.usable)
    }

    /// Verifies a message under the table's terms, as [`authenticate`](crate::authenticate) does.
    ///
    /// # Errors
    ///
    /// The message is refused.
    pub fn authenticate<'m>(&self, message: &'m [u8]) -> Result<Verdict<'m>, Error> {
        let mut verdict = raw::Verdict::default();
        let mut input = raw::SignInput::BLANK;
        // SAFETY: the block has a table, and nobody writes to it while that borrows it: the call only reads it, as calls of other
        // threads may at the same time, and the handle is this call's own. The pointer with its length is that of one slice,
        // which is borrowed for the call; the call doesn't keep it, and writes to the two structs, which are this function's own.
        unsafe {
            raw::cose_edge_table_authenticate(
                &self.handle(),
                message.as_ptr(),
                message.len(),
                &mut verdict,
                &mut input,
            );
        }
        Verdict::of(&verdict, &input, message)
    }

    /// Verifies a token whose message is a `COSE_Mac0` under the table's terms, and returns its claims where they meet the
    /// requirements, as [`admit`](crate::admit) does. One that is signed is [`Error::Signed`]: pass it to
    /// [`authenticate`](TermsTable::authenticate), and its payload, if the signature is good, to
    /// [`admit_claims`](crate::admit_claims).
    ///
    /// # Errors
    ///
    /// The message or the claims are refused, a requirement isn't met, or is out of its range.
    pub fn admit<'t>(
        &self,
        requirements: &Requirements<'_>,
        token: &'t [u8],
    ) -> Result<Claims<'t>, NotAdmitted> {
        let requirements = requirements.raw()?;
        let mut claims = raw::Claims::default();
        // SAFETY: of the block as in `authenticate`. Each pointer with its length is that of one slice, which is borrowed for the call,
        // those of the requirements too; the call keeps none of them, and writes to the struct of claims, which is this function's own.
        unsafe {
            raw::cose_edge_table_admit(
                &self.handle(),
                &requirements,
                token.as_ptr(),
                token.len(),
                &mut claims,
            );
        }
        admitted(&claims, token)
    }
}
