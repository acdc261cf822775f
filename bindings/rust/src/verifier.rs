//! A verifier that is fed.

use crate::block::Memory;
use crate::error::{number, part};
use crate::{
    raw, Block, Bucket, Error, Item, KeyTable, Kind, Label, Options, SignInput, Size, Small, Terms,
};

/// Memory for a [`Verifier`].
pub type VerifierBlock = Block<4_096>;

/// Memory for a [`Verifier`] in the size [`Large`](crate::Large): 132 KiB, which may be on the heap.
///
/// ```
/// let block = Box::<cose::LargeVerifierBlock>::default();
/// assert_eq!(size_of_val(&*block), 132 * 1_024);
/// ```
pub type LargeVerifierBlock = Block<135_168>;

/// The status of a message that isn't refused.
#[derive(Clone, Copy, Debug, PartialEq, Eq, Hash)]
pub enum Status {
    /// Further bytes of the message are wanted.
    More,
    /// Bytes of a detached payload are wanted.
    PayloadNext,
    /// All bytes are there: ask for the verdict.
    Complete,
}

impl Status {
    pub(crate) fn of(status: &raw::Status) -> Result<Self, Error> {
        match status.number {
            number::MORE => Ok(Status::More),
            number::PAYLOAD_NEXT => Ok(Status::PayloadNext),
            number::COMPLETE => Ok(Status::Complete),
            refused => Err(Error::of(refused, status.reason, status.place)),
        }
    }
}

/// What came of a piece.
#[derive(Clone, Copy, Debug, PartialEq, Eq)]
#[must_use]
pub struct Fed<'p> {
    /// How many bytes of the piece were used. The others aren't of the message, or follow a detached payload.
    pub used: usize,
    /// Those of the payload. **They aren't authentic** until there is a verdict.
    pub payload: &'p [u8],
    /// The status of the message.
    pub status: Status,
}

/// A message that was fed, and is authentic.
#[derive(Clone, Copy, Debug, PartialEq, Eq)]
pub struct Accepted {
    /// Its kind.
    pub kind: Kind,
    /// The number of its algorithm, as in [`Message`](crate::Message).
    pub alg: i32,
    /// How many bytes its payload has.
    pub payload_length: u64,
    /// How many bytes it has.
    pub taken: u64,
}

impl Accepted {
    pub(crate) fn of(verdict: &raw::Verdict) -> Result<Self, Error> {
        match verdict.status {
            number::AUTHENTIC => Ok(Accepted {
                kind: Kind::from_number(verdict.kind)?,
                alg: verdict.alg,
                payload_length: verdict.payload_length,
                taken: verdict.taken,
            }),
            status => Err(Error::of(status, verdict.reason, verdict.place)),
        }
    }
}

/// A verifier of one message after another, which takes a message in pieces of any lengths and holds at most 2,560 bytes of it, and
/// 131,582 in the size [`Large`](crate::Large). It borrows its memory, the keys and the externally supplied data.
///
/// ```
/// use cose::{Block, Options, Status, Verifier};
///
/// let keys = b"\xa2\x01\x04\x20\x44Jefe";
/// let message = b"\xd1\x84\x43\xa1\x01\x05\xa0\x42hi\x58\x20\
///     \x7d\x81\xe9\x64\xaa\xee\x5f\xbd\x8a\xdf\xb3\xf5\x33\x65\x7a\x9e\
///     \xf9\xf7\x82\xf0\x4b\x91\x87\x7b\x60\x04\x27\x2a\x03\x52\xf9\x60";
/// let mut block = Block::new();
/// let mut verifier = Verifier::new(&mut block, keys, &Options::default())?;
/// let mut payload = Vec::new();
/// for piece in message.chunks(5) {
///     let fed = verifier.feed(piece)?;
///     payload.extend_from_slice(fed.payload);
/// }
/// assert_eq!(verifier.status(), Ok(Status::Complete));
/// // no function says that a signature is good, so a COSE_Sign1 is refused
/// let found = verifier.verdict(|_| false)?;
/// assert_eq!((found.alg, found.taken, payload.as_slice()), (5, 44, b"hi".as_slice()));
/// verifier.reset();
/// # Ok::<(), cose::Error>(())
/// ```
///
/// The keys can't go while the verifier is used, and the block can't move:
///
/// ```compile_fail,E0597
/// # use cose::{Block, Options, Verifier};
/// let mut block = Block::new();
/// let mut verifier = {
///     let keys = b"\xa2\x01\x04\x20\x44Jefe".to_vec();
///     Verifier::new(&mut block, &keys, &Options::default()).unwrap()
/// };
/// verifier.reset();
/// ```
///
/// ```compile_fail,E0505
/// # use cose::{Block, Options, Verifier};
/// let mut block = Block::new();
/// let mut verifier = Verifier::new(&mut block, b"\xa0", &Options::default()).unwrap();
/// let moved = block;
/// verifier.reset();
/// ```
///
/// The function that [`verdict`](Self::verdict) asks can't put another message into the place of the one that it is asked about:
///
/// ```compile_fail,E0499
/// # use cose::{Block, Options, Verifier};
/// let mut block = Block::new();
/// let mut verifier = Verifier::new(&mut block, b"\xa0", &Options::default()).unwrap();
/// let verdict = verifier.verdict(|_| {
///     verifier.reset();
///     true
/// });
/// ```
#[derive(Debug)]
pub struct Verifier<'k, S: Size = Small> {
    // what is in it leads to the keys or to the block of a table, and to the externally supplied data, which stay for `'k` too
    block: &'k mut S::Block,
}

impl<'k> Verifier<'k> {
    /// A verifier of messages that have their payload, in the size [`Small`]. [`open`](Self::open) makes one of a size that is named.
    ///
    /// # Errors
    ///
    /// The key set is refused, or the externally supplied data is too long.
    pub fn new(
        block: &'k mut VerifierBlock,
        keys: &'k [u8],
        options: &Options<'k>,
    ) -> Result<Self, Error> {
        Self::open(block, keys, options)
    }

    /// A verifier under terms, in the size [`Small`]: [`open_under`](Self::open_under).
    ///
    /// # Errors
    ///
    /// As [`open_under`](Self::open_under).
    pub fn under(block: &'k mut VerifierBlock, terms: &Terms<'k>) -> Result<Self, Error> {
        Self::open_under(block, terms)
    }

    /// A verifier under the keys of a table, in the size [`Small`]: [`open_under_table`](Self::open_under_table).
    ///
    /// # Errors
    ///
    /// The externally supplied data is too long.
    pub fn under_table(
        block: &'k mut VerifierBlock,
        table: &KeyTable<'k>,
        options: &Options<'k>,
    ) -> Result<Self, Error> {
        Self::open_under_table(block, table, options)
    }

    /// A verifier of messages that have nil for their payload, which is detached and has so many bytes. Where [`feed`](Self::feed)
    /// answers [`Status::PayloadNext`], they are passed to [`feed_payload`](Self::feed_payload), and then the rest of the message to
    /// `feed`.
    ///
    /// # Errors
    ///
    /// The key set is refused, or the externally supplied data is too long.
    ///
    /// ```
    /// use cose::{Block, Options, Status, Verifier};
    ///
    /// let keys = b"\xa2\x01\x04\x20\x44Jefe";
    /// let message = b"\xd1\x84\x43\xa1\x01\x05\xa0\xf6\x58\x20\
    ///     \x7d\x81\xe9\x64\xaa\xee\x5f\xbd\x8a\xdf\xb3\xf5\x33\x65\x7a\x9e\
    ///     \xf9\xf7\x82\xf0\x4b\x91\x87\x7b\x60\x04\x27\x2a\x03\x52\xf9\x60";
    /// let image = b"hi";
    /// let mut block = Block::new();
    /// let mut verifier = Verifier::detached(&mut block, keys, &Options::default(), 2)?;
    /// let fed = verifier.feed(message)?;
    /// assert_eq!((fed.used, fed.status), (8, Status::PayloadNext));
    /// assert_eq!((verifier.feed_payload(image), verifier.payload_wanted()), (2, 0));
    /// let rest = &message[fed.used..];
    /// assert_eq!(verifier.feed(rest)?.used, rest.len());
    /// assert_eq!(verifier.verdict(|_| false)?.payload_length, 2);
    /// # Ok::<(), cose::Error>(())
    /// ```
    pub fn detached(
        block: &'k mut VerifierBlock,
        keys: &'k [u8],
        options: &Options<'k>,
        payload_length: u64,
    ) -> Result<Self, Error> {
        Self::open_detached(block, keys, options, payload_length)
    }
}

impl<'k, S: Size> Verifier<'k, S> {
    /// A verifier of messages that have their payload, in a size that is named, as in `Verifier::<Large>::open`.
    ///
    /// # Errors
    ///
    /// The key set is refused, or the externally supplied data is too long.
    pub fn open(
        block: &'k mut S::Block,
        keys: &'k [u8],
        options: &Options<'k>,
    ) -> Result<Self, Error> {
        let mut verifier = Self::begun(block)?;
        let mut status = raw::Status::default();
        // SAFETY: the block was begun; each pointer with its length is that of one slice, and what the block keeps of these slices
        // stays as it is while `'k` lasts, so as long as the verifier.
        unsafe {
            (S::FUNCTIONS.open)(
                &mut verifier.handle(),
                keys.as_ptr(),
                keys.len(),
                options.aad.as_ptr(),
                options.aad.len(),
                options.wanted as u8,
                &mut status,
            );
        }
        Status::of(&status).map(|_| verifier)
    }

    /// A verifier of messages whose payload is detached and has so many bytes, as [`detached`](Verifier::detached) makes one.
    ///
    /// # Errors
    ///
    /// The key set is refused, or the externally supplied data is too long.
    pub fn open_detached(
        block: &'k mut S::Block,
        keys: &'k [u8],
        options: &Options<'k>,
        payload_length: u64,
    ) -> Result<Self, Error> {
        let mut verifier = Self::begun(block)?;
        let mut status = raw::Status::default();
        // SAFETY: the block was begun; each pointer with its length is that of one slice, and what the block keeps of these slices
        // stays as it is while `'k` lasts, so as long as the verifier.
        unsafe {
            (S::FUNCTIONS.open_detached)(
                &mut verifier.handle(),
                keys.as_ptr(),
                keys.len(),
                options.aad.as_ptr(),
                options.aad.len(),
                options.wanted as u8,
                payload_length,
                &mut status,
            );
        }
        Status::of(&status).map(|_| verifier)
    }

    /// A verifier under [`Terms`], whose defaults are safe, as [`authenticate`](crate::authenticate) takes them.
    ///
    /// # Errors
    ///
    /// The key set is refused, the externally supplied data is too long, or the terms are out of their range: no label is understood in
    /// addition to those of RFC 9052.
    ///
    /// ```
    /// use cose::{Block, Reason, Terms, Verifier};
    ///
    /// let keys = b"\xa2\x01\x04\x20\x44Jefe"; // it names no algorithm
    /// let terms = Terms { keys, without_alg: true, short_mac: true, ..Terms::default() };
    /// let message = b"\xd1\x84\x43\xa1\x01\x05\xa0\x42hi\x58\x20\
    ///     \x7d\x81\xe9\x64\xaa\xee\x5f\xbd\x8a\xdf\xb3\xf5\x33\x65\x7a\x9e\
    ///     \xf9\xf7\x82\xf0\x4b\x91\x87\x7b\x60\x04\x27\x2a\x03\x52\xf9\x60";
    /// let mut block = Block::new();
    /// let mut verifier = Verifier::under(&mut block, &terms)?;
    /// assert_eq!(verifier.feed(message)?.payload, b"hi");
    /// assert!(verifier.verdict(|_| false).is_ok());
    ///
    /// let strict = Terms { keys, ..Terms::default() };
    /// let mut block = Block::new();
    /// let error = Verifier::under(&mut block, &strict)?.feed(message).unwrap_err();
    /// assert_eq!(error.reason(), Some(Reason::NoKey));
    /// # Ok::<(), cose::Error>(())
    /// ```
    pub fn open_under(block: &'k mut S::Block, terms: &Terms<'k>) -> Result<Self, Error> {
        let raw = terms.raw()?;
        let mut verifier = Self::begun(block)?;
        let mut status = raw::Status::default();
        // SAFETY: the block was begun; each pointer of the terms with its length is that of one slice, and what the block keeps of these
        // slices stays as it is while `'k` lasts, so as long as the verifier.
        unsafe { (S::FUNCTIONS.open_under)(&mut verifier.handle(), &raw, &mut status) };
        Status::of(&status).map(|_| verifier)
    }

    /// The same of messages whose payload is detached and has so many bytes, as [`detached`](Verifier::detached) takes them.
    ///
    /// # Errors
    ///
    /// As [`open_under`](Self::open_under).
    pub fn open_under_detached(
        block: &'k mut S::Block,
        terms: &Terms<'k>,
        payload_length: u64,
    ) -> Result<Self, Error> {
        let raw = terms.raw()?;
        let mut verifier = Self::begun(block)?;
        let mut status = raw::Status::default();
        // SAFETY: as in `open_under`.
        unsafe {
            (S::FUNCTIONS.open_under_detached)(
                &mut verifier.handle(),
                &raw,
                payload_length,
                &mut status,
            );
        }
        Status::of(&status).map(|_| verifier)
    }

    /// A verifier under the keys of a [`KeyTable`], which were read once, for any number of verifiers in any number of threads.
    /// [`TermsTable::keys`](crate::TermsTable::keys) are those that terms permit.
    ///
    /// # Errors
    ///
    /// The externally supplied data is too long.
    ///
    /// ```
    /// use cose::{Block, KeyTable, Options, Verifier};
    ///
    /// let message = b"\xd1\x84\x43\xa1\x01\x05\xa0\x42hi\x58\x20\
    ///     \x7d\x81\xe9\x64\xaa\xee\x5f\xbd\x8a\xdf\xb3\xf5\x33\x65\x7a\x9e\
    ///     \xf9\xf7\x82\xf0\x4b\x91\x87\x7b\x60\x04\x27\x2a\x03\x52\xf9\x60";
    /// let mut table_block = Block::new();
    /// let table = KeyTable::read(&mut table_block, b"\xa2\x01\x04\x20\x44Jefe")?;
    /// let (mut one, mut other) = (Block::new(), Block::new());
    /// for block in [&mut one, &mut other] {
    ///     let mut verifier = Verifier::under_table(block, &table, &Options::default())?;
    ///     assert_eq!(verifier.feed(message)?.payload, b"hi");
    ///     assert!(verifier.verdict(|_| false).is_ok());
    /// }
    /// # Ok::<(), cose::Error>(())
    /// ```
    ///
    /// The table's memory can't go while a verifier under it is used, and no other keys are read into it:
    ///
    /// ```compile_fail,E0597
    /// # use cose::{Block, KeyTable, Options, Verifier};
    /// let mut block = Block::new();
    /// let mut verifier = {
    ///     let mut table_block = Block::new();
    ///     let table = KeyTable::read(&mut table_block, b"\xa0").unwrap();
    ///     Verifier::under_table(&mut block, &table, &Options::default()).unwrap()
    /// };
    /// verifier.reset();
    /// ```
    ///
    /// ```compile_fail,E0499
    /// # use cose::{Block, KeyTable, Options, Verifier};
    /// let (mut block, mut table_block) = (Block::new(), Block::new());
    /// let table = KeyTable::read(&mut table_block, b"\xa0").unwrap();
    /// let mut verifier = Verifier::under_table(&mut block, &table, &Options::default()).unwrap();
    /// let table = KeyTable::read(&mut table_block, b"\xa0").unwrap();
    /// verifier.reset();
    /// ```
    pub fn open_under_table(
        block: &'k mut S::Block,
        table: &KeyTable<'k>,
        options: &Options<'k>,
    ) -> Result<Self, Error> {
        let mut verifier = Self::begun(block)?;
        let mut status = raw::Status::default();
        // SAFETY: the block was begun, and that of the table has one, which is only read, as other threads may at the same time. Nobody
        // writes to it, to its keys or to the external data while `'k` lasts, so as long as the verifier, whose block leads to them. The
        // pointer with its length is that of one slice, and the handles are this call's own.
        unsafe {
            (S::FUNCTIONS.open_table)(
                &mut verifier.handle(),
                &table.handle(),
                options.aad.as_ptr(),
                options.aad.len(),
                options.wanted as u8,
                &mut status,
            );
        }
        Status::of(&status).map(|_| verifier)
    }

    /// The same of messages whose payload is detached and has so many bytes, as [`detached`](Verifier::detached) takes them.
    ///
    /// # Errors
    ///
    /// The externally supplied data is too long.
    pub fn open_under_table_detached(
        block: &'k mut S::Block,
        table: &KeyTable<'k>,
        options: &Options<'k>,
        payload_length: u64,
    ) -> Result<Self, Error> {
        let mut verifier = Self::begun(block)?;
        let mut status = raw::Status::default();
        // SAFETY: as in `open_under_table`.
        unsafe {
            (S::FUNCTIONS.open_table_detached)(
                &mut verifier.handle(),
                &table.handle(),
                options.aad.as_ptr(),
                options.aad.len(),
                options.wanted as u8,
                payload_length,
                &mut status,
            );
        }
        Status::of(&status).map(|_| verifier)
    }

    /// A verifier that has no keys yet.
    pub(crate) fn begun(block: &'k mut S::Block) -> Result<Self, Error> {
        S::Block::holds((S::FUNCTIONS.size)(), (S::FUNCTIONS.align)())?;
        // SAFETY: the block has the size and the alignment that the library asks for, and is borrowed, so that it stays where it is.
        unsafe { (S::FUNCTIONS.begin)(block.at()) };
        Ok(Verifier { block })
    }

    pub(crate) fn handle(&mut self) -> S::Handle {
        self.block.at().into()
    }

    /// Takes the next bytes of the message: none after its end, and where the payload is detached, none after its nil until
    /// [`feed_payload`](Self::feed_payload) took the payload.
    ///
    /// # Errors
    ///
    /// The message is refused: it is again, until [`reset`](Self::reset).
    pub fn feed<'p>(&mut self, piece: &'p [u8]) -> Result<Fed<'p>, Error> {
        let mut fed = raw::Fed::default();
        // SAFETY: the block was begun, and the pointer with the length is that of one slice, of which the call keeps nothing.
        unsafe {
            (S::FUNCTIONS.feed)(&mut self.handle(), piece.as_ptr(), piece.len(), &mut fed);
        }
        let status = Status::of(&fed.status)?;
        Ok(Fed {
            used: part(piece, 0, fed.used)?.len(),
            payload: part(piece, fed.payload_at, fed.payload_length)?,
            status,
        })
    }

    /// Takes the next bytes of a detached payload, and returns how many it used: none that follow it.
    pub fn feed_payload(&mut self, piece: &[u8]) -> usize {
        // SAFETY: the block was begun, and the pointer with the length is that of one slice, of which the call keeps nothing.
        let used =
            unsafe { (S::FUNCTIONS.feed_payload)(&mut self.handle(), piece.as_ptr(), piece.len()) };
        usize::try_from(used).map_or(piece.len(), |used| used.min(piece.len()))
    }

    /// The status.
    ///
    /// # Errors
    ///
    /// The message is refused.
    pub fn status(&mut self) -> Result<Status, Error> {
        self.feed(&[]).map(|fed| fed.status)
    }

    /// Says that no byte follows.
    ///
    /// # Errors
    ///
    /// The message is refused: it isn't whole ([`Reason::Truncated`](crate::Reason::Truncated)), or was refused before.
    pub fn end(&mut self) -> Result<(), Error> {
        let mut status = raw::Status::default();
        // SAFETY: the block was begun.
        unsafe { (S::FUNCTIONS.end)(&mut self.handle(), &mut status) };
        match Status::of(&status)? {
            Status::Complete => Ok(()),
            Status::More | Status::PayloadNext => Err(Error::Incomplete),
        }
    }

    /// What the signature of a complete `COSE_Sign1` is verified with, for a caller that can't do so at once.
    ///
    /// # Errors
    ///
    /// The library that is linked isn't that of this crate.
    pub fn sign_input(&mut self) -> Result<Option<SignInput>, Error> {
        let mut input = raw::SignInput::BLANK;
        // SAFETY: the block was begun, and the call writes to the struct alone.
        let found = unsafe { (S::FUNCTIONS.sign_input)(&mut self.handle(), &mut input) };
        (found == 1).then(|| SignInput::of(&input)).transpose()
    }

    /// The verdict on a complete message. The function is asked whether a signature is good, and not at all about a `COSE_Mac0`. The
    /// same verdict is given again until [`reset`](Self::reset).
    ///
    /// # Errors
    ///
    /// The message is refused, or isn't complete.
    pub fn verdict(&mut self, is_good: impl FnOnce(&SignInput) -> bool) -> Result<Accepted, Error> {
        let good = self.sign_input()?.is_some_and(|input| is_good(&input));
        let mut verdict = raw::Verdict::default();
        // SAFETY: the block was begun, and the call writes to the struct alone.
        unsafe { (S::FUNCTIONS.verdict)(&mut self.handle(), i32::from(good), &mut verdict) };
        Accepted::of(&verdict)
    }

    /// A header parameter of the message so far, by its label, which is copied into the room. Nothing of it is authentic before the
    /// verdict, nor of [`Bucket::Unprotected`] after it.
    ///
    /// # Errors
    ///
    /// The parameter has more bytes than there is room for: it has so many.
    pub fn parameter<'r>(
        &mut self,
        bucket: Bucket,
        label: Label<'_>,
        room: &'r mut [u8],
    ) -> Result<Option<Item<'r>>, u64> {
        let mut item = raw::Item::default();
        let (mut handle, is_protected) = (self.handle(), u32::from(bucket == Bucket::Protected));
        let (into, count) = (room.as_mut_ptr(), room.len());
        match label {
            // SAFETY: the block was begun, and the pointer with the length is that of one slice, which is borrowed for the call.
            Label::Int(label) => unsafe {
                (S::FUNCTIONS.header)(&mut handle, is_protected, label, into, count, &mut item);
            },
            // SAFETY: the same, of two slices.
            Label::Text(name) => unsafe {
                (S::FUNCTIONS.header_named)(
                    &mut handle,
                    is_protected,
                    name.as_ptr(),
                    name.len(),
                    into,
                    count,
                    &mut item,
                );
            },
        }
        if item.present == 0 {
            return Ok(None);
        }
        match usize::try_from(item.length) {
            Ok(length) if length <= count => Ok(Item::at(&room[..length], 0).ok().flatten()),
            _ => Err(item.length),
        }
    }

    /// Which key of the terms' key set the message is verified with, as [`Terms::key_of`] says it, once both header buckets were found
    /// good, until the verifier is reset. The terms say the kind of the message.
    ///
    /// # Errors
    ///
    /// [`Error::BadArgument`] where the terms are out of their range.
    pub fn key_of<'t>(&mut self, terms: &Terms<'t>) -> Result<Option<Item<'t>>, Error> {
        let (raw_terms, mut key) = (terms.raw()?, raw::Item::default());
        // SAFETY: the block was begun, and each pointer of the terms with its length is that of one slice, which is borrowed for the
        // call.
        unsafe { (S::FUNCTIONS.fed_key_of)(&mut self.handle(), &raw_terms, &mut key) };
        Item::of(terms.keys, key)
    }

    /// Begins the next message, under the same keys.
    pub fn reset(&mut self) {
        // SAFETY: the block was begun.
        unsafe { (S::FUNCTIONS.reset)(&mut self.handle()) };
    }

    /// How many bytes of the message are wanted at least.
    #[must_use]
    pub fn wanted(&mut self) -> u64 {
        // SAFETY: the block was begun.
        unsafe { (S::FUNCTIONS.wanted)(&mut self.handle()) }
    }

    /// How many bytes of a detached payload are wanted.
    #[must_use]
    pub fn payload_wanted(&mut self) -> u64 {
        // SAFETY: the block was begun.
        unsafe { (S::FUNCTIONS.payload_wanted)(&mut self.handle()) }
    }

    /// How many bytes of the message were taken.
    #[must_use]
    pub fn taken(&mut self) -> u64 {
        // SAFETY: the block was begun.
        unsafe { (S::FUNCTIONS.taken)(&mut self.handle()) }
    }

    /// How many bytes of the message are held.
    #[must_use]
    pub fn held(&mut self) -> u64 {
        // SAFETY: the block was begun.
        unsafe { (S::FUNCTIONS.held)(&mut self.handle()) }
    }
}
