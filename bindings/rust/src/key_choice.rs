//! Which key of a set a message is verified with, and why a key isn't.

use crate::error::number;
use crate::{raw, Error, Item, Size, Small, Terms};

/// A condition under which a key is the one that a message is verified with
/// ([RFC 9052 section 7.1](https://www.rfc-editor.org/rfc/rfc9052#section-7.1)), in the order in which they are checked.
#[derive(Clone, Copy, Debug, PartialEq, Eq, Hash)]
pub enum Mismatch {
    /// The algorithm is one for messages of the kind, and the key's own, if it names one.
    Algorithm,
    /// The key is of the type that the algorithm takes: a secret, or a point.
    KeyType,
    /// The point is on the algorithm's curve.
    Curve,
    /// The operations that the key lists contain the one that verifies the message.
    Operation,
    /// The identifiers are equal, where both the message and the key have one.
    Identifier,
    /// The terms permit the key.
    NotPermitted,
}

impl Mismatch {
    /// The condition of this number, none of 0.
    fn from_number(number: u8) -> Result<Option<Self>, Error> {
        Ok(Some(match number {
            0 => return Ok(None),
            1 => Mismatch::Algorithm,
            2 => Mismatch::KeyType,
            3 => Mismatch::Curve,
            4 => Mismatch::Operation,
            5 => Mismatch::Identifier,
            6 => Mismatch::NotPermitted,
            _ => return Err(Error::OtherLibrary),
        }))
    }
}

impl<'t> Terms<'t> {
    /// Which key a message is verified with under these terms, which say its kind: the item of the key set that the key is, whose
    /// place is that in the set. `None` where no key fits, or the message isn't whole or is refused. Nothing is authenticated: ask
    /// after the verdict. Headers have at most 1,024 bytes.
    ///
    /// ```
    /// use cose::{Options, Terms, Wanted};
    ///
    /// let keys = b"\x82\xa2\x01\x04\x20\x44Jeff\xa3\x01\x04\x03\x05\x20\x44Jefe";
    /// let message = b"\xd1\x84\x43\xa1\x01\x05\xa0\x42hi\x58\x20\
    ///     \x7d\x81\xe9\x64\xaa\xee\x5f\xbd\x8a\xdf\xb3\xf5\x33\x65\x7a\x9e\
    ///     \xf9\xf7\x82\xf0\x4b\x91\x87\x7b\x60\x04\x27\x2a\x03\x52\xf9\x60";
    /// let options = Options { wanted: Wanted::Mac0, ..Options::default() };
    /// let terms = Terms { keys, options, ..Terms::default() };
    /// assert_eq!(terms.key_of(message)?.map(|key| key.place()), Some(10));
    /// // a key that names no algorithm isn't permitted
    /// assert_eq!(terms.mismatch(message, 1)?, Some(cose::Mismatch::NotPermitted));
    /// assert_eq!(terms.mismatch(message, 10)?, None);
    /// # Ok::<(), cose::Error>(())
    /// ```
    ///
    /// # Errors
    ///
    /// [`Error::BadArgument`] where the terms are out of their range.
    pub fn key_of(&self, message: &[u8]) -> Result<Option<Item<'t>>, Error> {
        key_of_sized::<Small>(self, message)
    }

    /// The first condition that the key which is the item at this place of the key set fails for a message, and none where it fits.
    /// The terms say the kind of the message.
    ///
    /// # Errors
    ///
    /// The key set, that key or the message is refused, or no item is at the place.
    pub fn mismatch(&self, message: &[u8], place: u64) -> Result<Option<Mismatch>, Error> {
        mismatch_sized::<Small>(self, message, place)
    }
}

/// Which key a message is verified with: [`Terms::key_of`] is that of [`Small`].
///
/// # Errors
///
/// [`Error::BadArgument`] where the terms are out of their range.
pub fn key_of_sized<'t, S: Size>(
    terms: &Terms<'t>,
    message: &[u8],
) -> Result<Option<Item<'t>>, Error> {
    let (raw_terms, mut key) = (terms.raw()?, raw::Item::default());
    // SAFETY: each pointer with its length is that of one slice, which is borrowed for the call, those of the terms too; the call keeps
    // none of them, and writes to the struct, which is this function's own.
    unsafe {
        (S::FUNCTIONS.key_of)(&raw_terms, message.as_ptr(), message.len(), &mut key);
    }
    Item::of(terms.keys, key)
}

/// The first condition that a key fails: [`Terms::mismatch`] is that of [`Small`].
///
/// # Errors
///
/// The key set, that key or the message is refused, or no item is at the place.
pub fn mismatch_sized<S: Size>(
    terms: &Terms<'_>,
    message: &[u8],
    place: u64,
) -> Result<Option<Mismatch>, Error> {
    let (terms, mut fit) = (terms.raw()?, raw::KeyFit::default());
    // SAFETY: as of `key_of_sized`.
    unsafe {
        (S::FUNCTIONS.mismatch)(&terms, message.as_ptr(), message.len(), place, &mut fit);
    }
    if fit.status != number::COMPLETE {
        return Err(Error::of(fit.status, fit.reason, fit.place));
    }
    Mismatch::from_number(fit.condition)
}
