//! Header parameters of a message.

use crate::{Item, Size, Small, Wanted};

/// A bucket of a message's header ([RFC 9052 section 3](https://www.rfc-editor.org/rfc/rfc9052#section-3)).
#[derive(Clone, Copy, Debug, PartialEq, Eq, Hash)]
pub enum Bucket {
    /// The protected header, which is authentic where the message is.
    Protected,
    /// The unprotected header, **which is not authentic**: anyone may have changed it.
    Unprotected,
}

/// The label of a header parameter.
#[derive(Clone, Copy, Debug, PartialEq, Eq, Hash)]
pub enum Label<'l> {
    /// An integer.
    Int(i64),
    /// A text string.
    Text(&'l str),
}

impl Label<'_> {
    /// alg ([RFC 9052 section 3.1](https://www.rfc-editor.org/rfc/rfc9052#section-3.1), as those up to `PARTIAL_IV`).
    pub const ALG: Label<'static> = Label::Int(1);
    /// crit.
    pub const CRIT: Label<'static> = Label::Int(2);
    /// content type.
    pub const CONTENT_TYPE: Label<'static> = Label::Int(3);
    /// kid.
    pub const KID: Label<'static> = Label::Int(4);
    /// IV.
    pub const IV: Label<'static> = Label::Int(5);
    /// Partial IV.
    pub const PARTIAL_IV: Label<'static> = Label::Int(6);
    /// x5bag ([RFC 9360 section 2](https://www.rfc-editor.org/rfc/rfc9360#section-2), as those up to `X5U`).
    pub const X5BAG: Label<'static> = Label::Int(32);
    /// x5chain.
    pub const X5CHAIN: Label<'static> = Label::Int(33);
    /// x5t.
    pub const X5T: Label<'static> = Label::Int(34);
    /// x5u.
    pub const X5U: Label<'static> = Label::Int(35);
}

/// A header parameter of a message **that is known to be authentic**, by its label, if the bucket has it. The item's place is that in the
/// message.
///
/// ```
/// use cose::{parameter, Bucket, Label, Wanted};
///
/// let message = b"\xd1\x84\x43\xa1\x01\x05\xa1\x04\x42\x31\x31\x42hi\x58\x20\
///     \x7d\x81\xe9\x64\xaa\xee\x5f\xbd\x8a\xdf\xb3\xf5\x33\x65\x7a\x9e\
///     \xf9\xf7\x82\xf0\x4b\x91\x87\x7b\x60\x04\x27\x2a\x03\x52\xf9\x60";
/// let alg = parameter(message, Wanted::Tagged, Bucket::Protected, Label::ALG);
/// assert_eq!(alg.and_then(|it| it.as_int()), Some(5));
/// let kid = parameter(message, Wanted::Tagged, Bucket::Unprotected, Label::KID);
/// assert_eq!(kid.and_then(|it| it.as_bytes()), Some(b"11".as_slice()));
/// assert_eq!(parameter(message, Wanted::Tagged, Bucket::Protected, Label::KID), None);
/// ```
#[must_use]
pub fn parameter<'m>(
    message: &'m [u8],
    wanted: Wanted,
    bucket: Bucket,
    label: Label<'_>,
) -> Option<Item<'m>> {
    Small::parameter(message, wanted, bucket, label)
}
