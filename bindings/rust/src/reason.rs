//! Reasons and refusals.

use core::fmt;

/// Declares the reasons: number, name, meaning.
macro_rules! reasons {
    ($($number:literal $name:ident $meaning:literal)*) => {
        /// Why something is refused. Numbers and names never change.
        #[derive(Clone, Copy, Debug, PartialEq, Eq, PartialOrd, Ord, Hash)]
        #[repr(u8)]
        pub enum Reason {
            $(#[doc = $meaning] $name = $number,)*
        }

        impl Reason {
            /// All reasons, by their numbers.
            pub const ALL: [Reason; 43] = [$(Reason::$name),*];

            /// The name.
            #[must_use]
            pub const fn name(self) -> &'static str {
                match self {
                    $(Reason::$name => stringify!($name),)*
                }
            }
        }
    };
}

reasons! {
    // made by ci/edge_tables: reasons
    1 Truncated "The bytes end before the message or the item is complete."
    2 Reserved "The low five bits of an initial byte are 28 to 30, or 31 in the major types 0, 1 and 6 (RFC 8949 section 3)."
    3 Indefinite "An indefinite length or a break, which this profile refuses (RFC 8949 section 3.2)."
    4 BadSimple "A simple value below 32 in two bytes (RFC 8949 section 3.3)."
    5 TooDeep "An array, map or CBOR tag where no nesting is left."
    6 PastRoom "A head, a string or the children don't fit into the room."
    7 WrongTag "A CBOR tag that isn't wanted here (RFC 9052 section 2)."
    8 Encrypted "`COSE_Encrypt0` or `COSE_Encrypt` (RFC 9052 section 5), which this profile leaves out."
    9 SeveralParties "`COSE_Mac` or `COSE_Sign` (RFC 9052 sections 6.1 and 4.1), which this profile leaves out."
    10 NotFour "The array of the message doesn't have four elements (RFC 9052 sections 4.2 and 6.2)."
    11 WrongType "A head has another major type than the one required."
    12 NotMap "A header bucket, key or claims set that isn't a map."
    13 BadLabel "A label that is neither an integer nor a text string (RFC 9052 section 1.5)."
    14 DuplicateLabel "A label that equals an earlier one of its map (RFC 9052 section 3)."
    15 BothBuckets "A label that is in both header buckets (RFC 9052 section 3)."
    16 BadValue "A value that doesn't have the form that its label requires."
    17 CritUnprotected "A crit parameter in the unprotected bucket (RFC 9052 section 3.1)."
    18 CritAbsent "A label of crit that isn't in the protected bucket (RFC 9052 section 3.1)."
    19 CritUnknown "A label of crit that isn't understood (RFC 9052 section 3.1)."
    20 BothIvs "IV and Partial IV are both present (RFC 9052 section 3.1)."
    21 NoAlg "The message names no algorithm, and no key fits it."
    22 UnknownAlg "The message names an algorithm that isn't one of its kind."
    23 AlgUnprotected "Only the unprotected bucket names an algorithm, and no key with that algorithm as its own fits."
    24 NoKey "The protected bucket names an algorithm, and no key fits."
    25 AmbiguousKey "Two or more keys fit the message."
    26 Detached "The payload is nil (RFC 9052 sections 4.2 and 6.2)."
    27 BadAuthLength "The authentication tag or the signature doesn't have the length of its algorithm."
    28 BadAuth "The authentication tag or the signature isn't valid."
    29 PayloadTooLong "The payload is longer than its limit."
    30 CwtTagAlone "The CBOR tag of a CWT without that of a COSE message (RFC 8392 section 6)."
    31 BadKeySet "A key set that is neither a map nor an array of one or more items (RFC 9052 section 7), that has more than 65,535 bytes, or that has more usable keys than its table holds."
    32 UnknownKey "A key of a type or curve that isn't known."
    33 FloatDate "A date that is a float, which this profile refuses."
    34 TaggedDate "A date with CBOR tag 1 (RFC 8392 section 2)."
    35 Expired "The token has expired (RFC 8392 section 3.1.4)."
    36 NotYet "The token isn't valid yet (RFC 8392 section 3.1.5)."
    37 WrongAudience "The token is for another audience (RFC 8392 section 3.1.3)."
    38 EncryptedKey "A confirmation key that is encrypted (RFC 8747 section 3.3)."
    39 PlainKey "A symmetric confirmation key that isn't encrypted (RFC 8747 section 3.2)."
    40 BadConfirmation "A confirmation whose key is refused, or that has both a key and an encrypted one (RFC 8747 section 3)."
    41 NestedCwt "Claims that are themselves a COSE message or a CWT (RFC 8392 section 7)."
    42 Trailing "A byte after the end."
    43 Attached "The payload is in the message, where a detached one is wanted (RFC 9052 sections 4.2 and 6.2)."
    // end of what ci/edge_tables makes
}

impl Reason {
    /// The number, from 1 on.
    #[must_use]
    pub const fn number(self) -> u8 {
        self as u8
    }

    /// The reason of a number.
    #[must_use]
    pub fn from_number(number: u8) -> Option<Self> {
        let index = usize::from(number).checked_sub(1)?;
        Self::ALL.get(index).copied()
    }
}

impl fmt::Display for Reason {
    fn fmt(&self, formatter: &mut fmt::Formatter<'_>) -> fmt::Result {
        formatter.pad(self.name())
    }
}

/// Why and where bytes are refused.
#[derive(Clone, Copy, Debug, PartialEq, Eq, Hash)]
pub struct Refusal {
    /// Why.
    pub reason: Reason,
    /// The number of bytes before the byte or head at fault. It is relative to the first byte of the message, of the payload
    /// (for claims), or of the key set.
    pub place: u64,
}

impl fmt::Display for Refusal {
    fn fmt(&self, formatter: &mut fmt::Formatter<'_>) -> fmt::Result {
        write!(formatter, "{} at {}", self.reason, self.place)
    }
}
