//! What an ECDSA signature is verified with.

use crate::error::Error;
use crate::raw;

/// A curve ([RFC 9053 section 7.1](https://www.rfc-editor.org/rfc/rfc9053#section-7.1)).
#[derive(Clone, Copy, Debug, PartialEq, Eq, Hash)]
pub enum Curve {
    /// P-256, of ES256 and ESP256.
    P256,
    /// P-384, of ES384 and ESP384.
    P384,
    /// P-521, of ES512 and ESP512.
    P521,
}

impl Curve {
    /// The bytes of a coordinate, and of r and of s.
    #[must_use]
    pub const fn coordinate_length(self) -> usize {
        match self {
            Curve::P256 => 32,
            Curve::P384 => 48,
            Curve::P521 => 66,
        }
    }

    /// The bytes of a digest: SHA-256, SHA-384, SHA-512.
    #[must_use]
    pub const fn digest_length(self) -> usize {
        match self {
            Curve::P256 => 32,
            Curve::P384 => 48,
            Curve::P521 => 64,
        }
    }

    /// The curve of a number of COSE.
    pub(crate) const fn from_number(number: u8) -> Option<Self> {
        match number {
            1 => Some(Curve::P256),
            2 => Some(Curve::P384),
            3 => Some(Curve::P521),
            _ => None,
        }
    }
}

/// The coordinate y of a point.
#[derive(Clone, Copy, Debug, PartialEq, Eq, Hash)]
pub enum Y<'k> {
    /// Its bytes.
    Bytes(&'k [u8]),
    /// The key has the sign of y alone: y is even.
    Even,
    /// The key has the sign of y alone: y is odd.
    Odd,
}

impl<'k> Y<'k> {
    /// By the library's number of the sign.
    pub(crate) const fn of(sign: u8, bytes: &'k [u8]) -> Option<Self> {
        match sign {
            0 => Some(Y::Bytes(bytes)),
            1 => Some(Y::Even),
            2 => Some(Y::Odd),
            _ => None,
        }
    }
}

/// A public key. Whether its point is on the curve isn't known: the code that verifies the signature judges that.
#[derive(Clone, Copy, Debug, PartialEq, Eq, Hash)]
pub struct PublicKey<'k> {
    /// Its curve.
    pub curve: Curve,
    /// Its coordinate x, of the curve's length.
    pub x: &'k [u8],
    /// Its coordinate y.
    pub y: Y<'k>,
}

/// The bytes of the longest point: a byte, and two coordinates of P-521.
pub const POINT_ROOM: usize = 133;

impl<'k> PublicKey<'k> {
    /// A key whose coordinates have the curve's length.
    pub(crate) fn new(curve: Curve, x: &'k [u8], y: Y<'k>) -> Result<Self, Error> {
        let length = curve.coordinate_length();
        let is_whole = match y {
            Y::Bytes(bytes) => bytes.len() == length,
            Y::Even | Y::Odd => true,
        };
        if x.len() == length && is_whole {
            Ok(PublicKey { curve, x, y })
        } else {
            Err(Error::OtherLibrary)
        }
    }

    /// The point as [SEC 1](https://www.secg.org/sec1-v2.pdf) section 2.3.3 writes it, which most libraries read: uncompressed, or
    /// compressed where the sign of y alone is known.
    ///
    /// # Panics
    ///
    /// A coordinate that was put into the struct has more than 66 bytes.
    #[must_use]
    pub fn sec1<'p>(&self, room: &'p mut [u8; POINT_ROOM]) -> &'p [u8] {
        let (first, y): (u8, &[u8]) = match self.y {
            Y::Bytes(bytes) => (4, bytes),
            Y::Even => (2, &[]),
            Y::Odd => (3, &[]),
        };
        let x_end = 1 + self.x.len();
        let y_end = x_end + y.len();
        room[0] = first;
        room[1..x_end].copy_from_slice(self.x);
        room[x_end..y_end].copy_from_slice(y);
        &room[..y_end]
    }
}

/// What an ECDSA signature is verified with: the key, the digest, r and s.
#[derive(Clone, Copy)]
pub struct SignInput {
    raw: raw::SignInput,
    curve: Curve,
}

impl SignInput {
    /// What the library answered, if its lengths are those of its curve.
    pub(crate) fn of(raw: &raw::SignInput) -> Result<Self, Error> {
        let curve = Curve::from_number(raw.crv).ok_or(Error::OtherLibrary)?;
        let coordinate = curve.coordinate_length() as u64;
        let y = if raw.y_sign == 0 { coordinate } else { 0 };
        let lengths = (raw.x_length, raw.digest_length, raw.signature_length);
        let wanted = (coordinate, curve.digest_length() as u64, 2 * coordinate);
        if lengths == wanted && raw.y_length == y && raw.y_sign <= 2 {
            Ok(SignInput { raw: *raw, curve })
        } else {
            Err(Error::OtherLibrary)
        }
    }

    /// The key.
    #[must_use]
    pub fn key(&self) -> PublicKey<'_> {
        let length = self.curve.coordinate_length();
        let y = match self.raw.y_sign {
            0 => Y::Bytes(&self.raw.y[..length]),
            1 => Y::Even,
            _ => Y::Odd,
        };
        PublicKey {
            curve: self.curve,
            x: &self.raw.x[..length],
            y,
        }
    }

    /// The digest of the `Sig_structure` ([RFC 9052 section 4.4](https://www.rfc-editor.org/rfc/rfc9052#section-4.4)): what was signed
    /// is hashed already.
    #[must_use]
    pub fn digest(&self) -> &[u8] {
        &self.raw.digest[..self.curve.digest_length()]
    }

    /// The place of the signature's head, relative to the message's first byte: if the signature isn't good, the message is refused there
    /// ([`Reason::BadAuth`](crate::Reason::BadAuth)).
    #[must_use]
    pub fn place(&self) -> u64 {
        self.raw.place
    }

    /// The signature: r, then s, each of the curve's length.
    #[must_use]
    pub fn signature(&self) -> &[u8] {
        &self.raw.signature[..2 * self.curve.coordinate_length()]
    }
}

impl core::fmt::Debug for SignInput {
    fn fmt(&self, formatter: &mut core::fmt::Formatter<'_>) -> core::fmt::Result {
        formatter
            .debug_struct("SignInput")
            .field("key", &self.key())
            .field("digest", &self.digest())
            .field("signature", &self.signature())
            .finish()
    }
}
