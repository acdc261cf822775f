//! Data items of a payload.

use core::str;

use crate::error::{part, Error};
use crate::raw;

/// A data item ([RFC 8949 section 3](https://www.rfc-editor.org/rfc/rfc8949#section-3)) of a payload that the library has read: it is
/// well-formed, of definite lengths, and nests at most 32 deep.
#[derive(Clone, Copy, Debug, PartialEq, Eq)]
pub struct Item<'t> {
    payload: &'t [u8],
    numbers: raw::Item,
}

impl<'t> Item<'t> {
    /// The claim of a label that is an integer, if the payload is a claims set that has it.
    pub(crate) fn of_label(payload: &'t [u8], label: i64) -> Result<Option<Self>, Error> {
        let mut numbers = raw::Item::default();
        // SAFETY: the pointer with the length is that of one slice, which is borrowed for the call, and the struct is this function's.
        unsafe {
            raw::cose_edge_claim(payload.as_ptr(), payload.len(), label, &mut numbers);
        }
        Self::of(payload, numbers)
    }

    /// The same of a label that is a text string.
    pub(crate) fn of_name(payload: &'t [u8], name: &str) -> Result<Option<Self>, Error> {
        let mut numbers = raw::Item::default();
        // SAFETY: the pointers with their lengths are those of slices, which are borrowed for the call, and the struct is this function's.
        unsafe {
            raw::cose_edge_claim_named(
                payload.as_ptr(),
                payload.len(),
                name.as_ptr(),
                name.len(),
                &mut numbers,
            );
        }
        Self::of(payload, numbers)
    }

    /// The item at a place of the payload, if one is there.
    pub(crate) fn at(payload: &'t [u8], place: u64) -> Result<Option<Self>, Error> {
        let mut numbers = raw::Item::default();
        // SAFETY: as in `of_label`.
        unsafe {
            raw::cose_edge_item_at(payload.as_ptr(), payload.len(), place, &mut numbers);
        }
        Self::of(payload, numbers)
    }

    pub(crate) fn of(payload: &'t [u8], numbers: raw::Item) -> Result<Option<Self>, Error> {
        if numbers.present == 0 {
            return Ok(None);
        }
        let bytes = part(payload, numbers.at, numbers.length)?;
        let head = numbers.content_at.checked_sub(numbers.at);
        if numbers.major > 7 || head.is_none_or(|it| it > bytes.len() as u64) {
            return Err(Error::OtherLibrary);
        }
        Ok(Some(Item { payload, numbers }))
    }

    /// All its bytes: an item in CBOR.
    #[must_use]
    pub fn bytes(&self) -> &'t [u8] {
        part(self.payload, self.numbers.at, self.numbers.length).unwrap_or_default()
    }

    /// Its place in the payload.
    #[must_use]
    pub fn place(&self) -> u64 {
        self.numbers.at
    }

    /// The integer, if it is one.
    #[must_use]
    pub fn as_int(&self) -> Option<i128> {
        let number = i128::from(self.numbers.number);
        match self.numbers.major {
            0 => Some(number),
            1 => Some(-1 - number),
            _ => None,
        }
    }

    /// The content of the byte string, if it is one.
    #[must_use]
    pub fn as_bytes(&self) -> Option<&'t [u8]> {
        (self.numbers.major == 2).then(|| self.content())
    }

    /// The content of the text string, if it is one in UTF-8.
    #[must_use]
    pub fn as_text(&self) -> Option<&'t str> {
        (self.numbers.major == 3)
            .then(|| str::from_utf8(self.content()).ok())
            .flatten()
    }

    /// The Boolean value, if it is one.
    #[must_use]
    pub fn as_bool(&self) -> Option<bool> {
        match self.simple()? {
            20 => Some(false),
            21 => Some(true),
            _ => None,
        }
    }

    /// The number of a simple value ([RFC 8949 section 3.3](https://www.rfc-editor.org/rfc/rfc8949#section-3.3)), if it is one: 22 is
    /// null, 23 undefined.
    #[must_use]
    pub fn simple(&self) -> Option<u8> {
        if self.numbers.major != 7 || self.numbers.length > 2 {
            return None;
        }
        u8::try_from(self.numbers.number).ok()
    }

    /// The float, of 16, 32 or 64 bits, if it is one.
    #[must_use]
    pub fn as_float(&self) -> Option<f64> {
        let bits = self.numbers.number;
        match (self.numbers.major, self.numbers.length) {
            (7, 3) => Some(half(u16::try_from(bits).ok()?)),
            (7, 5) => Some(f32::from_bits(u32::try_from(bits).ok()?).into()),
            (7, 9) => Some(f64::from_bits(bits)),
            _ => None,
        }
    }

    /// The number of the tag ([RFC 8949 section 3.4](https://www.rfc-editor.org/rfc/rfc8949#section-3.4)), if it is one: [`Item::items`]
    /// has the item that it encloses.
    #[must_use]
    pub fn tag(&self) -> Option<u64> {
        (self.numbers.major == 6).then_some(self.numbers.number)
    }

    /// Whether it is a map: [`Item::items`] has label, value, label, value.
    #[must_use]
    pub fn is_map(&self) -> bool {
        self.numbers.major == 5
    }

    /// Whether it is an array.
    #[must_use]
    pub fn is_array(&self) -> bool {
        self.numbers.major == 4
    }

    /// The items in it, in their order: those of an array or a map, and the one under a tag.
    #[must_use]
    pub fn items(&self) -> Items<'t> {
        Items {
            payload: self.payload,
            next: self.numbers.content_at,
            left: match self.numbers.major {
                4 => self.numbers.number.into(),
                5 => 2 * u128::from(self.numbers.number),
                6 => 1,
                _ => 0,
            },
        }
    }

    fn content(&self) -> &'t [u8] {
        part(self.payload, self.numbers.content_at, self.numbers.number).unwrap_or_default()
    }
}

/// A float of 16 bits ([RFC 8949 appendix D](https://www.rfc-editor.org/rfc/rfc8949#appendix-D)).
fn half(bits: u16) -> f64 {
    let (exponent, fraction) = (u64::from(bits >> 10 & 31), f64::from(bits & 1023));
    let value = match exponent {
        0 => fraction / 16_777_216.0,
        31 if fraction > 0.0 => f64::NAN,
        31 => f64::INFINITY,
        _ => (fraction + 1024.0) * f64::from_bits((1023 - 25 + exponent) << 52),
    };
    if bits >> 15 == 0 {
        value
    } else {
        -value
    }
}

/// The items in an item.
#[derive(Clone, Debug)]
pub struct Items<'t> {
    payload: &'t [u8],
    next: u64,
    left: u128,
}

impl<'t> Iterator for Items<'t> {
    type Item = Item<'t>;

    fn next(&mut self) -> Option<Item<'t>> {
        self.left = self.left.checked_sub(1)?;
        let item = Item::at(self.payload, self.next).ok().flatten()?;
        self.next = item.numbers.at.checked_add(item.numbers.length)?;
        Some(item)
    }
}
