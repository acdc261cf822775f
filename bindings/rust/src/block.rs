//! Memory that the caller owns.

use core::mem::{align_of, size_of, MaybeUninit};

use crate::{raw, Error};

/// Memory for a [`Verifier`](crate::Verifier), a [`KeyTable`](crate::KeyTable) or a [`Maker`](crate::Maker), which borrow it: it may
/// be on the stack, in a `static` or in a larger struct. It can be used again when they are gone.
#[repr(C, align(16))]
pub struct Block<const N: usize>([MaybeUninit<u8>; N]);

impl<const N: usize> Block<N> {
    /// Memory that nothing is in yet.
    #[must_use]
    pub const fn new() -> Self {
        Block([MaybeUninit::uninit(); N])
    }

    /// Overwrites the memory with zeros: what a verifier, a table or a maker leaves there is derived from keys. Nothing that is to
    /// be wiped may use the block any more, which the compiler sees. What calls left on the stack isn't overwritten.
    ///
    /// ```
    /// use cose::{Block, KeyTable};
    ///
    /// let mut block = Block::new();
    /// let table = KeyTable::read(&mut block, b"\xa2\x01\x04\x20\x44Jefe")?;
    /// assert_eq!(table.usable(), 1);
    /// block.wipe();
    /// # Ok::<(), cose::Error>(())
    /// ```
    pub fn wipe(&mut self) {
        // SAFETY: the memory is this block's, and the call writes each of its bytes and reads none.
        unsafe { raw::cose_edge_wipe_bytes(self.0.as_mut_ptr().cast(), N) };
    }
}

/// A block of any length.
pub(crate) trait Memory {
    /// Its address. What the library keeps there points to nothing in the block itself.
    fn at(&mut self) -> *mut u8;

    /// Its address, for calls that only read it: through this one nothing may be written.
    fn at_to_read(&self) -> *const u8;

    /// Whether a block has the size and the alignment that the library asks for.
    fn holds(size: usize, align: usize) -> Result<(), Error>;
}

impl<const N: usize> Memory for Block<N> {
    fn at(&mut self) -> *mut u8 {
        self.0.as_mut_ptr().cast()
    }

    fn at_to_read(&self) -> *const u8 {
        self.0.as_ptr().cast()
    }

    fn holds(size: usize, align: usize) -> Result<(), Error> {
        if size <= size_of::<Self>() && align <= align_of::<Self>() {
            Ok(())
        } else {
            Err(Error::OtherLibrary)
        }
    }
}

impl<const N: usize> Default for Block<N> {
    fn default() -> Self {
        Self::new()
    }
}

impl<const N: usize> core::fmt::Debug for Block<N> {
    /// Says its length, and no byte of it.
    fn fmt(&self, formatter: &mut core::fmt::Formatter<'_>) -> core::fmt::Result {
        write!(formatter, "Block of {N} bytes")
    }
}
