//! Readers, writers and vectors.

use std::boxed::Box;
use std::fmt;
use std::io::{self, Read, Write};
use std::vec::Vec;

use crate::{Block, Error, Maker, Making, Size, Status, Verifier, HEAD_ROOM, TAIL_ROOM};

/// Why a message from a reader isn't complete.
#[derive(Debug)]
pub enum ReadError {
    /// The reader or the writer failed.
    Io(io::Error),
    /// The message is refused.
    Refused(Error),
}

impl fmt::Display for ReadError {
    fn fmt(&self, formatter: &mut fmt::Formatter<'_>) -> fmt::Result {
        match self {
            ReadError::Io(error) => error.fmt(formatter),
            ReadError::Refused(error) => error.fmt(formatter),
        }
    }
}

impl std::error::Error for ReadError {}

impl From<io::Error> for ReadError {
    fn from(error: io::Error) -> Self {
        ReadError::Io(error)
    }
}

impl From<Error> for ReadError {
    fn from(error: Error) -> Self {
        ReadError::Refused(error)
    }
}

impl<S: Size> Verifier<'_, S> {
    /// Feeds one message from a reader, and writes its payload, **which isn't authentic until there is a verdict**: what was written is
    /// dropped unless [`verdict`](Self::verdict) is `Ok`. No byte after the message is read.
    ///
    /// # Errors
    ///
    /// The reader or the writer failed, or the message is refused, or isn't whole.
    ///
    /// ```
    /// use cose::{Block, Options, Verifier};
    ///
    /// let keys = b"\xa2\x01\x04\x20\x44Jefe";
    /// let mut input: &[u8] = b"\xd1\x84\x43\xa1\x01\x05\xa0\x42hi\x58\x20\
    ///     \x7d\x81\xe9\x64\xaa\xee\x5f\xbd\x8a\xdf\xb3\xf5\x33\x65\x7a\x9e\
    ///     \xf9\xf7\x82\xf0\x4b\x91\x87\x7b\x60\x04\x27\x2a\x03\x52\xf9\x60and more";
    /// let mut block = Block::new();
    /// let mut verifier = Verifier::new(&mut block, keys, &Options::default())?;
    /// let mut payload = Vec::new();
    /// verifier.feed_from(&mut input, &mut payload)?;
    /// verifier.verdict(|_| false)?;
    /// assert_eq!((payload.as_slice(), input), (b"hi".as_slice(), b"and more".as_slice()));
    /// # Ok::<(), Box<dyn std::error::Error>>(())
    /// ```
    pub fn feed_from(
        &mut self,
        reader: &mut impl Read,
        payload: &mut impl Write,
    ) -> Result<(), ReadError> {
        let mut buffer = [0; 4_096];
        while self.status()? == Status::More {
            let wanted = usize::try_from(self.wanted()).unwrap_or(usize::MAX);
            let room = wanted.clamp(1, buffer.len());
            let count = match reader.read(&mut buffer[..room]) {
                Ok(count) => count,
                Err(error) if error.kind() == io::ErrorKind::Interrupted => continue,
                Err(error) => return Err(error.into()),
            };
            if count == 0 {
                break;
            }
            payload.write_all(self.feed(&buffer[..count])?.payload)?;
        }
        Ok(self.end()?)
    }
}

/// A `COSE_Mac0` of a payload in memory. `key` is one symmetric `COSE_Key`.
///
/// # Errors
///
/// Those of [`Maker::begin`].
///
/// ```
/// use cose::{make, MacAlg, Making};
///
/// let making = Making { alg: MacAlg::Hmac256, kid: b"", aad: b"" };
/// let message = make(b"\xa2\x01\x04\x20\x44Jefe", &making, b"hi")?;
/// assert_eq!(message.len(), 44);
/// # Ok::<(), cose::Error>(())
/// ```
pub fn make(key: &[u8], making: &Making<'_>, payload: &[u8]) -> Result<Vec<u8>, Error> {
    let mut block = Box::new(Block::new());
    let (mut head, mut tail) = ([0; HEAD_ROOM], [0; TAIL_ROOM]);
    let length = payload.len() as u64;
    let (mut maker, head) = Maker::begin(&mut block, key, making, length, &mut head)?;
    maker.piece(payload);
    let tail = maker.end(&mut tail)?;
    Ok([head, payload, tail].concat())
}
