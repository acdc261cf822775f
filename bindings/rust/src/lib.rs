//! Verifies `COSE_Mac0` and `COSE_Sign1` messages ([RFC 9052](https://www.rfc-editor.org/rfc/rfc9052)) and CBOR Web Tokens
//! ([RFC 8392](https://www.rfc-editor.org/rfc/rfc8392)), by a library that is proved. This crate calls it through its C interface:
//! the crate itself isn't proved. It allocates nothing, needs no `std`, and links `libcose.a`, which `build.rs` finds in the folder of
//! `COSE_LIB_DIR` or by `pkg-config`.
//!
//! | What is there | What to call |
//! |---|---|
//! | a message in memory | [`verify`], [`verify_with`], [`verify_detached`] |
//! | a message that comes in pieces, a detached payload of any length | [`Verifier`] |
//! | a token in memory | [`verify_cwt`], or [`claims`] once its message is authentic |
//! | many messages under the same keys | [`KeyTable`], or under the same terms [`TermsTable`] |
//! | a header of more than 1,024 bytes, as with a chain of certificates | [`Large`] |
//! | a payload that wants a MAC | [`Maker`] |
//!
//! HMAC is computed by the library. For ECDSA (ES256, ES384, ES512, ESP256, ESP384, ESP512) it computes the digest, and the caller verifies the signature: a
//! `COSE_Sign1` is [`Verdict::Signed`], which gives its payload through [`Signed::payload_if`] alone. [`ecdsa_by`] declares what verifies
//! it by `RustCrypto`'s `p256`, `p384` and `p521`.
//!
//! ```
//! use cose::{verify, SignInput, Verdict};
//!
//! # fn p256_verify(point: &[u8], digest: &[u8], signature: &[u8]) -> bool {
//! #     point[0] == 4 && digest[0] == 0x4c && signature.len() == 64
//! # }
//! /// Whether a signature is good, by a crate that computes with curves.
//! fn is_good(input: &SignInput) -> bool {
//!     let mut room = [0; cose::POINT_ROOM];
//!     p256_verify(input.key().sec1(&mut room), input.digest(), input.signature())
//! }
//!
//! # let keys = include_bytes!("../../../examples/sign1_key.cbor");
//! # let message = include_bytes!("../../../examples/sign1.cbor");
//! let payload = verify(keys, message)?.payload_if(is_good);
//! assert_eq!(payload, Some(b"This is the content.".as_slice()));
//! # Ok::<(), cose::Error>(())
//! ```
//!
//! What a caller owes by the C interface is kept by types here: a block stays where it is while something is in it, and so do the keys
//! and the externally supplied data. A call needs 16 KiB of stack, and one over memory in the size [`Large`] 160 KiB.
//!
//! With the feature `std` there are also `Verifier::feed_from`, for readers, and `make`, for vectors.
#![no_std]
#![warn(missing_debug_implementations)]

#[cfg(feature = "std")]
extern crate std;

// raw.rs declares the library's lengths, which have 64 bits, as usize
#[cfg(not(target_pointer_width = "64"))]
compile_error!("this crate is for targets whose pointers have 64 bits");

mod adapter;
mod block;
mod claims;
mod eddsa;
mod elsewhere;
mod error;
mod functions;
#[cfg(feature = "std")]
mod io;
mod item;
mod key_choice;
mod make;
mod message;
mod parameter;
mod raw;
mod reason;
mod sign;
mod sign_input;
mod size;
mod table;
mod terms;
mod terms_table;
mod verifier;

pub use block::Block;
pub use claims::{claims, verify_cwt, Audiences, Claims, Confirmation, Policy};
pub use eddsa::{verify_eddsa, verify_eddsa_detached, EddsaCurve, EddsaInput};
pub use elsewhere::{AskedKey, AskedMaterial, AskedSignature, Elsewhere, FrontPieces};
pub use error::Error;
#[cfg(feature = "std")]
pub use io::{make, ReadError};
pub use item::{Item, Items};
pub use key_choice::{key_of_sized, mismatch_sized, Mismatch};
pub use make::{MacAlg, Maker, MakerBlock, Making, HEAD_ROOM, TAIL_ROOM};
pub use message::{
    shape, usable_keys, verify, verify_detached, verify_with, Kind, Message, Options, Shape,
    Signed, Verdict, Wanted,
};
pub use parameter::{parameter, Bucket, Label};
pub use reason::{Reason, Refusal};
pub use sign::{
    PrehashSigner, Sign1Maker, SignError, SignatureAlg, SignerBlock, Signing, DIGEST_ROOM,
    SIGNATURE_ROOM,
};
pub use sign_input::{Curve, PublicKey, SignInput, POINT_ROOM, Y};
pub use size::{Large, Size, Small};
pub use table::{KeyTable, TableBlock};
pub use terms::{
    admit, admit_claims, admit_claims_sized, admit_sized, authenticate, authenticate_detached,
    authenticate_detached_sized, authenticate_sized, Claim, NotAdmitted, Requirement, Requirements,
    Terms,
};
pub use terms_table::TermsTable;
pub use verifier::{Accepted, Fed, LargeVerifierBlock, Status, Verifier, VerifierBlock};
