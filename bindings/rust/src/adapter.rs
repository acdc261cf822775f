//! Signatures by crates that compute with curves.

/// Declares a function that says whether a signature is good, by crates of the shape of `RustCrypto`'s `p256`, `p384` and `p521`: for
/// each curve the name of its crate, on which this one doesn't depend. A signature of another curve isn't good.
///
/// With `p256 = { version = "0.13", default-features = false, features = ["ecdsa"] }` in `Cargo.toml`:
///
/// ```
/// # mod p256 {
/// #     pub mod ecdsa {
/// #         pub mod signature {
/// #             pub mod hazmat {
/// #                 pub trait PrehashVerifier<S> {
/// #                     fn verify_prehash(&self, digest: &[u8], signature: &S) -> Result<(), ()>;
/// #                 }
/// #             }
/// #         }
/// #         pub struct Signature;
/// #         impl Signature {
/// #             pub fn from_slice(_: &[u8]) -> Result<Self, ()> {
/// #                 Ok(Signature)
/// #             }
/// #         }
/// #         pub struct VerifyingKey;
/// #         impl VerifyingKey {
/// #             pub fn from_sec1_bytes(_: &[u8]) -> Result<Self, ()> {
/// #                 Ok(VerifyingKey)
/// #             }
/// #         }
/// #         impl signature::hazmat::PrehashVerifier<Signature> for VerifyingKey {
/// #             fn verify_prehash(&self, digest: &[u8], _: &Signature) -> Result<(), ()> {
/// #                 (digest.len() == 32).then_some(()).ok_or(())
/// #             }
/// #         }
/// #     }
/// # }
/// cose::ecdsa_by! {
///     /// Whether a signature is good.
///     fn is_good: P256 => p256
/// }
///
/// # fn main() -> Result<(), cose::Error> {
/// # let keys = include_bytes!("../../../examples/sign1_key.cbor");
/// # let message = include_bytes!("../../../examples/sign1.cbor");
/// let payload = cose::verify(keys, message)?.payload_if(is_good);
/// assert_eq!(payload, Some(b"This is the content.".as_slice()));
/// # Ok(())
/// # }
/// ```
#[macro_export]
macro_rules! ecdsa_by {
    ($(#[$attribute:meta])* $visible:vis fn $name:ident: $($curve:ident => $library:ident),+ $(,)?) => {
        $(#[$attribute])*
        $visible fn $name(input: &$crate::SignInput) -> bool {
            let mut room = [0; $crate::POINT_ROOM];
            let key = input.key();
            $(
                if key.curve == $crate::Curve::$curve {
                    use $library::ecdsa::signature::hazmat::PrehashVerifier as _;
                    let key = $library::ecdsa::VerifyingKey::from_sec1_bytes(key.sec1(&mut room));
                    let signature = $library::ecdsa::Signature::from_slice(input.signature());
                    return match (key, signature) {
                        (Ok(key), Ok(signature)) => key.verify_prehash(input.digest(), &signature).is_ok(),
                        _ => false,
                    };
                }
            )+
            false
        }
    };
}
