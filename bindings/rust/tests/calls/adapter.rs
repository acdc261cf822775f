//! What `ecdsa_by` passes to crates of the shape of `RustCrypto`'s, by stand-ins that know one good signature.

use cose::{verify, Verdict};

/// A crate of the shape of `p256`, in which what is good has these prefixes.
macro_rules! stand_in {
    ($name:ident, $point:literal, $digest:literal, $signature:literal) => {
        mod $name {
            pub mod ecdsa {
                pub mod signature {
                    pub mod hazmat {
                        pub trait PrehashVerifier<S> {
                            fn verify_prehash(
                                &self,
                                digest: &[u8],
                                signature: &S,
                            ) -> Result<(), ()>;
                        }
                    }
                }

                pub struct Signature(Vec<u8>);

                impl Signature {
                    pub fn from_slice(bytes: &[u8]) -> Result<Self, ()> {
                        (bytes.len() == 64)
                            .then(|| Signature(bytes.to_vec()))
                            .ok_or(())
                    }
                }

                pub struct VerifyingKey;

                impl VerifyingKey {
                    pub fn from_sec1_bytes(point: &[u8]) -> Result<Self, ()> {
                        (point[..4] == crate::hex($point))
                            .then_some(VerifyingKey)
                            .ok_or(())
                    }
                }

                impl signature::hazmat::PrehashVerifier<Signature> for VerifyingKey {
                    fn verify_prehash(
                        &self,
                        digest: &[u8],
                        signature: &Signature,
                    ) -> Result<(), ()> {
                        let is_good = digest.starts_with(&crate::hex($digest))
                            && signature.0.starts_with(&crate::hex($signature));
                        is_good.then_some(()).ok_or(())
                    }
                }
            }
        }
    };
}

// the point of the key of RFC 9052 appendix C.7.1, and the signature of appendix C.2.1; the digest is that of
// `openssl dgst -sha256` over the Sig_structure
stand_in!(good, "04bac5b1", "4c3363b4", "8eb33e4c");
stand_in!(other_point, "04bac5b2", "4c3363b4", "8eb33e4c");
stand_in!(other_digest, "04bac5b1", "4c3363b0", "8eb33e4c");
stand_in!(other_signature, "04bac5b1", "4c3363b4", "8eb33e4d");

cose::ecdsa_by! { fn by_good: P256 => good }
cose::ecdsa_by! {
    /// By crates of two curves.
    pub(crate) fn by_two: P384 => other_point, P256 => good
}
cose::ecdsa_by! { fn by_other_curve: P384 => good, P521 => good }
cose::ecdsa_by! { fn by_other_point: P256 => other_point }
cose::ecdsa_by! { fn by_other_digest: P256 => other_digest }
cose::ecdsa_by! { fn by_other_signature: P256 => other_signature }

#[test]
fn what_is_passed() {
    let keys = include_bytes!("../../../../examples/sign1_key.cbor");
    let message = include_bytes!("../../../../examples/sign1.cbor");
    for (is_good, wanted) in [
        (by_good as fn(&cose::SignInput) -> bool, true),
        (by_two, true),
        (by_other_curve, false),
        (by_other_point, false),
        (by_other_digest, false),
        (by_other_signature, false),
    ] {
        let Ok(Verdict::Signed(signed)) = verify(keys, message) else {
            panic!("a signature")
        };
        assert_eq!(is_good(signed.input()), wanted);
    }
}
