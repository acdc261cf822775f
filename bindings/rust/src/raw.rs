//! What the library exports. `include/cose.h` declares the same, and says what each call does.
//!
//! A call that takes slices is exported as `cose_edge_NAME`, and none of its pointers is null.

impl SignInput {
    /// Room for an answer.
    pub(crate) const BLANK: Self = SignInput {
        crv: 0,
        y_sign: 0,
        x_length: 0,
        y_length: 0,
        digest_length: 0,
        signature_length: 0,
        place: 0,
        x: [0; 66],
        y: [0; 66],
        digest: [0; 64],
        signature: [0; 132],
    };
}

impl From<*mut u8> for Verifier {
    fn from(at: *mut u8) -> Self {
        Verifier { at }
    }
}

impl From<*mut u8> for LargeVerifier {
    fn from(at: *mut u8) -> Self {
        LargeVerifier { at }
    }
}

// made by ci/edge_tables: structs
/// The conditions under which a token is admitted.
#[repr(C)]
pub(crate) struct Policy {
    pub(crate) now: i64,
    pub(crate) leeway: u32,
    pub(crate) has_audience: u8,
    pub(crate) audience: *const u8,
    pub(crate) audience_length: usize,
}

/// A range of bytes, relative to the payload.
#[repr(C)]
#[derive(Clone, Copy, Debug, Default, PartialEq, Eq)]
pub(crate) struct Range {
    pub(crate) at: u64,
    pub(crate) length: u64,
    pub(crate) present: u8,
}

/// A date, in seconds since 1970.
#[repr(C)]
#[derive(Clone, Copy, Debug, Default, PartialEq, Eq)]
pub(crate) struct Date {
    pub(crate) number: u64,
    pub(crate) present: u8,
    pub(crate) negative: u8,
}

/// The claims of a token (RFC 8392 section 3.1).
#[repr(C)]
#[derive(Clone, Copy, Debug, Default, PartialEq, Eq)]
pub(crate) struct Claims {
    pub(crate) status: u8,
    pub(crate) reason: u8,
    pub(crate) place: u64,
    pub(crate) payload_at: u64,
    pub(crate) payload_length: u64,
    pub(crate) iss: Range,
    pub(crate) sub: Range,
    pub(crate) aud: Range,
    pub(crate) cti: Range,
    pub(crate) aud_count: u64,
    pub(crate) exp: Date,
    pub(crate) nbf: Date,
    pub(crate) iat: Date,
    pub(crate) cnf_kid: Range,
    pub(crate) cnf_x: Range,
    pub(crate) cnf_y: Range,
    pub(crate) cnf_crv: u8,
    pub(crate) cnf_y_sign: u8,
}

/// What an `EdDSA` signature is verified with, where the status is [`SIGNED`](crate::numbers::SIGNED).
#[repr(C)]
pub(crate) struct EddsaInput {
    pub(crate) status: u8,
    pub(crate) reason: u8,
    pub(crate) crv: u8,
    pub(crate) has_kid: u8,
    pub(crate) alg: i32,
    pub(crate) place: u64,
    pub(crate) kid: *const u8,
    pub(crate) kid_length: usize,
    pub(crate) x: *const u8,
    pub(crate) x_length: usize,
    pub(crate) header: *const u8,
    pub(crate) header_length: usize,
    pub(crate) payload: *const u8,
    pub(crate) payload_length: usize,
    pub(crate) signature: *const u8,
    pub(crate) signature_length: usize,
}

/// What precedes the payload in the structure that is authenticated (RFC 9052 sections 4.4 and 6.3), in six pieces: the third is
/// the content of the protected header as received, and the fifth the externally supplied data.
#[repr(C)]
#[derive(Clone, Copy)]
pub(crate) struct FrontPieces {
    pub(crate) protected_length: u64,
    pub(crate) context_length: u8,
    pub(crate) protected_head_length: u8,
    pub(crate) aad_head_length: u8,
    pub(crate) payload_head_length: u8,
    pub(crate) context: [u8; 12],
    pub(crate) protected_head: [u8; 9],
    pub(crate) aad_head: [u8; 9],
    pub(crate) payload_head: [u8; 9],
}

/// The key that was chosen for a message, as it is in the caller's key set.
#[repr(C)]
pub(crate) struct AskedKey {
    pub(crate) alg: i32,
    pub(crate) crv: u8,
    pub(crate) y_sign: u8,
    pub(crate) has_kid: u8,
    pub(crate) kid: *const u8,
    pub(crate) kid_length: usize,
    pub(crate) k: *const u8,
    pub(crate) k_length: usize,
    pub(crate) x: *const u8,
    pub(crate) x_length: usize,
    pub(crate) y: *const u8,
    pub(crate) y_length: usize,
}

/// The signature of a message, as it was received.
#[repr(C)]
#[derive(Clone, Copy)]
pub(crate) struct AskedSignature {
    pub(crate) length: u64,
    pub(crate) signature: [u8; 132],
}

/// The handle of a verifier: where its block is.
#[repr(C)]
pub(crate) struct DeviceVerifier {
    pub(crate) at: *mut u8,
}

/// The handle of a verifier: where its block is.
#[repr(C)]
pub(crate) struct LargeVerifier {
    pub(crate) at: *mut u8,
}

/// The handle of a maker: where its block is.
#[repr(C)]
pub(crate) struct Maker {
    pub(crate) at: *mut u8,
}

/// The handle of a signer: where its block is.
#[repr(C)]
pub(crate) struct Signer {
    pub(crate) at: *mut u8,
}

/// The handle of a table: where its block is.
#[repr(C)]
pub(crate) struct Table {
    pub(crate) at: *mut u8,
}

/// The handle of a verifier: where its block is.
#[repr(C)]
pub(crate) struct Verifier {
    pub(crate) at: *mut u8,
}

/// What a signature is verified with (RFC 9052 section 4.4): a point, a digest and the signature.
#[repr(C)]
#[derive(Clone, Copy)]
pub(crate) struct SignInput {
    pub(crate) crv: u8,
    pub(crate) y_sign: u8,
    pub(crate) x_length: u64,
    pub(crate) y_length: u64,
    pub(crate) digest_length: u64,
    pub(crate) signature_length: u64,
    pub(crate) place: u64,
    pub(crate) x: [u8; 66],
    pub(crate) y: [u8; 66],
    pub(crate) digest: [u8; 64],
    pub(crate) signature: [u8; 132],
}

/// A data item (RFC 8949 section 3) of a payload.
#[repr(C)]
#[derive(Clone, Copy, Debug, Default, PartialEq, Eq)]
pub(crate) struct Item {
    pub(crate) at: u64,
    pub(crate) length: u64,
    pub(crate) content_at: u64,
    pub(crate) number: u64,
    pub(crate) present: u8,
    pub(crate) major: u8,
}

/// Whether a key fits a message.
#[repr(C)]
#[derive(Clone, Copy, Debug, Default, PartialEq, Eq)]
pub(crate) struct KeyFit {
    pub(crate) status: u8,
    pub(crate) reason: u8,
    pub(crate) condition: u8,
    pub(crate) place: u64,
}

/// What is known of a key set (RFC 9052 section 7).
#[repr(C)]
#[derive(Clone, Copy, Debug, Default, PartialEq, Eq)]
pub(crate) struct KeySet {
    pub(crate) status: u8,
    pub(crate) reason: u8,
    pub(crate) place: u64,
    pub(crate) usable: u64,
}

/// What was made of a message.
#[repr(C)]
#[derive(Clone, Copy, Debug, Default, PartialEq, Eq)]
pub(crate) struct Made {
    pub(crate) status: u8,
    pub(crate) reason: u8,
    pub(crate) length: u64,
}

/// A status. Of a refusal it has the number of its reason and its place, and of any other status zeros.
#[repr(C)]
#[derive(Clone, Copy, Debug, Default, PartialEq, Eq)]
pub(crate) struct Status {
    pub(crate) number: u8,
    pub(crate) reason: u8,
    pub(crate) place: u64,
}

/// The verdict on a message.
#[repr(C)]
#[derive(Clone, Copy, Debug, Default, PartialEq, Eq)]
pub(crate) struct Verdict {
    pub(crate) status: u8,
    pub(crate) reason: u8,
    pub(crate) kind: u8,
    pub(crate) alg: i32,
    pub(crate) place: u64,
    pub(crate) payload_at: u64,
    pub(crate) payload_length: u64,
    pub(crate) taken: u64,
}

/// What a caller requires of tokens.
#[repr(C)]
pub(crate) struct Requirements {
    pub(crate) size: u32,
    pub(crate) leeway: u32,
    pub(crate) now: i64,
    pub(crate) lifetime: u64,
    pub(crate) age: u64,
    pub(crate) iss: *const u8,
    pub(crate) iss_length: usize,
    pub(crate) sub: *const u8,
    pub(crate) sub_length: usize,
    pub(crate) aud: *const u8,
    pub(crate) aud_length: usize,
    pub(crate) present: u8,
    pub(crate) permitted: u8,
}

/// The shape of a message (RFC 9052 sections 4.2 and 6.2).
#[repr(C)]
#[derive(Clone, Copy, Debug, Default, PartialEq, Eq)]
pub(crate) struct Shape {
    pub(crate) status: u8,
    pub(crate) reason: u8,
    pub(crate) kind: u8,
    pub(crate) place: u64,
    pub(crate) payload_length: u64,
    pub(crate) auth_length: u64,
    pub(crate) taken: u64,
}

/// What a caller states of messages.
#[repr(C)]
pub(crate) struct Terms {
    pub(crate) size: u32,
    pub(crate) kind: u8,
    pub(crate) permitted: u8,
    pub(crate) least_secret: u64,
    pub(crate) payload_limit: u64,
    pub(crate) keys: *const u8,
    pub(crate) keys_length: usize,
    pub(crate) aad: *const u8,
    pub(crate) aad_length: usize,
    pub(crate) algorithms: [i32; 16],
    pub(crate) understood: [i64; 16],
}

/// What was used of a piece.
#[repr(C)]
#[derive(Clone, Copy, Debug, Default, PartialEq, Eq)]
pub(crate) struct Fed {
    pub(crate) status: Status,
    pub(crate) used: u64,
    pub(crate) payload_at: u64,
    pub(crate) payload_length: u64,
}
// end of what ci/edge_tables makes

// made by ci/edge_tables: exports
// SAFETY: these are the library's functions, as its header declares them.
#[rustfmt::skip]
#[allow(dead_code, reason = "each export is declared")]
unsafe extern "C" {
    pub(crate) fn cose_edge_admit(
        terms: &Terms, requirements: &Requirements, token: *const u8, token_length: usize, claims: &mut Claims,
    );
    pub(crate) fn cose_edge_large_admit(
        terms: &Terms, requirements: &Requirements, token: *const u8, token_length: usize, claims: &mut Claims,
    );
    pub(crate) fn cose_edge_admit_claims(
        requirements: &Requirements, payload: *const u8, payload_length: usize, claims: &mut Claims,
    );
    pub(crate) fn cose_edge_large_admit_claims(
        requirements: &Requirements, payload: *const u8, payload_length: usize, claims: &mut Claims,
    );
    pub(crate) fn cose_edge_authenticate(
        terms: &Terms, message: *const u8, message_length: usize, verdict: &mut Verdict, input: &mut SignInput,
    );
    pub(crate) fn cose_edge_large_authenticate(
        terms: &Terms, message: *const u8, message_length: usize, verdict: &mut Verdict, input: &mut SignInput,
    );
    pub(crate) fn cose_edge_authenticate_detached(
        terms: &Terms, message: *const u8, message_length: usize, payload: *const u8, payload_length: usize,
        verdict: &mut Verdict, input: &mut SignInput,
    );
    pub(crate) fn cose_edge_large_authenticate_detached(
        terms: &Terms, message: *const u8, message_length: usize, payload: *const u8, payload_length: usize,
        verdict: &mut Verdict, input: &mut SignInput,
    );
    pub(crate) fn cose_edge_verify_cwt(
        keys: *const u8, keys_length: usize, aad: *const u8, aad_length: usize, policy: &Policy, token: *const u8,
        token_length: usize, claims: &mut Claims,
    );
    pub(crate) fn cose_edge_large_verify_cwt(
        keys: *const u8, keys_length: usize, aad: *const u8, aad_length: usize, policy: &Policy, token: *const u8,
        token_length: usize, claims: &mut Claims,
    );
    pub(crate) fn cose_edge_claims(payload: *const u8, payload_length: usize, policy: &Policy, claims: &mut Claims);
    pub(crate) fn cose_edge_large_claims(
        payload: *const u8, payload_length: usize, policy: &Policy, claims: &mut Claims,
    );
    pub(crate) fn cose_edge_audience(payload: *const u8, payload_length: usize, index: u64, audience: &mut Range);
    pub(crate) fn cose_edge_next_audience(payload: *const u8, payload_length: usize, place: u64, audience: &mut Range);
    pub(crate) fn cose_edge_verify_eddsa(
        keys: *const u8, keys_length: usize, aad: *const u8, aad_length: usize, wanted: u8, message: *const u8,
        message_length: usize, input: &mut EddsaInput, pieces: &mut FrontPieces,
    );
    pub(crate) fn cose_edge_verify_eddsa_detached(
        keys: *const u8, keys_length: usize, aad: *const u8, aad_length: usize, wanted: u8, message: *const u8,
        message_length: usize, payload: *const u8, payload_length: usize, input: &mut EddsaInput,
        pieces: &mut FrontPieces,
    );
    pub(crate) fn cose_edge_large_open_elsewhere(
        verifier: &mut LargeVerifier, keys: *const u8, keys_length: usize, aad: *const u8, aad_length: usize,
        wanted: u8, status: &mut Status,
    );
    pub(crate) fn cose_edge_large_open_elsewhere_detached(
        verifier: &mut LargeVerifier, keys: *const u8, keys_length: usize, aad: *const u8, aad_length: usize,
        wanted: u8, payload_length: u64, status: &mut Status,
    );
    pub(crate) fn cose_edge_large_front_pieces(
        verifier: &mut LargeVerifier, header: *mut u8, header_room: usize, pieces: &mut FrontPieces,
    ) -> u8;
    pub(crate) fn cose_edge_large_asked_key(verifier: &mut LargeVerifier, asked: &mut AskedKey) -> u8;
    pub(crate) fn cose_large_asked_signature(verifier: &mut LargeVerifier, signature: &mut AskedSignature) -> u8;
    pub(crate) fn cose_edge_large_verdict_of_mac(
        verifier: &mut LargeVerifier, mac: *const u8, mac_length: usize, verdict: &mut Verdict,
    );
    pub(crate) fn cose_large_verdict_of_answer(
        verifier: &mut LargeVerifier, message: u64, holds: i32, verdict: &mut Verdict,
    );
    pub(crate) fn cose_edge_open_elsewhere(
        verifier: &mut Verifier, keys: *const u8, keys_length: usize, aad: *const u8, aad_length: usize, wanted: u8,
        status: &mut Status,
    );
    pub(crate) fn cose_edge_open_elsewhere_detached(
        verifier: &mut Verifier, keys: *const u8, keys_length: usize, aad: *const u8, aad_length: usize, wanted: u8,
        payload_length: u64, status: &mut Status,
    );
    pub(crate) fn cose_edge_front_pieces(
        verifier: &mut Verifier, header: *mut u8, header_room: usize, pieces: &mut FrontPieces,
    ) -> u8;
    pub(crate) fn cose_edge_asked_key(verifier: &mut Verifier, asked: &mut AskedKey) -> u8;
    pub(crate) fn cose_asked_signature(verifier: &mut Verifier, signature: &mut AskedSignature) -> u8;
    pub(crate) fn cose_edge_verdict_of_mac(
        verifier: &mut Verifier, mac: *const u8, mac_length: usize, verdict: &mut Verdict,
    );
    pub(crate) fn cose_verdict_of_answer(verifier: &mut Verifier, message: u64, holds: i32, verdict: &mut Verdict);
    pub(crate) safe fn cose_device_verifier_size() -> usize;
    pub(crate) safe fn cose_device_verifier_align() -> usize;
    pub(crate) fn cose_device_begin(at: *mut u8);
    pub(crate) safe fn cose_large_verifier_size() -> usize;
    pub(crate) safe fn cose_large_verifier_align() -> usize;
    pub(crate) fn cose_large_begin(at: *mut u8);
    pub(crate) safe fn cose_maker_size() -> usize;
    pub(crate) safe fn cose_maker_align() -> usize;
    pub(crate) fn cose_maker_begin(at: *mut u8);
    pub(crate) safe fn cose_signer_size() -> usize;
    pub(crate) safe fn cose_signer_align() -> usize;
    pub(crate) fn cose_signer_begin(at: *mut u8);
    pub(crate) safe fn cose_table_size() -> usize;
    pub(crate) safe fn cose_table_align() -> usize;
    pub(crate) fn cose_table_begin(at: *mut u8);
    pub(crate) safe fn cose_verifier_size() -> usize;
    pub(crate) safe fn cose_verifier_align() -> usize;
    pub(crate) fn cose_begin(at: *mut u8);
    pub(crate) fn cose_edge_claim(payload: *const u8, payload_length: usize, label: i64, item: &mut Item);
    pub(crate) fn cose_edge_claim_named(
        payload: *const u8, payload_length: usize, name: *const u8, name_length: usize, item: &mut Item,
    );
    pub(crate) fn cose_edge_item_at(payload: *const u8, payload_length: usize, place: u64, item: &mut Item);
    pub(crate) fn cose_edge_fed_key_of(verifier: &mut Verifier, terms: &Terms, key: &mut Item);
    pub(crate) fn cose_edge_large_key_of(terms: &Terms, message: *const u8, message_length: usize, key: &mut Item);
    pub(crate) fn cose_edge_large_mismatch(
        terms: &Terms, message: *const u8, message_length: usize, place: u64, fit: &mut KeyFit,
    );
    pub(crate) fn cose_edge_large_fed_key_of(verifier: &mut LargeVerifier, terms: &Terms, key: &mut Item);
    pub(crate) fn cose_edge_key_of(terms: &Terms, message: *const u8, message_length: usize, key: &mut Item);
    pub(crate) fn cose_edge_mismatch(
        terms: &Terms, message: *const u8, message_length: usize, place: u64, fit: &mut KeyFit,
    );
    pub(crate) fn cose_edge_read_keys(keys: *const u8, keys_length: usize, key_set: &mut KeySet);
    pub(crate) fn cose_edge_make(
        maker: &mut Maker, alg: i32, key: *const u8, key_length: usize, kid: *const u8, kid_length: usize,
        aad: *const u8, aad_length: usize, payload_length: u64, head: *mut u8, head_room: usize, made: &mut Made,
    );
    pub(crate) fn cose_edge_make_piece(maker: &mut Maker, piece: *const u8, piece_length: usize) -> u64;
    pub(crate) fn cose_edge_make_end(maker: &mut Maker, tail: *mut u8, tail_room: usize, made: &mut Made);
    pub(crate) fn cose_edge_verify(
        keys: *const u8, keys_length: usize, aad: *const u8, aad_length: usize, wanted: u8, message: *const u8,
        message_length: usize, verdict: &mut Verdict, input: &mut SignInput,
    );
    pub(crate) fn cose_edge_large_verify(
        keys: *const u8, keys_length: usize, aad: *const u8, aad_length: usize, wanted: u8, message: *const u8,
        message_length: usize, verdict: &mut Verdict, input: &mut SignInput,
    );
    pub(crate) fn cose_edge_verify_detached(
        keys: *const u8, keys_length: usize, aad: *const u8, aad_length: usize, wanted: u8, message: *const u8,
        message_length: usize, payload: *const u8, payload_length: usize, verdict: &mut Verdict, input: &mut SignInput,
    );
    pub(crate) fn cose_edge_large_verify_detached(
        keys: *const u8, keys_length: usize, aad: *const u8, aad_length: usize, wanted: u8, message: *const u8,
        message_length: usize, payload: *const u8, payload_length: usize, verdict: &mut Verdict, input: &mut SignInput,
    );
    pub(crate) safe fn cose_version() -> u32;
    pub(crate) fn cose_edge_parameter(
        wanted: u8, message: *const u8, message_length: usize, is_protected: u32, label: i64, item: &mut Item,
    );
    pub(crate) fn cose_edge_large_parameter(
        wanted: u8, message: *const u8, message_length: usize, is_protected: u32, label: i64, item: &mut Item,
    );
    pub(crate) fn cose_edge_parameter_named(
        wanted: u8, message: *const u8, message_length: usize, is_protected: u32, name: *const u8, name_length: usize,
        item: &mut Item,
    );
    pub(crate) fn cose_edge_large_parameter_named(
        wanted: u8, message: *const u8, message_length: usize, is_protected: u32, name: *const u8, name_length: usize,
        item: &mut Item,
    );
    pub(crate) fn cose_edge_shape(wanted: u8, message: *const u8, message_length: usize, shape: &mut Shape);
    pub(crate) fn cose_edge_make_sign1(
        signer: &mut Signer, alg: i32, kid: *const u8, kid_length: usize, aad: *const u8, aad_length: usize,
        payload_length: u64, head: *mut u8, head_room: usize, made: &mut Made,
    );
    pub(crate) fn cose_edge_make_sign1_piece(signer: &mut Signer, piece: *const u8, piece_length: usize) -> u64;
    pub(crate) fn cose_edge_make_sign1_digest(
        signer: &mut Signer, digest: *mut u8, digest_room: usize, made: &mut Made,
    );
    pub(crate) fn cose_edge_make_sign1_end(
        signer: &mut Signer, signature: *const u8, signature_length: usize, tail: *mut u8, tail_room: usize,
        made: &mut Made,
    );
    pub(crate) fn cose_edge_device_open(
        verifier: &mut DeviceVerifier, keys: *const u8, keys_length: usize, aad: *const u8, aad_length: usize,
        wanted: u8, status: &mut Status,
    );
    pub(crate) fn cose_edge_device_open_detached(
        verifier: &mut DeviceVerifier, keys: *const u8, keys_length: usize, aad: *const u8, aad_length: usize,
        wanted: u8, payload_length: u64, status: &mut Status,
    );
    pub(crate) fn cose_edge_device_feed(
        verifier: &mut DeviceVerifier, piece: *const u8, piece_length: usize, fed: &mut Fed,
    );
    pub(crate) fn cose_device_wanted(verifier: &mut DeviceVerifier) -> u64;
    pub(crate) fn cose_device_payload_wanted(verifier: &mut DeviceVerifier) -> u64;
    pub(crate) fn cose_edge_device_feed_payload(
        verifier: &mut DeviceVerifier, piece: *const u8, piece_length: usize,
    ) -> u64;
    pub(crate) fn cose_device_end(verifier: &mut DeviceVerifier, status: &mut Status);
    pub(crate) fn cose_device_sign_input(verifier: &mut DeviceVerifier, input: &mut SignInput) -> u8;
    pub(crate) fn cose_device_verdict(verifier: &mut DeviceVerifier, signature_is_good: i32, verdict: &mut Verdict);
    pub(crate) fn cose_device_message_number(verifier: &mut DeviceVerifier) -> u64;
    pub(crate) fn cose_device_verdict_for(
        verifier: &mut DeviceVerifier, message: u64, signature_is_good: i32, verdict: &mut Verdict,
    );
    pub(crate) fn cose_device_reset(verifier: &mut DeviceVerifier);
    pub(crate) fn cose_device_taken(verifier: &mut DeviceVerifier) -> u64;
    pub(crate) fn cose_device_held(verifier: &mut DeviceVerifier) -> u64;
    pub(crate) fn cose_edge_large_open(
        verifier: &mut LargeVerifier, keys: *const u8, keys_length: usize, aad: *const u8, aad_length: usize,
        wanted: u8, status: &mut Status,
    );
    pub(crate) fn cose_edge_large_open_detached(
        verifier: &mut LargeVerifier, keys: *const u8, keys_length: usize, aad: *const u8, aad_length: usize,
        wanted: u8, payload_length: u64, status: &mut Status,
    );
    pub(crate) fn cose_edge_large_open_under(verifier: &mut LargeVerifier, terms: &Terms, status: &mut Status);
    pub(crate) fn cose_edge_large_open_under_detached(
        verifier: &mut LargeVerifier, terms: &Terms, payload_length: u64, status: &mut Status,
    );
    pub(crate) fn cose_edge_large_feed(
        verifier: &mut LargeVerifier, piece: *const u8, piece_length: usize, fed: &mut Fed,
    );
    pub(crate) fn cose_large_wanted(verifier: &mut LargeVerifier) -> u64;
    pub(crate) fn cose_large_payload_wanted(verifier: &mut LargeVerifier) -> u64;
    pub(crate) fn cose_edge_large_feed_payload(
        verifier: &mut LargeVerifier, piece: *const u8, piece_length: usize,
    ) -> u64;
    pub(crate) fn cose_large_end(verifier: &mut LargeVerifier, status: &mut Status);
    pub(crate) fn cose_large_sign_input(verifier: &mut LargeVerifier, input: &mut SignInput) -> u8;
    pub(crate) fn cose_large_verdict(verifier: &mut LargeVerifier, signature_is_good: i32, verdict: &mut Verdict);
    pub(crate) fn cose_large_message_number(verifier: &mut LargeVerifier) -> u64;
    pub(crate) fn cose_large_verdict_for(
        verifier: &mut LargeVerifier, message: u64, signature_is_good: i32, verdict: &mut Verdict,
    );
    pub(crate) fn cose_large_reset(verifier: &mut LargeVerifier);
    pub(crate) fn cose_large_taken(verifier: &mut LargeVerifier) -> u64;
    pub(crate) fn cose_large_held(verifier: &mut LargeVerifier) -> u64;
    pub(crate) fn cose_edge_large_header(
        verifier: &mut LargeVerifier, is_protected: u32, label: i64, into: *mut u8, into_room: usize, item: &mut Item,
    );
    pub(crate) fn cose_edge_large_header_named(
        verifier: &mut LargeVerifier, is_protected: u32, name: *const u8, name_length: usize, into: *mut u8,
        into_room: usize, item: &mut Item,
    );
    pub(crate) fn cose_edge_open(
        verifier: &mut Verifier, keys: *const u8, keys_length: usize, aad: *const u8, aad_length: usize, wanted: u8,
        status: &mut Status,
    );
    pub(crate) fn cose_edge_open_detached(
        verifier: &mut Verifier, keys: *const u8, keys_length: usize, aad: *const u8, aad_length: usize, wanted: u8,
        payload_length: u64, status: &mut Status,
    );
    pub(crate) fn cose_edge_open_under(verifier: &mut Verifier, terms: &Terms, status: &mut Status);
    pub(crate) fn cose_edge_open_under_detached(
        verifier: &mut Verifier, terms: &Terms, payload_length: u64, status: &mut Status,
    );
    pub(crate) fn cose_edge_feed(verifier: &mut Verifier, piece: *const u8, piece_length: usize, fed: &mut Fed);
    pub(crate) fn cose_wanted(verifier: &mut Verifier) -> u64;
    pub(crate) fn cose_payload_wanted(verifier: &mut Verifier) -> u64;
    pub(crate) fn cose_edge_feed_payload(verifier: &mut Verifier, piece: *const u8, piece_length: usize) -> u64;
    pub(crate) fn cose_end(verifier: &mut Verifier, status: &mut Status);
    pub(crate) fn cose_sign_input(verifier: &mut Verifier, input: &mut SignInput) -> u8;
    pub(crate) fn cose_verdict(verifier: &mut Verifier, signature_is_good: i32, verdict: &mut Verdict);
    pub(crate) fn cose_message_number(verifier: &mut Verifier) -> u64;
    pub(crate) fn cose_verdict_for(
        verifier: &mut Verifier, message: u64, signature_is_good: i32, verdict: &mut Verdict,
    );
    pub(crate) fn cose_reset(verifier: &mut Verifier);
    pub(crate) fn cose_taken(verifier: &mut Verifier) -> u64;
    pub(crate) fn cose_held(verifier: &mut Verifier) -> u64;
    pub(crate) fn cose_edge_header(
        verifier: &mut Verifier, is_protected: u32, label: i64, into: *mut u8, into_room: usize, item: &mut Item,
    );
    pub(crate) fn cose_edge_header_named(
        verifier: &mut Verifier, is_protected: u32, name: *const u8, name_length: usize, into: *mut u8,
        into_room: usize, item: &mut Item,
    );
    pub(crate) fn cose_edge_large_open_table(
        verifier: &mut LargeVerifier, table: &Table, aad: *const u8, aad_length: usize, wanted: u8, status: &mut Status,
    );
    pub(crate) fn cose_edge_large_open_table_detached(
        verifier: &mut LargeVerifier, table: &Table, aad: *const u8, aad_length: usize, wanted: u8, payload_length: u64,
        status: &mut Status,
    );
    pub(crate) fn cose_edge_open_table(
        verifier: &mut Verifier, table: &Table, aad: *const u8, aad_length: usize, wanted: u8, status: &mut Status,
    );
    pub(crate) fn cose_edge_open_table_detached(
        verifier: &mut Verifier, table: &Table, aad: *const u8, aad_length: usize, wanted: u8, payload_length: u64,
        status: &mut Status,
    );
    pub(crate) fn cose_edge_table_read_under(table: &mut Table, terms: &Terms, key_set: &mut KeySet);
    pub(crate) fn cose_edge_table_authenticate(
        table: &Table, message: *const u8, message_length: usize, verdict: &mut Verdict, input: &mut SignInput,
    );
    pub(crate) fn cose_edge_table_admit(
        table: &Table, requirements: &Requirements, token: *const u8, token_length: usize, claims: &mut Claims,
    );
    pub(crate) fn cose_edge_table_read(table: &mut Table, keys: *const u8, keys_length: usize, key_set: &mut KeySet);
    pub(crate) fn cose_edge_table_verify(
        table: &Table, aad: *const u8, aad_length: usize, wanted: u8, message: *const u8, message_length: usize,
        verdict: &mut Verdict, input: &mut SignInput,
    );
    pub(crate) fn cose_edge_table_verify_cwt(
        table: &Table, aad: *const u8, aad_length: usize, policy: &Policy, token: *const u8, token_length: usize,
        claims: &mut Claims,
    );
    pub(crate) fn cose_edge_wipe_bytes(bytes: *mut u8, bytes_room: usize);
}
// end of what ci/edge_tables makes
