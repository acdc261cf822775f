//! The library's functions of each size, which are called alike.

use crate::{raw, Large, Small};

/// What the library has of a size.
pub(crate) trait Library {
    /// A verifier in a block.
    type Handle: From<*mut u8>;
    /// The functions.
    const FUNCTIONS: Functions<Self::Handle>;
}

/// Messages, keys and the like: where they begin, and how many bytes they have.
type Bytes = *const u8;

// made by ci/edge_tables: sizes
/// The functions that are there in each size, over its handle `V`. `include/cose.h` says what each does.
#[rustfmt::skip]
#[allow(dead_code, reason = "each export is declared")]
pub(crate) struct Functions<V> {
    pub(crate) admit: unsafe extern "C" fn(
        terms: &raw::Terms, requirements: &raw::Requirements, token: Bytes, token_length: usize,
        claims: &mut raw::Claims,
    ),
    pub(crate) admit_claims: unsafe extern "C" fn(
        requirements: &raw::Requirements, payload: Bytes, payload_length: usize, claims: &mut raw::Claims,
    ),
    pub(crate) authenticate: unsafe extern "C" fn(
        terms: &raw::Terms, message: Bytes, message_length: usize, verdict: &mut raw::Verdict,
        input: &mut raw::SignInput,
    ),
    pub(crate) authenticate_detached: unsafe extern "C" fn(
        terms: &raw::Terms, message: Bytes, message_length: usize, payload: Bytes, payload_length: usize,
        verdict: &mut raw::Verdict, input: &mut raw::SignInput,
    ),
    pub(crate) verify_cwt: unsafe extern "C" fn(
        keys: Bytes, keys_length: usize, aad: Bytes, aad_length: usize, policy: &raw::Policy, token: Bytes,
        token_length: usize, claims: &mut raw::Claims,
    ),
    pub(crate) claims: unsafe extern "C" fn(
        payload: Bytes, payload_length: usize, policy: &raw::Policy, claims: &mut raw::Claims,
    ),
    pub(crate) open_elsewhere: unsafe extern "C" fn(
        verifier: &mut V, keys: Bytes, keys_length: usize, aad: Bytes, aad_length: usize, wanted: u8,
        status: &mut raw::Status,
    ),
    pub(crate) open_elsewhere_detached: unsafe extern "C" fn(
        verifier: &mut V, keys: Bytes, keys_length: usize, aad: Bytes, aad_length: usize, wanted: u8,
        payload_length: u64, status: &mut raw::Status,
    ),
    pub(crate) front_pieces: unsafe extern "C" fn(
        verifier: &mut V, header: *mut u8, header_room: usize, pieces: &mut raw::FrontPieces,
    ) -> u8,
    pub(crate) asked_key: unsafe extern "C" fn(verifier: &mut V, asked: &mut raw::AskedKey) -> u8,
    pub(crate) asked_signature: unsafe extern "C" fn(verifier: &mut V, signature: &mut raw::AskedSignature) -> u8,
    pub(crate) verdict_of_mac: unsafe extern "C" fn(
        verifier: &mut V, mac: Bytes, mac_length: usize, verdict: &mut raw::Verdict,
    ),
    pub(crate) verdict_of_answer: unsafe extern "C" fn(
        verifier: &mut V, message: u64, holds: i32, verdict: &mut raw::Verdict,
    ),
    pub(crate) size: extern "C" fn() -> usize,
    pub(crate) align: extern "C" fn() -> usize,
    pub(crate) begin: unsafe extern "C" fn(at: *mut u8),
    pub(crate) key_of: unsafe extern "C" fn(
        terms: &raw::Terms, message: Bytes, message_length: usize, key: &mut raw::Item,
    ),
    pub(crate) mismatch: unsafe extern "C" fn(
        terms: &raw::Terms, message: Bytes, message_length: usize, place: u64, fit: &mut raw::KeyFit,
    ),
    pub(crate) fed_key_of: unsafe extern "C" fn(verifier: &mut V, terms: &raw::Terms, key: &mut raw::Item),
    pub(crate) verify: unsafe extern "C" fn(
        keys: Bytes, keys_length: usize, aad: Bytes, aad_length: usize, wanted: u8, message: Bytes,
        message_length: usize, verdict: &mut raw::Verdict, input: &mut raw::SignInput,
    ),
    pub(crate) verify_detached: unsafe extern "C" fn(
        keys: Bytes, keys_length: usize, aad: Bytes, aad_length: usize, wanted: u8, message: Bytes,
        message_length: usize, payload: Bytes, payload_length: usize, verdict: &mut raw::Verdict,
        input: &mut raw::SignInput,
    ),
    pub(crate) parameter: unsafe extern "C" fn(
        wanted: u8, message: Bytes, message_length: usize, is_protected: u32, label: i64, item: &mut raw::Item,
    ),
    pub(crate) parameter_named: unsafe extern "C" fn(
        wanted: u8, message: Bytes, message_length: usize, is_protected: u32, name: Bytes, name_length: usize,
        item: &mut raw::Item,
    ),
    pub(crate) open: unsafe extern "C" fn(
        verifier: &mut V, keys: Bytes, keys_length: usize, aad: Bytes, aad_length: usize, wanted: u8,
        status: &mut raw::Status,
    ),
    pub(crate) open_detached: unsafe extern "C" fn(
        verifier: &mut V, keys: Bytes, keys_length: usize, aad: Bytes, aad_length: usize, wanted: u8,
        payload_length: u64, status: &mut raw::Status,
    ),
    pub(crate) open_under: unsafe extern "C" fn(verifier: &mut V, terms: &raw::Terms, status: &mut raw::Status),
    pub(crate) open_under_detached: unsafe extern "C" fn(
        verifier: &mut V, terms: &raw::Terms, payload_length: u64, status: &mut raw::Status,
    ),
    pub(crate) feed: unsafe extern "C" fn(verifier: &mut V, piece: Bytes, piece_length: usize, fed: &mut raw::Fed),
    pub(crate) wanted: unsafe extern "C" fn(verifier: &mut V) -> u64,
    pub(crate) payload_wanted: unsafe extern "C" fn(verifier: &mut V) -> u64,
    pub(crate) feed_payload: unsafe extern "C" fn(verifier: &mut V, piece: Bytes, piece_length: usize) -> u64,
    pub(crate) end: unsafe extern "C" fn(verifier: &mut V, status: &mut raw::Status),
    pub(crate) sign_input: unsafe extern "C" fn(verifier: &mut V, input: &mut raw::SignInput) -> u8,
    pub(crate) verdict: unsafe extern "C" fn(verifier: &mut V, signature_is_good: i32, verdict: &mut raw::Verdict),
    pub(crate) message_number: unsafe extern "C" fn(verifier: &mut V) -> u64,
    pub(crate) verdict_for: unsafe extern "C" fn(
        verifier: &mut V, message: u64, signature_is_good: i32, verdict: &mut raw::Verdict,
    ),
    pub(crate) reset: unsafe extern "C" fn(verifier: &mut V),
    pub(crate) taken: unsafe extern "C" fn(verifier: &mut V) -> u64,
    pub(crate) held: unsafe extern "C" fn(verifier: &mut V) -> u64,
    pub(crate) header: unsafe extern "C" fn(
        verifier: &mut V, is_protected: u32, label: i64, into: *mut u8, into_room: usize, item: &mut raw::Item,
    ),
    pub(crate) header_named: unsafe extern "C" fn(
        verifier: &mut V, is_protected: u32, name: Bytes, name_length: usize, into: *mut u8, into_room: usize,
        item: &mut raw::Item,
    ),
    pub(crate) open_table: unsafe extern "C" fn(
        verifier: &mut V, table: &raw::Table, aad: Bytes, aad_length: usize, wanted: u8, status: &mut raw::Status,
    ),
    pub(crate) open_table_detached: unsafe extern "C" fn(
        verifier: &mut V, table: &raw::Table, aad: Bytes, aad_length: usize, wanted: u8, payload_length: u64,
        status: &mut raw::Status,
    ),
}

impl Library for Small {
    type Handle = raw::Verifier;
    const FUNCTIONS: Functions<raw::Verifier> = Functions {
        admit: raw::cose_edge_admit,
        admit_claims: raw::cose_edge_admit_claims,
        authenticate: raw::cose_edge_authenticate,
        authenticate_detached: raw::cose_edge_authenticate_detached,
        verify_cwt: raw::cose_edge_verify_cwt,
        claims: raw::cose_edge_claims,
        open_elsewhere: raw::cose_edge_open_elsewhere,
        open_elsewhere_detached: raw::cose_edge_open_elsewhere_detached,
        front_pieces: raw::cose_edge_front_pieces,
        asked_key: raw::cose_edge_asked_key,
        asked_signature: raw::cose_asked_signature,
        verdict_of_mac: raw::cose_edge_verdict_of_mac,
        verdict_of_answer: raw::cose_verdict_of_answer,
        size: raw::cose_verifier_size,
        align: raw::cose_verifier_align,
        begin: raw::cose_begin,
        key_of: raw::cose_edge_key_of,
        mismatch: raw::cose_edge_mismatch,
        fed_key_of: raw::cose_edge_fed_key_of,
        verify: raw::cose_edge_verify,
        verify_detached: raw::cose_edge_verify_detached,
        parameter: raw::cose_edge_parameter,
        parameter_named: raw::cose_edge_parameter_named,
        open: raw::cose_edge_open,
        open_detached: raw::cose_edge_open_detached,
        open_under: raw::cose_edge_open_under,
        open_under_detached: raw::cose_edge_open_under_detached,
        feed: raw::cose_edge_feed,
        wanted: raw::cose_wanted,
        payload_wanted: raw::cose_payload_wanted,
        feed_payload: raw::cose_edge_feed_payload,
        end: raw::cose_end,
        sign_input: raw::cose_sign_input,
        verdict: raw::cose_verdict,
        message_number: raw::cose_message_number,
        verdict_for: raw::cose_verdict_for,
        reset: raw::cose_reset,
        taken: raw::cose_taken,
        held: raw::cose_held,
        header: raw::cose_edge_header,
        header_named: raw::cose_edge_header_named,
        open_table: raw::cose_edge_open_table,
        open_table_detached: raw::cose_edge_open_table_detached,
    };
}

impl Library for Large {
    type Handle = raw::LargeVerifier;
    const FUNCTIONS: Functions<raw::LargeVerifier> = Functions {
        admit: raw::cose_edge_large_admit,
        admit_claims: raw::cose_edge_large_admit_claims,
        authenticate: raw::cose_edge_large_authenticate,
        authenticate_detached: raw::cose_edge_large_authenticate_detached,
        verify_cwt: raw::cose_edge_large_verify_cwt,
        claims: raw::cose_edge_large_claims,
        open_elsewhere: raw::cose_edge_large_open_elsewhere,
        open_elsewhere_detached: raw::cose_edge_large_open_elsewhere_detached,
        front_pieces: raw::cose_edge_large_front_pieces,
        asked_key: raw::cose_edge_large_asked_key,
        asked_signature: raw::cose_large_asked_signature,
        verdict_of_mac: raw::cose_edge_large_verdict_of_mac,
        verdict_of_answer: raw::cose_large_verdict_of_answer,
        size: raw::cose_large_verifier_size,
        align: raw::cose_large_verifier_align,
        begin: raw::cose_large_begin,
        key_of: raw::cose_edge_large_key_of,
        mismatch: raw::cose_edge_large_mismatch,
        fed_key_of: raw::cose_edge_large_fed_key_of,
        verify: raw::cose_edge_large_verify,
        verify_detached: raw::cose_edge_large_verify_detached,
        parameter: raw::cose_edge_large_parameter,
        parameter_named: raw::cose_edge_large_parameter_named,
        open: raw::cose_edge_large_open,
        open_detached: raw::cose_edge_large_open_detached,
        open_under: raw::cose_edge_large_open_under,
        open_under_detached: raw::cose_edge_large_open_under_detached,
        feed: raw::cose_edge_large_feed,
        wanted: raw::cose_large_wanted,
        payload_wanted: raw::cose_large_payload_wanted,
        feed_payload: raw::cose_edge_large_feed_payload,
        end: raw::cose_large_end,
        sign_input: raw::cose_large_sign_input,
        verdict: raw::cose_large_verdict,
        message_number: raw::cose_large_message_number,
        verdict_for: raw::cose_large_verdict_for,
        reset: raw::cose_large_reset,
        taken: raw::cose_large_taken,
        held: raw::cose_large_held,
        header: raw::cose_edge_large_header,
        header_named: raw::cose_edge_large_header_named,
        open_table: raw::cose_edge_large_open_table,
        open_table_detached: raw::cose_edge_large_open_table_detached,
    };
}
// end of what ci/edge_tables makes
