/*
 * cose.h: verifies COSE_Mac0 and COSE_Sign1 messages (RFC 9052) and CBOR Web Tokens (RFC 8392), and makes COSE_Mac0 messages.
 *
 * The library allocates no memory, has no global state, reads no clock, and calls nothing but memcpy, memmove and memset. What each
 * function ensures is proved, and is in crates/cose_c/src. A script, ci/edge_header, compares this file with the library.
 *
 * What the caller owes, and nothing checks:
 *   - A pointer with a length leads to that many bytes that can be read. With length 0 any pointer will do, NULL too.
 *   - A pointer to a struct isn't NULL, and leads to one that no other argument overlaps. What an argument is written to is not
 *     overlapped by any other argument.
 *   - Bytes don't change while a call reads them.
 *   - A block (of a verifier, a table, a maker or a signer) has the size and the alignment that its functions return, is begun once
 *     before anything else, and isn't copied. One call at a time uses it, but for those that verify under a table, which only read it,
 *     and those of verifiers that are open under it: any number of threads may make them at once, while no other call uses the table.
 *   - The keys, or the table, and the external data of cose_open and the other calls that open, and those of cose_table_read and
 *     cose_table_read_under, stay as they are until the next such call of that block, or until its last use.
 *   - A payload isn't used before its message is authentic.
 *
 * Every place is the number of bytes before a byte: of the message, of the key set, or, of claims, of the payload. Every range (.._at,
 * .._length) is within the bytes that it is relative to.
 */
#ifndef COSE_H
#define COSE_H

#include <stddef.h>
#include <stdint.h>
#include <string.h>

#define COSE_VERSION_MAJOR 0
#define COSE_VERSION_MINOR 2
#define COSE_VERSION_PATCH 0
/** What cose_version returns of the library that this header is for. */
#define COSE_VERSION (COSE_VERSION_MAJOR * 65536 + COSE_VERSION_MINOR * 256 + COSE_VERSION_PATCH)

/* On each target a length that the library takes or gives is a uint64_t, and a pointer in a struct has 8 bytes. */
#if UINTPTR_MAX > 0xffffffff
#define COSE_SLOT_(pointer) pointer
#else
#define COSE_JOINED_(name, line) name##line
#define COSE_NUMBERED_(line) COSE_JOINED_(slot_, line)
#define COSE_SLOT_(pointer) union { pointer; uint64_t COSE_NUMBERED_(__LINE__); }
#endif

/* What a call returns decides what its caller does next. */
#ifdef __GNUC__
#define COSE_MUST_USE_ __attribute__((warn_unused_result))
#else
#define COSE_MUST_USE_
#endif

#if defined(__cplusplus) && __cplusplus >= 201103L
#define COSE_ASSERT_(fact, text) static_assert(fact, text)
#elif !defined(__cplusplus) && defined(__STDC_VERSION__) && __STDC_VERSION__ >= 201112L
#define COSE_ASSERT_(fact, text) _Static_assert(fact, text)
#else
#define COSE_ASSERT_(fact, text) extern const uint8_t cose_asserts_nothing_
#endif

#ifdef __cplusplus
extern "C" {
#endif

#if UINTPTR_MAX <= 0xffffffff
/* The library wants this symbol: a program whose lengths had 32 bits wouldn't link. */
__attribute__((weak)) extern const uint8_t cose_lengths_have_64_bits;
const uint8_t cose_lengths_have_64_bits = 1;

/* One file of a program may define COSE_NO_SHA512 before this header. The function that SHA-384 and SHA-512 need is left out then: a
 * message or a cose_make that gets to it never ends, and no reason refuses it. A COSE_Mac0 gets there by naming the algorithm 6 or 7
 * (RFC 9053 section 3.1) under a symmetric key that names none, or that one, and a COSE_Sign1 by a key on P-384 or P-521. So where
 * messages come from strangers, call cose_needs_sha512 once for each verifier that is opened, and use it only after 0. */
#ifdef COSE_NO_SHA512
static volatile uint8_t cose_probes_;
extern void cose_sha512_compress(void);
void cose_sha512_compress(void)
{
    while (cose_probes_ == 0)
        ;
}
#endif
#endif

/** The number of a status. */
enum cose_status_number {
    COSE_MORE = 0,           /**< further bytes of the message are wanted */
    COSE_AUTHENTIC = 1,      /**< the message is authentic, or the token is admitted */
    COSE_SIGNED = 2,         /**< a COSE_Sign1 that is authentic only if its signature is good: verify it. NOT authentic yet */
    COSE_REFUSED = 3,        /**< the message is refused: reason, place */
    COSE_KEYS_REFUSED = 4,   /**< the key set is refused: reason, place in the set */
    COSE_AAD_TOO_LONG = 5,   /**< the externally supplied data has more than 65,535 bytes */
    COSE_PAYLOAD_NEXT = 6,   /**< bytes of a detached payload are wanted */
    COSE_COMPLETE = 7,       /**< all bytes are there: ask for the verdict */
    COSE_CLAIMS_REFUSED = 8, /**< the message is authentic, and its claims are refused: reason, place in the payload */
    COSE_BAD_AUDIENCE = 9,   /**< the audience of the policy isn't UTF-8 */
    COSE_CLOSED = 10,        /**< the block has no keys: it wasn't opened, or its keys were refused */
    COSE_STOPPED = 11,       /**< never comes from these functions */
    COSE_BAD_ARGUMENT = 12,  /**< a number among the arguments is none that the function knows, or a pointer is NULL and its length isn't 0 */
    COSE_UNMET = 13          /**< the token's message is authentic, and a requirement isn't met: reason is an enum cose_unmet, place in the payload */
};

/** The reason of a refusal: docs/REASONS.md says where each comes from. */
enum cose_reason {
    COSE_REASON_NONE = 0,
    /* made by ci/edge_tables: reasons */
    COSE_REASON_TRUNCATED = 1,
    COSE_REASON_RESERVED = 2,
    COSE_REASON_INDEFINITE = 3,
    COSE_REASON_BAD_SIMPLE = 4,
    COSE_REASON_TOO_DEEP = 5,
    COSE_REASON_PAST_ROOM = 6,
    COSE_REASON_WRONG_TAG = 7,
    COSE_REASON_ENCRYPTED = 8,
    COSE_REASON_SEVERAL_PARTIES = 9,
    COSE_REASON_NOT_FOUR = 10,
    COSE_REASON_WRONG_TYPE = 11,
    COSE_REASON_NOT_MAP = 12,
    COSE_REASON_BAD_LABEL = 13,
    COSE_REASON_DUPLICATE_LABEL = 14,
    COSE_REASON_BOTH_BUCKETS = 15,
    COSE_REASON_BAD_VALUE = 16,
    COSE_REASON_CRIT_UNPROTECTED = 17,
    COSE_REASON_CRIT_ABSENT = 18,
    COSE_REASON_CRIT_UNKNOWN = 19,
    COSE_REASON_BOTH_IVS = 20,
    COSE_REASON_NO_ALG = 21,
    COSE_REASON_UNKNOWN_ALG = 22,
    COSE_REASON_ALG_UNPROTECTED = 23,
    COSE_REASON_NO_KEY = 24,
    COSE_REASON_AMBIGUOUS_KEY = 25,
    COSE_REASON_DETACHED = 26,
    COSE_REASON_BAD_AUTH_LENGTH = 27,
    COSE_REASON_BAD_AUTH = 28,
    COSE_REASON_PAYLOAD_TOO_LONG = 29,
    COSE_REASON_CWT_TAG_ALONE = 30,
    COSE_REASON_BAD_KEY_SET = 31,
    COSE_REASON_UNKNOWN_KEY = 32,
    COSE_REASON_FLOAT_DATE = 33,
    COSE_REASON_TAGGED_DATE = 34,
    COSE_REASON_EXPIRED = 35,
    COSE_REASON_NOT_YET = 36,
    COSE_REASON_WRONG_AUDIENCE = 37,
    COSE_REASON_ENCRYPTED_KEY = 38,
    COSE_REASON_PLAIN_KEY = 39,
    COSE_REASON_BAD_CONFIRMATION = 40,
    COSE_REASON_NESTED_CWT = 41,
    COSE_REASON_TRAILING = 42,
    COSE_REASON_ATTACHED = 43
    /* end of what ci/edge_tables makes */
};

/** The kind of the messages that are wanted: that of their tag, or one kind, with its tag or without (RFC 9052 section 2). */
enum cose_kind_number {
    COSE_TAGGED = 0,
    COSE_MAC0 = 17,
    COSE_SIGN1 = 18
};

/** A status; of a refusal its reason and place, otherwise zeros. */
struct cose_status {
    uint8_t status, reason;
    uint64_t place;
};

/** The verdict on a message. */
struct cose_message_verdict {
    uint8_t status, reason;
    uint8_t kind;            /**< the number of its tag, 17 or 18, of COSE_AUTHENTIC and COSE_SIGNED; otherwise 0 */
    int32_t alg;             /**< the number of its algorithm (RFC 9053 sections 2.1 and 3.1), of these two; otherwise 0 */
    uint64_t place;          /**< the place of a refusal */
    uint64_t payload_at;     /**< where the payload begins in the message, of these two; 0 where it is detached or the message was fed */
    uint64_t payload_length; /**< how many bytes the payload has, of these two */
    uint64_t taken;          /**< how many bytes the message has, of these two */
};

/** What an ECDSA signature is verified with (RFC 9052 section 4.4): a point, a digest and the signature. */
struct cose_signature_input {
    uint8_t crv;             /**< the curve (RFC 9053 section 7.1): 1 P-256, 2 P-384, 3 P-521 */
    uint8_t y_sign;          /**< 0: y has its bytes. 1, 2: y is even, odd, and y_length is 0 */
    uint64_t x_length, y_length, digest_length, signature_length;
    uint64_t place;          /**< where the signature's head is: COSE_REASON_BAD_AUTH is at this place, if it isn't good */
    uint8_t x[66], y[66];
    uint8_t digest[64];      /**< of the Sig_structure, by the hash function of the algorithm */
    uint8_t signature[132];  /**< the integers r and s, in this order (RFC 9053 section 2.1) */
};

/** What precedes the payload in the structure that is authenticated (RFC 9052 sections 4.4 and 6.3), in six pieces: cose_front_piece gives
 * each. The third and the fifth aren't in the struct. */
struct cose_pieces {
    uint64_t protected_length; /**< how many bytes the third piece has, the content of the protected header as received */
    uint8_t context_length, protected_head_length, aad_head_length, payload_head_length;
    uint8_t context[12];       /**< the first piece: the head of the array, and the context */
    uint8_t protected_head[9]; /**< the second piece: the protected header's head */
    uint8_t aad_head[9];       /**< the fourth piece: the external data's head; the external data is the fifth */
    uint8_t payload_head[9];   /**< the sixth piece: the payload's head */
};

/** The key that was chosen for a message. Its pointers lead into the caller's key set. */
struct cose_chosen_key {
    int32_t alg;             /**< the algorithm that it is used with (RFC 9053 sections 2.1 and 3.1) */
    uint8_t crv;             /**< the curve (RFC 9053 section 7.1): 1 P-256, 2 P-384, 3 P-521; 0 of a symmetric key */
    uint8_t y_sign;          /**< 0: y has its bytes. 1, 2: y is even, odd, and y_length is 0 */
    uint8_t has_kid;         /**< 1 where the key has an identifier */
    COSE_SLOT_(const uint8_t *kid); /**< the identifier */
    uint64_t kid_length;
    COSE_SLOT_(const uint8_t *k); /**< the bytes of a symmetric key, or whatever handle stands in their place */
    uint64_t k_length;
    COSE_SLOT_(const uint8_t *x); /**< the coordinates of a point */
    uint64_t x_length;
    COSE_SLOT_(const uint8_t *y);
    uint64_t y_length;
};

/** What an EdDSA signature is verified with (RFC 9053 section 2.2), of COSE_SIGNED: the structure that is signed is six pieces
 * (struct cose_pieces), and then the payload. Its pointers lead into the caller's key set and message. */
struct cose_eddsa_input {
    uint8_t status, reason;
    uint8_t crv;             /**< the curve (RFC 9053 section 7.1): 6 Ed25519, 7 Ed448 */
    uint8_t has_kid;         /**< 1 where the key has an identifier */
    int32_t alg;             /**< -8 EdDSA, -19 Ed25519, -53 Ed448 (RFC 9864 section 2.2) */
    uint64_t place;          /**< the place of a refusal; of COSE_SIGNED where COSE_REASON_BAD_AUTH is, if the signature isn't good */
    COSE_SLOT_(const uint8_t *kid); /**< the identifier of the key that was chosen */
    uint64_t kid_length;
    COSE_SLOT_(const uint8_t *x); /**< the public key (RFC 8032 sections 5.1.5 and 5.2.5) */
    uint64_t x_length;
    COSE_SLOT_(const uint8_t *header); /**< the third piece: the content of the protected header as received */
    uint64_t header_length;
    COSE_SLOT_(const uint8_t *payload);
    uint64_t payload_length;
    COSE_SLOT_(const uint8_t *signature); /**< as long as the curve says (RFC 8032 sections 5.1.6 and 5.2.6) */
    uint64_t signature_length;
};

/** The signature of a message, as it was received. */
struct cose_received_signature {
    uint64_t length;
    uint8_t signature[132];  /**< of ECDSA the integers r and s, in this order (RFC 9053 section 2.1) */
};

/** The shape of a message: of COSE_COMPLETE its kind and the numbers of bytes; of COSE_REFUSED the reason and the place. */
struct cose_message_shape {
    uint8_t status, reason, kind;
    uint64_t place;
    uint64_t payload_length;
    uint64_t auth_length;    /**< of the tag or signature */
    uint64_t taken;          /**< of the message */
};

/** A key set: of COSE_COMPLETE the number of usable keys; of COSE_KEYS_REFUSED the reason and the place. */
struct cose_key_set {
    uint8_t status, reason;
    uint64_t place;
    uint64_t usable;
};

/** The conditions under which a token is admitted (RFC 8392 sections 3.1.3 to 3.1.5). */
struct cose_policy {
    int64_t now;             /**< the current time, in seconds since 1970 */
    uint32_t leeway;         /**< by how many seconds the clocks of issuer and caller may differ */
    uint8_t has_audience;    /**< 0: any audience will do. Any other number: a token that names an audience has to name this one */
    COSE_SLOT_(const uint8_t *audience); /**< in UTF-8 */
    uint64_t audience_length;
};

/** What is permitted although it is unsafe, where struct cose_terms states no algorithm. */
enum cose_permitted_keys {
    COSE_SHORT_MAC = 1,      /**< keys for HMAC 256/64, whose tag one guess in 2^64 meets */
    COSE_WITHOUT_ALG = 2     /**< keys that name no algorithm: the sender chooses among those of the key's type. A secret that names none
                                  could be used with HMAC 256/64, so it is taken only with COSE_SHORT_MAC too */
};

/** What a caller states of messages. A struct of zeros but for the size and the keys is the safe one: of a key set, keys for HMAC 256/64
 * and keys that name no algorithm are then left out. Zero it first: memset, or `= {.size = sizeof(struct cose_terms), ..}`. */
struct cose_terms {
    uint32_t size;           /**< sizeof(struct cose_terms); with another number nothing is verified (COSE_BAD_ARGUMENT) */
    uint8_t kind;            /**< the kind that is wanted, of enum cose_kind_number */
    uint8_t permitted;       /**< enum cose_permitted_keys, added up */
    uint64_t least_secret;   /**< the fewest bytes of a secret: a key with a shorter one is left out */
    uint64_t payload_limit;  /**< the most bytes of a payload; 0: as many as any may have */
    COSE_SLOT_(const uint8_t *keys); /**< a COSE_Key or a COSE_KeySet */
    uint64_t keys_length;
    COSE_SLOT_(const uint8_t *aad); /**< externally supplied data (RFC 9052 section 4.3) */
    uint64_t aad_length;
    int32_t algorithms[16];  /**< the algorithms that are allowed: where one is stated, a key has to name one of them as its own */
    int64_t understood[16];  /**< the labels, before the first 0, that are understood in crit in addition to those of RFC 9052 */
};

/** The claims that have to be present. */
enum cose_present_claims {
    COSE_ISS = 1,
    COSE_SUB = 2,
    COSE_AUD = 4,
    COSE_EXP = 8,
    COSE_NBF = 16,
    COSE_IAT = 32,
    COSE_CTI = 64
};

/** What is permitted of tokens. */
enum cose_permitted_tokens {
    COSE_WITHOUT_EXP = 1     /**< a token without exp, which never expires */
};

/** What a caller requires of tokens. A struct of zeros but for the size and the current time requires exp alone. */
struct cose_requirements {
    uint32_t size;           /**< sizeof(struct cose_requirements); with another number no token is admitted (COSE_BAD_ARGUMENT) */
    uint32_t leeway;         /**< by how many seconds the clocks of issuer and caller may differ */
    int64_t now;             /**< the current time, in seconds since 1970; with 0 no token is admitted (COSE_BAD_ARGUMENT) */
    uint64_t lifetime;       /**< the longest lifetime in seconds: exp is at most as much after iat and after now. 0: any */
    uint64_t age;            /**< the greatest age in seconds: iat is at most as much before now, and not after it. 0: any */
    COSE_SLOT_(const uint8_t *iss); /**< the issuer, in UTF-8; of length 0: any */
    uint64_t iss_length;
    COSE_SLOT_(const uint8_t *sub); /**< the subject, in UTF-8; of length 0: any */
    uint64_t sub_length;
    COSE_SLOT_(const uint8_t *aud); /**< an audience that has to be named, in UTF-8; of length 0: any, or none */
    uint64_t aud_length;
    uint8_t present;         /**< enum cose_present_claims, added up; exp has to be present without it too */
    uint8_t permitted;       /**< enum cose_permitted_tokens */
};

/** The requirement that isn't met, where a status is COSE_UNMET: of several the first, in this order. */
enum cose_unmet {
    COSE_UNMET_ISS = 1,      /**< to COSE_UNMET_CTI: the claim isn't there; place is 0 */
    COSE_UNMET_SUB = 2,
    COSE_UNMET_AUD = 3,
    COSE_UNMET_EXP = 4,
    COSE_UNMET_NBF = 5,
    COSE_UNMET_IAT = 6,
    COSE_UNMET_CTI = 7,
    COSE_UNMET_ISSUER = 8,   /**< iss is another, or isn't there */
    COSE_UNMET_SUBJECT = 9,  /**< sub is another, or isn't there */
    COSE_UNMET_AUDIENCE = 10, /**< aud doesn't name the audience, or isn't there */
    COSE_UNMET_LIFETIME = 11, /**< the token lasts too long, or exp isn't there */
    COSE_UNMET_AGE = 12,     /**< iat is too long ago, or isn't there */
    COSE_UNMET_ISSUED = 13   /**< iat is in the future */
};

/** A range of the payload. Where present is 0 there is none, and the others are 0. */
struct cose_range {
    uint64_t at, length;
    uint8_t present;
};

/** The major type of a data item, and what number is of it (RFC 8949 section 3.1). */
enum cose_major {
    COSE_UNSIGNED = 0, /**< the integer */
    COSE_NEGATIVE = 1, /**< the integer is -1 - number */
    COSE_BYTES = 2,    /**< how many bytes the string has, from content_at on */
    COSE_TEXT = 3,     /**< the same of a text string */
    COSE_ARRAY = 4,    /**< how many items it has: cose_item_at gives the first at content_at, and each other at the end of the one before */
    COSE_MAP = 5,      /**< how many pairs it has: label, value, label, value .. in the same way */
    COSE_TAG = 6,      /**< the number of the tag, of the item at content_at */
    COSE_SIMPLE = 7    /**< of length 1 or 2 a simple value: 20 false, 21 true, 22 null, 23 undefined; of 3, 5 or 9 the bits of a float */
};

/** A data item of a payload (RFC 8949 section 3). Where present is 0 there is none, and the others are 0. */
struct cose_item {
    uint64_t at, length;     /**< all its bytes */
    uint64_t content_at;     /**< where its head ends */
    uint64_t number;         /**< the argument of its head */
    uint8_t present;
    uint8_t major;           /**< enum cose_major */
};

/** Why a key isn't the one that a message is verified with (RFC 9052 section 7.1): the first condition that it fails, in this order. */
enum cose_mismatch_number {
    COSE_FITS = 0,
    COSE_OTHER_ALGORITHM = 1,  /**< the algorithm isn't one for messages of the kind, or isn't the key's own */
    COSE_OTHER_KEY_TYPE = 2,   /**< the algorithm takes a secret and the key is a point, or the other way round */
    COSE_OTHER_CURVE = 3,      /**< the point isn't on the algorithm's curve */
    COSE_OTHER_OPERATION = 4,  /**< the key lists operations, and not the one that verifies the message */
    COSE_OTHER_IDENTIFIER = 5, /**< message and key have an identifier each, and these differ */
    COSE_NOT_PERMITTED = 6     /**< the terms don't permit the key */
};

/** Whether a key fits a message: of COSE_COMPLETE the condition that it fails. COSE_KEYS_REFUSED: the key set, or this key, is refused.
 * COSE_REFUSED, COSE_MORE: the message is refused, or isn't whole. COSE_BAD_ARGUMENT: no item is at the place, or the kind isn't stated. */
struct cose_key_fit {
    uint8_t status, reason;
    uint8_t condition;       /**< enum cose_mismatch_number */
    uint64_t place;          /**< the place of a refusal */
};

/** A date, in seconds since 1970: number, or -1 - number where negative is 1. Where present is 0 there is none. */
struct cose_date {
    uint64_t number;
    uint8_t present, negative;
};

/** The claims of a token (RFC 8392 section 3.1). */
struct cose_claims_set {
    uint8_t status, reason;
    uint64_t place;          /**< of COSE_CLAIMS_REFUSED in the payload, of COSE_REFUSED in the token */
    uint64_t payload_at, payload_length; /**< the payload in the token; of cose_claims 0 and its length */
    struct cose_range iss, sub;
    struct cose_range aud;   /**< the first text string of the audience: cose_next_audience returns the others */
    struct cose_range cti;
    uint64_t aud_count;      /**< how many text strings the audience has */
    struct cose_date exp, nbf, iat;
    struct cose_range cnf_kid, cnf_x, cnf_y; /**< the confirmed key (RFC 8747 section 3) */
    uint8_t cnf_crv;         /**< its curve, as in struct cose_signature_input; 0 where there is no key */
    uint8_t cnf_y_sign;      /**< as in struct cose_signature_input */
};

/** A verifier in a block of the caller's memory, which is fed. */
struct cose_verifier {
    COSE_SLOT_(uint8_t *at);
};

/** The same for headers of 65,535 bytes that nest 16 deep. */
struct cose_large_verifier {
    COSE_SLOT_(uint8_t *at);
};

/** The same for headers of 256 bytes that nest 4 deep: for devices of little memory. */
struct cose_device_verifier {
    COSE_SLOT_(uint8_t *at);
};

/** What came of a piece: how many of its bytes were used, and which of them are of the payload. */
struct cose_fed {
    struct cose_status status;
    uint64_t used;
    uint64_t payload_at, payload_length;
};

/** A table of at most 64 keys in a block of the caller's memory, each of which is read once. */
struct cose_table {
    COSE_SLOT_(uint8_t *at);
};

/** A COSE_Mac0 that is being made, in a block of the caller's memory. */
struct cose_maker {
    COSE_SLOT_(uint8_t *at);
};

/** A COSE_Sign1 that is being made, in a block of the caller's memory. */
struct cose_signer {
    COSE_SLOT_(uint8_t *at);
};

/** What was made: COSE_MORE after cose_make, COSE_COMPLETE after cose_make_end, with the number of bytes written; or why nothing was.
 * Of a COSE_Sign1 the same, and COSE_COMPLETE after cose_make_sign1_digest. */
struct cose_made {
    uint8_t status, reason;
    uint64_t length;
};

/* Where a compiler lays the structs out as the library doesn't, no program compiles. */
/* made by ci/edge_tables: layouts */
COSE_ASSERT_(sizeof(struct cose_policy) == 32 && offsetof(struct cose_policy, audience_length) == 24, "struct cose_policy");
COSE_ASSERT_(sizeof(struct cose_range) == 24 && offsetof(struct cose_range, present) == 16, "struct cose_range");
COSE_ASSERT_(sizeof(struct cose_date) == 16 && offsetof(struct cose_date, negative) == 9, "struct cose_date");
COSE_ASSERT_(sizeof(struct cose_claims_set) == 264 && offsetof(struct cose_claims_set, cnf_y_sign) == 257, "struct cose_claims_set");
COSE_ASSERT_(sizeof(struct cose_eddsa_input) == 96 && offsetof(struct cose_eddsa_input, signature_length) == 88, "struct cose_eddsa_input");
COSE_ASSERT_(sizeof(struct cose_pieces) == 56 && offsetof(struct cose_pieces, payload_head) == 42, "struct cose_pieces");
COSE_ASSERT_(sizeof(struct cose_chosen_key) == 72 && offsetof(struct cose_chosen_key, y_length) == 64, "struct cose_chosen_key");
COSE_ASSERT_(sizeof(struct cose_received_signature) == 144 && offsetof(struct cose_received_signature, signature) == 8, "struct cose_received_signature");
COSE_ASSERT_(sizeof(struct cose_device_verifier) == 8 && offsetof(struct cose_device_verifier, at) == 0, "struct cose_device_verifier");
COSE_ASSERT_(sizeof(struct cose_large_verifier) == 8 && offsetof(struct cose_large_verifier, at) == 0, "struct cose_large_verifier");
COSE_ASSERT_(sizeof(struct cose_maker) == 8 && offsetof(struct cose_maker, at) == 0, "struct cose_maker");
COSE_ASSERT_(sizeof(struct cose_signer) == 8 && offsetof(struct cose_signer, at) == 0, "struct cose_signer");
COSE_ASSERT_(sizeof(struct cose_table) == 8 && offsetof(struct cose_table, at) == 0, "struct cose_table");
COSE_ASSERT_(sizeof(struct cose_verifier) == 8 && offsetof(struct cose_verifier, at) == 0, "struct cose_verifier");
COSE_ASSERT_(sizeof(struct cose_signature_input) == 376 && offsetof(struct cose_signature_input, signature) == 244, "struct cose_signature_input");
COSE_ASSERT_(sizeof(struct cose_item) == 40 && offsetof(struct cose_item, major) == 33, "struct cose_item");
COSE_ASSERT_(sizeof(struct cose_key_fit) == 16 && offsetof(struct cose_key_fit, place) == 8, "struct cose_key_fit");
COSE_ASSERT_(sizeof(struct cose_key_set) == 24 && offsetof(struct cose_key_set, usable) == 16, "struct cose_key_set");
COSE_ASSERT_(sizeof(struct cose_made) == 16 && offsetof(struct cose_made, length) == 8, "struct cose_made");
COSE_ASSERT_(sizeof(struct cose_status) == 16 && offsetof(struct cose_status, place) == 8, "struct cose_status");
COSE_ASSERT_(sizeof(struct cose_message_verdict) == 40 && offsetof(struct cose_message_verdict, taken) == 32, "struct cose_message_verdict");
COSE_ASSERT_(sizeof(struct cose_requirements) == 88 && offsetof(struct cose_requirements, permitted) == 81, "struct cose_requirements");
COSE_ASSERT_(sizeof(struct cose_message_shape) == 40 && offsetof(struct cose_message_shape, taken) == 32, "struct cose_message_shape");
COSE_ASSERT_(sizeof(struct cose_terms) == 248 && offsetof(struct cose_terms, understood) == 120, "struct cose_terms");
COSE_ASSERT_(sizeof(struct cose_fed) == 40 && offsetof(struct cose_fed, payload_length) == 32, "struct cose_fed");
/* end of what ci/edge_tables makes */

/*
 * The library's functions. One with a pointer and a length is exported as cose_edge_NAME, and takes no NULL: the functions below take one
 * with length 0. These copy the handle of a table that is only read: threads that call cose_edge_NAME themselves share no handle.
 */

/* A kind and an algorithm that no function knows: what is opened or made with them is COSE_BAD_ARGUMENT, and the block has nothing then. */
enum { COSE_NO_KIND_ = 1, COSE_NO_ALG_ = 0 };

static inline int cose_is_null_(const uint8_t *at, uint64_t length)
{
    return at == NULL && length != 0;
}

static inline const uint8_t *cose_slice_(const uint8_t *at)
{
    static const uint8_t nothing = 0;
    return at != NULL ? at : &nothing;
}

/* A kind in 8 bits, of which each number that is no kind stays none. */
static inline uint8_t cose_kind_(enum cose_kind_number kind)
{
    return kind == COSE_TAGGED || kind == COSE_MAC0 || kind == COSE_SIGN1 ? (uint8_t)kind : (uint8_t)COSE_NO_KIND_;
}

static inline uint8_t *cose_room_(uint8_t *at)
{
    static uint8_t nothing;
    return at != NULL ? at : &nothing;
}

/* ---- Names, and what is compared once. */

/** The version of the library: compare it with COSE_VERSION. */
COSE_MUST_USE_
uint32_t cose_version(void);

/** The name of a reason in docs/REASONS.md; that of 0 is empty, and a number that is none has NULL. */
COSE_MUST_USE_
static inline const char *cose_reason_name(uint8_t reason)
{
    static const char *const names[] = {
        "", "Truncated", "Reserved", "Indefinite", "BadSimple", "TooDeep", "PastRoom", "WrongTag", "Encrypted", "SeveralParties",
        "NotFour", "WrongType", "NotMap", "BadLabel", "DuplicateLabel", "BothBuckets", "BadValue", "CritUnprotected", "CritAbsent",
        "CritUnknown", "BothIvs", "NoAlg", "UnknownAlg", "AlgUnprotected", "NoKey", "AmbiguousKey", "Detached", "BadAuthLength",
        "BadAuth", "PayloadTooLong", "CwtTagAlone", "BadKeySet", "UnknownKey", "FloatDate", "TaggedDate", "Expired", "NotYet",
        "WrongAudience", "EncryptedKey", "PlainKey", "BadConfirmation", "NestedCwt", "Trailing", "Attached"
    };
    return reason < sizeof names / sizeof *names ? names[reason] : NULL;
}

/** The name of a status, as KeysRefused of COSE_KEYS_REFUSED; a number that is none has NULL. */
COSE_MUST_USE_
static inline const char *cose_status_name(uint8_t status)
{
    static const char *const names[] = {
        "More", "Authentic", "Signed", "Refused", "KeysRefused", "AadTooLong", "PayloadNext", "Complete", "ClaimsRefused", "BadAudience",
        "Closed", "Stopped", "BadArgument", "Unmet"
    };
    return status < sizeof names / sizeof *names ? names[status] : NULL;
}

/** Bytes that do for a block in static memory, and what its address is a multiple of: cose_fits compares them with the library. */
enum {
    COSE_BLOCK_ALIGN = 16,
    COSE_VERIFIER_BLOCK = 4096,
    COSE_LARGE_VERIFIER_BLOCK = 135168,
    COSE_DEVICE_VERIFIER_BLOCK = 1760,
    COSE_TABLE_BLOCK = 16384,
    COSE_MAKER_BLOCK = 1024,
    COSE_SIGNER_BLOCK = 1024
};

/* ---- One call over memory. */

void cose_edge_verify(const uint8_t *keys, uint64_t keys_length, const uint8_t *aad, uint64_t aad_length, uint8_t kind,
    const uint8_t *message, uint64_t message_length, struct cose_message_verdict *verdict, struct cose_signature_input *input);

/** Verifies a message (RFC 9052 sections 4.4 and 6.3) under a COSE_Key or a COSE_KeySet, with externally supplied data (section 4.3).
 * The bytes are the message: a byte after it is refused (COSE_REASON_TRAILING). *
 * A COSE_Mac0 is COSE_AUTHENTIC. A COSE_Sign1 is COSE_SIGNED, and input is what its signature is verified with: the message is authentic
 * only if that signature is good. No argument says that it is. With any other status input has no meaning. */
static inline void cose_verify(const uint8_t *keys, size_t keys_length, const uint8_t *aad, size_t aad_length, enum cose_kind_number kind,
    const uint8_t *message, size_t message_length, struct cose_message_verdict *verdict, struct cose_signature_input *input)
{
    if (cose_is_null_(keys, keys_length) || cose_is_null_(aad, aad_length) || cose_is_null_(message, message_length)) {
        memset(verdict, 0, sizeof *verdict);
        verdict->status = COSE_BAD_ARGUMENT;
        return;
    }
    cose_edge_verify(cose_slice_(keys), keys_length, cose_slice_(aad), aad_length, cose_kind_(kind), cose_slice_(message), message_length,
        verdict, input);
}

void cose_edge_large_verify(const uint8_t *keys, uint64_t keys_length, const uint8_t *aad, uint64_t aad_length, uint8_t kind,
    const uint8_t *message, uint64_t message_length, struct cose_message_verdict *verdict, struct cose_signature_input *input);

/** The same for headers of 65,535 bytes, where headers and claims nest 16 deep: a call needs some 140 KB of stack. */
static inline void cose_large_verify(const uint8_t *keys, size_t keys_length, const uint8_t *aad, size_t aad_length,
    enum cose_kind_number kind, const uint8_t *message, size_t message_length, struct cose_message_verdict *verdict,
    struct cose_signature_input *input)
{
    if (cose_is_null_(keys, keys_length) || cose_is_null_(aad, aad_length) || cose_is_null_(message, message_length)) {
        memset(verdict, 0, sizeof *verdict);
        verdict->status = COSE_BAD_ARGUMENT;
        return;
    }
    cose_edge_large_verify(cose_slice_(keys), keys_length, cose_slice_(aad), aad_length, cose_kind_(kind), cose_slice_(message),
        message_length, verdict, input);
}

void cose_edge_verify_detached(const uint8_t *keys, uint64_t keys_length, const uint8_t *aad, uint64_t aad_length, uint8_t kind,
    const uint8_t *message, uint64_t message_length, const uint8_t *payload, uint64_t payload_length,
    struct cose_message_verdict *verdict, struct cose_signature_input *input);

/** The same for a message whose payload is detached (RFC 9052 section 4.1): it has nil in its place, and all of the payload is in memory.
 * payload_at is 0. */
static inline void cose_verify_detached(const uint8_t *keys, size_t keys_length, const uint8_t *aad, size_t aad_length,
    enum cose_kind_number kind, const uint8_t *message, size_t message_length, const uint8_t *payload, size_t payload_length,
    struct cose_message_verdict *verdict, struct cose_signature_input *input)
{
    if (cose_is_null_(keys, keys_length) ||
        cose_is_null_(aad, aad_length) ||
        cose_is_null_(message, message_length) ||
        cose_is_null_(payload, payload_length)) {
        memset(verdict, 0, sizeof *verdict);
        verdict->status = COSE_BAD_ARGUMENT;
        return;
    }
    cose_edge_verify_detached(cose_slice_(keys), keys_length, cose_slice_(aad), aad_length, cose_kind_(kind), cose_slice_(message),
        message_length, cose_slice_(payload), payload_length, verdict, input);
}

void cose_edge_large_verify_detached(const uint8_t *keys, uint64_t keys_length, const uint8_t *aad, uint64_t aad_length, uint8_t kind,
    const uint8_t *message, uint64_t message_length, const uint8_t *payload, uint64_t payload_length,
    struct cose_message_verdict *verdict, struct cose_signature_input *input);

/** The same for headers of 65,535 bytes, where headers and claims nest 16 deep: a call needs some 140 KB of stack. */
static inline void cose_large_verify_detached(const uint8_t *keys, size_t keys_length, const uint8_t *aad, size_t aad_length,
    enum cose_kind_number kind, const uint8_t *message, size_t message_length, const uint8_t *payload, size_t payload_length,
    struct cose_message_verdict *verdict, struct cose_signature_input *input)
{
    if (cose_is_null_(keys, keys_length) ||
        cose_is_null_(aad, aad_length) ||
        cose_is_null_(message, message_length) ||
        cose_is_null_(payload, payload_length)) {
        memset(verdict, 0, sizeof *verdict);
        verdict->status = COSE_BAD_ARGUMENT;
        return;
    }
    cose_edge_large_verify_detached(cose_slice_(keys), keys_length, cose_slice_(aad), aad_length, cose_kind_(kind), cose_slice_(message),
        message_length, cose_slice_(payload), payload_length, verdict, input);
}

void cose_edge_shape(uint8_t kind, const uint8_t *message, uint64_t message_length, struct cose_message_shape *shape);

/** The shape of a message. Nothing of it is authenticated. */
static inline void cose_shape(enum cose_kind_number kind, const uint8_t *message, size_t message_length, struct cose_message_shape *shape)
{
    if (cose_is_null_(message, message_length)) {
        memset(shape, 0, sizeof *shape);
        shape->status = COSE_BAD_ARGUMENT;
        return;
    }
    cose_edge_shape(cose_kind_(kind), cose_slice_(message), message_length, shape);
}

void cose_edge_read_keys(const uint8_t *keys, uint64_t keys_length, struct cose_key_set *key_set);

/** How many usable keys a COSE_Key or a COSE_KeySet has (RFC 9052 section 7): a key that is refused is ignored. */
static inline void cose_read_keys(const uint8_t *keys, size_t keys_length, struct cose_key_set *key_set)
{
    if (cose_is_null_(keys, keys_length)) {
        memset(key_set, 0, sizeof *key_set);
        key_set->status = COSE_BAD_ARGUMENT;
        return;
    }
    cose_edge_read_keys(cose_slice_(keys), keys_length, key_set);
}

void cose_edge_verify_eddsa(const uint8_t *keys, uint64_t keys_length, const uint8_t *aad, uint64_t aad_length, uint8_t kind,
    const uint8_t *message, uint64_t message_length, struct cose_eddsa_input *input, struct cose_pieces *pieces);

/** Reads a message in memory that is signed by EdDSA (RFC 9053 section 2.2), under the OKP keys of a key set. The bytes are the message, and
 * nothing follows it. EdDSA hashes a part of the signature first, so no message that is fed can be verified by it.
 *
 * Of COSE_SIGNED the message is authentic only if input->signature is one by input->x of the six pieces, in the order of cose_front_piece
 * with input->header, and then input->payload. Other statuses are those of cose_verify. */
static inline void cose_verify_eddsa(const uint8_t *keys, size_t keys_length, const uint8_t *aad, size_t aad_length,
    enum cose_kind_number kind, const uint8_t *message, size_t message_length, struct cose_eddsa_input *input, struct cose_pieces *pieces)
{
    if (cose_is_null_(keys, keys_length) || cose_is_null_(aad, aad_length) || cose_is_null_(message, message_length)) {
        memset(input, 0, sizeof *input);
        input->status = COSE_BAD_ARGUMENT;
        return;
    }
    input->kid = cose_slice_(NULL);
    input->kid_length = 0;
    input->x = cose_slice_(NULL);
    input->x_length = 0;
    input->header = cose_slice_(NULL);
    input->header_length = 0;
    input->payload = cose_slice_(NULL);
    input->payload_length = 0;
    input->signature = cose_slice_(NULL);
    input->signature_length = 0;
    cose_edge_verify_eddsa(cose_slice_(keys), keys_length, cose_slice_(aad), aad_length, cose_kind_(kind), cose_slice_(message),
        message_length, input, pieces);
}

void cose_edge_verify_eddsa_detached(const uint8_t *keys, uint64_t keys_length, const uint8_t *aad, uint64_t aad_length, uint8_t kind,
    const uint8_t *message, uint64_t message_length, const uint8_t *payload, uint64_t payload_length, struct cose_eddsa_input *input,
    struct cose_pieces *pieces);

/** The same of a message whose payload is detached (RFC 9052 section 4.2), and is in memory too. */
static inline void cose_verify_eddsa_detached(const uint8_t *keys, size_t keys_length, const uint8_t *aad, size_t aad_length,
    enum cose_kind_number kind, const uint8_t *message, size_t message_length, const uint8_t *payload, size_t payload_length,
    struct cose_eddsa_input *input, struct cose_pieces *pieces)
{
    if (cose_is_null_(keys, keys_length) ||
        cose_is_null_(aad, aad_length) ||
        cose_is_null_(message, message_length) ||
        cose_is_null_(payload, payload_length)) {
        memset(input, 0, sizeof *input);
        input->status = COSE_BAD_ARGUMENT;
        return;
    }
    input->kid = cose_slice_(NULL);
    input->kid_length = 0;
    input->x = cose_slice_(NULL);
    input->x_length = 0;
    input->header = cose_slice_(NULL);
    input->header_length = 0;
    input->payload = cose_slice_(NULL);
    input->payload_length = 0;
    input->signature = cose_slice_(NULL);
    input->signature_length = 0;
    cose_edge_verify_eddsa_detached(cose_slice_(keys), keys_length, cose_slice_(aad), aad_length, cose_kind_(kind), cose_slice_(message),
        message_length, cose_slice_(payload), payload_length, input, pieces);
}

/* ---- One call over memory, under terms and requirements. */

void cose_edge_authenticate(const struct cose_terms *terms, const uint8_t *message, uint64_t message_length,
    struct cose_message_verdict *verdict, struct cose_signature_input *input);

/** Verifies a message as cose_verify does, under a struct of terms, whose defaults are safe. A key that the terms leave out fits no
 * message, and makes none ambiguous. */
static inline void cose_authenticate(const struct cose_terms *terms, const uint8_t *message, size_t message_length,
    struct cose_message_verdict *verdict, struct cose_signature_input *input)
{
    struct cose_terms cose_terms_ = *terms;
    if (cose_is_null_(terms->keys, terms->keys_length) ||
        cose_is_null_(terms->aad, terms->aad_length) ||
        cose_is_null_(message, message_length)) {
        memset(verdict, 0, sizeof *verdict);
        verdict->status = COSE_BAD_ARGUMENT;
        return;
    }
    cose_terms_.keys = cose_slice_(terms->keys);
    cose_terms_.aad = cose_slice_(terms->aad);
    cose_edge_authenticate(&cose_terms_, cose_slice_(message), message_length, verdict, input);
}

void cose_edge_large_authenticate(const struct cose_terms *terms, const uint8_t *message, uint64_t message_length,
    struct cose_message_verdict *verdict, struct cose_signature_input *input);

/** The same for headers of 65,535 bytes, where headers and claims nest 16 deep: a call needs some 140 KB of stack. */
static inline void cose_large_authenticate(const struct cose_terms *terms, const uint8_t *message, size_t message_length,
    struct cose_message_verdict *verdict, struct cose_signature_input *input)
{
    struct cose_terms cose_terms_ = *terms;
    if (cose_is_null_(terms->keys, terms->keys_length) ||
        cose_is_null_(terms->aad, terms->aad_length) ||
        cose_is_null_(message, message_length)) {
        memset(verdict, 0, sizeof *verdict);
        verdict->status = COSE_BAD_ARGUMENT;
        return;
    }
    cose_terms_.keys = cose_slice_(terms->keys);
    cose_terms_.aad = cose_slice_(terms->aad);
    cose_edge_large_authenticate(&cose_terms_, cose_slice_(message), message_length, verdict, input);
}

void cose_edge_authenticate_detached(const struct cose_terms *terms, const uint8_t *message, uint64_t message_length,
    const uint8_t *payload, uint64_t payload_length, struct cose_message_verdict *verdict, struct cose_signature_input *input);

/** The same for a message whose payload is detached, as cose_verify_detached verifies it. */
static inline void cose_authenticate_detached(const struct cose_terms *terms, const uint8_t *message, size_t message_length,
    const uint8_t *payload, size_t payload_length, struct cose_message_verdict *verdict, struct cose_signature_input *input)
{
    struct cose_terms cose_terms_ = *terms;
    if (cose_is_null_(terms->keys, terms->keys_length) ||
        cose_is_null_(terms->aad, terms->aad_length) ||
        cose_is_null_(message, message_length) ||
        cose_is_null_(payload, payload_length)) {
        memset(verdict, 0, sizeof *verdict);
        verdict->status = COSE_BAD_ARGUMENT;
        return;
    }
    cose_terms_.keys = cose_slice_(terms->keys);
    cose_terms_.aad = cose_slice_(terms->aad);
    cose_edge_authenticate_detached(&cose_terms_, cose_slice_(message), message_length, cose_slice_(payload), payload_length, verdict,
        input);
}

void cose_edge_large_authenticate_detached(const struct cose_terms *terms, const uint8_t *message, uint64_t message_length,
    const uint8_t *payload, uint64_t payload_length, struct cose_message_verdict *verdict, struct cose_signature_input *input);

/** The same for headers of 65,535 bytes, where headers and claims nest 16 deep: a call needs some 140 KB of stack. */
static inline void cose_large_authenticate_detached(const struct cose_terms *terms, const uint8_t *message, size_t message_length,
    const uint8_t *payload, size_t payload_length, struct cose_message_verdict *verdict, struct cose_signature_input *input)
{
    struct cose_terms cose_terms_ = *terms;
    if (cose_is_null_(terms->keys, terms->keys_length) ||
        cose_is_null_(terms->aad, terms->aad_length) ||
        cose_is_null_(message, message_length) ||
        cose_is_null_(payload, payload_length)) {
        memset(verdict, 0, sizeof *verdict);
        verdict->status = COSE_BAD_ARGUMENT;
        return;
    }
    cose_terms_.keys = cose_slice_(terms->keys);
    cose_terms_.aad = cose_slice_(terms->aad);
    cose_edge_large_authenticate_detached(&cose_terms_, cose_slice_(message), message_length, cose_slice_(payload), payload_length,
        verdict, input);
}

void cose_edge_admit(const struct cose_terms *terms, const struct cose_requirements *requirements, const uint8_t *token,
    uint64_t token_length, struct cose_claims_set *claims);

/** Verifies a token as cose_verify_cwt does, under terms, and reads its claims where they meet the requirements; otherwise the status is
 * COSE_UNMET. Without COSE_WITHOUT_EXP a token has to expire. A token may be of either kind: kind says which, if only one is wanted.
 * Of a signed token the status is COSE_SIGNED, and there are no claims: pass it to cose_authenticate, verify its signature, and if it is
 * good pass the payload to cose_admit_claims. */
static inline void cose_admit(const struct cose_terms *terms, const struct cose_requirements *requirements, const uint8_t *token,
    size_t token_length, struct cose_claims_set *claims)
{
    struct cose_terms cose_terms_ = *terms;
    struct cose_requirements cose_requirements_ = *requirements;
    if (cose_is_null_(terms->keys, terms->keys_length) ||
        cose_is_null_(terms->aad, terms->aad_length) ||
        cose_is_null_(requirements->iss, requirements->iss_length) ||
        cose_is_null_(requirements->sub, requirements->sub_length) ||
        cose_is_null_(requirements->aud, requirements->aud_length) ||
        cose_is_null_(token, token_length)) {
        memset(claims, 0, sizeof *claims);
        claims->status = COSE_BAD_ARGUMENT;
        return;
    }
    cose_terms_.keys = cose_slice_(terms->keys);
    cose_terms_.aad = cose_slice_(terms->aad);
    cose_requirements_.iss = cose_slice_(requirements->iss);
    cose_requirements_.sub = cose_slice_(requirements->sub);
    cose_requirements_.aud = cose_slice_(requirements->aud);
    cose_edge_admit(&cose_terms_, &cose_requirements_, cose_slice_(token), token_length, claims);
}

void cose_edge_large_admit(const struct cose_terms *terms, const struct cose_requirements *requirements, const uint8_t *token,
    uint64_t token_length, struct cose_claims_set *claims);

/** The same for headers of 65,535 bytes, where headers and claims nest 16 deep: a call needs some 140 KB of stack. */
static inline void cose_large_admit(const struct cose_terms *terms, const struct cose_requirements *requirements, const uint8_t *token,
    size_t token_length, struct cose_claims_set *claims)
{
    struct cose_terms cose_terms_ = *terms;
    struct cose_requirements cose_requirements_ = *requirements;
    if (cose_is_null_(terms->keys, terms->keys_length) ||
        cose_is_null_(terms->aad, terms->aad_length) ||
        cose_is_null_(requirements->iss, requirements->iss_length) ||
        cose_is_null_(requirements->sub, requirements->sub_length) ||
        cose_is_null_(requirements->aud, requirements->aud_length) ||
        cose_is_null_(token, token_length)) {
        memset(claims, 0, sizeof *claims);
        claims->status = COSE_BAD_ARGUMENT;
        return;
    }
    cose_terms_.keys = cose_slice_(terms->keys);
    cose_terms_.aad = cose_slice_(terms->aad);
    cose_requirements_.iss = cose_slice_(requirements->iss);
    cose_requirements_.sub = cose_slice_(requirements->sub);
    cose_requirements_.aud = cose_slice_(requirements->aud);
    cose_edge_large_admit(&cose_terms_, &cose_requirements_, cose_slice_(token), token_length, claims);
}

void cose_edge_admit_claims(const struct cose_requirements *requirements, const uint8_t *payload, uint64_t payload_length,
    struct cose_claims_set *claims);

/** Reads the claims of a payload that is known to be authentic, where they meet the requirements. */
static inline void cose_admit_claims(const struct cose_requirements *requirements, const uint8_t *payload, size_t payload_length,
    struct cose_claims_set *claims)
{
    struct cose_requirements cose_requirements_ = *requirements;
    if (cose_is_null_(requirements->iss, requirements->iss_length) ||
        cose_is_null_(requirements->sub, requirements->sub_length) ||
        cose_is_null_(requirements->aud, requirements->aud_length) ||
        cose_is_null_(payload, payload_length)) {
        memset(claims, 0, sizeof *claims);
        claims->status = COSE_BAD_ARGUMENT;
        return;
    }
    cose_requirements_.iss = cose_slice_(requirements->iss);
    cose_requirements_.sub = cose_slice_(requirements->sub);
    cose_requirements_.aud = cose_slice_(requirements->aud);
    cose_edge_admit_claims(&cose_requirements_, cose_slice_(payload), payload_length, claims);
}

void cose_edge_large_admit_claims(const struct cose_requirements *requirements, const uint8_t *payload, uint64_t payload_length,
    struct cose_claims_set *claims);

/** The same for claims that nest 16 deep. */
static inline void cose_large_admit_claims(const struct cose_requirements *requirements, const uint8_t *payload, size_t payload_length,
    struct cose_claims_set *claims)
{
    struct cose_requirements cose_requirements_ = *requirements;
    if (cose_is_null_(requirements->iss, requirements->iss_length) ||
        cose_is_null_(requirements->sub, requirements->sub_length) ||
        cose_is_null_(requirements->aud, requirements->aud_length) ||
        cose_is_null_(payload, payload_length)) {
        memset(claims, 0, sizeof *claims);
        claims->status = COSE_BAD_ARGUMENT;
        return;
    }
    cose_requirements_.iss = cose_slice_(requirements->iss);
    cose_requirements_.sub = cose_slice_(requirements->sub);
    cose_requirements_.aud = cose_slice_(requirements->aud);
    cose_edge_large_admit_claims(&cose_requirements_, cose_slice_(payload), payload_length, claims);
}

/* ---- Tokens. */

void cose_edge_verify_cwt(const uint8_t *keys, uint64_t keys_length, const uint8_t *aad, uint64_t aad_length,
    const struct cose_policy *policy, const uint8_t *token, uint64_t token_length, struct cose_claims_set *claims);

/** Verifies a token and reads its claims (RFC 8392 section 7.2): the bytes are the token. A COSE_Mac0 alone: of a COSE_Sign1 the status is
 * COSE_SIGNED, and there are no claims. Call cose_verify, verify the signature, and then call cose_claims over the payload. */
static inline void cose_verify_cwt(const uint8_t *keys, size_t keys_length, const uint8_t *aad, size_t aad_length,
    const struct cose_policy *policy, const uint8_t *token, size_t token_length, struct cose_claims_set *claims)
{
    struct cose_policy cose_policy_ = *policy;
    if (cose_is_null_(keys, keys_length) ||
        cose_is_null_(aad, aad_length) ||
        cose_is_null_(policy->audience, policy->audience_length) ||
        cose_is_null_(token, token_length)) {
        memset(claims, 0, sizeof *claims);
        claims->status = COSE_BAD_ARGUMENT;
        return;
    }
    cose_policy_.audience = cose_slice_(policy->audience);
    cose_edge_verify_cwt(cose_slice_(keys), keys_length, cose_slice_(aad), aad_length, &cose_policy_, cose_slice_(token), token_length,
        claims);
}

void cose_edge_large_verify_cwt(const uint8_t *keys, uint64_t keys_length, const uint8_t *aad, uint64_t aad_length,
    const struct cose_policy *policy, const uint8_t *token, uint64_t token_length, struct cose_claims_set *claims);

/** The same for headers of 65,535 bytes, where headers and claims nest 16 deep: a call needs some 140 KB of stack. */
static inline void cose_large_verify_cwt(const uint8_t *keys, size_t keys_length, const uint8_t *aad, size_t aad_length,
    const struct cose_policy *policy, const uint8_t *token, size_t token_length, struct cose_claims_set *claims)
{
    struct cose_policy cose_policy_ = *policy;
    if (cose_is_null_(keys, keys_length) ||
        cose_is_null_(aad, aad_length) ||
        cose_is_null_(policy->audience, policy->audience_length) ||
        cose_is_null_(token, token_length)) {
        memset(claims, 0, sizeof *claims);
        claims->status = COSE_BAD_ARGUMENT;
        return;
    }
    cose_policy_.audience = cose_slice_(policy->audience);
    cose_edge_large_verify_cwt(cose_slice_(keys), keys_length, cose_slice_(aad), aad_length, &cose_policy_, cose_slice_(token),
        token_length, claims);
}

void cose_edge_claims(const uint8_t *payload, uint64_t payload_length, const struct cose_policy *policy, struct cose_claims_set *claims);

/** Reads the claims of a payload that is known to be authentic. */
static inline void cose_claims(const uint8_t *payload, size_t payload_length, const struct cose_policy *policy,
    struct cose_claims_set *claims)
{
    struct cose_policy cose_policy_ = *policy;
    if (cose_is_null_(payload, payload_length) || cose_is_null_(policy->audience, policy->audience_length)) {
        memset(claims, 0, sizeof *claims);
        claims->status = COSE_BAD_ARGUMENT;
        return;
    }
    cose_policy_.audience = cose_slice_(policy->audience);
    cose_edge_claims(cose_slice_(payload), payload_length, &cose_policy_, claims);
}

void cose_edge_large_claims(const uint8_t *payload, uint64_t payload_length, const struct cose_policy *policy,
    struct cose_claims_set *claims);

/** The same for claims that nest 16 deep. */
static inline void cose_large_claims(const uint8_t *payload, size_t payload_length, const struct cose_policy *policy,
    struct cose_claims_set *claims)
{
    struct cose_policy cose_policy_ = *policy;
    if (cose_is_null_(payload, payload_length) || cose_is_null_(policy->audience, policy->audience_length)) {
        memset(claims, 0, sizeof *claims);
        claims->status = COSE_BAD_ARGUMENT;
        return;
    }
    cose_policy_.audience = cose_slice_(policy->audience);
    cose_edge_large_claims(cose_slice_(payload), payload_length, &cose_policy_, claims);
}

void cose_edge_audience(const uint8_t *payload, uint64_t payload_length, uint64_t index, struct cose_range *audience);

/** The text string of this number, from 0, of the audience that a payload names (RFC 8392 section 3.1.3). present is 0 where it has
 * fewer, and where the payload isn't a claims set. Each call reads all claims: cose_next_audience doesn't. */
static inline void cose_audience(const uint8_t *payload, size_t payload_length, uint64_t index, struct cose_range *audience)
{
    if (cose_is_null_(payload, payload_length)) {
        memset(audience, 0, sizeof *audience);
        return;
    }
    cose_edge_audience(cose_slice_(payload), payload_length, index, audience);
}

void cose_edge_next_audience(const uint8_t *payload, uint64_t payload_length, uint64_t place, struct cose_range *audience);

/** The text string of an audience that follows another one, by the place after the bytes of that one: in time that doesn't depend on the
 * other claims. Begin with aud of the claims, and count to aud_count: after the last one anything may follow. */
static inline void cose_next_audience(const uint8_t *payload, size_t payload_length, uint64_t place, struct cose_range *audience)
{
    if (cose_is_null_(payload, payload_length)) {
        memset(audience, 0, sizeof *audience);
        return;
    }
    cose_edge_next_audience(cose_slice_(payload), payload_length, place, audience);
}

void cose_edge_claim(const uint8_t *payload, uint64_t payload_length, int64_t label, struct cose_item *item);

/** The claim of a label that is an integer, if the payload is a claims set that has it (RFC 8392 sections 3 and 9.1): an item of the
 * payload. As of cose_large_claims, claims nest at most 16 deep. */
static inline void cose_claim(const uint8_t *payload, size_t payload_length, int64_t label, struct cose_item *item)
{
    if (cose_is_null_(payload, payload_length)) {
        memset(item, 0, sizeof *item);
        return;
    }
    cose_edge_claim(cose_slice_(payload), payload_length, label, item);
}

void cose_edge_claim_named(const uint8_t *payload, uint64_t payload_length, const uint8_t *name, uint64_t name_length,
    struct cose_item *item);

/** The same of a label that is a text string, in UTF-8. */
static inline void cose_claim_named(const uint8_t *payload, size_t payload_length, const uint8_t *name, size_t name_length,
    struct cose_item *item)
{
    if (cose_is_null_(payload, payload_length) || cose_is_null_(name, name_length)) {
        memset(item, 0, sizeof *item);
        return;
    }
    cose_edge_claim_named(cose_slice_(payload), payload_length, cose_slice_(name), name_length, item);
}

void cose_edge_item_at(const uint8_t *payload, uint64_t payload_length, uint64_t place, struct cose_item *item);

/** The item at a place of the payload, where that has one, of a nesting of at most 32. The items of an array, a map or a tag follow one
 * another (RFC 8949 section 3.1): the first is where the head ends, and the next one where the one before it ends. */
static inline void cose_item_at(const uint8_t *payload, size_t payload_length, uint64_t place, struct cose_item *item)
{
    if (cose_is_null_(payload, payload_length)) {
        memset(item, 0, sizeof *item);
        return;
    }
    cose_edge_item_at(cose_slice_(payload), payload_length, place, item);
}

/* ---- Header parameters of a message that is known to be authentic. Those of the unprotected bucket are not authentic: anyone may have
 * changed them. */

/** Labels of header parameters (RFC 9052 section 3.1; of certificates RFC 9360 section 2). */
enum cose_label {
    COSE_LABEL_ALG = 1,
    COSE_LABEL_CRIT = 2,
    COSE_LABEL_CONTENT_TYPE = 3,
    COSE_LABEL_KID = 4,
    COSE_LABEL_IV = 5,
    COSE_LABEL_PARTIAL_IV = 6,
    COSE_LABEL_X5BAG = 32,
    COSE_LABEL_X5CHAIN = 33,
    COSE_LABEL_X5T = 34,
    COSE_LABEL_X5U = 35
};

void cose_edge_parameter(uint8_t kind, const uint8_t *message, uint64_t message_length, uint32_t is_protected, int64_t label,
    struct cose_item *item);

/** The parameter of a label that is an integer, of the protected bucket, or where is_protected is 0 of the unprotected one, if it has one:
 * an item at its place in the message. */
static inline void cose_parameter(enum cose_kind_number kind, const uint8_t *message, size_t message_length, uint32_t is_protected,
    int64_t label, struct cose_item *item)
{
    if (cose_is_null_(message, message_length)) {
        memset(item, 0, sizeof *item);
        return;
    }
    cose_edge_parameter(cose_kind_(kind), cose_slice_(message), message_length, is_protected, label, item);
}

void cose_edge_large_parameter(uint8_t kind, const uint8_t *message, uint64_t message_length, uint32_t is_protected, int64_t label,
    struct cose_item *item);

/** The same for headers of 65,535 bytes that nest 16 deep. */
static inline void cose_large_parameter(enum cose_kind_number kind, const uint8_t *message, size_t message_length, uint32_t is_protected,
    int64_t label, struct cose_item *item)
{
    if (cose_is_null_(message, message_length)) {
        memset(item, 0, sizeof *item);
        return;
    }
    cose_edge_large_parameter(cose_kind_(kind), cose_slice_(message), message_length, is_protected, label, item);
}

void cose_edge_parameter_named(uint8_t kind, const uint8_t *message, uint64_t message_length, uint32_t is_protected, const uint8_t *name,
    uint64_t name_length, struct cose_item *item);

/** The parameter of a label that is a text string, in UTF-8, of either bucket. */
static inline void cose_parameter_named(enum cose_kind_number kind, const uint8_t *message, size_t message_length, uint32_t is_protected,
    const uint8_t *name, size_t name_length, struct cose_item *item)
{
    if (cose_is_null_(message, message_length) || cose_is_null_(name, name_length)) {
        memset(item, 0, sizeof *item);
        return;
    }
    cose_edge_parameter_named(cose_kind_(kind), cose_slice_(message), message_length, is_protected, cose_slice_(name), name_length, item);
}

void cose_edge_large_parameter_named(uint8_t kind, const uint8_t *message, uint64_t message_length, uint32_t is_protected,
    const uint8_t *name, uint64_t name_length, struct cose_item *item);

/** The same for headers of 65,535 bytes that nest 16 deep. */
static inline void cose_large_parameter_named(enum cose_kind_number kind, const uint8_t *message, size_t message_length,
    uint32_t is_protected, const uint8_t *name, size_t name_length, struct cose_item *item)
{
    if (cose_is_null_(message, message_length) || cose_is_null_(name, name_length)) {
        memset(item, 0, sizeof *item);
        return;
    }
    cose_edge_large_parameter_named(cose_kind_(kind), cose_slice_(message), message_length, is_protected, cose_slice_(name), name_length,
        item);
}

/* ---- A verifier in the caller's memory, which is fed. */

/** How many bytes its block has. */
COSE_MUST_USE_
uint64_t cose_verifier_size(void);

/** What the address of its block is a multiple of. */
COSE_MUST_USE_
uint64_t cose_verifier_align(void);

/** Makes the block a verifier without keys. Once, before anything else. */
void cose_begin(uint8_t *block);

void cose_edge_open(struct cose_verifier *verifier, const uint8_t *keys, uint64_t keys_length, const uint8_t *aad, uint64_t aad_length,
    uint8_t kind, struct cose_status *status);

/** Gives it the keys and the externally supplied data of the next messages: COSE_MORE, or why there are none. */
static inline void cose_open(struct cose_verifier *verifier, const uint8_t *keys, size_t keys_length, const uint8_t *aad,
    size_t aad_length, enum cose_kind_number kind, struct cose_status *status)
{
    if (cose_is_null_(keys, keys_length) || cose_is_null_(aad, aad_length)) {
        cose_edge_open(verifier, cose_slice_(NULL), 0, cose_slice_(NULL), 0, COSE_NO_KIND_, status);
        return;
    }
    cose_edge_open(verifier, cose_slice_(keys), keys_length, cose_slice_(aad), aad_length, cose_kind_(kind), status);
}

void cose_edge_open_detached(struct cose_verifier *verifier, const uint8_t *keys, uint64_t keys_length, const uint8_t *aad,
    uint64_t aad_length, uint8_t kind, uint64_t payload_length, struct cose_status *status);

/** The same for messages whose payload is detached, and has so many bytes. */
static inline void cose_open_detached(struct cose_verifier *verifier, const uint8_t *keys, size_t keys_length, const uint8_t *aad,
    size_t aad_length, enum cose_kind_number kind, uint64_t payload_length, struct cose_status *status)
{
    if (cose_is_null_(keys, keys_length) || cose_is_null_(aad, aad_length)) {
        cose_edge_open_detached(verifier, cose_slice_(NULL), 0, cose_slice_(NULL), 0, COSE_NO_KIND_, 0, status);
        return;
    }
    cose_edge_open_detached(verifier, cose_slice_(keys), keys_length, cose_slice_(aad), aad_length, cose_kind_(kind), payload_length,
        status);
}

void cose_edge_open_under(struct cose_verifier *verifier, const struct cose_terms *terms, struct cose_status *status);

/** Gives it what a struct of terms states of the next messages, whose defaults are safe, as cose_authenticate takes it: a key that
 * the terms leave out fits none of them. The struct isn't used any more, the keys and the external data that it names are. A block keeps no
 * labels: where the terms state labels that are understood, the block isn't opened (COSE_BAD_ARGUMENT). */
static inline void cose_open_under(struct cose_verifier *verifier, const struct cose_terms *terms, struct cose_status *status)
{
    struct cose_terms cose_terms_ = *terms;
    if (cose_is_null_(terms->keys, terms->keys_length) || cose_is_null_(terms->aad, terms->aad_length)) {
        cose_terms_.size = 0;
        cose_terms_.keys = cose_slice_(NULL);
        cose_terms_.keys_length = 0;
        cose_terms_.aad = cose_slice_(NULL);
        cose_terms_.aad_length = 0;
        cose_edge_open_under(verifier, &cose_terms_, status);
        return;
    }
    cose_terms_.keys = cose_slice_(terms->keys);
    cose_terms_.aad = cose_slice_(terms->aad);
    cose_edge_open_under(verifier, &cose_terms_, status);
}

void cose_edge_open_under_detached(struct cose_verifier *verifier, const struct cose_terms *terms, uint64_t payload_length,
    struct cose_status *status);

/** The same for messages whose payload is detached, and has so many bytes. */
static inline void cose_open_under_detached(struct cose_verifier *verifier, const struct cose_terms *terms, uint64_t payload_length,
    struct cose_status *status)
{
    struct cose_terms cose_terms_ = *terms;
    if (cose_is_null_(terms->keys, terms->keys_length) || cose_is_null_(terms->aad, terms->aad_length)) {
        cose_terms_.size = 0;
        cose_terms_.keys = cose_slice_(NULL);
        cose_terms_.keys_length = 0;
        cose_terms_.aad = cose_slice_(NULL);
        cose_terms_.aad_length = 0;
        cose_edge_open_under_detached(verifier, &cose_terms_, 0, status);
        return;
    }
    cose_terms_.keys = cose_slice_(terms->keys);
    cose_terms_.aad = cose_slice_(terms->aad);
    cose_edge_open_under_detached(verifier, &cose_terms_, payload_length, status);
}

void cose_edge_feed(struct cose_verifier *verifier, const uint8_t *piece, uint64_t piece_length, struct cose_fed *fed);

/** Takes the next bytes of the message: the fewest that settle it, or all of the piece. */
static inline void cose_feed(struct cose_verifier *verifier, const uint8_t *piece, size_t piece_length, struct cose_fed *fed)
{
    if (cose_is_null_(piece, piece_length)) {
        memset(fed, 0, sizeof *fed);
        fed->status.status = COSE_BAD_ARGUMENT;
        return;
    }
    cose_edge_feed(verifier, cose_slice_(piece), piece_length, fed);
}

/** How many bytes of the message are to come for certain. */
COSE_MUST_USE_
uint64_t cose_wanted(struct cose_verifier *verifier);

/** How many bytes of a detached payload are wanted. */
COSE_MUST_USE_
uint64_t cose_payload_wanted(struct cose_verifier *verifier);

COSE_MUST_USE_
uint64_t cose_edge_feed_payload(struct cose_verifier *verifier, const uint8_t *piece, uint64_t piece_length);

/** Takes the next bytes of a detached payload, and returns how many it used. */
COSE_MUST_USE_
static inline uint64_t cose_feed_payload(struct cose_verifier *verifier, const uint8_t *piece, size_t piece_length)
{
    if (cose_is_null_(piece, piece_length)) {
        return 0;
    }
    return cose_edge_feed_payload(verifier, cose_slice_(piece), piece_length);
}

/** Says that no byte follows: a message that isn't settled is refused (COSE_REASON_TRUNCATED). */
void cose_end(struct cose_verifier *verifier, struct cose_status *status);

/** What the signature of a message that is complete is verified with: 1 where it has one, and otherwise 0. */
COSE_MUST_USE_
uint8_t cose_sign_input(struct cose_verifier *verifier, struct cose_signature_input *input);

/** The verdict on a message that is complete. 1 says that the signature of cose_sign_input is good, as EVP_PKEY_verify returns; any other
 * number that it isn't. For a COSE_Mac0 the number doesn't count. */
void cose_verdict(struct cose_verifier *verifier, int32_t signature_is_good, struct cose_message_verdict *verdict);

/** The number of the message: opening and resetting begin another one. */
COSE_MUST_USE_
uint64_t cose_message_number(struct cose_verifier *verifier);

/** The verdict on the message of this number, as cose_verdict gives it: 1 is of the signature of this message alone. Where the verifier has
 * gone on to another message, as a callback or another thread may make it, the answer is COSE_BAD_ARGUMENT, and nothing changes. */
void cose_verdict_for(struct cose_verifier *verifier, uint64_t message, int32_t signature_is_good, struct cose_message_verdict *verdict);

/** Begins the next message, under the same keys. */
void cose_reset(struct cose_verifier *verifier);

/** How many bytes of the message were taken. */
COSE_MUST_USE_
uint64_t cose_taken(struct cose_verifier *verifier);

/** How many bytes of it are held, and 256 for the running hash. */
COSE_MUST_USE_
uint64_t cose_held(struct cose_verifier *verifier);

void cose_edge_header(struct cose_verifier *verifier, uint32_t is_protected, int64_t label, uint8_t *into, uint64_t into_room,
    struct cose_item *item);

/** The parameter of a label that is an integer, of the protected bucket of the message so far, or where is_protected is 0 of the
 * unprotected one, once that was found good: an item at its place in the message, of which as many bytes are copied as there is room
 * for. Nothing of it is authentic before the verdict, nor of the unprotected bucket after it. */
static inline void cose_header(struct cose_verifier *verifier, uint32_t is_protected, int64_t label, uint8_t *into, size_t into_room,
    struct cose_item *item)
{
    if (cose_is_null_(into, into_room)) {
        memset(item, 0, sizeof *item);
        return;
    }
    cose_edge_header(verifier, is_protected, label, cose_room_(into), into_room, item);
}

void cose_edge_header_named(struct cose_verifier *verifier, uint32_t is_protected, const uint8_t *name, uint64_t name_length,
    uint8_t *into, uint64_t into_room, struct cose_item *item);

/** The same of a label that is a text string, in UTF-8. */
static inline void cose_header_named(struct cose_verifier *verifier, uint32_t is_protected, const uint8_t *name, size_t name_length,
    uint8_t *into, size_t into_room, struct cose_item *item)
{
    if (cose_is_null_(name, name_length) || cose_is_null_(into, into_room)) {
        memset(item, 0, sizeof *item);
        return;
    }
    cose_edge_header_named(verifier, is_protected, cose_slice_(name), name_length, cose_room_(into), into_room, item);
}

#if UINTPTR_MAX <= 0xffffffff && defined COSE_NO_SHA512
/* The headers of a message of each algorithm that needs the function that is left out, without the key's identifier: 6 and 7 of a
 * COSE_Mac0, which have 7 bytes, and -35, -36, -51 and -52 of a COSE_Sign1. */
enum { COSE_PROBED_ = 6 };
static const uint8_t cose_probed_[COSE_PROBED_][8] = {
    {0xd1, 0x84, 0x43, 0xa1, 0x01, 0x06, 0xa0},
    {0xd1, 0x84, 0x43, 0xa1, 0x01, 0x07, 0xa0},
    {0xd2, 0x84, 0x44, 0xa1, 0x01, 0x38, 0x22, 0xa0},
    {0xd2, 0x84, 0x44, 0xa1, 0x01, 0x38, 0x23, 0xa0},
    {0xd2, 0x84, 0x44, 0xa1, 0x01, 0x38, 0x32, 0xa0},
    {0xd2, 0x84, 0x44, 0xa1, 0x01, 0x38, 0x33, 0xa0},
};

/* Without an identifier more than one key may fit, of which a message may name one. */
static inline uint8_t cose_may_need_(const struct cose_fed *fed)
{
    return fed->status.status != COSE_REFUSED || fed->status.reason == COSE_REASON_AMBIGUOUS_KEY;
}

/** Whether a message under the keys of a verifier may get to the function that is left out: 0 where each that names such an algorithm is
 * refused before it is hashed. The verifier is fed the headers of one of each algorithm, without the key's identifier, and is reset. */
COSE_MUST_USE_
static inline int cose_needs_sha512(struct cose_verifier *verifier)
{
    struct cose_fed fed;
    uint8_t needs = 0;
    cose_probes_ = 1;
    for (size_t each = 0; each < COSE_PROBED_; each++) {
        cose_reset(verifier);
        cose_feed(verifier, cose_probed_[each], each < 2 ? 7 : 8, &fed);
        needs |= cose_may_need_(&fed);
    }
    cose_reset(verifier);
    cose_probes_ = 0;
    return needs;
}
#endif

/* ---- The same for headers of 65,535 bytes that nest 16 deep. */

/** How many bytes its block has. */
COSE_MUST_USE_
uint64_t cose_large_verifier_size(void);

/** What the address of its block is a multiple of. */
COSE_MUST_USE_
uint64_t cose_large_verifier_align(void);

/** Makes the block a verifier without keys. Once, before anything else. */
void cose_large_begin(uint8_t *block);

void cose_edge_large_open(struct cose_large_verifier *verifier, const uint8_t *keys, uint64_t keys_length, const uint8_t *aad,
    uint64_t aad_length, uint8_t kind, struct cose_status *status);

/** Gives it the keys and the externally supplied data of the next messages: COSE_MORE, or why there are none. */
static inline void cose_large_open(struct cose_large_verifier *verifier, const uint8_t *keys, size_t keys_length, const uint8_t *aad,
    size_t aad_length, enum cose_kind_number kind, struct cose_status *status)
{
    if (cose_is_null_(keys, keys_length) || cose_is_null_(aad, aad_length)) {
        cose_edge_large_open(verifier, cose_slice_(NULL), 0, cose_slice_(NULL), 0, COSE_NO_KIND_, status);
        return;
    }
    cose_edge_large_open(verifier, cose_slice_(keys), keys_length, cose_slice_(aad), aad_length, cose_kind_(kind), status);
}

void cose_edge_large_open_detached(struct cose_large_verifier *verifier, const uint8_t *keys, uint64_t keys_length, const uint8_t *aad,
    uint64_t aad_length, uint8_t kind, uint64_t payload_length, struct cose_status *status);

/** The same for messages whose payload is detached, and has so many bytes. */
static inline void cose_large_open_detached(struct cose_large_verifier *verifier, const uint8_t *keys, size_t keys_length,
    const uint8_t *aad, size_t aad_length, enum cose_kind_number kind, uint64_t payload_length, struct cose_status *status)
{
    if (cose_is_null_(keys, keys_length) || cose_is_null_(aad, aad_length)) {
        cose_edge_large_open_detached(verifier, cose_slice_(NULL), 0, cose_slice_(NULL), 0, COSE_NO_KIND_, 0, status);
        return;
    }
    cose_edge_large_open_detached(verifier, cose_slice_(keys), keys_length, cose_slice_(aad), aad_length, cose_kind_(kind),
        payload_length, status);
}

void cose_edge_large_open_under(struct cose_large_verifier *verifier, const struct cose_terms *terms, struct cose_status *status);

/** Gives it what a struct of terms states of the next messages, whose defaults are safe, as cose_large_authenticate takes it: a key that
 * the terms leave out fits none of them. The struct isn't used any more, the keys and the external data that it names are. A block keeps no
 * labels: where the terms state labels that are understood, the block isn't opened (COSE_BAD_ARGUMENT). */
static inline void cose_large_open_under(struct cose_large_verifier *verifier, const struct cose_terms *terms, struct cose_status *status)
{
    struct cose_terms cose_terms_ = *terms;
    if (cose_is_null_(terms->keys, terms->keys_length) || cose_is_null_(terms->aad, terms->aad_length)) {
        cose_terms_.size = 0;
        cose_terms_.keys = cose_slice_(NULL);
        cose_terms_.keys_length = 0;
        cose_terms_.aad = cose_slice_(NULL);
        cose_terms_.aad_length = 0;
        cose_edge_large_open_under(verifier, &cose_terms_, status);
        return;
    }
    cose_terms_.keys = cose_slice_(terms->keys);
    cose_terms_.aad = cose_slice_(terms->aad);
    cose_edge_large_open_under(verifier, &cose_terms_, status);
}

void cose_edge_large_open_under_detached(struct cose_large_verifier *verifier, const struct cose_terms *terms, uint64_t payload_length,
    struct cose_status *status);

/** The same for messages whose payload is detached, and has so many bytes. */
static inline void cose_large_open_under_detached(struct cose_large_verifier *verifier, const struct cose_terms *terms,
    uint64_t payload_length, struct cose_status *status)
{
    struct cose_terms cose_terms_ = *terms;
    if (cose_is_null_(terms->keys, terms->keys_length) || cose_is_null_(terms->aad, terms->aad_length)) {
        cose_terms_.size = 0;
        cose_terms_.keys = cose_slice_(NULL);
        cose_terms_.keys_length = 0;
        cose_terms_.aad = cose_slice_(NULL);
        cose_terms_.aad_length = 0;
        cose_edge_large_open_under_detached(verifier, &cose_terms_, 0, status);
        return;
    }
    cose_terms_.keys = cose_slice_(terms->keys);
    cose_terms_.aad = cose_slice_(terms->aad);
    cose_edge_large_open_under_detached(verifier, &cose_terms_, payload_length, status);
}

void cose_edge_large_feed(struct cose_large_verifier *verifier, const uint8_t *piece, uint64_t piece_length, struct cose_fed *fed);

/** Takes the next bytes of the message: the fewest that settle it, or all of the piece. */
static inline void cose_large_feed(struct cose_large_verifier *verifier, const uint8_t *piece, size_t piece_length, struct cose_fed *fed)
{
    if (cose_is_null_(piece, piece_length)) {
        memset(fed, 0, sizeof *fed);
        fed->status.status = COSE_BAD_ARGUMENT;
        return;
    }
    cose_edge_large_feed(verifier, cose_slice_(piece), piece_length, fed);
}

/** How many bytes of the message are to come for certain. */
COSE_MUST_USE_
uint64_t cose_large_wanted(struct cose_large_verifier *verifier);

/** How many bytes of a detached payload are wanted. */
COSE_MUST_USE_
uint64_t cose_large_payload_wanted(struct cose_large_verifier *verifier);

COSE_MUST_USE_
uint64_t cose_edge_large_feed_payload(struct cose_large_verifier *verifier, const uint8_t *piece, uint64_t piece_length);

/** Takes the next bytes of a detached payload, and returns how many it used. */
COSE_MUST_USE_
static inline uint64_t cose_large_feed_payload(struct cose_large_verifier *verifier, const uint8_t *piece, size_t piece_length)
{
    if (cose_is_null_(piece, piece_length)) {
        return 0;
    }
    return cose_edge_large_feed_payload(verifier, cose_slice_(piece), piece_length);
}

/** Says that no byte follows: a message that isn't settled is refused (COSE_REASON_TRUNCATED). */
void cose_large_end(struct cose_large_verifier *verifier, struct cose_status *status);

/** What the signature of a message that is complete is verified with: 1 where it has one, and otherwise 0. */
COSE_MUST_USE_
uint8_t cose_large_sign_input(struct cose_large_verifier *verifier, struct cose_signature_input *input);

/** The verdict on a message that is complete. 1 says that the signature of cose_sign_input is good, as EVP_PKEY_verify returns; any other
 * number that it isn't. For a COSE_Mac0 the number doesn't count. */
void cose_large_verdict(struct cose_large_verifier *verifier, int32_t signature_is_good, struct cose_message_verdict *verdict);

/** The number of the message: opening and resetting begin another one. */
COSE_MUST_USE_
uint64_t cose_large_message_number(struct cose_large_verifier *verifier);

/** The verdict on the message of this number, as cose_large_verdict gives it: 1 is of the signature of this message alone. Where the verifier has
 * gone on to another message, as a callback or another thread may make it, the answer is COSE_BAD_ARGUMENT, and nothing changes. */
void cose_large_verdict_for(struct cose_large_verifier *verifier, uint64_t message, int32_t signature_is_good,
    struct cose_message_verdict *verdict);

/** Begins the next message, under the same keys. */
void cose_large_reset(struct cose_large_verifier *verifier);

/** How many bytes of the message were taken. */
COSE_MUST_USE_
uint64_t cose_large_taken(struct cose_large_verifier *verifier);

/** How many bytes of it are held, and 256 for the running hash. */
COSE_MUST_USE_
uint64_t cose_large_held(struct cose_large_verifier *verifier);

void cose_edge_large_header(struct cose_large_verifier *verifier, uint32_t is_protected, int64_t label, uint8_t *into, uint64_t into_room,
    struct cose_item *item);

/** The parameter of a label that is an integer, of the protected bucket of the message so far, or where is_protected is 0 of the
 * unprotected one, once that was found good: an item at its place in the message, of which as many bytes are copied as there is room
 * for. Nothing of it is authentic before the verdict, nor of the unprotected bucket after it. */
static inline void cose_large_header(struct cose_large_verifier *verifier, uint32_t is_protected, int64_t label, uint8_t *into,
    size_t into_room, struct cose_item *item)
{
    if (cose_is_null_(into, into_room)) {
        memset(item, 0, sizeof *item);
        return;
    }
    cose_edge_large_header(verifier, is_protected, label, cose_room_(into), into_room, item);
}

void cose_edge_large_header_named(struct cose_large_verifier *verifier, uint32_t is_protected, const uint8_t *name, uint64_t name_length,
    uint8_t *into, uint64_t into_room, struct cose_item *item);

/** The same of a label that is a text string, in UTF-8. */
static inline void cose_large_header_named(struct cose_large_verifier *verifier, uint32_t is_protected, const uint8_t *name,
    size_t name_length, uint8_t *into, size_t into_room, struct cose_item *item)
{
    if (cose_is_null_(name, name_length) || cose_is_null_(into, into_room)) {
        memset(item, 0, sizeof *item);
        return;
    }
    cose_edge_large_header_named(verifier, is_protected, cose_slice_(name), name_length, cose_room_(into), into_room, item);
}

/* ---- The same for headers of 256 bytes that nest 4 deep, on devices of little memory. It takes no terms: each key of the set may be used. */

/** How many bytes its block has. */
COSE_MUST_USE_
uint64_t cose_device_verifier_size(void);

/** What the address of its block is a multiple of. */
COSE_MUST_USE_
uint64_t cose_device_verifier_align(void);

/** Makes the block a verifier without keys. Once, before anything else. */
void cose_device_begin(uint8_t *block);

void cose_edge_device_open(struct cose_device_verifier *verifier, const uint8_t *keys, uint64_t keys_length, const uint8_t *aad,
    uint64_t aad_length, uint8_t kind, struct cose_status *status);

/** Gives it the keys and the externally supplied data of the next messages: COSE_MORE, or why there are none. */
static inline void cose_device_open(struct cose_device_verifier *verifier, const uint8_t *keys, size_t keys_length, const uint8_t *aad,
    size_t aad_length, enum cose_kind_number kind, struct cose_status *status)
{
    if (cose_is_null_(keys, keys_length) || cose_is_null_(aad, aad_length)) {
        cose_edge_device_open(verifier, cose_slice_(NULL), 0, cose_slice_(NULL), 0, COSE_NO_KIND_, status);
        return;
    }
    cose_edge_device_open(verifier, cose_slice_(keys), keys_length, cose_slice_(aad), aad_length, cose_kind_(kind), status);
}

void cose_edge_device_open_detached(struct cose_device_verifier *verifier, const uint8_t *keys, uint64_t keys_length, const uint8_t *aad,
    uint64_t aad_length, uint8_t kind, uint64_t payload_length, struct cose_status *status);

/** The same for messages whose payload is detached, and has so many bytes. */
static inline void cose_device_open_detached(struct cose_device_verifier *verifier, const uint8_t *keys, size_t keys_length,
    const uint8_t *aad, size_t aad_length, enum cose_kind_number kind, uint64_t payload_length, struct cose_status *status)
{
    if (cose_is_null_(keys, keys_length) || cose_is_null_(aad, aad_length)) {
        cose_edge_device_open_detached(verifier, cose_slice_(NULL), 0, cose_slice_(NULL), 0, COSE_NO_KIND_, 0, status);
        return;
    }
    cose_edge_device_open_detached(verifier, cose_slice_(keys), keys_length, cose_slice_(aad), aad_length, cose_kind_(kind),
        payload_length, status);
}

void cose_edge_device_feed(struct cose_device_verifier *verifier, const uint8_t *piece, uint64_t piece_length, struct cose_fed *fed);

/** Takes the next bytes of the message: the fewest that settle it, or all of the piece. */
static inline void cose_device_feed(struct cose_device_verifier *verifier, const uint8_t *piece, size_t piece_length,
    struct cose_fed *fed)
{
    if (cose_is_null_(piece, piece_length)) {
        memset(fed, 0, sizeof *fed);
        fed->status.status = COSE_BAD_ARGUMENT;
        return;
    }
    cose_edge_device_feed(verifier, cose_slice_(piece), piece_length, fed);
}

/** How many bytes of the message are to come for certain. */
COSE_MUST_USE_
uint64_t cose_device_wanted(struct cose_device_verifier *verifier);

/** How many bytes of a detached payload are wanted. */
COSE_MUST_USE_
uint64_t cose_device_payload_wanted(struct cose_device_verifier *verifier);

COSE_MUST_USE_
uint64_t cose_edge_device_feed_payload(struct cose_device_verifier *verifier, const uint8_t *piece, uint64_t piece_length);

/** Takes the next bytes of a detached payload, and returns how many it used. */
COSE_MUST_USE_
static inline uint64_t cose_device_feed_payload(struct cose_device_verifier *verifier, const uint8_t *piece, size_t piece_length)
{
    if (cose_is_null_(piece, piece_length)) {
        return 0;
    }
    return cose_edge_device_feed_payload(verifier, cose_slice_(piece), piece_length);
}

/** Says that no byte follows: a message that isn't settled is refused (COSE_REASON_TRUNCATED). */
void cose_device_end(struct cose_device_verifier *verifier, struct cose_status *status);

/** What the signature of a message that is complete is verified with: 1 where it has one, and otherwise 0. */
COSE_MUST_USE_
uint8_t cose_device_sign_input(struct cose_device_verifier *verifier, struct cose_signature_input *input);

/** The verdict on a message that is complete. 1 says that the signature of cose_device_sign_input is good, as EVP_PKEY_verify returns; any
 * other number that it isn't. For a COSE_Mac0 the number doesn't count. */
void cose_device_verdict(struct cose_device_verifier *verifier, int32_t signature_is_good, struct cose_message_verdict *verdict);

/** The number of the message: opening and resetting begin another one. */
COSE_MUST_USE_
uint64_t cose_device_message_number(struct cose_device_verifier *verifier);

/** The verdict on the message of this number, as cose_device_verdict gives it: 1 is of the signature of this message alone. Where the
 * verifier has gone on to another message, as a callback or another thread may make it, the answer is COSE_BAD_ARGUMENT, and nothing changes. */
void cose_device_verdict_for(struct cose_device_verifier *verifier, uint64_t message, int32_t signature_is_good,
    struct cose_message_verdict *verdict);

/** Begins the next message, under the same keys. */
void cose_device_reset(struct cose_device_verifier *verifier);

/** How many bytes of the message were taken. */
COSE_MUST_USE_
uint64_t cose_device_taken(struct cose_device_verifier *verifier);

/** How many bytes of it are held, and 256 for the running hash. */
COSE_MUST_USE_
uint64_t cose_device_held(struct cose_device_verifier *verifier);

#if UINTPTR_MAX <= 0xffffffff && defined COSE_NO_SHA512
/** The same as cose_needs_sha512. */
COSE_MUST_USE_
static inline int cose_device_needs_sha512(struct cose_device_verifier *verifier)
{
    struct cose_fed fed;
    uint8_t needs = 0;
    cose_probes_ = 1;
    for (size_t each = 0; each < COSE_PROBED_; each++) {
        cose_device_reset(verifier);
        cose_device_feed(verifier, cose_probed_[each], each < 2 ? 7 : 8, &fed);
        needs |= cose_may_need_(&fed);
    }
    cose_device_reset(verifier);
    cose_probes_ = 0;
    return needs;
}
#endif

/* ---- A verifier whose message the caller authenticates, since it has the hash or the key. */

void cose_edge_open_elsewhere(struct cose_verifier *verifier, const uint8_t *keys, uint64_t keys_length, const uint8_t *aad,
    uint64_t aad_length, uint8_t kind, struct cose_status *status);

/** Opens a block as cose_open does, for messages that the caller authenticates: nothing is hashed, and nothing compared but the MAC that the
 * caller states. The kid, the algorithm and the type of each key are read as ever, but the bytes of a symmetric key are given back and not
 * used: they may be any handle, as the number of a slot. cose_feed, cose_feed_payload and cose_end are as they were; cose_sign_input
 * returns 0, and cose_verdict answers the block's status and no verdict. */
static inline void cose_open_elsewhere(struct cose_verifier *verifier, const uint8_t *keys, size_t keys_length, const uint8_t *aad,
    size_t aad_length, enum cose_kind_number kind, struct cose_status *status)
{
    if (cose_is_null_(keys, keys_length) || cose_is_null_(aad, aad_length)) {
        cose_edge_open_elsewhere(verifier, cose_slice_(NULL), 0, cose_slice_(NULL), 0, COSE_NO_KIND_, status);
        return;
    }
    cose_edge_open_elsewhere(verifier, cose_slice_(keys), keys_length, cose_slice_(aad), aad_length, cose_kind_(kind), status);
}

void cose_edge_open_elsewhere_detached(struct cose_verifier *verifier, const uint8_t *keys, uint64_t keys_length, const uint8_t *aad,
    uint64_t aad_length, uint8_t kind, uint64_t payload_length, struct cose_status *status);

/** The same for messages whose payload is detached, and has so many bytes: hash what cose_feed_payload takes. */
static inline void cose_open_elsewhere_detached(struct cose_verifier *verifier, const uint8_t *keys, size_t keys_length,
    const uint8_t *aad, size_t aad_length, enum cose_kind_number kind, uint64_t payload_length, struct cose_status *status)
{
    if (cose_is_null_(keys, keys_length) || cose_is_null_(aad, aad_length)) {
        cose_edge_open_elsewhere_detached(verifier, cose_slice_(NULL), 0, cose_slice_(NULL), 0, COSE_NO_KIND_, 0, status);
        return;
    }
    cose_edge_open_elsewhere_detached(verifier, cose_slice_(keys), keys_length, cose_slice_(aad), aad_length, cose_kind_(kind),
        payload_length, status);
}

COSE_MUST_USE_
uint8_t cose_edge_front_pieces(struct cose_verifier *verifier, uint8_t *header, uint64_t header_room, struct cose_pieces *pieces);

/** What is hashed before the payload, and 1: once the payload's head was read, and until the verdict. Otherwise 0, and nothing changes. The
 * third piece, the content of the protected header, is copied to header, as many bytes as there is room for: 1,024 are always
 * enough. cose_front_piece gives the pieces in their order. */
COSE_MUST_USE_
static inline uint8_t cose_front_pieces(struct cose_verifier *verifier, uint8_t *header, size_t header_room, struct cose_pieces *pieces)
{
    if (cose_is_null_(header, header_room)) {
        return 0;
    }
    return cose_edge_front_pieces(verifier, cose_room_(header), header_room, pieces);
}

/** The number of pieces before the payload. */
enum { COSE_FRONT_PIECES = 6 };

/** The piece of this number, from 0 to 5, with its length, of what cose_front_pieces gave: header and aad are the bytes of the third and the
 * fifth, which the caller has. Any other number has no bytes. */
static inline const uint8_t *cose_front_piece(const struct cose_pieces *pieces, const uint8_t *header, const uint8_t *aad,
    size_t aad_length, unsigned index, size_t *length)
{
    switch (index) {
    case 0:
        *length = pieces->context_length;
        return pieces->context;
    case 1:
        *length = pieces->protected_head_length;
        return pieces->protected_head;
    case 2:
        *length = (size_t)pieces->protected_length;
        return cose_slice_(header);
    case 3:
        *length = pieces->aad_head_length;
        return pieces->aad_head;
    case 4:
        *length = aad_length;
        return cose_slice_(aad);
    case 5:
        *length = pieces->payload_head_length;
        return pieces->payload_head;
    default:
        *length = 0;
        return cose_slice_(NULL);
    }
}

COSE_MUST_USE_
uint8_t cose_edge_asked_key(struct cose_verifier *verifier, struct cose_chosen_key *asked);

/** The key that the message is authenticated with, and 1: once the payload's head was read, and until the verdict. Otherwise 0, and asked has
 * no key. Its pointers lead into the key set that the block was opened with. */
COSE_MUST_USE_
static inline uint8_t cose_asked_key(struct cose_verifier *verifier, struct cose_chosen_key *asked)
{
    asked->kid = cose_slice_(NULL);
    asked->kid_length = 0;
    asked->k = cose_slice_(NULL);
    asked->k_length = 0;
    asked->x = cose_slice_(NULL);
    asked->x_length = 0;
    asked->y = cose_slice_(NULL);
    asked->y_length = 0;
    return cose_edge_asked_key(verifier, asked);
}

/** The signature of a COSE_Sign1 as it was received, and 1: once all bytes are there, and until the verdict. Otherwise 0, and nothing
 * changes. The tag of a COSE_Mac0 is given to no one. */
COSE_MUST_USE_
uint8_t cose_asked_signature(struct cose_verifier *verifier, struct cose_received_signature *signature);

void cose_edge_verdict_of_mac(struct cose_verifier *verifier, const uint8_t *mac, uint64_t mac_length,
    struct cose_message_verdict *verdict);

/** The verdict on a COSE_Mac0 that is complete: its tag is compared with this MAC, in steps that don't depend on where they differ. What you
 * owe: it is the MAC of the whole structure, which is the pieces in their order, then the payload as it came, and nothing after, under the
 * key and by the algorithm of cose_asked_key; of HMAC 256/64 the first 8 bytes. Before the message is complete the verdict is the
 * block's status. It is COSE_BAD_ARGUMENT where no such MAC is asked for: of a COSE_Sign1, of another length, none at all, once a verdict was
 * given, and of a block that cose_open opened. Then nothing changes. The first verdict stands until the block is reset or opened: a second
 * MAC is COSE_BAD_ARGUMENT. */
static inline void cose_verdict_of_mac(struct cose_verifier *verifier, const uint8_t *mac, size_t mac_length,
    struct cose_message_verdict *verdict)
{
    if (cose_is_null_(mac, mac_length)) {
        memset(verdict, 0, sizeof *verdict);
        verdict->status = COSE_BAD_ARGUMENT;
        return;
    }
    cose_edge_verdict_of_mac(verifier, cose_slice_(mac), mac_length, verdict);
}

/** The verdict on the COSE_Sign1 with this cose_message_number, about whose signature your verifier said 1, that it is good; any other number
 * says that it isn't. What you owe: it is the signature of cose_asked_signature, of the pieces in their order, then the payload as it came,
 * and nothing after, under the key and by the algorithm of cose_asked_key. Otherwise as cose_verdict_of_mac: a COSE_Mac0, a message of another
 * number and a second answer are COSE_BAD_ARGUMENT. */
void cose_verdict_of_answer(struct cose_verifier *verifier, uint64_t message, int32_t holds, struct cose_message_verdict *verdict);

/* ---- The same for headers of 65,535 bytes that nest 16 deep. */

void cose_edge_large_open_elsewhere(struct cose_large_verifier *verifier, const uint8_t *keys, uint64_t keys_length, const uint8_t *aad,
    uint64_t aad_length, uint8_t kind, struct cose_status *status);

/** As cose_open_elsewhere. */
static inline void cose_large_open_elsewhere(struct cose_large_verifier *verifier, const uint8_t *keys, size_t keys_length,
    const uint8_t *aad, size_t aad_length, enum cose_kind_number kind, struct cose_status *status)
{
    if (cose_is_null_(keys, keys_length) || cose_is_null_(aad, aad_length)) {
        cose_edge_large_open_elsewhere(verifier, cose_slice_(NULL), 0, cose_slice_(NULL), 0, COSE_NO_KIND_, status);
        return;
    }
    cose_edge_large_open_elsewhere(verifier, cose_slice_(keys), keys_length, cose_slice_(aad), aad_length, cose_kind_(kind), status);
}

void cose_edge_large_open_elsewhere_detached(struct cose_large_verifier *verifier, const uint8_t *keys, uint64_t keys_length,
    const uint8_t *aad, uint64_t aad_length, uint8_t kind, uint64_t payload_length, struct cose_status *status);

/** As cose_open_elsewhere_detached. */
static inline void cose_large_open_elsewhere_detached(struct cose_large_verifier *verifier, const uint8_t *keys, size_t keys_length,
    const uint8_t *aad, size_t aad_length, enum cose_kind_number kind, uint64_t payload_length, struct cose_status *status)
{
    if (cose_is_null_(keys, keys_length) || cose_is_null_(aad, aad_length)) {
        cose_edge_large_open_elsewhere_detached(verifier, cose_slice_(NULL), 0, cose_slice_(NULL), 0, COSE_NO_KIND_, 0, status);
        return;
    }
    cose_edge_large_open_elsewhere_detached(verifier, cose_slice_(keys), keys_length, cose_slice_(aad), aad_length, cose_kind_(kind),
        payload_length, status);
}

COSE_MUST_USE_
uint8_t cose_edge_large_front_pieces(struct cose_large_verifier *verifier, uint8_t *header, uint64_t header_room,
    struct cose_pieces *pieces);

/** Here 65,535 bytes are always enough for header. */
COSE_MUST_USE_
static inline uint8_t cose_large_front_pieces(struct cose_large_verifier *verifier, uint8_t *header, size_t header_room,
    struct cose_pieces *pieces)
{
    if (cose_is_null_(header, header_room)) {
        return 0;
    }
    return cose_edge_large_front_pieces(verifier, cose_room_(header), header_room, pieces);
}

COSE_MUST_USE_
uint8_t cose_edge_large_asked_key(struct cose_large_verifier *verifier, struct cose_chosen_key *asked);

/** As cose_asked_key. */
COSE_MUST_USE_
static inline uint8_t cose_large_asked_key(struct cose_large_verifier *verifier, struct cose_chosen_key *asked)
{
    asked->kid = cose_slice_(NULL);
    asked->kid_length = 0;
    asked->k = cose_slice_(NULL);
    asked->k_length = 0;
    asked->x = cose_slice_(NULL);
    asked->x_length = 0;
    asked->y = cose_slice_(NULL);
    asked->y_length = 0;
    return cose_edge_large_asked_key(verifier, asked);
}

/** As cose_asked_signature. */
COSE_MUST_USE_
uint8_t cose_large_asked_signature(struct cose_large_verifier *verifier, struct cose_received_signature *signature);

void cose_edge_large_verdict_of_mac(struct cose_large_verifier *verifier, const uint8_t *mac, uint64_t mac_length,
    struct cose_message_verdict *verdict);

/** As cose_verdict_of_mac. */
static inline void cose_large_verdict_of_mac(struct cose_large_verifier *verifier, const uint8_t *mac, size_t mac_length,
    struct cose_message_verdict *verdict)
{
    if (cose_is_null_(mac, mac_length)) {
        memset(verdict, 0, sizeof *verdict);
        verdict->status = COSE_BAD_ARGUMENT;
        return;
    }
    cose_edge_large_verdict_of_mac(verifier, cose_slice_(mac), mac_length, verdict);
}

/** As cose_verdict_of_answer. */
void cose_large_verdict_of_answer(struct cose_large_verifier *verifier, uint64_t message, int32_t holds,
    struct cose_message_verdict *verdict);

/* ---- A table of keys in the caller's memory. */

/** How many bytes its block has. */
COSE_MUST_USE_
uint64_t cose_table_size(void);

/** What the address of its block is a multiple of. */
COSE_MUST_USE_
uint64_t cose_table_align(void);

/** Makes the block a table without keys. Once, before anything else. */
void cose_table_begin(uint8_t *block);

void cose_edge_table_read(struct cose_table *table, const uint8_t *keys, uint64_t keys_length, struct cose_key_set *key_set);

/** Reads the keys of a COSE_Key or a COSE_KeySet, each once. */
static inline void cose_table_read(struct cose_table *table, const uint8_t *keys, size_t keys_length, struct cose_key_set *key_set)
{
    if (cose_is_null_(keys, keys_length)) {
        cose_edge_table_read(table, cose_slice_(NULL), 0, key_set); /* the block has nothing then */
        memset(key_set, 0, sizeof *key_set);
        key_set->status = COSE_BAD_ARGUMENT;
        return;
    }
    cose_edge_table_read(table, cose_slice_(keys), keys_length, key_set);
}

void cose_edge_table_verify(const struct cose_table *table, const uint8_t *aad, uint64_t aad_length, uint8_t kind, const uint8_t *message,
    uint64_t message_length, struct cose_message_verdict *verdict, struct cose_signature_input *input);

/** As cose_verify, under the keys of the table. */
static inline void cose_table_verify(const struct cose_table *table, const uint8_t *aad, size_t aad_length, enum cose_kind_number kind,
    const uint8_t *message, size_t message_length, struct cose_message_verdict *verdict, struct cose_signature_input *input)
{
    struct cose_table cose_table_ = *table;
    if (cose_is_null_(aad, aad_length) || cose_is_null_(message, message_length)) {
        memset(verdict, 0, sizeof *verdict);
        verdict->status = COSE_BAD_ARGUMENT;
        return;
    }
    cose_edge_table_verify(&cose_table_, cose_slice_(aad), aad_length, cose_kind_(kind), cose_slice_(message), message_length, verdict,
        input);
}

void cose_edge_table_verify_cwt(const struct cose_table *table, const uint8_t *aad, uint64_t aad_length, const struct cose_policy *policy,
    const uint8_t *token, uint64_t token_length, struct cose_claims_set *claims);

/** As cose_verify_cwt, under the keys of the table. */
static inline void cose_table_verify_cwt(const struct cose_table *table, const uint8_t *aad, size_t aad_length,
    const struct cose_policy *policy, const uint8_t *token, size_t token_length, struct cose_claims_set *claims)
{
    struct cose_table cose_table_ = *table;
    struct cose_policy cose_policy_ = *policy;
    if (cose_is_null_(aad, aad_length) ||
        cose_is_null_(policy->audience, policy->audience_length) ||
        cose_is_null_(token, token_length)) {
        memset(claims, 0, sizeof *claims);
        claims->status = COSE_BAD_ARGUMENT;
        return;
    }
    cose_policy_.audience = cose_slice_(policy->audience);
    cose_edge_table_verify_cwt(&cose_table_, cose_slice_(aad), aad_length, &cose_policy_, cose_slice_(token), token_length, claims);
}

void cose_edge_table_read_under(struct cose_table *table, const struct cose_terms *terms, struct cose_key_set *key_set);

/** Reads the keys that terms permit, each once, and keeps what the terms state besides. Their size, flags, kind and lengths are judged as
 * those of cose_authenticate are. The struct isn't used any more, the keys and the external data that it names are. */
static inline void cose_table_read_under(struct cose_table *table, const struct cose_terms *terms, struct cose_key_set *key_set)
{
    struct cose_terms cose_terms_ = *terms;
    if (cose_is_null_(terms->keys, terms->keys_length) || cose_is_null_(terms->aad, terms->aad_length)) {
        cose_terms_.size = 0;
        cose_terms_.keys = cose_slice_(NULL);
        cose_terms_.keys_length = 0;
        cose_terms_.aad = cose_slice_(NULL);
        cose_terms_.aad_length = 0;
        cose_edge_table_read_under(table, &cose_terms_, key_set);
        return;
    }
    cose_terms_.keys = cose_slice_(terms->keys);
    cose_terms_.aad = cose_slice_(terms->aad);
    cose_edge_table_read_under(table, &cose_terms_, key_set);
}

void cose_edge_table_authenticate(const struct cose_table *table, const uint8_t *message, uint64_t message_length,
    struct cose_message_verdict *verdict, struct cose_signature_input *input);

/** As cose_authenticate, under the terms of the table: COSE_CLOSED where it wasn't read under terms. */
static inline void cose_table_authenticate(const struct cose_table *table, const uint8_t *message, size_t message_length,
    struct cose_message_verdict *verdict, struct cose_signature_input *input)
{
    struct cose_table cose_table_ = *table;
    if (cose_is_null_(message, message_length)) {
        memset(verdict, 0, sizeof *verdict);
        verdict->status = COSE_BAD_ARGUMENT;
        return;
    }
    cose_edge_table_authenticate(&cose_table_, cose_slice_(message), message_length, verdict, input);
}

void cose_edge_table_admit(const struct cose_table *table, const struct cose_requirements *requirements, const uint8_t *token,
    uint64_t token_length, struct cose_claims_set *claims);

/** As cose_admit, under the terms of the table. */
static inline void cose_table_admit(const struct cose_table *table, const struct cose_requirements *requirements, const uint8_t *token,
    size_t token_length, struct cose_claims_set *claims)
{
    struct cose_table cose_table_ = *table;
    struct cose_requirements cose_requirements_ = *requirements;
    if (cose_is_null_(requirements->iss, requirements->iss_length) ||
        cose_is_null_(requirements->sub, requirements->sub_length) ||
        cose_is_null_(requirements->aud, requirements->aud_length) ||
        cose_is_null_(token, token_length)) {
        memset(claims, 0, sizeof *claims);
        claims->status = COSE_BAD_ARGUMENT;
        return;
    }
    cose_requirements_.iss = cose_slice_(requirements->iss);
    cose_requirements_.sub = cose_slice_(requirements->sub);
    cose_requirements_.aud = cose_slice_(requirements->aud);
    cose_edge_table_admit(&cose_table_, &cose_requirements_, cose_slice_(token), token_length, claims);
}

void cose_edge_open_table(struct cose_verifier *verifier, const struct cose_table *table, const uint8_t *aad, uint64_t aad_length,
    uint8_t kind, struct cose_status *status);

/** Gives a verifier the keys of a table, and the externally supplied data of the next messages: COSE_MORE, or why there are none. A table
 * that isn't read is COSE_CLOSED. Of one that was read under terms the keys are taken, and nothing else that the terms state. The table,
 * its keys and the external data stay as they are until the verifier is opened again, or isn't used any more. */
static inline void cose_open_table(struct cose_verifier *verifier, const struct cose_table *table, const uint8_t *aad, size_t aad_length,
    enum cose_kind_number kind, struct cose_status *status)
{
    struct cose_table cose_table_ = *table;
    if (cose_is_null_(aad, aad_length)) {
        cose_edge_open_table(verifier, &cose_table_, cose_slice_(NULL), 0, COSE_NO_KIND_, status);
        return;
    }
    cose_edge_open_table(verifier, &cose_table_, cose_slice_(aad), aad_length, cose_kind_(kind), status);
}

void cose_edge_open_table_detached(struct cose_verifier *verifier, const struct cose_table *table, const uint8_t *aad,
    uint64_t aad_length, uint8_t kind, uint64_t payload_length, struct cose_status *status);

/** The same of messages whose payload is detached, and has so many bytes. */
static inline void cose_open_table_detached(struct cose_verifier *verifier, const struct cose_table *table, const uint8_t *aad,
    size_t aad_length, enum cose_kind_number kind, uint64_t payload_length, struct cose_status *status)
{
    struct cose_table cose_table_ = *table;
    if (cose_is_null_(aad, aad_length)) {
        cose_edge_open_table_detached(verifier, &cose_table_, cose_slice_(NULL), 0, COSE_NO_KIND_, 0, status);
        return;
    }
    cose_edge_open_table_detached(verifier, &cose_table_, cose_slice_(aad), aad_length, cose_kind_(kind), payload_length, status);
}

void cose_edge_large_open_table(struct cose_large_verifier *verifier, const struct cose_table *table, const uint8_t *aad,
    uint64_t aad_length, uint8_t kind, struct cose_status *status);

/** The same for a large verifier, */
static inline void cose_large_open_table(struct cose_large_verifier *verifier, const struct cose_table *table, const uint8_t *aad,
    size_t aad_length, enum cose_kind_number kind, struct cose_status *status)
{
    struct cose_table cose_table_ = *table;
    if (cose_is_null_(aad, aad_length)) {
        cose_edge_large_open_table(verifier, &cose_table_, cose_slice_(NULL), 0, COSE_NO_KIND_, status);
        return;
    }
    cose_edge_large_open_table(verifier, &cose_table_, cose_slice_(aad), aad_length, cose_kind_(kind), status);
}

void cose_edge_large_open_table_detached(struct cose_large_verifier *verifier, const struct cose_table *table, const uint8_t *aad,
    uint64_t aad_length, uint8_t kind, uint64_t payload_length, struct cose_status *status);

/** and with a detached payload. */
static inline void cose_large_open_table_detached(struct cose_large_verifier *verifier, const struct cose_table *table,
    const uint8_t *aad, size_t aad_length, enum cose_kind_number kind, uint64_t payload_length, struct cose_status *status)
{
    struct cose_table cose_table_ = *table;
    if (cose_is_null_(aad, aad_length)) {
        cose_edge_large_open_table_detached(verifier, &cose_table_, cose_slice_(NULL), 0, COSE_NO_KIND_, 0, status);
        return;
    }
    cose_edge_large_open_table_detached(verifier, &cose_table_, cose_slice_(aad), aad_length, cose_kind_(kind), payload_length, status);
}

/* ---- Making a COSE_Mac0 (RFC 9052 section 6.2) over pieces: head, the pieces and tail are the message. */

/** How many bytes its block has. */
COSE_MUST_USE_
uint64_t cose_maker_size(void);

/** What the address of its block is a multiple of. */
COSE_MUST_USE_
uint64_t cose_maker_align(void);

/** Makes the block a maker of nothing. Once, before anything else. */
void cose_maker_begin(uint8_t *block);

void cose_edge_make(struct cose_maker *maker, int32_t alg, const uint8_t *key, uint64_t key_length, const uint8_t *kid,
    uint64_t kid_length, const uint8_t *aad, uint64_t aad_length, uint64_t payload_length, uint8_t *head, uint64_t head_room,
    struct cose_made *made);

/** Writes what precedes the payload into head, at most 384 bytes. alg is 4, 5, 6 or 7 (RFC 9053 section 3.1). */
static inline void cose_make(struct cose_maker *maker, int32_t alg, const uint8_t *key, size_t key_length, const uint8_t *kid,
    size_t kid_length, const uint8_t *aad, size_t aad_length, uint64_t payload_length, uint8_t *head, size_t head_room,
    struct cose_made *made)
{
    if (cose_is_null_(key, key_length) ||
        cose_is_null_(kid, kid_length) ||
        cose_is_null_(aad, aad_length) ||
        cose_is_null_(head, head_room)) {
        cose_edge_make(maker, COSE_NO_ALG_, cose_slice_(NULL), 0, cose_slice_(NULL), 0, cose_slice_(NULL), 0, 0, cose_room_(NULL), 0,
            made);
        return;
    }
    cose_edge_make(maker, alg, cose_slice_(key), key_length, cose_slice_(kid), kid_length, cose_slice_(aad), aad_length, payload_length,
        cose_room_(head), head_room, made);
}

COSE_MUST_USE_
uint64_t cose_edge_make_piece(struct cose_maker *maker, const uint8_t *piece, uint64_t piece_length);

/** Hashes the next bytes of the payload, and returns how many it used. */
COSE_MUST_USE_
static inline uint64_t cose_make_piece(struct cose_maker *maker, const uint8_t *piece, size_t piece_length)
{
    if (cose_is_null_(piece, piece_length)) {
        return 0;
    }
    return cose_edge_make_piece(maker, cose_slice_(piece), piece_length);
}

void cose_edge_make_end(struct cose_maker *maker, uint8_t *tail, uint64_t tail_room, struct cose_made *made);

/** Writes what follows the payload into tail, at most 70 bytes. */
static inline void cose_make_end(struct cose_maker *maker, uint8_t *tail, size_t tail_room, struct cose_made *made)
{
    if (cose_is_null_(tail, tail_room)) {
        memset(made, 0, sizeof *made);
        made->status = COSE_BAD_ARGUMENT;
        return;
    }
    cose_edge_make_end(maker, cose_room_(tail), tail_room, made);
}

/* ---- Making a COSE_Sign1 (RFC 9052 section 4.2) over pieces, with a signature of the caller's: head, the pieces and tail are the
 * message. */

/** How many bytes its block has. */
COSE_MUST_USE_
uint64_t cose_signer_size(void);

/** What the address of its block is a multiple of. */
COSE_MUST_USE_
uint64_t cose_signer_align(void);

/** Makes the block a signer of nothing. Once, before anything else. */
void cose_signer_begin(uint8_t *block);

void cose_edge_make_sign1(struct cose_signer *signer, int32_t alg, const uint8_t *kid, uint64_t kid_length, const uint8_t *aad,
    uint64_t aad_length, uint64_t payload_length, uint8_t *head, uint64_t head_room, struct cose_made *made);

/** Writes what precedes the payload into head, at most 322 bytes. alg is an algorithm of signatures (RFC 9053 table 1, RFC 9864). */
static inline void cose_make_sign1(struct cose_signer *signer, int32_t alg, const uint8_t *kid, size_t kid_length, const uint8_t *aad,
    size_t aad_length, uint64_t payload_length, uint8_t *head, size_t head_room, struct cose_made *made)
{
    if (cose_is_null_(kid, kid_length) || cose_is_null_(aad, aad_length) || cose_is_null_(head, head_room)) {
        cose_edge_make_sign1(signer, COSE_NO_ALG_, cose_slice_(NULL), 0, cose_slice_(NULL), 0, 0, cose_room_(NULL), 0, made);
        return;
    }
    cose_edge_make_sign1(signer, alg, cose_slice_(kid), kid_length, cose_slice_(aad), aad_length, payload_length, cose_room_(head),
        head_room, made);
}

COSE_MUST_USE_
uint64_t cose_edge_make_sign1_piece(struct cose_signer *signer, const uint8_t *piece, uint64_t piece_length);

/** Hashes the next bytes of the payload, and returns how many it used. */
COSE_MUST_USE_
static inline uint64_t cose_make_sign1_piece(struct cose_signer *signer, const uint8_t *piece, size_t piece_length)
{
    if (cose_is_null_(piece, piece_length)) {
        return 0;
    }
    return cose_edge_make_sign1_piece(signer, cose_slice_(piece), piece_length);
}

void cose_edge_make_sign1_digest(struct cose_signer *signer, uint8_t *digest, uint64_t digest_room, struct cose_made *made);

/** Once the payload is whole, writes the digest of the Sig_structure (RFC 9052 section 4.4) into digest, at most 64 bytes. It may be asked
 * for again. */
static inline void cose_make_sign1_digest(struct cose_signer *signer, uint8_t *digest, size_t digest_room, struct cose_made *made)
{
    if (cose_is_null_(digest, digest_room)) {
        memset(made, 0, sizeof *made);
        made->status = COSE_BAD_ARGUMENT;
        return;
    }
    cose_edge_make_sign1_digest(signer, cose_room_(digest), digest_room, made);
}

void cose_edge_make_sign1_end(struct cose_signer *signer, const uint8_t *signature, uint64_t signature_length, uint8_t *tail,
    uint64_t tail_room, struct cose_made *made);

/** Takes the signature of this digest, r and then s (RFC 9053 section 2.1), and writes what follows the payload into tail, at most 134
 * bytes. The signature isn't verified; where it hasn't the algorithm's length (COSE_BAD_ARGUMENT), another may be given. */
static inline void cose_make_sign1_end(struct cose_signer *signer, const uint8_t *signature, size_t signature_length, uint8_t *tail,
    size_t tail_room, struct cose_made *made)
{
    if (cose_is_null_(signature, signature_length) || cose_is_null_(tail, tail_room)) {
        memset(made, 0, sizeof *made);
        made->status = COSE_BAD_ARGUMENT;
        return;
    }
    cose_edge_make_sign1_end(signer, cose_slice_(signature), signature_length, cose_room_(tail), tail_room, made);
}

/* ---- Blocks of all kinds. */

/** 1 where the library has this header's version, and its blocks fit into the bytes and the alignment above; otherwise 0. */
COSE_MUST_USE_
static inline int cose_fits(void)
{
    return cose_version() == COSE_VERSION &&
        cose_verifier_size() <= COSE_VERIFIER_BLOCK && cose_verifier_align() <= COSE_BLOCK_ALIGN &&
        cose_large_verifier_size() <= COSE_LARGE_VERIFIER_BLOCK && cose_large_verifier_align() <= COSE_BLOCK_ALIGN &&
        cose_device_verifier_size() <= COSE_DEVICE_VERIFIER_BLOCK && cose_device_verifier_align() <= COSE_BLOCK_ALIGN &&
        cose_table_size() <= COSE_TABLE_BLOCK && cose_table_align() <= COSE_BLOCK_ALIGN &&
        cose_maker_size() <= COSE_MAKER_BLOCK && cose_maker_align() <= COSE_BLOCK_ALIGN &&
        cose_signer_size() <= COSE_SIGNER_BLOCK && cose_signer_align() <= COSE_BLOCK_ALIGN;
}

void cose_edge_wipe_bytes(uint8_t *bytes, uint64_t bytes_room);

/** Overwrites bytes with zeros, as those of keys after use. It is proved of the library's function that each byte is 0 then. */
static inline void cose_wipe_bytes(uint8_t *bytes, size_t bytes_room)
{
    if (cose_is_null_(bytes, bytes_room)) {
        return;
    }
    cose_edge_wipe_bytes(cose_room_(bytes), bytes_room);
}

/** Overwrites the block, with all that was derived from keys, and begins it again: it is as one that was never opened then. What calls
 * left on the stack or in registers isn't overwritten. */
static inline void cose_wipe(struct cose_verifier *verifier)
{
    cose_edge_wipe_bytes(verifier->at, cose_verifier_size());
    cose_begin(verifier->at);
}

/** The same of a large one, */
static inline void cose_large_wipe(struct cose_large_verifier *verifier)
{
    cose_edge_wipe_bytes(verifier->at, cose_large_verifier_size());
    cose_large_begin(verifier->at);
}

/** of one for devices, */
static inline void cose_device_wipe(struct cose_device_verifier *verifier)
{
    cose_edge_wipe_bytes(verifier->at, cose_device_verifier_size());
    cose_device_begin(verifier->at);
}

/** of a table, */
static inline void cose_table_wipe(struct cose_table *table)
{
    cose_edge_wipe_bytes(table->at, cose_table_size());
    cose_table_begin(table->at);
}

/** of a maker, */
static inline void cose_maker_wipe(struct cose_maker *maker)
{
    cose_edge_wipe_bytes(maker->at, cose_maker_size());
    cose_maker_begin(maker->at);
}

/** and of a signer. */
static inline void cose_signer_wipe(struct cose_signer *signer)
{
    cose_edge_wipe_bytes(signer->at, cose_signer_size());
    cose_signer_begin(signer->at);
}

void cose_edge_key_of(const struct cose_terms *terms, const uint8_t *message, uint64_t message_length, struct cose_item *key);

/** Which key of the terms' key set a message is verified with: the item of the set that the key is, where one is chosen. The kind of the
 * terms is that of the message, 17 or 18, as its verdict has it. No item where the message isn't whole, is refused, or no key fits it;
 * where several do, no message is verified with them, and this is the first. */
static inline void cose_key_of(const struct cose_terms *terms, const uint8_t *message, size_t message_length, struct cose_item *key)
{
    struct cose_terms cose_terms_ = *terms;
    if (cose_is_null_(terms->keys, terms->keys_length) ||
        cose_is_null_(terms->aad, terms->aad_length) ||
        cose_is_null_(message, message_length)) {
        memset(key, 0, sizeof *key);
        return;
    }
    cose_terms_.keys = cose_slice_(terms->keys);
    cose_terms_.aad = cose_slice_(terms->aad);
    cose_edge_key_of(&cose_terms_, cose_slice_(message), message_length, key);
}

void cose_edge_mismatch(const struct cose_terms *terms, const uint8_t *message, uint64_t message_length, uint64_t place,
    struct cose_key_fit *fit);

/** Why the key of the terms' key set that is the item at this place isn't the one that a message is verified with: the first condition
 * that it fails. The kind of the terms is that of the message, 17 or 18. */
static inline void cose_mismatch(const struct cose_terms *terms, const uint8_t *message, size_t message_length, uint64_t place,
    struct cose_key_fit *fit)
{
    struct cose_terms cose_terms_ = *terms;
    if (cose_is_null_(terms->keys, terms->keys_length) ||
        cose_is_null_(terms->aad, terms->aad_length) ||
        cose_is_null_(message, message_length)) {
        memset(fit, 0, sizeof *fit);
        fit->status = COSE_BAD_ARGUMENT;
        return;
    }
    cose_terms_.keys = cose_slice_(terms->keys);
    cose_terms_.aad = cose_slice_(terms->aad);
    cose_edge_mismatch(&cose_terms_, cose_slice_(message), message_length, place, fit);
}

void cose_edge_fed_key_of(struct cose_verifier *verifier, const struct cose_terms *terms, struct cose_item *key);

/** Which key of the terms' key set the message of a verifier that is fed is verified with: the item of the set that the key is, once both
 * header buckets were found good, until the verifier is reset. The kind of the terms is that of the message, 17 or 18, as its verdict
 * has it. No item before that, or where no key fits; where several do, no message is verified with them, and this is the first. */
static inline void cose_fed_key_of(struct cose_verifier *verifier, const struct cose_terms *terms, struct cose_item *key)
{
    struct cose_terms cose_terms_ = *terms;
    if (cose_is_null_(terms->keys, terms->keys_length) || cose_is_null_(terms->aad, terms->aad_length)) {
        memset(key, 0, sizeof *key);
        return;
    }
    cose_terms_.keys = cose_slice_(terms->keys);
    cose_terms_.aad = cose_slice_(terms->aad);
    cose_edge_fed_key_of(verifier, &cose_terms_, key);
}

void cose_edge_large_key_of(const struct cose_terms *terms, const uint8_t *message, uint64_t message_length, struct cose_item *key);

/** Which key of the terms' key set a message with large header buckets is verified with, as `cose_key_of` says it of others. */
static inline void cose_large_key_of(const struct cose_terms *terms, const uint8_t *message, size_t message_length, struct cose_item *key)
{
    struct cose_terms cose_terms_ = *terms;
    if (cose_is_null_(terms->keys, terms->keys_length) ||
        cose_is_null_(terms->aad, terms->aad_length) ||
        cose_is_null_(message, message_length)) {
        memset(key, 0, sizeof *key);
        return;
    }
    cose_terms_.keys = cose_slice_(terms->keys);
    cose_terms_.aad = cose_slice_(terms->aad);
    cose_edge_large_key_of(&cose_terms_, cose_slice_(message), message_length, key);
}

void cose_edge_large_mismatch(const struct cose_terms *terms, const uint8_t *message, uint64_t message_length, uint64_t place,
    struct cose_key_fit *fit);

/** Why the key at this place isn't the one that such a message is verified with, as `cose_mismatch` says it of others. */
static inline void cose_large_mismatch(const struct cose_terms *terms, const uint8_t *message, size_t message_length, uint64_t place,
    struct cose_key_fit *fit)
{
    struct cose_terms cose_terms_ = *terms;
    if (cose_is_null_(terms->keys, terms->keys_length) ||
        cose_is_null_(terms->aad, terms->aad_length) ||
        cose_is_null_(message, message_length)) {
        memset(fit, 0, sizeof *fit);
        fit->status = COSE_BAD_ARGUMENT;
        return;
    }
    cose_terms_.keys = cose_slice_(terms->keys);
    cose_terms_.aad = cose_slice_(terms->aad);
    cose_edge_large_mismatch(&cose_terms_, cose_slice_(message), message_length, place, fit);
}

void cose_edge_large_fed_key_of(struct cose_large_verifier *verifier, const struct cose_terms *terms, struct cose_item *key);

/** Which key of the terms' key set the message of a verifier that is fed is verified with, as `cose_fed_key_of` says it of others. */
static inline void cose_large_fed_key_of(struct cose_large_verifier *verifier, const struct cose_terms *terms, struct cose_item *key)
{
    struct cose_terms cose_terms_ = *terms;
    if (cose_is_null_(terms->keys, terms->keys_length) || cose_is_null_(terms->aad, terms->aad_length)) {
        memset(key, 0, sizeof *key);
        return;
    }
    cose_terms_.keys = cose_slice_(terms->keys);
    cose_terms_.aad = cose_slice_(terms->aad);
    cose_edge_large_fed_key_of(verifier, &cose_terms_, key);
}

#ifdef __cplusplus
}
#endif

/* ---- One set of calls for the verifiers of all sizes: in C++, and in C from C11 on, a call such as cose_feed takes the handle of a
 * verifier of any size, and the type of the handle says which function is called. No other size is linked for that. */

/* made by ci/edge_tables: sizes */
#ifdef __cplusplus
inline void cose_open_elsewhere(struct cose_large_verifier *verifier, const uint8_t *keys, size_t keys_length, const uint8_t *aad,
    size_t aad_length, enum cose_kind_number kind, struct cose_status *status)
{
    cose_large_open_elsewhere(verifier, keys, keys_length, aad, aad_length, kind, status);
}
inline void cose_open_elsewhere_detached(struct cose_large_verifier *verifier, const uint8_t *keys, size_t keys_length,
    const uint8_t *aad, size_t aad_length, enum cose_kind_number kind, uint64_t payload_length, struct cose_status *status)
{
    cose_large_open_elsewhere_detached(verifier, keys, keys_length, aad, aad_length, kind, payload_length, status);
}
COSE_MUST_USE_
inline uint8_t cose_front_pieces(struct cose_large_verifier *verifier, uint8_t *header, size_t header_room,
    struct cose_pieces *pieces)
{
    return cose_large_front_pieces(verifier, header, header_room, pieces);
}
COSE_MUST_USE_
inline uint8_t cose_asked_key(struct cose_large_verifier *verifier, struct cose_chosen_key *asked)
{
    return cose_large_asked_key(verifier, asked);
}
COSE_MUST_USE_
inline uint8_t cose_asked_signature(struct cose_large_verifier *verifier, struct cose_received_signature *signature)
{
    return cose_large_asked_signature(verifier, signature);
}
inline void cose_verdict_of_mac(struct cose_large_verifier *verifier, const uint8_t *mac, size_t mac_length,
    struct cose_message_verdict *verdict)
{
    cose_large_verdict_of_mac(verifier, mac, mac_length, verdict);
}
inline void cose_verdict_of_answer(struct cose_large_verifier *verifier, uint64_t message, int32_t holds,
    struct cose_message_verdict *verdict)
{
    cose_large_verdict_of_answer(verifier, message, holds, verdict);
}
inline void cose_fed_key_of(struct cose_large_verifier *verifier, const struct cose_terms *terms, struct cose_item *key)
{
    cose_large_fed_key_of(verifier, terms, key);
}
inline void cose_open(struct cose_large_verifier *verifier, const uint8_t *keys, size_t keys_length, const uint8_t *aad,
    size_t aad_length, enum cose_kind_number kind, struct cose_status *status)
{
    cose_large_open(verifier, keys, keys_length, aad, aad_length, kind, status);
}
inline void cose_open(struct cose_device_verifier *verifier, const uint8_t *keys, size_t keys_length, const uint8_t *aad,
    size_t aad_length, enum cose_kind_number kind, struct cose_status *status)
{
    cose_device_open(verifier, keys, keys_length, aad, aad_length, kind, status);
}
inline void cose_open_detached(struct cose_large_verifier *verifier, const uint8_t *keys, size_t keys_length, const uint8_t *aad,
    size_t aad_length, enum cose_kind_number kind, uint64_t payload_length, struct cose_status *status)
{
    cose_large_open_detached(verifier, keys, keys_length, aad, aad_length, kind, payload_length, status);
}
inline void cose_open_detached(struct cose_device_verifier *verifier, const uint8_t *keys, size_t keys_length, const uint8_t *aad,
    size_t aad_length, enum cose_kind_number kind, uint64_t payload_length, struct cose_status *status)
{
    cose_device_open_detached(verifier, keys, keys_length, aad, aad_length, kind, payload_length, status);
}
inline void cose_open_under(struct cose_large_verifier *verifier, const struct cose_terms *terms, struct cose_status *status)
{
    cose_large_open_under(verifier, terms, status);
}
inline void cose_open_under_detached(struct cose_large_verifier *verifier, const struct cose_terms *terms, uint64_t payload_length,
    struct cose_status *status)
{
    cose_large_open_under_detached(verifier, terms, payload_length, status);
}
inline void cose_feed(struct cose_large_verifier *verifier, const uint8_t *piece, size_t piece_length, struct cose_fed *fed)
{
    cose_large_feed(verifier, piece, piece_length, fed);
}
inline void cose_feed(struct cose_device_verifier *verifier, const uint8_t *piece, size_t piece_length, struct cose_fed *fed)
{
    cose_device_feed(verifier, piece, piece_length, fed);
}
COSE_MUST_USE_
inline uint64_t cose_wanted(struct cose_large_verifier *verifier)
{
    return cose_large_wanted(verifier);
}
COSE_MUST_USE_
inline uint64_t cose_wanted(struct cose_device_verifier *verifier)
{
    return cose_device_wanted(verifier);
}
COSE_MUST_USE_
inline uint64_t cose_payload_wanted(struct cose_large_verifier *verifier)
{
    return cose_large_payload_wanted(verifier);
}
COSE_MUST_USE_
inline uint64_t cose_payload_wanted(struct cose_device_verifier *verifier)
{
    return cose_device_payload_wanted(verifier);
}
COSE_MUST_USE_
inline uint64_t cose_feed_payload(struct cose_large_verifier *verifier, const uint8_t *piece, size_t piece_length)
{
    return cose_large_feed_payload(verifier, piece, piece_length);
}
COSE_MUST_USE_
inline uint64_t cose_feed_payload(struct cose_device_verifier *verifier, const uint8_t *piece, size_t piece_length)
{
    return cose_device_feed_payload(verifier, piece, piece_length);
}
inline void cose_end(struct cose_large_verifier *verifier, struct cose_status *status)
{
    cose_large_end(verifier, status);
}
inline void cose_end(struct cose_device_verifier *verifier, struct cose_status *status)
{
    cose_device_end(verifier, status);
}
COSE_MUST_USE_
inline uint8_t cose_sign_input(struct cose_large_verifier *verifier, struct cose_signature_input *input)
{
    return cose_large_sign_input(verifier, input);
}
COSE_MUST_USE_
inline uint8_t cose_sign_input(struct cose_device_verifier *verifier, struct cose_signature_input *input)
{
    return cose_device_sign_input(verifier, input);
}
inline void cose_verdict(struct cose_large_verifier *verifier, int32_t signature_is_good, struct cose_message_verdict *verdict)
{
    cose_large_verdict(verifier, signature_is_good, verdict);
}
inline void cose_verdict(struct cose_device_verifier *verifier, int32_t signature_is_good, struct cose_message_verdict *verdict)
{
    cose_device_verdict(verifier, signature_is_good, verdict);
}
COSE_MUST_USE_
inline uint64_t cose_message_number(struct cose_large_verifier *verifier)
{
    return cose_large_message_number(verifier);
}
COSE_MUST_USE_
inline uint64_t cose_message_number(struct cose_device_verifier *verifier)
{
    return cose_device_message_number(verifier);
}
inline void cose_verdict_for(struct cose_large_verifier *verifier, uint64_t message, int32_t signature_is_good,
    struct cose_message_verdict *verdict)
{
    cose_large_verdict_for(verifier, message, signature_is_good, verdict);
}
inline void cose_verdict_for(struct cose_device_verifier *verifier, uint64_t message, int32_t signature_is_good,
    struct cose_message_verdict *verdict)
{
    cose_device_verdict_for(verifier, message, signature_is_good, verdict);
}
inline void cose_reset(struct cose_large_verifier *verifier)
{
    cose_large_reset(verifier);
}
inline void cose_reset(struct cose_device_verifier *verifier)
{
    cose_device_reset(verifier);
}
COSE_MUST_USE_
inline uint64_t cose_taken(struct cose_large_verifier *verifier)
{
    return cose_large_taken(verifier);
}
COSE_MUST_USE_
inline uint64_t cose_taken(struct cose_device_verifier *verifier)
{
    return cose_device_taken(verifier);
}
COSE_MUST_USE_
inline uint64_t cose_held(struct cose_large_verifier *verifier)
{
    return cose_large_held(verifier);
}
COSE_MUST_USE_
inline uint64_t cose_held(struct cose_device_verifier *verifier)
{
    return cose_device_held(verifier);
}
inline void cose_header(struct cose_large_verifier *verifier, uint32_t is_protected, int64_t label, uint8_t *into,
    size_t into_room, struct cose_item *item)
{
    cose_large_header(verifier, is_protected, label, into, into_room, item);
}
inline void cose_header_named(struct cose_large_verifier *verifier, uint32_t is_protected, const uint8_t *name, size_t name_length,
    uint8_t *into, size_t into_room, struct cose_item *item)
{
    cose_large_header_named(verifier, is_protected, name, name_length, into, into_room, item);
}
inline void cose_open_table(struct cose_large_verifier *verifier, const struct cose_table *table, const uint8_t *aad,
    size_t aad_length, enum cose_kind_number kind, struct cose_status *status)
{
    cose_large_open_table(verifier, table, aad, aad_length, kind, status);
}
inline void cose_open_table_detached(struct cose_large_verifier *verifier, const struct cose_table *table, const uint8_t *aad,
    size_t aad_length, enum cose_kind_number kind, uint64_t payload_length, struct cose_status *status)
{
    cose_large_open_table_detached(verifier, table, aad, aad_length, kind, payload_length, status);
}
inline void cose_wipe(struct cose_large_verifier *verifier)
{
    cose_large_wipe(verifier);
}
inline void cose_wipe(struct cose_device_verifier *verifier)
{
    cose_device_wipe(verifier);
}
#elif defined(__STDC_VERSION__) && __STDC_VERSION__ >= 201112L
#define COSE_OF_TWO_(verifier, call) _Generic((verifier), struct cose_large_verifier *: cose_large_##call, default: cose_##call)
#define COSE_OF_(verifier, call) \
    _Generic((verifier), struct cose_large_verifier *: cose_large_##call, \
        struct cose_device_verifier *: cose_device_##call, default: cose_##call)
#define cose_open_elsewhere(verifier, ...) COSE_OF_TWO_(verifier, open_elsewhere)(verifier, __VA_ARGS__)
#define cose_open_elsewhere_detached(verifier, ...) COSE_OF_TWO_(verifier, open_elsewhere_detached)(verifier, __VA_ARGS__)
#define cose_front_pieces(verifier, ...) COSE_OF_TWO_(verifier, front_pieces)(verifier, __VA_ARGS__)
#define cose_asked_key(verifier, ...) COSE_OF_TWO_(verifier, asked_key)(verifier, __VA_ARGS__)
#define cose_asked_signature(verifier, ...) COSE_OF_TWO_(verifier, asked_signature)(verifier, __VA_ARGS__)
#define cose_verdict_of_mac(verifier, ...) COSE_OF_TWO_(verifier, verdict_of_mac)(verifier, __VA_ARGS__)
#define cose_verdict_of_answer(verifier, ...) COSE_OF_TWO_(verifier, verdict_of_answer)(verifier, __VA_ARGS__)
#define cose_fed_key_of(verifier, ...) COSE_OF_TWO_(verifier, fed_key_of)(verifier, __VA_ARGS__)
#define cose_open(verifier, ...) COSE_OF_(verifier, open)(verifier, __VA_ARGS__)
#define cose_open_detached(verifier, ...) COSE_OF_(verifier, open_detached)(verifier, __VA_ARGS__)
#define cose_open_under(verifier, ...) COSE_OF_TWO_(verifier, open_under)(verifier, __VA_ARGS__)
#define cose_open_under_detached(verifier, ...) COSE_OF_TWO_(verifier, open_under_detached)(verifier, __VA_ARGS__)
#define cose_feed(verifier, ...) COSE_OF_(verifier, feed)(verifier, __VA_ARGS__)
#define cose_wanted(verifier) COSE_OF_(verifier, wanted)(verifier)
#define cose_payload_wanted(verifier) COSE_OF_(verifier, payload_wanted)(verifier)
#define cose_feed_payload(verifier, ...) COSE_OF_(verifier, feed_payload)(verifier, __VA_ARGS__)
#define cose_end(verifier, ...) COSE_OF_(verifier, end)(verifier, __VA_ARGS__)
#define cose_sign_input(verifier, ...) COSE_OF_(verifier, sign_input)(verifier, __VA_ARGS__)
#define cose_verdict(verifier, ...) COSE_OF_(verifier, verdict)(verifier, __VA_ARGS__)
#define cose_message_number(verifier) COSE_OF_(verifier, message_number)(verifier)
#define cose_verdict_for(verifier, ...) COSE_OF_(verifier, verdict_for)(verifier, __VA_ARGS__)
#define cose_reset(verifier) COSE_OF_(verifier, reset)(verifier)
#define cose_taken(verifier) COSE_OF_(verifier, taken)(verifier)
#define cose_held(verifier) COSE_OF_(verifier, held)(verifier)
#define cose_header(verifier, ...) COSE_OF_TWO_(verifier, header)(verifier, __VA_ARGS__)
#define cose_header_named(verifier, ...) COSE_OF_TWO_(verifier, header_named)(verifier, __VA_ARGS__)
#define cose_open_table(verifier, ...) COSE_OF_TWO_(verifier, open_table)(verifier, __VA_ARGS__)
#define cose_open_table_detached(verifier, ...) COSE_OF_TWO_(verifier, open_table_detached)(verifier, __VA_ARGS__)
#define cose_wipe(verifier) COSE_OF_(verifier, wipe)(verifier)
#endif
/* end of what ci/edge_tables makes */
#endif
