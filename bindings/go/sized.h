/*
 * The calls of cose.h as Go makes them. Where they come in two sizes, large says which. A handle is the address of its block, and answers
 * are returned by value, so that nothing of them is on Go's heap.
 */
#ifndef COSE_GO_SIZED_H
#define COSE_GO_SIZED_H

#include <cose.h>
#include <stdbool.h>

/* Bytes of the caller. */
struct sized_bytes {
    const uint8_t *at;
    size_t length;
};

/* A verdict, and what a signature is verified with. */
struct sized_answer {
    struct cose_message_verdict verdict;
    struct cose_signature_input input;
    bool has_signature;
};

/* A policy whose audience is in memory of Go's. */
struct sized_policy {
    int64_t now;
    uint32_t leeway;
    bool has_audience;
};

static inline struct sized_answer sized_verify(bool large, struct sized_bytes keys, struct sized_bytes aad, uint32_t kind,
    struct sized_bytes message)
{
    struct sized_answer answer = {0};
    (large ? cose_large_verify : cose_verify)(keys.at, keys.length, aad.at, aad.length, (enum cose_kind_number)kind, message.at,
        message.length, &answer.verdict, &answer.input);
    return answer;
}

static inline struct sized_answer sized_verify_detached(bool large, struct sized_bytes keys, struct sized_bytes aad, uint32_t kind,
    struct sized_bytes message, struct sized_bytes payload)
{
    struct sized_answer answer = {0};
    (large ? cose_large_verify_detached : cose_verify_detached)(keys.at, keys.length, aad.at, aad.length, (enum cose_kind_number)kind,
        message.at, message.length, payload.at, payload.length, &answer.verdict, &answer.input);
    return answer;
}

static inline struct cose_policy sized_policy_of(struct sized_policy policy, struct sized_bytes audience)
{
    struct cose_policy given = {policy.now, policy.leeway, policy.has_audience, audience.at, audience.length};
    return given;
}

static inline struct cose_claims_set sized_claims(bool large, struct sized_bytes payload, struct sized_policy policy,
    struct sized_bytes audience)
{
    struct cose_claims_set claims = {0};
    struct cose_policy given = sized_policy_of(policy, audience);
    (large ? cose_large_claims : cose_claims)(payload.at, payload.length, &given, &claims);
    return claims;
}

static inline struct cose_claims_set sized_verify_cwt(bool large, struct sized_bytes keys, struct sized_bytes aad,
    struct sized_policy policy, struct sized_bytes audience, struct sized_bytes token)
{
    struct cose_claims_set claims = {0};
    struct cose_policy given = sized_policy_of(policy, audience);
    (large ? cose_large_verify_cwt : cose_verify_cwt)(keys.at, keys.length, aad.at, aad.length, &given, token.at, token.length, &claims);
    return claims;
}

static inline struct cose_item sized_claim(struct sized_bytes payload, int64_t label)
{
    struct cose_item item = {0};
    cose_claim(payload.at, payload.length, label, &item);
    return item;
}

static inline struct cose_item sized_claim_named(struct sized_bytes payload, struct sized_bytes name)
{
    struct cose_item item = {0};
    cose_claim_named(payload.at, payload.length, name.at, name.length, &item);
    return item;
}

static inline struct cose_item sized_parameter(bool large, uint32_t kind, struct sized_bytes message, bool is_protected, int64_t label)
{
    struct cose_item item = {0};
    (large ? cose_large_parameter : cose_parameter)((enum cose_kind_number)kind, message.at, message.length, is_protected, label, &item);
    return item;
}

static inline struct cose_item sized_parameter_named(bool large, uint32_t kind, struct sized_bytes message, bool is_protected,
    struct sized_bytes name)
{
    struct cose_item item = {0};
    (large ? cose_large_parameter_named : cose_parameter_named)((enum cose_kind_number)kind, message.at, message.length, is_protected,
        name.at, name.length, &item);
    return item;
}

static inline struct cose_message_shape sized_shape(uint32_t kind, struct sized_bytes message)
{
    struct cose_message_shape shape = {0};
    cose_shape((enum cose_kind_number)kind, message.at, message.length, &shape);
    return shape;
}

static inline struct cose_key_set sized_read_keys(struct sized_bytes keys)
{
    struct cose_key_set key_set = {0};
    cose_read_keys(keys.at, keys.length, &key_set);
    return key_set;
}

static inline size_t sized_verifier_size(bool large)
{
    return large ? cose_large_verifier_size() : cose_verifier_size();
}

static inline size_t sized_verifier_align(bool large)
{
    return large ? cose_large_verifier_align() : cose_verifier_align();
}

static inline void sized_begin(bool large, uint8_t *block)
{
    (large ? cose_large_begin : cose_begin)(block);
}

static inline struct cose_status sized_open(bool large, uint8_t *block, struct sized_bytes keys, struct sized_bytes aad, uint32_t kind)
{
    struct cose_status status = {0};
    struct cose_verifier verifier = {block};
    struct cose_large_verifier large_verifier = {block};
    if (large)
        cose_large_open(&large_verifier, keys.at, keys.length, aad.at, aad.length, (enum cose_kind_number)kind, &status);
    else
        cose_open(&verifier, keys.at, keys.length, aad.at, aad.length, (enum cose_kind_number)kind, &status);
    return status;
}

static inline struct cose_status sized_open_detached(bool large, uint8_t *block, struct sized_bytes keys, struct sized_bytes aad,
    uint32_t kind, uint64_t payload_length)
{
    struct cose_status status = {0};
    struct cose_verifier verifier = {block};
    struct cose_large_verifier large_verifier = {block};
    if (large)
        cose_large_open_detached(&large_verifier, keys.at, keys.length, aad.at, aad.length, (enum cose_kind_number)kind, payload_length,
            &status);
    else
        cose_open_detached(&verifier, keys.at, keys.length, aad.at, aad.length, (enum cose_kind_number)kind, payload_length, &status);
    return status;
}

static inline struct cose_status sized_open_table(bool large, uint8_t *block, uint8_t *table, struct sized_bytes aad, uint32_t kind)
{
    struct cose_status status = {0};
    struct cose_verifier verifier = {block};
    struct cose_large_verifier large_verifier = {block};
    struct cose_table under = {table};
    if (large)
        cose_large_open_table(&large_verifier, &under, aad.at, aad.length, (enum cose_kind_number)kind, &status);
    else
        cose_open_table(&verifier, &under, aad.at, aad.length, (enum cose_kind_number)kind, &status);
    return status;
}

static inline struct cose_status sized_open_table_detached(bool large, uint8_t *block, uint8_t *table, struct sized_bytes aad,
    uint32_t kind, uint64_t payload_length)
{
    struct cose_status status = {0};
    struct cose_verifier verifier = {block};
    struct cose_large_verifier large_verifier = {block};
    struct cose_table under = {table};
    if (large)
        cose_large_open_table_detached(&large_verifier, &under, aad.at, aad.length, (enum cose_kind_number)kind, payload_length, &status);
    else
        cose_open_table_detached(&verifier, &under, aad.at, aad.length, (enum cose_kind_number)kind, payload_length, &status);
    return status;
}

static inline struct cose_fed sized_feed(bool large, uint8_t *block, struct sized_bytes piece)
{
    struct cose_fed fed = {0};
    struct cose_verifier verifier = {block};
    struct cose_large_verifier large_verifier = {block};
    if (large)
        cose_large_feed(&large_verifier, piece.at, piece.length, &fed);
    else
        cose_feed(&verifier, piece.at, piece.length, &fed);
    return fed;
}

static inline uint64_t sized_feed_payload(bool large, uint8_t *block, struct sized_bytes piece)
{
    struct cose_verifier verifier = {block};
    struct cose_large_verifier large_verifier = {block};
    return large ? cose_large_feed_payload(&large_verifier, piece.at, piece.length) : cose_feed_payload(&verifier, piece.at, piece.length);
}

static inline struct cose_status sized_end(bool large, uint8_t *block)
{
    struct cose_status status = {0};
    struct cose_verifier verifier = {block};
    struct cose_large_verifier large_verifier = {block};
    if (large)
        cose_large_end(&large_verifier, &status);
    else
        cose_end(&verifier, &status);
    return status;
}

static inline struct sized_answer sized_sign_input(bool large, uint8_t *block)
{
    struct sized_answer answer = {0};
    struct cose_verifier verifier = {block};
    struct cose_large_verifier large_verifier = {block};
    answer.has_signature =
        (large ? cose_large_sign_input(&large_verifier, &answer.input) : cose_sign_input(&verifier, &answer.input)) == 1;
    return answer;
}

static inline struct cose_message_verdict sized_verdict(bool large, uint8_t *block, bool signature_is_good)
{
    struct cose_message_verdict verdict = {0};
    struct cose_verifier verifier = {block};
    struct cose_large_verifier large_verifier = {block};
    if (large)
        cose_large_verdict(&large_verifier, signature_is_good, &verdict);
    else
        cose_verdict(&verifier, signature_is_good, &verdict);
    return verdict;
}

static inline struct cose_status sized_open_elsewhere(bool large, uint8_t *block, struct sized_bytes keys, struct sized_bytes aad,
    uint32_t kind)
{
    struct cose_status status = {0};
    struct cose_verifier verifier = {block};
    struct cose_large_verifier large_verifier = {block};
    if (large)
        cose_large_open_elsewhere(&large_verifier, keys.at, keys.length, aad.at, aad.length, (enum cose_kind_number)kind, &status);
    else
        cose_open_elsewhere(&verifier, keys.at, keys.length, aad.at, aad.length, (enum cose_kind_number)kind, &status);
    return status;
}

static inline struct cose_status sized_open_elsewhere_detached(bool large, uint8_t *block, struct sized_bytes keys, struct sized_bytes aad,
    uint32_t kind, uint64_t payload_length)
{
    struct cose_status status = {0};
    struct cose_verifier verifier = {block};
    struct cose_large_verifier large_verifier = {block};
    if (large)
        cose_large_open_elsewhere_detached(&large_verifier, keys.at, keys.length, aad.at, aad.length, (enum cose_kind_number)kind,
            payload_length, &status);
    else
        cose_open_elsewhere_detached(&verifier, keys.at, keys.length, aad.at, aad.length, (enum cose_kind_number)kind, payload_length,
            &status);
    return status;
}

/* The pieces before the payload, where they are known. */
struct sized_front {
    bool is_there;
    struct cose_pieces pieces;
};

static inline struct sized_front sized_front_pieces(bool large, uint8_t *block, uint8_t *header, size_t room)
{
    struct sized_front front = {0};
    struct cose_verifier verifier = {block};
    struct cose_large_verifier large_verifier = {block};
    front.is_there = (large ? cose_large_front_pieces(&large_verifier, header, room, &front.pieces)
                            : cose_front_pieces(&verifier, header, room, &front.pieces)) == 1;
    return front;
}

/* The key that was chosen, where it is known. */
struct sized_asked {
    bool is_there;
    struct cose_chosen_key key;
};

static inline struct sized_asked sized_asked_key(bool large, uint8_t *block)
{
    struct sized_asked asked = {0};
    struct cose_verifier verifier = {block};
    struct cose_large_verifier large_verifier = {block};
    asked.is_there = (large ? cose_large_asked_key(&large_verifier, &asked.key) : cose_asked_key(&verifier, &asked.key)) == 1;
    return asked;
}

/* The signature that the caller's verifier decides on, where it is asked about, and the number of its message. */
struct sized_signature {
    bool is_there;
    uint64_t message;
    struct cose_received_signature signature;
};

static inline struct sized_signature sized_asked_signature(bool large, uint8_t *block)
{
    struct sized_signature asked = {0};
    struct cose_verifier verifier = {block};
    struct cose_large_verifier large_verifier = {block};
    asked.message = large ? cose_large_message_number(&large_verifier) : cose_message_number(&verifier);
    asked.is_there = (large ? cose_large_asked_signature(&large_verifier, &asked.signature)
                            : cose_asked_signature(&verifier, &asked.signature)) == 1;
    return asked;
}

static inline struct cose_message_verdict sized_verdict_of_mac(bool large, uint8_t *block, struct sized_bytes mac)
{
    struct cose_message_verdict verdict = {0};
    struct cose_verifier verifier = {block};
    struct cose_large_verifier large_verifier = {block};
    if (large)
        cose_large_verdict_of_mac(&large_verifier, mac.at, mac.length, &verdict);
    else
        cose_verdict_of_mac(&verifier, mac.at, mac.length, &verdict);
    return verdict;
}

static inline struct cose_message_verdict sized_verdict_of_answer(bool large, uint8_t *block, uint64_t message, bool holds)
{
    struct cose_message_verdict verdict = {0};
    struct cose_verifier verifier = {block};
    struct cose_large_verifier large_verifier = {block};
    if (large)
        cose_large_verdict_of_answer(&large_verifier, message, holds, &verdict);
    else
        cose_verdict_of_answer(&verifier, message, holds, &verdict);
    return verdict;
}

static inline struct cose_item sized_header(bool large, uint8_t *block, bool is_protected, int64_t label, uint8_t *into, size_t room)
{
    struct cose_item item = {0};
    struct cose_verifier verifier = {block};
    struct cose_large_verifier large_verifier = {block};
    if (large)
        cose_large_header(&large_verifier, is_protected, label, into, room, &item);
    else
        cose_header(&verifier, is_protected, label, into, room, &item);
    return item;
}

static inline struct cose_item sized_header_named(bool large, uint8_t *block, bool is_protected, struct sized_bytes name, uint8_t *into,
    size_t room)
{
    struct cose_item item = {0};
    struct cose_verifier verifier = {block};
    struct cose_large_verifier large_verifier = {block};
    if (large)
        cose_large_header_named(&large_verifier, is_protected, name.at, name.length, into, room, &item);
    else
        cose_header_named(&verifier, is_protected, name.at, name.length, into, room, &item);
    return item;
}

static inline void sized_reset(bool large, uint8_t *block)
{
    struct cose_verifier verifier = {block};
    struct cose_large_verifier large_verifier = {block};
    if (large)
        cose_large_reset(&large_verifier);
    else
        cose_reset(&verifier);
}

/* The numbers of a verifier. */
/* made by ci/edge_tables: counts */
struct sized_counts {
    uint64_t wanted;
    uint64_t payload_wanted;
    uint64_t message_number;
    uint64_t taken;
    uint64_t held;
};

static inline struct sized_counts sized_counts_of(bool large, uint8_t *block)
{
    struct cose_verifier it = {block};
    struct cose_large_verifier large_it = {block};
    struct sized_counts counts;
    counts.wanted = large ? cose_large_wanted(&large_it) : cose_wanted(&it);
    counts.payload_wanted = large ? cose_large_payload_wanted(&large_it) : cose_payload_wanted(&it);
    counts.message_number = large ? cose_large_message_number(&large_it) : cose_message_number(&it);
    counts.taken = large ? cose_large_taken(&large_it) : cose_taken(&it);
    counts.held = large ? cose_large_held(&large_it) : cose_held(&it);
    return counts;
}
/* end of what ci/edge_tables makes */

static inline struct cose_key_set sized_table_read(uint8_t *block, struct sized_bytes keys)
{
    struct cose_key_set key_set = {0};
    struct cose_table table = {block};
    cose_table_read(&table, keys.at, keys.length, &key_set);
    return key_set;
}

static inline struct sized_answer sized_table_verify(uint8_t *block, struct sized_bytes aad, uint32_t kind, struct sized_bytes message)
{
    struct sized_answer answer = {0};
    struct cose_table table = {block};
    cose_table_verify(&table, aad.at, aad.length, (enum cose_kind_number)kind, message.at, message.length, &answer.verdict, &answer.input);
    return answer;
}

static inline struct cose_claims_set sized_table_verify_cwt(uint8_t *block, struct sized_bytes aad, struct sized_policy policy,
    struct sized_bytes audience, struct sized_bytes token)
{
    struct cose_claims_set claims = {0};
    struct cose_table table = {block};
    struct cose_policy given = sized_policy_of(policy, audience);
    cose_table_verify_cwt(&table, aad.at, aad.length, &given, token.at, token.length, &claims);
    return claims;
}

static inline struct cose_made sized_make(uint8_t *block, int32_t alg, struct sized_bytes key, struct sized_bytes kid,
    struct sized_bytes aad, uint64_t payload_length, uint8_t *head, size_t head_room)
{
    struct cose_made made = {0};
    struct cose_maker maker = {block};
    cose_make(&maker, alg, key.at, key.length, kid.at, kid.length, aad.at, aad.length, payload_length, head, head_room, &made);
    return made;
}

static inline uint64_t sized_make_piece(uint8_t *block, struct sized_bytes piece)
{
    struct cose_maker maker = {block};
    return cose_make_piece(&maker, piece.at, piece.length);
}

static inline struct cose_made sized_make_end(uint8_t *block, uint8_t *tail, size_t tail_room)
{
    struct cose_made made = {0};
    struct cose_maker maker = {block};
    cose_make_end(&maker, tail, tail_room, &made);
    return made;
}

#endif
