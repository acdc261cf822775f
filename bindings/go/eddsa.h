/*
 * The calls of cose.h about messages that are signed by EdDSA, as Go makes them. No pointer into memory of Go's is returned: each part
 * is a range of the bytes that were passed.
 */
#ifndef COSE_GO_EDDSA_H
#define COSE_GO_EDDSA_H

#include "sized.h"

/* A range of bytes of the caller. */
struct eddsa_range {
    size_t at, length;
};

/* An answer: the identifier and the key are parts of the key set, and the others of the message, or of the payload that was passed. */
struct eddsa_answer {
    uint8_t status, reason, crv;
    bool has_kid;
    int32_t alg;
    uint64_t place;
    struct eddsa_range kid, x, header, payload, signature;
    struct cose_pieces pieces;
};

static inline struct eddsa_range eddsa_range_in(struct sized_bytes bytes, const uint8_t *at, uint64_t length)
{
    struct eddsa_range range = {length == 0 ? 0 : (size_t)(at - bytes.at), (size_t)length};
    return range;
}

static inline struct eddsa_answer eddsa_verify(struct sized_bytes keys, struct sized_bytes aad, uint32_t kind, struct sized_bytes message,
    bool is_detached, struct sized_bytes payload)
{
    struct eddsa_answer answer = {0};
    struct cose_eddsa_input input;
    enum cose_kind_number wanted = (enum cose_kind_number)kind;
    if (is_detached)
        cose_verify_eddsa_detached(keys.at, keys.length, aad.at, aad.length, wanted, message.at, message.length, payload.at,
            payload.length, &input, &answer.pieces);
    else
        cose_verify_eddsa(keys.at, keys.length, aad.at, aad.length, wanted, message.at, message.length, &input, &answer.pieces);
    answer.status = input.status;
    answer.reason = input.reason;
    answer.place = input.place;
    if (input.status != COSE_SIGNED)
        return answer;
    answer.crv = input.crv;
    answer.alg = input.alg;
    answer.has_kid = input.has_kid == 1;
    answer.kid = eddsa_range_in(keys, input.kid, input.kid_length);
    answer.x = eddsa_range_in(keys, input.x, input.x_length);
    answer.header = eddsa_range_in(message, input.header, input.header_length);
    answer.payload = eddsa_range_in(is_detached ? payload : message, input.payload, input.payload_length);
    answer.signature = eddsa_range_in(message, input.signature, input.signature_length);
    return answer;
}

#endif
