/*
 * The calls of cose.h that make a COSE_Sign1, by the address of a block.
 */
#ifndef COSE_GO_SIGNING_H
#define COSE_GO_SIGNING_H

#include "sized.h"

static inline struct cose_made signing_begin(uint8_t *block, int32_t alg, struct sized_bytes kid, struct sized_bytes aad,
    uint64_t payload_length, uint8_t *head, size_t head_room)
{
    struct cose_made made = {0};
    struct cose_signer signer = {block};
    cose_make_sign1(&signer, alg, kid.at, kid.length, aad.at, aad.length, payload_length, head, head_room, &made);
    return made;
}

static inline uint64_t signing_piece(uint8_t *block, struct sized_bytes piece)
{
    struct cose_signer signer = {block};
    return cose_make_sign1_piece(&signer, piece.at, piece.length);
}

static inline struct cose_made signing_digest(uint8_t *block, uint8_t *digest, size_t digest_room)
{
    struct cose_made made = {0};
    struct cose_signer signer = {block};
    cose_make_sign1_digest(&signer, digest, digest_room, &made);
    return made;
}

static inline struct cose_made signing_end(uint8_t *block, struct sized_bytes signature, uint8_t *tail, size_t tail_room)
{
    struct cose_made made = {0};
    struct cose_signer signer = {block};
    cose_make_sign1_end(&signer, signature.at, signature.length, tail, tail_room, &made);
    return made;
}

#endif
