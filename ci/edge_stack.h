/* The bytes, the blocks and the answers of the calls of ci/edge_stack.c: items as deep as they may nest, labels out of
 * order, a key set of 64 keys. */
#ifndef EDGE_STACK_H
#define EDGE_STACK_H

#include "cose.h"
#include <string.h>

/* The bytes of a message, a key or a token that is being written. */
struct written {
    uint8_t bytes[4096];
    size_t length;
};

static struct written one_key, keys, okp_key, message, deep_message, detached, token, deep_claims, payload;
static struct written signed_message, signed_detached, device_message, device_detached;
static _Alignas(COSE_BLOCK_ALIGN) uint8_t block[COSE_VERIFIER_BLOCK], large_block[COSE_LARGE_VERIFIER_BLOCK];
static _Alignas(COSE_BLOCK_ALIGN) uint8_t device_block[COSE_DEVICE_VERIFIER_BLOCK], table_block[COSE_TABLE_BLOCK];
static struct cose_verifier verifier = {block};
static struct cose_large_verifier large = {large_block};
static struct cose_device_verifier device = {device_block};
static struct cose_table table = {table_block};
static struct cose_maker maker = {block};
static struct cose_signer signer = {block};
static struct cose_message_verdict verdict;
static struct cose_signature_input input;
static struct cose_eddsa_input eddsa;
static struct cose_message_shape shape;
static struct cose_key_set key_set;
static struct cose_claims_set claims;
static struct cose_range range;
static struct cose_item item;
static struct cose_key_fit fit;
static struct cose_status status;
static struct cose_fed fed;
static struct cose_made made;
static struct cose_pieces pieces;
static struct cose_chosen_key asked;
static struct cose_received_signature signature;
static uint8_t room[384], answered;
static uint64_t number;

static void put(struct written *to, const void *bytes, size_t length)
{
    memcpy(to->bytes + to->length, bytes, length);
    to->length += length;
}

/* A label and an item that nests so deep. */
static void put_nested(struct written *to, uint8_t label, int depth)
{
    put(to, &label, 1);
    for (int level = 0; level < depth; level++)
        put(to, "\x81", 1);
    put(to, "\x00", 1);
}

/* A key of 32 bytes, with a member that nests as deep as the key set may. */
static void put_key(struct written *to, uint8_t first, int depth)
{
    uint8_t secret[32] = {0};
    secret[0] = first;
    put(to, "\xa3\x01\x04\x20\x58\x20", 6);
    put(to, secret, sizeof secret);
    put_nested(to, 0x0a, depth);
}

/* An OKP key of 32 bytes, with labels out of order, and a member that nests as deep as the key set may. */
static void put_okp_key(struct written *to, int depth)
{
    const uint8_t x[32] = {0};
    put(to, "\xa4", 1);
    put_nested(to, 0x0a, depth);
    put(to, "\x21\x58\x20", 3);
    put(to, x, sizeof x);
    put(to, "\x20\x06\x01\x01", 4);
}

/* The COSE_Sign1 by EdDSA that has the parts of a COSE_Mac0: its signature is too short. */
static void put_signed(struct written *to, const struct written *mac0)
{
    *to = *mac0;
    to->bytes[0] = 0xd2;
    to->bytes[3 + to->bytes[3]] = 0x27;
}

/* A COSE_Mac0 with labels out of order, and two items that nest so deep, whose tag is wrong. */
static void put_message(struct written *to, int depth, const struct written *content)
{
    struct written bucket = {{0}, 0};
    const uint8_t tag[32] = {0};
    put(&bucket, "\xa9", 1);
    put_nested(&bucket, 0x17, depth);
    for (uint8_t label = 0x16; label > 0x0f; label--)
        put_nested(&bucket, label, 0);
    put(&bucket, "\x01\x05", 2);
    put(to, "\xd1\x84\x58", 3);
    put(to, (const uint8_t[]){(uint8_t)bucket.length}, 1);
    put(to, bucket.bytes, bucket.length);
    put(to, "\xa1", 1);
    put_nested(to, 0x0e, depth);
    if (content != NULL) {
        put(to, (const uint8_t[]){0x58, (uint8_t)content->length}, 2);
        put(to, content->bytes, content->length);
    } else {
        put(to, "\xf6", 1);
    }
    put(to, "\x58\x20", 2);
    put(to, tag, sizeof tag);
}

/* A claims set with an item that nests so deep, labels out of order, and two audiences. */
static void put_claims(struct written *to, int depth)
{
    put(to, "\xa5", 1);
    put_nested(to, 0x17, depth);
    put(to, "\x03\x82\x61\x61\x61\x62\x02\x61s\x01\x61i\x00\x00", 14);
}

static void write_all(void)
{
    put_key(&one_key, 1, 7);
    put(&keys, "\x98\x40", 2);
    for (uint8_t number = 0; number < 64; number++)
        put_key(&keys, number, 6);
    put(&payload, "hi", 2);
    put_message(&message, 7, &payload);
    put_message(&deep_message, 15, &payload);
    put_message(&detached, 7, NULL);
    put_message(&device_message, 3, &payload);
    put_message(&device_detached, 3, NULL);
    put_okp_key(&okp_key, 7);
    put_signed(&signed_message, &message);
    put_signed(&signed_detached, &detached);
    put_claims(&deep_claims, 7);
    /* a token whose tag is right */
    cose_maker_begin(block);
    cose_make(&maker, 5, one_key.bytes, one_key.length, NULL, 0, NULL, 0, deep_claims.length, room, sizeof room, &made);
    put(&token, room, made.length);
    put(&token, deep_claims.bytes, deep_claims.length);
    made.length = cose_make_piece(&maker, deep_claims.bytes, deep_claims.length);
    cose_make_end(&maker, room, sizeof room, &made);
    put(&token, room, made.length);
}

#endif
