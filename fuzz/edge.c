/* Feeds the library for callers in C to libFuzzer, and compares the ways by which it answers.
 *
 * The archive is not instrumented; the sanitizers watch this file, and each input is in memory of exactly its size. To
 * run it (docs/PROOF.md has what came of it):
 *
 *     clang -std=c11 -g -Iinclude -fsanitize=fuzzer,address,undefined fuzz/edge.c crates/cose_c/out/libcose_c.a -o
 * edge_fuzz
 *     ./edge_fuzz -max_total_time=600 -max_len=4096 CORPUS */
#include "cose.h"
#include <stdint.h>
#include <stdio.h>
#include <stdlib.h>
#include <string.h>

/* Ends the run where two answers differ. */
static void must(int holds, const char *what)
{
    if (!holds) {
        fprintf(stderr, "edge: %s\n", what);
        abort();
    }
}

/* The first bytes choose what is done; the rest is cut into the key set and the message. */
struct input {
    uint8_t way, wanted;
    size_t cut;
    uint8_t *keys, *message;
    size_t keys_length, message_length;
};

/* A copy in memory of exactly its size, so that a byte read beyond it is seen. */
static uint8_t *copy(const uint8_t *bytes, size_t length)
{
    uint8_t *copied = malloc(length == 0 ? 1 : length);
    must(copied != NULL, "there is no memory");
    if (length != 0) {
        memcpy(copied, bytes, length);
    }
    return copied;
}

static const uint8_t secret[] = {0xa2, 0x01, 0x04, 0x20, 0x44, 'J', 'e', 'f', 'e'};

static void check_range(uint64_t at, uint64_t length, size_t whole)
{
    must(at <= whole && length <= whole - at, "a range is within what was passed");
}

static struct cose_message_verdict in_one_call(const struct input *input)
{
    struct cose_message_verdict verdict;
    struct cose_signature_input sign;
    cose_verify(input->keys, input->keys_length, NULL, 0, input->wanted, input->message, input->message_length,
                &verdict, &sign);
    if (verdict.status == COSE_AUTHENTIC || verdict.status == COSE_SIGNED) {
        check_range(verdict.payload_at, verdict.payload_length, input->message_length);
        must(verdict.taken == input->message_length, "an accepted message has all bytes");
    }
    if (verdict.status == COSE_SIGNED) {
        must(sign.signature_length == 2 * sign.x_length && sign.digest_length <= sizeof sign.digest,
             "a signature has its length");
    }
    return verdict;
}

/* The same message in pieces of at most `cut` bytes gives the same verdict, with each signature taken for good. */
static void in_pieces(const struct input *input, struct cose_message_verdict wanted)
{
    uint8_t *block = aligned_alloc(cose_verifier_align(), cose_verifier_size());
    must(block != NULL, "there is no memory");
    struct cose_verifier verifier = {block};
    struct cose_status status;
    struct cose_message_verdict verdict;
    size_t at = 0;

    cose_begin(block);
    cose_open(&verifier, input->keys, input->keys_length, NULL, 0, input->wanted, &status);
    while (status.status == COSE_MORE && at < input->message_length) {
        size_t left = input->message_length - at;
        size_t count = left < input->cut ? left : input->cut;
        uint8_t *piece = copy(input->message + at, count);
        struct cose_fed fed;
        cose_feed(&verifier, piece, count, &fed);
        free(piece);
        must(fed.used <= count, "what is used is within the piece");
        check_range(fed.payload_at, fed.payload_length, count);
        at += fed.used;
        status = fed.status;
        must(fed.used != 0 || status.status != COSE_MORE, "a piece is used while more is wanted");
    }
    if (status.status == COSE_MORE) {
        cose_end(&verifier, &status);
    }
    must(cose_held(&verifier) <= 2 * 1024 + 512, "what is held is within its bound");
    if (status.status == COSE_COMPLETE) {
        cose_verdict(&verifier, 1, &verdict);
        if (verdict.status == COSE_AUTHENTIC && at < input->message_length) {
            must(wanted.status == COSE_REFUSED && wanted.reason == COSE_REASON_TRAILING && wanted.place == at,
                 "bytes after the message are Trailing in one call");
        } else if (verdict.status == COSE_AUTHENTIC) {
            must(wanted.status == (verdict.kind == COSE_SIGN1 ? COSE_SIGNED : COSE_AUTHENTIC) && wanted.taken == at &&
                     wanted.payload_length == verdict.payload_length && wanted.alg == verdict.alg,
                 "pieces give the verdict of the whole");
        } else {
            must(wanted.status == verdict.status && wanted.reason == verdict.reason && wanted.place == verdict.place,
                 "pieces give the refusal of the whole");
        }
    } else {
        must(wanted.status == status.status && wanted.reason == status.reason && wanted.place == status.place,
             "pieces give the refusal of the whole");
    }
    free(block);
}

static void read_claims(const struct input *input)
{
    struct cose_policy policy = {.now = 1444064943,
                                 .leeway = 60,
                                 .has_audience = input->wanted & 1,
                                 .audience = (const uint8_t *)"a",
                                 .audience_length = 1};
    struct cose_claims_set claims;
    struct cose_range audience;
    cose_claims(input->message, input->message_length, &policy, &claims);
    if (claims.status == COSE_AUTHENTIC) {
        const struct cose_range *ranges[] = {&claims.iss,     &claims.sub,   &claims.aud,  &claims.cti,
                                             &claims.cnf_kid, &claims.cnf_x, &claims.cnf_y};
        for (size_t i = 0; i < sizeof ranges / sizeof *ranges; i++) {
            if (ranges[i]->present) {
                check_range(ranges[i]->at, ranges[i]->length, input->message_length);
            }
        }
        struct cose_range next = claims.aud;
        for (uint64_t index = 0; index < claims.aud_count && index < 100; index++) {
            cose_audience(input->message, input->message_length, index, &audience);
            must(audience.present && audience.at == next.at && audience.length == next.length,
                 "the next audience is that of the next number");
            check_range(next.at, next.length, input->message_length);
            cose_next_audience(input->message, input->message_length, next.at + next.length, &next);
        }
        cose_audience(input->message, input->message_length, claims.aud_count, &audience);
        must(!audience.present, "there is no audience after the last");
    }
    cose_verify_cwt(input->keys, input->keys_length, NULL, 0, &policy, input->message, input->message_length, &claims);
    if (claims.status == COSE_AUTHENTIC) {
        check_range(claims.payload_at, claims.payload_length, input->message_length);
    }
}

int LLVMFuzzerTestOneInput(const uint8_t *data, size_t size)
{
    static const uint8_t kinds[] = {COSE_TAGGED, COSE_MAC0, COSE_SIGN1, 3};
    struct input input;
    struct cose_message_shape shape;
    struct cose_key_set key_set;

    if (size < 3) {
        return 0;
    }
    input.way = data[0];
    input.wanted = kinds[data[1] & 3];
    input.cut = data[2] == 0 ? 1 : data[2];
    data += 3;
    size -= 3;
    /* Under the secret of the examples, or under a key set that is a part of the input. */
    input.keys_length = input.way & 1 && size > 1 ? (size_t)data[0] % size : 0;
    if (input.keys_length == 0) {
        input.keys = copy(secret, sizeof secret);
        input.keys_length = sizeof secret;
        input.message = copy(data, size);
        input.message_length = size;
    } else {
        input.keys = copy(data + 1, input.keys_length);
        input.message = copy(data + 1 + input.keys_length, size - 1 - input.keys_length);
        input.message_length = size - 1 - input.keys_length;
    }
    in_pieces(&input, in_one_call(&input));
    read_claims(&input);
    cose_shape(input.wanted, input.message, input.message_length, &shape);
    cose_read_keys(input.keys, input.keys_length, &key_set);
    must(key_set.usable <= input.keys_length, "a key has a byte");
    free(input.keys);
    free(input.message);
    return 0;
}
