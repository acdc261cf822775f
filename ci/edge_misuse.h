/* What ci/edge_misuse.c and ci/edge_misuse_tables.c have in common: a message with its key, and how an answer is
 * judged. */
#ifndef EDGE_MISUSE_H
#define EDGE_MISUSE_H

#include "cose.h"
#include <stdio.h>
#include <string.h>

/* A symmetric key and the COSE_Mac0 of `hi` under it (examples/make_mac0). */
static const uint8_t keys[] = {0xa2, 0x01, 0x04, 0x20, 0x44, 'J', 'e', 'f', 'e'};
static const uint8_t mac0[] = {0xd1, 0x84, 0x43, 0xa1, 0x01, 0x05, 0xa0, 0x42, 'h',  'i',  0x58, 0x20, 0x7d, 0x81, 0xe9,
                               0x64, 0xaa, 0xee, 0x5f, 0xbd, 0x8a, 0xdf, 0xb3, 0xf5, 0x33, 0x65, 0x7a, 0x9e, 0xf9, 0xf7,
                               0x82, 0xf0, 0x4b, 0x91, 0x87, 0x7b, 0x60, 0x04, 0x27, 0x2a, 0x03, 0x52, 0xf9, 0x60};
/* The same key, which names HMAC 256/256. */
static const uint8_t by_alg[] = {0xa3, 0x01, 0x04, 0x03, 0x05, 0x20, 0x44, 'J', 'e', 'f', 'e'};

static uint8_t much[65536];
static _Alignas(64) uint8_t block[COSE_TABLE_BLOCK];
static int failures;

static void is(const char *what, uint64_t found, uint64_t wanted)
{
    if (found == wanted)
        return;
    printf("%s: %llu, not %llu\n", what, (unsigned long long)found, (unsigned long long)wanted);
    failures++;
}

/* How many bytes of a block aren't those of one that was begun in memory of zeros. */
static size_t left_in(const uint8_t *at, size_t size, void (*begin)(uint8_t *))
{
    static _Alignas(COSE_BLOCK_ALIGN) uint8_t blank[COSE_LARGE_VERIFIER_BLOCK];
    memset(blank, 0, sizeof blank);
    begin(blank);
    size_t count = 0;
    for (size_t i = 0; i < size; i++)
        count += at[i] != blank[i];
    return count;
}

#endif
