/* Feeds messages to a verifier of each size by the same calls: in C from C11 on, and in C++, the type of the handle
 * says which function is called. A header that is too long for one size is not for a larger one.
 */
#include <stdio.h>
#include <string.h>

#include "cose.h"

#ifdef __cplusplus
#define ALIGNED alignas(COSE_BLOCK_ALIGN)
#else
#define ALIGNED _Alignas(COSE_BLOCK_ALIGN)
#endif

enum { ROOM = 2048, PAYLOAD_AND_TAG = 37 };

/* A COSE_Key with the secret 'Jefe'. */
static const uint8_t keys[] = {0xa2, 0x01, 0x04, 0x20, 0x44, 0x4a, 0x65, 0x66, 0x65};
static uint8_t message[ROOM];
ALIGNED static uint8_t blocks[3][COSE_LARGE_VERIFIER_BLOCK];
static int failed;

/* A COSE_Mac0 whose unprotected header has so many bytes, and whose tag is wrong. */
static size_t made(size_t header)
{
    static const uint8_t front[] = {0xd1, 0x84, 0x43, 0xa1, 0x01, 0x05, 0xa1, 0x18, 0x2a, 0x59};
    size_t value = header - 6, at = sizeof front;
    memset(message, 0, sizeof message);
    memcpy(message, front, sizeof front);
    message[at] = (uint8_t)(value >> 8);
    message[at + 1] = (uint8_t)value;
    at += 2 + value;
    memcpy(message + at, "\x42hi\x58\x20", 5);
    return at + PAYLOAD_AND_TAG;
}

static void is(const char *what, unsigned found, unsigned wanted)
{
    if (found != wanted) {
        printf("%s: %u, and not %u\n", what, found, wanted);
        failed++;
    }
}

/* The calls are written once, for a handle of any size; `wanted` is the reason. */
#define TRIED(name, handle, length, wanted)                                                                            \
    do {                                                                                                               \
        struct cose_status status;                                                                                     \
        struct cose_fed fed;                                                                                           \
        struct cose_message_verdict verdict;                                                                           \
        cose_open(handle, keys, sizeof keys, NULL, 0, COSE_MAC0, &status);                                             \
        is(name ": opened", status.status, COSE_MORE);                                                                 \
        is(name ": wanted", (unsigned)cose_wanted(handle), 1);                                                         \
        cose_feed(handle, message, length, &fed);                                                                      \
        is(name ": taken", (unsigned)cose_taken(handle), (unsigned)fed.used);                                          \
        cose_end(handle, &status);                                                                                     \
        cose_verdict_for(handle, cose_message_number(handle), -1, &verdict);                                           \
        is(name, verdict.reason, wanted);                                                                              \
        cose_reset(handle);                                                                                            \
        is(name ": reset", (unsigned)cose_taken(handle), 0);                                                           \
        cose_wipe(handle);                                                                                             \
        cose_end(handle, &status);                                                                                     \
        is(name ": wiped", status.status, COSE_CLOSED);                                                                \
    } while (0)

int main(void)
{
    struct cose_device_verifier device = {blocks[0]};
    struct cose_verifier small = {blocks[1]};
    struct cose_large_verifier large = {blocks[2]};
    cose_device_begin(blocks[0]);
    cose_begin(blocks[1]);
    cose_large_begin(blocks[2]);
    size_t length = made(256);
    TRIED("device, 256", &device, length, COSE_REASON_BAD_AUTH);
    length = made(257);
    TRIED("device, 257", &device, length, COSE_REASON_PAST_ROOM);
    TRIED("small, 257", &small, length, COSE_REASON_BAD_AUTH);
    length = made(1024);
    TRIED("small, 1024", &small, length, COSE_REASON_BAD_AUTH);
    length = made(1025);
    TRIED("small, 1025", &small, length, COSE_REASON_PAST_ROOM);
    TRIED("large, 1025", &large, length, COSE_REASON_BAD_AUTH);
    printf("%d failed\n", failed);
    return failed != 0;
}
