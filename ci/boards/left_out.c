/*
 * Opens a verifier under keys of each kind, where SHA-384 and SHA-512 are left out, and feeds it a message that names
 * such an algorithm where the keys do without. It ends with status 0 where each answer is the one that it has to be,
 * and doesn't end where a message gets to what is left out.
 */
#include "board.h"
#define COSE_NO_SHA512
#include "device.h"

static _Alignas(64) uint8_t block[4096];
static int wrong;

/* Symmetric keys: for any algorithm, for HMAC 256/256, 256/64, 384/384 and 512/512; two for any; one for 256/256 and
 * one for any, with an identifier each. */
static const uint8_t any[] = {0xa2, 1, 4, 0x20, 0x41, 'k'};
static const uint8_t hmac_256[] = {0xa3, 1, 4, 3, 5, 0x20, 0x41, 'k'};
static const uint8_t hmac_64[] = {0xa3, 1, 4, 3, 4, 0x20, 0x41, 'k'};
static const uint8_t hmac_384[] = {0xa3, 1, 4, 3, 6, 0x20, 0x41, 'k'};
static const uint8_t hmac_512[] = {0xa3, 1, 4, 3, 7, 0x20, 0x41, 'k'};
static const uint8_t two[] = {0x82, 0xa3, 1, 4, 2, 0x41, 1, 0x20, 0x41, 'k', 0xa3, 1, 4, 2, 0x41, 2, 0x20, 0x41, 'l'};
static const uint8_t both[] = {0x82, 0xa4, 1, 4, 2, 0x41, 1, 3,    5,    0x20, 0x41,
                               'k',  0xa3, 1, 4, 2, 0x41, 2, 0x20, 0x41, 'l'};
/* What begins a key on a curve, whose coordinates are zeros: P-256, P-384 and P-521. */
static uint8_t point[160];

static void judge(const char *what, int good)
{
    host_print(what);
    host_print(good ? ": as it has to be\n" : ": NOT as it has to be\n");
    wrong |= !good;
}

/* Whether the verifier says what it needs under these keys, and where it does without refuses a message that names HMAC
 * 512/512. */
static int needs(const uint8_t *keys, size_t length, int wanted)
{
    static const uint8_t message[] = {0xd1, 0x84, 0x43, 0xa1, 1, 7, 0xa1, 4, 0x41, 2, 0x40, 0x58, 0x40};
    struct cose_verifier verifier = {.at = block};
    struct cose_status status;
    struct cose_fed fed;
    cose_open(&verifier, keys, length, NULL, 0, COSE_TAGGED, &status);
    if (status.status != COSE_MORE || cose_needs_sha512(&verifier) != wanted || cose_taken(&verifier) != 0)
        return 0;
    if (wanted)
        return 1;
    cose_feed(&verifier, message, sizeof message, &fed);
    return fed.status.status == COSE_REFUSED && fed.status.reason == COSE_REASON_NO_KEY;
}

static int needs_on(uint8_t curve, size_t length, int wanted)
{
    const uint8_t front[] = {0xa4, 1, 2, 0x20, curve, 0x21, 0x58, (uint8_t)length};
    memset(point, 0, sizeof point);
    memcpy(point, front, sizeof front);
    point[8 + length] = 0x22;
    point[9 + length] = 0x58;
    point[10 + length] = (uint8_t)length;
    return needs(point, 11 + 2 * length, wanted);
}

int main(void)
{
    cose_begin(block);
    judge("for any algorithm", needs(any, sizeof any, 1));
    judge("HMAC 256/256", needs(hmac_256, sizeof hmac_256, 0));
    judge("HMAC 256/64", needs(hmac_64, sizeof hmac_64, 0));
    judge("HMAC 384/384", needs(hmac_384, sizeof hmac_384, 1));
    judge("HMAC 512/512", needs(hmac_512, sizeof hmac_512, 1));
    judge("two for any", needs(two, sizeof two, 1));
    judge("one for any", needs(both, sizeof both, 1));
    judge("P-256", needs_on(1, 32, 0));
    judge("P-384", needs_on(2, 48, 1));
    judge("P-521", needs_on(3, 66, 1));
    return wrong;
}
