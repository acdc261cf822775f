/*
 * A verifier for its size: a COSE_Mac0 that comes a byte at a time. With ELSEWHERE another part of the device has the
 * hash and the key, here one register; without it the library has both. bench/device_elsewhere builds it, and nothing
 * runs it.
 */
#include "board.h"
#define COSE_NO_SHA512
#include "cose.h"

static _Alignas(64) uint8_t block[4096];
static volatile uint8_t line, accepted;

#ifdef ELSEWHERE
/* The number of a slot stands for the key. */
static const uint8_t key[] = {0xa3, 1, 4, 3, 5, 0x20, 0x41, 7};
static volatile uint8_t part;

static void hash(const uint8_t *bytes, uint64_t length)
{
    for (uint64_t at = 0; at < length; at++)
        part = bytes[at];
}

/* What the key is, and what is hashed before the payload. */
static int begin(struct cose_verifier *verifier)
{
    static uint8_t header[1024];
    struct cose_chosen_key asked;
    struct cose_pieces pieces;
    if (cose_asked_key(verifier, &asked) != 1 || cose_front_pieces(verifier, header, sizeof header, &pieces) != 1)
        return 0;
    hash(asked.k, asked.k_length);
    for (unsigned index = 0; index < COSE_FRONT_PIECES; index++) {
        size_t length;
        const uint8_t *at = cose_front_piece(&pieces, header, NULL, 0, index, &length);
        hash(at, length);
    }
    return 1;
}

static void judge(struct cose_verifier *verifier, int is_begun, struct cose_message_verdict *verdict)
{
    uint8_t mac[32];
    if (!is_begun && !begin(verifier))
        return;
    for (size_t at = 0; at < sizeof mac; at++)
        mac[at] = part;
    cose_verdict_of_mac(verifier, mac, sizeof mac, verdict);
}
#define OPEN cose_open_elsewhere
#else
static const uint8_t key[] = {0xa3, 1, 4, 3, 5, 0x20, 0x44, 'J', 'e', 'f', 'e'};

static void judge(struct cose_verifier *verifier, int is_begun, struct cose_message_verdict *verdict)
{
    (void)is_begun;
    cose_verdict(verifier, 0, verdict);
}
#define OPEN cose_open
#endif

int main(void)
{
    struct cose_verifier verifier = {.at = block};
    struct cose_status status;
    struct cose_fed fed;
    struct cose_message_verdict verdict = {0};
    int is_begun = 0;
    cose_begin(block);
    OPEN(&verifier, key, sizeof key, NULL, 0, COSE_MAC0, &status);
    if (status.status != COSE_MORE)
        return 1;
    do {
        uint8_t byte = line;
        cose_feed(&verifier, &byte, 1, &fed);
#ifdef ELSEWHERE
        if (fed.payload_length > 0) {
            is_begun = is_begun || begin(&verifier);
            hash(&byte + fed.payload_at, fed.payload_length);
        }
#endif
    } while (fed.status.status == COSE_MORE);
    judge(&verifier, is_begun, &verdict);
    accepted = verdict.status == COSE_AUTHENTIC;
    return 0;
}
