/* Threads that verify under one table at once: a good message, a forged one, and a token that some of them admit. It
 * prints how many answers aren't those that the thread should see. */
#include "cose.h"
#include <pthread.h>
#include <stdio.h>

enum { THREADS = 4, TURNS = 2000 };

/* A symmetric key that names HMAC 256/256, the COSE_Mac0 of `hi` under it (examples/make_mac0), and the token of the
 * claims {4: 2}, whose tag is what Python's hmac computes of the MAC_structure. */
static const uint8_t key[] = {0xa3, 0x01, 0x04, 0x03, 0x05, 0x20, 0x44, 'J', 'e', 'f', 'e'};
static const uint8_t good[] = {0xd1, 0x84, 0x43, 0xa1, 0x01, 0x05, 0xa0, 0x42, 0x68, 0x69, 0x58, 0x20, 0x7d, 0x81, 0xe9,
                               0x64, 0xaa, 0xee, 0x5f, 0xbd, 0x8a, 0xdf, 0xb3, 0xf5, 0x33, 0x65, 0x7a, 0x9e, 0xf9, 0xf7,
                               0x82, 0xf0, 0x4b, 0x91, 0x87, 0x7b, 0x60, 0x04, 0x27, 0x2a, 0x03, 0x52, 0xf9, 0x60};
static const uint8_t token[] = {0xd1, 0x84, 0x43, 0xa1, 0x01, 0x05, 0xa0, 0x43, 0xa1, 0x04, 0x02, 0x58,
                                0x20, 0xcf, 0x97, 0x73, 0xe8, 0x02, 0x0b, 0x70, 0x23, 0xf0, 0x38, 0x5b,
                                0xe1, 0x6f, 0xf2, 0xe8, 0xfb, 0x3e, 0x15, 0xf1, 0x40, 0x0e, 0x94, 0x01,
                                0x59, 0xde, 0xfd, 0xcf, 0xce, 0xda, 0x24, 0x62, 0xfe};
static uint8_t forged[sizeof good];

/* The table, which nobody writes to while there are threads. */
static _Alignas(COSE_BLOCK_ALIGN) uint8_t block[COSE_TABLE_BLOCK];
static const struct cose_table table = {block};

/* A thread: the time that it takes the token at, what becomes of the token then, and how many answers are wrong. */
struct asker {
    pthread_t thread;
    int64_t now;
    uint8_t status;
    int wrong;
};

static uint8_t verified(const uint8_t *message)
{
    struct cose_message_verdict verdict;
    struct cose_signature_input input;
    cose_table_verify(&table, NULL, 0, COSE_TAGGED, message, sizeof good, &verdict, &input);
    return verdict.status;
}

static uint8_t authenticated(const uint8_t *message)
{
    struct cose_message_verdict verdict;
    struct cose_signature_input input;
    cose_table_authenticate(&table, message, sizeof good, &verdict, &input);
    return verdict.status;
}

static void *ask(void *argument)
{
    struct asker *asker = argument;
    const struct cose_policy policy = {.now = asker->now};
    const struct cose_requirements requirements = {.size = sizeof requirements, .now = asker->now};
    struct cose_claims_set by_policy, required;
    for (int i = 0; i < TURNS; i++) {
        asker->wrong += verified(good) != COSE_AUTHENTIC || authenticated(good) != COSE_AUTHENTIC;
        asker->wrong += verified(forged) != COSE_REFUSED || authenticated(forged) != COSE_REFUSED;
        cose_table_verify_cwt(&table, NULL, 0, &policy, token, sizeof token, &by_policy);
        cose_table_admit(&table, &requirements, token, sizeof token, &required);
        asker->wrong += by_policy.status != asker->status || required.status != asker->status;
    }
    return NULL;
}

int main(void)
{
    const struct cose_terms terms = {.size = sizeof terms, .keys = key, .keys_length = sizeof key};
    struct cose_table written = {block};
    struct cose_key_set key_set;
    struct asker askers[THREADS];
    int failures = 0;
    memcpy(forged, good, sizeof good);
    forged[sizeof good - 1] ^= 1;
    cose_table_begin(block);
    cose_table_read_under(&written, &terms, &key_set);
    for (int i = 0; i < THREADS; i++) {
        /* the token expires at 2 */
        askers[i] = (struct asker){.now = 1 + i % 2, .status = i % 2 ? COSE_CLAIMS_REFUSED : COSE_AUTHENTIC};
        if (pthread_create(&askers[i].thread, NULL, ask, &askers[i]) != 0)
            return 2;
    }
    for (int i = 0; i < THREADS; i++) {
        pthread_join(askers[i].thread, NULL);
        failures += askers[i].wrong;
    }
    printf("%d failed\n", failures);
    return failures != 0;
}
