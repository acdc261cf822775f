/* What a message and a token cost in C under a table of one key, next to their HMAC by OpenSSL: nanoseconds of each.
 *
 * usage: rate MESSAGE TOKEN AUTHENTICATED      AUTHENTICATED is what the message's HMAC is over */
#define _POSIX_C_SOURCE 200809L
#include "cose.h"
#include <openssl/evp.h>
#include <openssl/hmac.h>
#include <stdbool.h>
#include <stdio.h>
#include <stdlib.h>
#include <time.h>

enum { CALLS = 100000, TURNS = 7, MOST = 1024 };

static const uint8_t keys[] = {0xa2, 0x01, 0x04, 0x20, 0x44, 'J', 'e', 'f', 'e'};
static const uint8_t audience[] = "coap://light.example.com";
static const struct cose_policy policy = {1444064943, 60, 1, audience, sizeof audience - 1};

struct text {
    uint8_t bytes[MOST];
    size_t length;
};

static double nanoseconds(void)
{
    struct timespec now;
    clock_gettime(CLOCK_THREAD_CPUTIME_ID, &now);
    return 1e9 * (double)now.tv_sec + (double)now.tv_nsec;
}

static bool hmac(struct cose_table *table, const struct text *text)
{
    uint8_t mac[EVP_MAX_MD_SIZE];
    unsigned length;
    (void)table;
    return HMAC(EVP_sha256(), "Jefe", 4, text->bytes, text->length, mac, &length) != NULL;
}

static bool message(struct cose_table *table, const struct text *text)
{
    struct cose_message_verdict verdict;
    struct cose_signature_input input;
    cose_table_verify(table, NULL, 0, COSE_TAGGED, text->bytes, text->length, &verdict, &input);
    return verdict.status == COSE_AUTHENTIC;
}

static bool token(struct cose_table *table, const struct text *text)
{
    struct cose_claims_set claims;
    cose_table_verify_cwt(table, NULL, 0, &policy, text->bytes, text->length, &claims);
    return claims.status == COSE_AUTHENTIC;
}

/* The fastest of some turns, for one call. */
static double fastest(bool (*call)(struct cose_table *, const struct text *), struct cose_table *table, const struct text *text)
{
    double least = 1e99;
    for (int turn = 0; turn < TURNS; turn++) {
        double start = nanoseconds();
        for (int i = 0; i < CALLS; i++) {
            if (!call(table, text)) {
                fputs("rate: a call is refused\n", stderr);
                exit(1);
            }
        }
        double took = (nanoseconds() - start) / CALLS;
        least = took < least ? took : least;
    }
    return least;
}

static struct text read(const char *path)
{
    struct text text = {{0}, 0};
    FILE *file = fopen(path, "rb");
    if (file == NULL) {
        perror(path);
        exit(2);
    }
    text.length = fread(text.bytes, 1, sizeof text.bytes, file);
    fclose(file);
    return text;
}

int main(int count, char **words)
{
    if (count != 4) {
        fputs("usage: rate MESSAGE TOKEN AUTHENTICATED\n", stderr);
        return 2;
    }
    struct text texts[] = {read(words[3]), read(words[1]), read(words[2])};
    bool (*const calls[])(struct cose_table *, const struct text *) = {hmac, message, token};
    struct cose_table table = {aligned_alloc(cose_table_align(), cose_table_size())};
    struct cose_key_set key_set;
    cose_table_begin(table.at);
    cose_table_read(&table, keys, sizeof keys, &key_set);
    for (int i = 0; i < 3; i++) {
        printf("%.0f%s", fastest(calls[i], &table, &texts[i]), i < 2 ? " " : "\n");
    }
    free(table.at);
    return 0;
}
