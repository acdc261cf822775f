/* How much processor time the library for callers in C takes: a long message through cose_feed, in pieces of 4,096 bytes and
 * whole, and a million tokens through cose_table_verify_cwt, each with its MAC right. `bench/edge_rate` runs it next to the
 * calls that it makes.
 *
 * With OpenSSL (WITH_OPENSSL) also a long message whose MAC is OpenSSL's, next to OpenSSL's SHA-256 of its bytes alone; compiled
 * without it `elsewhere` says so, with status 2.
 *
 * usage: edge_rate feed MESSAGE
 *        edge_rate tokens TOKEN [COUNT]
 *        edge_rate elsewhere MESSAGE */
#define _POSIX_C_SOURCE 200809L
#include "cose.h"
#include <stdio.h>
#include <stdlib.h>
#include <string.h>
#include <time.h>
#ifdef WITH_OPENSSL
#include <openssl/evp.h>
#include <openssl/params.h>
#endif

enum { PIECE = 4096, TOKENS = 1000000, TURNS = 6 };

static const uint8_t keys[] = {0xa2, 0x01, 0x04, 0x20, 0x44, 'J', 'e', 'f', 'e'};
static const uint8_t audience[] = "coap://light.example.com";

static double milliseconds(void)
{
    struct timespec now;
    clock_gettime(CLOCK_THREAD_CPUTIME_ID, &now);
    return 1e3 * (double)now.tv_sec + 1e-6 * (double)now.tv_nsec;
}

static uint8_t *file(const char *path, size_t *length)
{
    FILE *opened = fopen(path, "rb");
    uint8_t *bytes = NULL;
    if (opened != NULL && fseek(opened, 0, SEEK_END) == 0) {
        *length = (size_t)ftell(opened);
        bytes = malloc(*length);
        rewind(opened);
        if (bytes == NULL || fread(bytes, 1, *length, opened) != *length) {
            bytes = NULL;
        }
    }
    if (bytes == NULL) {
        fprintf(stderr, "edge_rate: %s can't be read\n", path);
        exit(2);
    }
    fclose(opened);
    return bytes;
}

static void feed(const uint8_t *message, size_t length, size_t piece)
{
    struct cose_verifier verifier = {aligned_alloc(cose_verifier_align(), cose_verifier_size())};
    struct cose_status status;
    struct cose_message_verdict verdict;
    double start = milliseconds();

    cose_begin(verifier.at);
    cose_open(&verifier, keys, sizeof keys, NULL, 0, COSE_TAGGED, &status);
    for (size_t at = 0; status.status == COSE_MORE && at < length;) {
        struct cose_fed fed;
        cose_feed(&verifier, message + at, length - at < piece ? length - at : piece, &fed);
        at += fed.used;
        status = fed.status;
    }
    cose_verdict(&verifier, 0, &verdict);
    printf("C: fed in pieces of %zu: %.0f ms (authentic: %s)\n", piece, milliseconds() - start,
           verdict.status == COSE_AUTHENTIC ? "true" : "false");
    free(verifier.at);
}

static void tokens(const uint8_t *token, size_t length, long count)
{
    struct cose_table table = {aligned_alloc(cose_table_align(), cose_table_size())};
    struct cose_key_set key_set;
    struct cose_policy policy = {1444064943, 60, 1, audience, sizeof audience - 1};
    struct cose_claims_set claims;
    long admitted = 0;
    double start;

    cose_table_begin(table.at);
    cose_table_read(&table, keys, sizeof keys, &key_set);
    start = milliseconds();
    for (long i = 0; i < count; i++) {
        cose_table_verify_cwt(&table, NULL, 0, &policy, token, length, &claims);
        admitted += claims.status == COSE_AUTHENTIC;
    }
    printf("C: a table of 1: %ld tokens %.0f ms (admitted: %ld)\n", count, milliseconds() - start, admitted);
    free(table.at);
}

#ifdef WITH_OPENSSL
/* What HMAC 256/256 of OpenSSL is made of, under the key's bytes. */
static EVP_MAC_CTX *hmac_of(const struct cose_chosen_key *asked)
{
    static char digest[] = "SHA256";
    OSSL_PARAM parameters[] = {OSSL_PARAM_construct_utf8_string("digest", digest, 0), OSSL_PARAM_construct_end()};
    EVP_MAC *hmac = EVP_MAC_fetch(NULL, "HMAC", NULL);
    EVP_MAC_CTX *context = EVP_MAC_CTX_new(hmac);
    EVP_MAC_free(hmac);
    if (context == NULL || EVP_MAC_init(context, asked->k, asked->k_length, parameters) != 1) {
        exit(2);
    }
    return context;
}

/* The hash under the key that is asked about, of the pieces before the payload. */
static EVP_MAC_CTX *begun(struct cose_verifier *verifier)
{
    struct cose_pieces pieces;
    struct cose_chosen_key asked;
    uint8_t header[1024];
    if (cose_asked_key(verifier, &asked) != 1 || cose_front_pieces(verifier, header, sizeof header, &pieces) != 1) {
        return NULL;
    }
    EVP_MAC_CTX *context = hmac_of(&asked);
    for (unsigned index = 0; index < COSE_FRONT_PIECES; index++) {
        size_t count;
        const uint8_t *at = cose_front_piece(&pieces, header, NULL, 0, index, &count);
        EVP_MAC_update(context, at, count);
    }
    return context;
}

/* The milliseconds of a message whose MAC is OpenSSL's, or a negative number where it isn't authentic. */
static double elsewhere(const uint8_t *message, size_t length, size_t piece)
{
    struct cose_verifier verifier = {aligned_alloc(cose_verifier_align(), cose_verifier_size())};
    struct cose_status status;
    struct cose_message_verdict verdict;
    EVP_MAC_CTX *context = NULL;
    uint8_t mac[32];
    double start = milliseconds();

    cose_begin(verifier.at);
    cose_open_elsewhere(&verifier, keys, sizeof keys, NULL, 0, COSE_TAGGED, &status);
    for (size_t at = 0; status.status == COSE_MORE && at < length;) {
        struct cose_fed fed;
        cose_feed(&verifier, message + at, length - at < piece ? length - at : piece, &fed);
        if (fed.payload_length > 0) {
            context = context != NULL ? context : begun(&verifier);
            EVP_MAC_update(context, message + at + fed.payload_at, fed.payload_length);
        }
        at += fed.used;
        status = fed.status;
    }
    EVP_MAC_final(context, mac, NULL, sizeof mac);
    EVP_MAC_CTX_free(context);
    cose_verdict_of_mac(&verifier, mac, sizeof mac, &verdict);
    double took = milliseconds() - start;
    free(verifier.at);
    return verdict.status == COSE_AUTHENTIC ? took : -1;
}

static double alone(const uint8_t *message, size_t length, size_t piece)
{
    EVP_MD_CTX *context = EVP_MD_CTX_new();
    uint8_t digest[32];
    double start = milliseconds();
    EVP_DigestInit_ex(context, EVP_sha256(), NULL);
    for (size_t at = 0; at < length; at += piece) {
        EVP_DigestUpdate(context, message + at, length - at < piece ? length - at : piece);
    }
    EVP_DigestFinal_ex(context, digest, NULL);
    EVP_MD_CTX_free(context);
    return milliseconds() - start;
}

static double least(double one, double other)
{
    return one < other ? one : other;
}

/* Both in turns, since a machine's speed varies: the fastest of each counts. */
static int beside_openssl(const uint8_t *message, size_t length)
{
    const size_t pieces[] = {PIECE, length};
    for (int at = 0; at < 2; at++) {
        double fed = elsewhere(message, length, pieces[at]);
        double hashed = alone(message, length, pieces[at]);
        for (int turn = 1; turn < TURNS; turn++) {
            fed = least(fed, elsewhere(message, length, pieces[at]));
            hashed = least(hashed, alone(message, length, pieces[at]));
        }
        if (fed < 0) {
            fputs("edge_rate: the message isn't authentic by OpenSSL's MAC\n", stderr);
            return 1;
        }
        printf("C: in pieces of %zu, the fastest of %d turns: fed, authenticated by OpenSSL, %.0f ms; ", pieces[at], TURNS, fed);
        printf("OpenSSL's SHA-256 alone %.0f ms; ratio %.3f\n", hashed, fed / hashed);
    }
    return 0;
}
#else
static int beside_openssl(const uint8_t *message, size_t length)
{
    (void)message, (void)length;
    fputs("edge_rate: it is compiled without OpenSSL: -DWITH_OPENSSL and -lcrypto are missing\n", stderr);
    return 2;
}
#endif

static int run(const char *what, const uint8_t *bytes, size_t length, long count)
{
    if (strcmp(what, "feed") == 0) {
        feed(bytes, length, PIECE);
        feed(bytes, length, length);
        return 0;
    }
    if (strcmp(what, "tokens") == 0) {
        tokens(bytes, length, count);
        return 0;
    }
    if (strcmp(what, "elsewhere") == 0) {
        return beside_openssl(bytes, length);
    }
    fprintf(stderr, "edge_rate: %s is none of feed, tokens and elsewhere\n", what);
    return 2;
}

int main(int count, char **arguments)
{
    size_t length;
    uint8_t *bytes;
    if (count < 3) {
        fputs("usage: edge_rate feed MESSAGE\n       edge_rate tokens TOKEN [COUNT]\n       edge_rate elsewhere MESSAGE\n", stderr);
        return 2;
    }
    bytes = file(arguments[2], &length);
    int status = run(arguments[1], bytes, length, count > 3 ? atol(arguments[3]) : TOKENS);
    free(bytes);
    return status;
}
