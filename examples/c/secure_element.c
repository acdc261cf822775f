/* A message under a key that this process doesn't have: a stand-in for a secure element, a process of its own, holds
 * the secret, and computes HMAC 256/256 for whoever names its slot (RFC 9053 section 3.1). In the key set the bytes of
 * the symmetric key (k) are the number of the slot.
 *
 * usage: secure_element KEYS MESSAGE SECRET
 *
 * Only the element's process reads the file SECRET, and it knows slot 7 alone. The exit status is 0 where the message
 * is authentic, 1 where it is refused, 2 where there is no answer. */
#define _XOPEN_SOURCE 700
#include "cose.h"
#include "load.h"
#include <inttypes.h>
#include <openssl/evp.h>
#include <openssl/params.h>
#include <signal.h>
#include <sys/wait.h>
#include <unistd.h>

enum { AUTHENTIC = 0, REFUSED = 1, NO_ANSWER = 2 };
enum { SLOT = 7, HMAC_256 = 5, MAC_LENGTH = 32 };

static _Alignas(64) uint8_t block[4096];
static uint8_t keys[4096], message[4096];

static int read_exactly(int file, void *bytes, size_t length)
{
    uint8_t *at = bytes;
    while (length > 0) {
        ssize_t count = read(file, at, length);
        if (count <= 0)
            return -1;
        at += count;
        length -= (size_t)count;
    }
    return 0;
}

static int write_exactly(int file, const void *bytes, size_t length)
{
    return write(file, bytes, length) == (ssize_t)length ? 0 : -1;
}

/* ---- the element: a request is a slot, then pieces, each after its length, and a piece without bytes at the end */

static EVP_MAC_CTX *hmac_of(const uint8_t *secret, size_t length)
{
    static char digest[] = "SHA256";
    OSSL_PARAM parameters[] = {OSSL_PARAM_construct_utf8_string("digest", digest, 0), OSSL_PARAM_construct_end()};
    EVP_MAC *hmac = EVP_MAC_fetch(NULL, "HMAC", NULL);
    EVP_MAC_CTX *context = hmac == NULL ? NULL : EVP_MAC_CTX_new(hmac);
    EVP_MAC_free(hmac);
    if (context != NULL && EVP_MAC_init(context, secret, length, parameters) == 1)
        return context;
    EVP_MAC_CTX_free(context);
    return NULL;
}

static int hash_pieces(EVP_MAC_CTX *context, int requests)
{
    static uint8_t piece[65536];
    uint16_t length;
    do {
        if (read_exactly(requests, &length, sizeof length) != 0 || read_exactly(requests, piece, length) != 0 ||
            EVP_MAC_update(context, piece, length) != 1)
            return -1;
    } while (length != 0);
    return 0;
}

static int element(const char *path, int requests, int answers)
{
    static uint8_t secret[256];
    uint8_t slot, mac[MAC_LENGTH];
    size_t length;
    if (load(path, secret, sizeof secret, &length) != 0)
        return NO_ANSWER;
    if (read_exactly(requests, &slot, 1) != 0 || slot != SLOT)
        return 0; /* nobody asked, or about another slot */
    EVP_MAC_CTX *context = hmac_of(secret, length);
    int is_hashed =
        context != NULL && hash_pieces(context, requests) == 0 && EVP_MAC_final(context, mac, NULL, sizeof mac) == 1;
    EVP_MAC_CTX_free(context);
    return is_hashed && write_exactly(answers, mac, sizeof mac) == 0 ? 0 : NO_ANSWER;
}

/* ---- the verifier */

static int send_piece(int requests, const uint8_t *at, size_t length)
{
    uint16_t count = (uint16_t)length;
    if (length == 0)
        return 0; /* the end is said by itself */
    return write_exactly(requests, &count, sizeof count) == 0 && write_exactly(requests, at, length) == 0 ? 0 : -1;
}

/* Names the slot, and sends the pieces before the payload. */
static int send_front(struct cose_verifier *verifier, int requests)
{
    static uint8_t header[1024];
    struct cose_pieces pieces;
    struct cose_chosen_key asked;
    if (cose_asked_key(verifier, &asked) != 1 || asked.alg != HMAC_256 || asked.k_length != 1)
        return -1;
    if (cose_front_pieces(verifier, header, sizeof header, &pieces) != 1 || write_exactly(requests, asked.k, 1) != 0)
        return -1;
    for (unsigned index = 0; index < COSE_FRONT_PIECES; index++) {
        size_t length;
        const uint8_t *at = cose_front_piece(&pieces, header, NULL, 0, index, &length);
        if (send_piece(requests, at, length) != 0)
            return -1;
    }
    return 0;
}

static int refuse(uint8_t reason, uint64_t place)
{
    printf("refused: reason %u at %" PRIu64 "\n", reason, place);
    return REFUSED;
}

/* The MAC comes from the element. Where it says nothing, as about a slot that it hasn't, there is no answer. */
static int judge(struct cose_verifier *verifier, const struct cose_fed *fed, int requests, int answers)
{
    struct cose_message_verdict verdict;
    uint8_t mac[MAC_LENGTH];
    const uint16_t end = 0;
    if (send_front(verifier, requests) != 0 ||
        send_piece(requests, message + fed->payload_at, (size_t)fed->payload_length) != 0 ||
        write_exactly(requests, &end, sizeof end) != 0 || read_exactly(answers, mac, sizeof mac) != 0) {
        fputs("the element doesn't answer\n", stderr);
        return NO_ANSWER;
    }
    cose_verdict_of_mac(verifier, mac, sizeof mac, &verdict);
    if (verdict.status != COSE_AUTHENTIC)
        return refuse(verdict.reason, verdict.place);
    printf("authentic: %" PRIu64 " bytes\n", verdict.payload_length);
    return AUTHENTIC;
}

static int verify(size_t keys_length, size_t message_length, int requests, int answers)
{
    struct cose_verifier verifier = {.at = block};
    struct cose_status status;
    struct cose_fed fed;
    cose_begin(block);
    cose_open_elsewhere(&verifier, keys, keys_length, NULL, 0, COSE_MAC0, &status);
    if (status.status != COSE_MORE) {
        fprintf(stderr, "the keys are refused: reason %u at %" PRIu64 "\n", status.reason, status.place);
        return NO_ANSWER;
    }
    cose_feed(&verifier, message, message_length, &fed);
    cose_end(&verifier, &status);
    if (status.status != COSE_COMPLETE)
        return refuse(status.reason, status.place);
    if (fed.used < message_length)
        return refuse(COSE_REASON_TRAILING, fed.used);
    return judge(&verifier, &fed, requests, answers);
}

int main(int count, char **arguments)
{
    int to_element[2], from_element[2];
    size_t keys_length, message_length;
    if (count != 4) {
        fputs("usage: secure_element KEYS MESSAGE SECRET\n", stderr);
        return NO_ANSWER;
    }
    if (load(arguments[1], keys, sizeof keys, &keys_length) != 0 ||
        load(arguments[2], message, sizeof message, &message_length) != 0)
        return NO_ANSWER;
    if (cose_verifier_size() > sizeof block || cose_verifier_align() > 64 || pipe(to_element) != 0 ||
        pipe(from_element) != 0)
        return NO_ANSWER;
    signal(SIGPIPE, SIG_IGN); /* an element that is gone is one that doesn't answer */
    pid_t child = fork();
    if (child < 0)
        return NO_ANSWER;
    if (child == 0) {
        close(to_element[1]);
        close(from_element[0]);
        _exit(element(arguments[3], to_element[0], from_element[1]));
    }
    close(to_element[0]);
    close(from_element[1]);
    int answer = verify(keys_length, message_length, to_element[1], from_element[0]);
    close(to_element[1]);
    close(from_element[0]);
    waitpid(child, NULL, 0);
    return fflush(stdout) == 0 ? answer : NO_ANSWER;
}
