/* A device on a serial line: takes one byte at a time, as a UART gives them, verifies one COSE_Mac0 after another, and
 * prints the payload of each once it is authentic. Standard input is the line.
 *
 * usage: uart KEYS
 *
 * KEYS is a file that has a COSE_Key or a COSE_KeySet.
 *
 * The exit status is 0 where the line ended after an authentic message, or before any; 1 where a message was refused,
 * since nobody knows then where the next one begins; 2 where there is no answer. */
#define _POSIX_C_SOURCE 200809L
#include "cose.h"
#include "load.h"
#include <errno.h>
#include <inttypes.h>
#include <string.h>
#include <unistd.h>

enum { GOOD = 0, REFUSED = 1, NO_ANSWER = 2 };

/* All memory of the device. The verifier stays where it was begun. */
static _Alignas(64) uint8_t block[4096];
static uint8_t keys[1024];

/* The payload of the message that is read, which nobody acts on before the message is authentic. */
static uint8_t payload[256];
static size_t payload_length;

/* Keeps bytes of the payload. It returns 0 where there is no room for them. */
static int keep(const uint8_t *bytes, uint64_t length)
{
    if (length > sizeof payload - payload_length)
        return 0;
    memcpy(payload + payload_length, bytes, (size_t)length);
    payload_length += (size_t)length;
    return 1;
}

static int refuse(uint8_t reason, uint64_t place)
{
    printf("refused: reason %u at %" PRIu64 "\n", reason, place);
    return REFUSED;
}

/* All bytes of a COSE_Mac0 are there. 0 says that no signature is good: there is none. */
static int judge(struct cose_verifier *verifier)
{
    struct cose_message_verdict verdict;
    cose_verdict(verifier, 0, &verdict);
    if (verdict.status != COSE_AUTHENTIC)
        return refuse(verdict.reason, verdict.place);
    printf("authentic: ");
    for (size_t index = 0; index < payload_length; index++)
        printf("%02x", payload[index]);
    putchar('\n');
    payload_length = 0;
    cose_reset(verifier);
    return GOOD;
}

/* The line is closed. */
static int hang_up(struct cose_verifier *verifier)
{
    struct cose_status status;
    if (cose_taken(verifier) == 0)
        return GOOD;
    cose_end(verifier, &status);
    return refuse(status.reason, status.place);
}

/* A byte came. */
static int take(struct cose_verifier *verifier, const uint8_t *byte)
{
    struct cose_fed fed;
    cose_feed(verifier, byte, 1, &fed);
    if (!keep(byte + fed.payload_at, fed.payload_length)) {
        puts("refused: the payload is too long for this device");
        return REFUSED;
    }
    switch (fed.status.status) {
    case COSE_MORE:
        return GOOD;
    case COSE_COMPLETE:
        return judge(verifier);
    default:
        return refuse(fed.status.reason, fed.status.place);
    }
}

static int listen_to(struct cose_verifier *verifier)
{
    for (;;) {
        uint8_t byte;
        ssize_t count = read(STDIN_FILENO, &byte, 1);
        if (count < 0 && errno == EINTR)
            continue;
        if (count < 0) {
            perror("the line");
            return NO_ANSWER;
        }
        int status = count == 0 ? hang_up(verifier) : take(verifier, &byte);
        if (count == 0 || status != GOOD)
            return status;
    }
}

int main(int count, char **arguments)
{
    size_t keys_length;
    if (count != 2) {
        fputs("usage: uart KEYS < LINE\n", stderr);
        return NO_ANSWER;
    }
    if (load(arguments[1], keys, sizeof keys, &keys_length) != 0)
        return NO_ANSWER;
    if (cose_verifier_size() > sizeof block || cose_verifier_align() > 64) {
        fputs("a verifier of this library doesn't fit into the block\n", stderr);
        return NO_ANSWER;
    }
    struct cose_verifier verifier = {.at = block};
    struct cose_status status;
    cose_begin(block);
    cose_open(&verifier, keys, keys_length, NULL, 0, COSE_MAC0, &status);
    if (status.status != COSE_MORE) {
        fprintf(stderr, "the keys are refused: reason %u at %" PRIu64 "\n", status.reason, status.place);
        return NO_ANSWER;
    }
    int answer = listen_to(&verifier);
    return fflush(stdout) == 0 ? answer : NO_ANSWER;
}
