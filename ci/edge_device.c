/* Feeds messages to the verifier for devices, each in pieces of 1, 2, 7 and 64 bytes, in pieces of as many as are
 * wanted, and in one. A message comes on the input, as its numbers and its bytes; it prints a line of what came of it,
 * which is the same for all cuts. Before that it calls the library with what no careful caller passes. */
#include "cose.h"
#include <stdarg.h>
#include <stdio.h>
#include <stdlib.h>

/* What comes before the bytes of a message: eight numbers of 64 bits, in the order of the processor. */
struct record {
    uint64_t kind, holds, is_detached, stated, keys, aad, message, payload;
};

struct part {
    const uint8_t *at;
    size_t length;
};

enum { WANTED = 0, CUTS = 6, ROOM = 1 << 18 };
static const size_t cuts[CUTS] = {1, 2, 7, 64, WANTED, SIZE_MAX};
static _Alignas(COSE_BLOCK_ALIGN) uint8_t block[COSE_DEVICE_VERIFIER_BLOCK];
static struct cose_device_verifier verifier = {block};
static uint8_t bytes[ROOM], came[ROOM];
static size_t came_length;
static char lines[2][4 * ROOM];
static int failures;

static void is(const char *what, uint64_t found, uint64_t wanted)
{
    if (found == wanted)
        return;
    printf("%s: %llu, not %llu\n", what, (unsigned long long)found, (unsigned long long)wanted);
    failures++;
}

static void say(char *line, const char *form, ...)
{
    va_list values;
    va_start(values, form);
    vsprintf(line + strlen(line), form, values);
    va_end(values);
}

static void say_hex(char *line, const uint8_t *data, size_t length)
{
    char *to = line + strlen(line);
    for (size_t at = 0; at < length; at++)
        to += sprintf(to, "%02x", data[at]);
    strcpy(to, " ");
}

/* How many bytes the next piece has, of those that are left. */
static size_t piece_of(size_t cut, uint64_t wanted, size_t left)
{
    const uint64_t most = cut == WANTED && wanted > 0 ? wanted : cut == WANTED ? 1 : cut;
    return most < left ? (size_t)most : left;
}

/* Feeds bytes of the message from a place on, until no more are wanted. It returns how many it used of all. */
static size_t feed(struct part message, size_t used, size_t cut, struct cose_status *status)
{
    struct cose_fed fed;
    while (status->status == COSE_MORE && used < message.length) {
        const size_t length = piece_of(cut, cose_device_wanted(&verifier), message.length - used);
        cose_device_feed(&verifier, message.at + used, length, &fed);
        memcpy(came + came_length, message.at + used + fed.payload_at, fed.payload_length);
        came_length += fed.payload_length;
        used += fed.used;
        *status = fed.status;
        is("used where more is wanted", status->status == COSE_MORE && fed.used != length, 0);
        is("taken", cose_device_taken(&verifier), used);
        is("held", cose_device_held(&verifier) > 1024, 0);
    }
    return used;
}

static void feed_payload(struct part payload, size_t cut)
{
    size_t used = 0;
    while (cose_device_payload_wanted(&verifier) > 0 && used < payload.length) {
        const size_t length = piece_of(cut, cose_device_payload_wanted(&verifier), payload.length - used);
        used += cose_device_feed_payload(&verifier, payload.at + used, length);
    }
}

/* The verdict on what was fed. */
static void judge(char *line, uint64_t holds)
{
    struct cose_message_verdict verdict;
    struct cose_signature_input input;
    const uint64_t number = cose_device_message_number(&verifier);
    if (cose_device_sign_input(&verifier, &input)) {
        say(line, "asked ");
        say_hex(line, input.digest, input.digest_length);
        say_hex(line, input.signature, input.signature_length);
    }
    cose_device_verdict_for(&verifier, number + 1, 1, &verdict);
    is("a verdict on another message", verdict.status, COSE_BAD_ARGUMENT);
    cose_device_verdict_for(&verifier, number, (int32_t)holds, &verdict);
    if (verdict.status == COSE_AUTHENTIC) {
        say(line, "authentic %u %d %llu ", verdict.kind, (int)verdict.alg, (unsigned long long)verdict.taken);
        say_hex(line, came, came_length);
    } else {
        say(line, "%s %u %llu", verdict.status == COSE_REFUSED ? "refused" : "status", verdict.reason,
            (unsigned long long)verdict.place);
    }
    cose_device_verdict(&verifier, 1 - (int32_t)holds, &verdict);
    is("the verdict again", verdict.status == COSE_AUTHENTIC, strstr(line, "authentic") != NULL);
}

static void take(char *line, const struct record *it, struct part message, struct part payload, size_t cut)
{
    struct cose_status status = {COSE_MORE, 0, 0};
    came_length = 0;
    line[0] = 0;
    size_t used = feed(message, 0, cut, &status);
    if (status.status == COSE_PAYLOAD_NEXT) {
        feed_payload(payload, cut);
        status.status = cose_device_payload_wanted(&verifier) == 0 ? COSE_MORE : COSE_PAYLOAD_NEXT;
        feed(message, used, cut, &status);
    }
    cose_device_end(&verifier, &status);
    judge(line, it->holds);
}

/* Reads a message, and prints what comes of it. It returns 0 where none comes. */
static int next_message(void)
{
    struct record it;
    struct cose_status status;
    if (fread(&it, sizeof it, 1, stdin) != 1)
        return 0;
    const size_t all = it.keys + it.aad + it.message + it.payload;
    if (all > sizeof bytes || fread(bytes, 1, all, stdin) != all)
        exit(2);
    const uint8_t *aad = bytes + it.keys;
    const struct part message = {aad + it.aad, it.message}, payload = {message.at + it.message, it.payload};
    const enum cose_kind_number kind = (enum cose_kind_number)it.kind;
    if (it.is_detached)
        cose_device_open_detached(&verifier, bytes, it.keys, aad, it.aad, kind, it.stated, &status);
    else
        cose_device_open(&verifier, bytes, it.keys, aad, it.aad, kind, &status);
    is("opened", status.status, COSE_MORE);
    for (int cut = 0; cut < CUTS; cut++) {
        take(lines[cut > 0], &it, message, payload, cuts[cut]);
        if (cut > 0)
            is("another line for another cut", strcmp(lines[0], lines[1]) != 0, 0);
        cose_device_reset(&verifier);
    }
    puts(lines[0]);
    return 1;
}

/* A symmetric key, of one byte. */
static const uint8_t one_key[] = {0xa2, 0x01, 0x04, 0x20, 0x41, 'k'};

/* What is fed to a block that isn't opened has no effect. */
static void closed(void)
{
    struct cose_fed fed;
    struct cose_status status;
    struct cose_message_verdict verdict;
    cose_device_feed(&verifier, one_key, 1, &fed);
    is("closed: feed", fed.status.status, COSE_CLOSED);
    cose_device_end(&verifier, &status);
    is("closed: end", status.status, COSE_CLOSED);
    cose_device_verdict(&verifier, 1, &verdict);
    is("closed: verdict", verdict.status, COSE_CLOSED);
    is("closed: taken", cose_device_taken(&verifier) + cose_device_held(&verifier), 0);
    is("closed: feed_payload", cose_device_feed_payload(&verifier, one_key, 1), 0);
}

/* How many bytes of the block aren't those of one that was begun in memory of zeros. */
static size_t left(void)
{
    static _Alignas(COSE_BLOCK_ALIGN) uint8_t blank[COSE_DEVICE_VERIFIER_BLOCK];
    size_t count = 0;
    cose_device_begin(blank);
    for (size_t at = 0; at < cose_device_verifier_size(); at++)
        count += block[at] != blank[at];
    return count;
}

static void misused(void)
{
    struct cose_fed fed;
    struct cose_status status;
    is("the library of this header", cose_fits(), 1);
    cose_device_begin(block);
    closed();
    const uint64_t first = cose_device_message_number(&verifier);
    cose_device_open(&verifier, one_key, sizeof one_key, NULL, 0, COSE_TAGGED, &status);
    is("open", status.status, COSE_MORE);
    is("another number", cose_device_message_number(&verifier) == first, 0);
    cose_device_feed(&verifier, NULL, 1, &fed);
    is("NULL for a piece", fed.status.status, COSE_BAD_ARGUMENT);
    is("NULL for a payload", cose_device_feed_payload(&verifier, NULL, 1), 0);
    is("a verifier in use", left() > 0, 1);
    cose_device_wipe(&verifier);
    is("bytes left of a verifier", left(), 0);
    closed();
    for (int beside = 0; beside < 2; beside++) {
        cose_device_open(&verifier, one_key, sizeof one_key, NULL, 0, COSE_TAGGED, &status);
        if (beside)
            cose_device_open_detached(&verifier, NULL, 1, NULL, 0, COSE_TAGGED, 2, &status);
        else
            cose_device_open(&verifier, NULL, 1, NULL, 0, COSE_TAGGED, &status);
        is("reopened: NULL", status.status, COSE_BAD_ARGUMENT);
        closed();
    }
}

int main(void)
{
    misused();
    while (next_message())
        ;
    printf("%d failed\n", failures);
    return failures != 0;
}
