/* Verifies a message once for each byte of its tag, with that byte changed, and then as it is, and has callgrind write
 * what each call of cose_verify has cost.
 *
 * usage: tag_instructions MESSAGE KEYS TAG_LENGTH      the tag is at the message's end */
#include "cose.h"
#include <stdio.h>
#include <stdlib.h>
#include <valgrind/callgrind.h>

static uint8_t message[1024], keys[512];

static size_t read_file(const char *name, uint8_t *bytes, size_t room)
{
    FILE *file = fopen(name, "rb");
    if (file == NULL) {
        exit(2);
    }
    size_t length = fread(bytes, 1, room, file);
    fclose(file);
    return length;
}

/* One verification, whose cost goes into a file of its own, under this name. */
static struct cose_message_verdict measured(size_t key_length, size_t length, const char *name)
{
    struct cose_message_verdict verdict;
    struct cose_signature_input input;
    CALLGRIND_ZERO_STATS;
    cose_verify(keys, key_length, NULL, 0, COSE_MAC0, message, length, &verdict, &input);
    CALLGRIND_DUMP_STATS_AT(name);
    return verdict;
}

int main(int count, char **arguments)
{
    if (count != 4) {
        return 2;
    }
    size_t length = read_file(arguments[1], message, sizeof message);
    size_t key_length = read_file(arguments[2], keys, sizeof keys);
    size_t tag = strtoul(arguments[3], NULL, 10);
    if (tag > length) {
        return 2;
    }
    char name[32];
    /* the first call binds the functions of the C library */
    (void)measured(key_length, length, "warm");
    for (size_t at = 0; at < tag; at++) {
        message[length - tag + at] ^= 1;
        snprintf(name, sizeof name, "byte%zu", at);
        struct cose_message_verdict verdict = measured(key_length, length, name);
        message[length - tag + at] ^= 1;
        if (verdict.status != COSE_REFUSED || verdict.reason != 28) {
            return 3;
        }
    }
    return measured(key_length, length, "good").status == COSE_AUTHENTIC ? 0 : 4;
}
