/* Verifies one message while valgrind takes the secret of the key and the received tag for undefined.
 *
 * usage: secret_branches MESSAGE TAG_LENGTH SECRET_LENGTH      the tag is at the message's end */
#include "cose.h"
#include <stdio.h>
#include <stdlib.h>
#include <valgrind/memcheck.h>

int main(int count, char **arguments)
{
    static uint8_t message[1024], keys[512];
    struct cose_message_verdict verdict;
    struct cose_signature_input input;
    FILE *file = count == 4 ? fopen(arguments[1], "rb") : NULL;
    if (file == NULL) {
        return 2;
    }
    size_t length = fread(message, 1, sizeof message, file);
    size_t tag = strtoul(arguments[2], NULL, 10), secret = strtoul(arguments[3], NULL, 10);
    fclose(file);
    if (tag > length || secret > 255) {
        return 2;
    }
    /* {1: 4, -1: the secret}, with a head of two bytes (RFC 9052 section 7) */
    const uint8_t front[] = {0xa2, 0x01, 0x04, 0x20, 0x58, (uint8_t)secret};
    memcpy(keys, front, sizeof front);
    memset(keys + sizeof front, 'k', secret);
    (void)VALGRIND_MAKE_MEM_UNDEFINED(keys + sizeof front, secret);
    (void)VALGRIND_MAKE_MEM_UNDEFINED(message + length - tag, tag);
    cose_verify(keys, sizeof front + secret, NULL, 0, COSE_MAC0, message, length, &verdict, &input);
    (void)VALGRIND_MAKE_MEM_DEFINED(&verdict, sizeof verdict);
    printf("%u %u\n", verdict.status, verdict.reason);
    return 0;
}
