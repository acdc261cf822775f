/* A message that is signed by EdDSA (RFC 9053 section 2.2): OpenSSL verifies the signature, over the structure that is
 * signed.
 *
 * usage: eddsa KEYS MESSAGE
 *
 * The exit status is 0 where the message is authentic, 1 where it is refused, 2 where there is no answer. It needs
 * OpenSSL 3 (-lcrypto). */
#include "cose.h"
#include "load.h"
#include <inttypes.h>
#include <openssl/evp.h>
#include <stdlib.h>

enum { AUTHENTIC = 0, REFUSED = 1, NO_ANSWER = 2 };

static uint8_t keys[4096], message[65536];

/* The structure that is signed (RFC 9052 section 4.4), which EdDSA takes whole: six pieces, and then the payload. It is
 * the caller's to free, and NULL where memory lacks. */
static uint8_t *structure_of(const struct cose_eddsa_input *input, const struct cose_pieces *pieces, size_t *length)
{
    const uint8_t *piece[COSE_FRONT_PIECES + 1];
    size_t lengths[COSE_FRONT_PIECES + 1];
    *length = 0;
    for (unsigned index = 0; index < COSE_FRONT_PIECES; index++)
        piece[index] = cose_front_piece(pieces, input->header, NULL, 0, index, &lengths[index]);
    piece[COSE_FRONT_PIECES] = input->payload;
    lengths[COSE_FRONT_PIECES] = (size_t)input->payload_length;
    for (unsigned index = 0; index <= COSE_FRONT_PIECES; index++)
        *length += lengths[index];
    uint8_t *structure = malloc(*length);
    uint8_t *end = structure;
    for (unsigned index = 0; structure != NULL && index <= COSE_FRONT_PIECES; index++) {
        memcpy(end, piece[index], lengths[index]);
        end += lengths[index];
    }
    return structure;
}

/* 1 where the signature is good, and only then. */
static int is_good(const struct cose_eddsa_input *input, const struct cose_pieces *pieces)
{
    int type = input->crv == 6 ? EVP_PKEY_ED25519 : EVP_PKEY_ED448, good = 0;
    size_t length;
    uint8_t *structure = structure_of(input, pieces, &length);
    EVP_PKEY *key = EVP_PKEY_new_raw_public_key(type, NULL, input->x, (size_t)input->x_length);
    EVP_MD_CTX *context = EVP_MD_CTX_new();
    if (structure != NULL && key != NULL && context != NULL &&
        EVP_DigestVerifyInit(context, NULL, NULL, NULL, key) == 1)
        good = EVP_DigestVerify(context, input->signature, (size_t)input->signature_length, structure, length) == 1;
    EVP_MD_CTX_free(context);
    EVP_PKEY_free(key);
    free(structure);
    return good;
}

static int refused(unsigned reason, uint64_t place)
{
    printf("refused: reason %u at %" PRIu64 "\n", reason, place);
    return REFUSED;
}

int main(int count, char **arguments)
{
    size_t keys_length, length;
    struct cose_eddsa_input input;
    struct cose_pieces pieces;
    if (count != 3) {
        fputs("usage: eddsa KEYS MESSAGE\n", stderr);
        return NO_ANSWER;
    }
    if (load(arguments[1], keys, sizeof keys, &keys_length) != 0 ||
        load(arguments[2], message, sizeof message, &length) != 0)
        return NO_ANSWER;
    cose_verify_eddsa(keys, keys_length, NULL, 0, COSE_TAGGED, message, length, &input, &pieces);
    if (input.status == COSE_REFUSED)
        return refused(input.reason, input.place);
    if (input.status != COSE_SIGNED) {
        fprintf(stderr, "no answer: status %u\n", input.status);
        return NO_ANSWER;
    }
    if (!is_good(&input, &pieces))
        return refused(COSE_REASON_BAD_AUTH, input.place);
    printf("authentic: %" PRIu64 " bytes\n", input.payload_length);
    return AUTHENTIC;
}
