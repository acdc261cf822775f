/* The hash by OpenSSL 3, and the signature by the adapter openssl.c. */
#include "elsewhere.h"
#include "cose_adapter.h"
#include <openssl/evp.h>

static EVP_MD_CTX *context;
static struct cose_signature_input input;

/* The hash function of an algorithm (RFC 9053 section 2.1, RFC 9864 section 2.1). */
static const EVP_MD *hash_of(int32_t alg)
{
    switch (alg) {
    case -7:
    case -9:
        return EVP_sha256();
    case -35:
    case -51:
        return EVP_sha384();
    case -36:
    case -52:
        return EVP_sha512();
    default:
        return NULL;
    }
}

/* The point of the key that the message is verified with. No coordinate of these curves has more than 66 bytes. */
static int point_of(const struct cose_chosen_key *asked)
{
    if (asked->x_length > sizeof input.x || asked->y_length > sizeof input.y)
        return -1;
    input.crv = asked->crv;
    input.y_sign = asked->y_sign;
    input.x_length = asked->x_length;
    input.y_length = asked->y_length;
    memcpy(input.x, asked->x, (size_t)asked->x_length);
    memcpy(input.y, asked->y, (size_t)asked->y_length);
    return 0;
}

int elsewhere_begin(struct cose_verifier *verifier)
{
    static uint8_t header[1024];
    struct cose_chosen_key asked;
    struct cose_pieces pieces;
    if (cose_asked_key(verifier, &asked) != 1 || cose_front_pieces(verifier, header, sizeof header, &pieces) != 1)
        return -1;
    if (hash_of(asked.alg) == NULL || point_of(&asked) != 0)
        return -1;
    context = EVP_MD_CTX_new();
    if (context == NULL || EVP_DigestInit_ex(context, hash_of(asked.alg), NULL) != 1)
        return -1;
    for (unsigned index = 0; index < COSE_FRONT_PIECES; index++) {
        size_t length;
        const uint8_t *at = cose_front_piece(&pieces, header, NULL, 0, index, &length);
        if (EVP_DigestUpdate(context, at, length) != 1)
            return -1;
    }
    return 0;
}

void elsewhere_update(const uint8_t *bytes, size_t length)
{
    if (EVP_DigestUpdate(context, bytes, length) != 1) {
        /* without the context no signature is good */
        EVP_MD_CTX_free(context);
        context = NULL;
    }
}

int elsewhere_is_good(struct cose_verifier *verifier)
{
    struct cose_received_signature signature;
    unsigned length = 0;
    int is_there = context != NULL && cose_asked_signature(verifier, &signature) == 1 &&
                   EVP_DigestFinal_ex(context, input.digest, &length) == 1;
    EVP_MD_CTX_free(context);
    context = NULL;
    if (!is_there)
        return 0;
    input.digest_length = length;
    input.signature_length = signature.length;
    memcpy(input.signature, signature.signature, sizeof input.signature);
    return cose_signature_is_good(&input);
}
