/* Signatures by OpenSSL 3. */
#include "cose_adapter.h"
#include <openssl/bn.h>
#include <openssl/core_names.h>
#include <openssl/ecdsa.h>
#include <openssl/evp.h>
#include <openssl/params.h>

/* The key of a point, which is compressed where the COSE_Key has the sign of y alone (SEC 1 section 2.3.3). OpenSSL
 * takes no point that isn't on the curve. */
static EVP_PKEY *key_of(const struct cose_signature_input *input)
{
    static char curves[][6] = {"P-256", "P-384", "P-521"};
    uint8_t point[1 + sizeof input->x + sizeof input->y];
    size_t length = 1 + input->x_length + input->y_length;
    EVP_PKEY *key = NULL;
    if (input->crv < 1 || input->crv > 3)
        return NULL;
    point[0] = input->y_sign == 0 ? 4 : (uint8_t)(1 + input->y_sign);
    memcpy(point + 1, input->x, input->x_length);
    memcpy(point + 1 + input->x_length, input->y, input->y_length);
    OSSL_PARAM parameters[] = {
        OSSL_PARAM_construct_utf8_string(OSSL_PKEY_PARAM_GROUP_NAME, curves[input->crv - 1], 0),
        OSSL_PARAM_construct_octet_string(OSSL_PKEY_PARAM_PUB_KEY, point, length),
        OSSL_PARAM_construct_end(),
    };
    EVP_PKEY_CTX *context = EVP_PKEY_CTX_new_from_name(NULL, "EC", NULL);
    if (context == NULL || EVP_PKEY_fromdata_init(context) != 1 ||
        EVP_PKEY_fromdata(context, &key, EVP_PKEY_PUBLIC_KEY, parameters) != 1)
        key = NULL;
    EVP_PKEY_CTX_free(context);
    return key;
}

/* The ECDSA-Sig-Value (RFC 3279 section 2.2.3) of r and s, which COSE joins. It returns its length, below 1 if there is
 * none. */
static int der_of(const struct cose_signature_input *input, uint8_t **der)
{
    int half = (int)(input->signature_length / 2), length = 0;
    ECDSA_SIG *signature = ECDSA_SIG_new();
    BIGNUM *r = BN_bin2bn(input->signature, half, NULL);
    BIGNUM *s = BN_bin2bn(input->signature + half, half, NULL);
    if (signature != NULL && r != NULL && s != NULL && ECDSA_SIG_set0(signature, r, s) == 1) {
        length = i2d_ECDSA_SIG(signature, der);
    } else {
        BN_free(r);
        BN_free(s);
    }
    ECDSA_SIG_free(signature);
    return length;
}

int cose_signature_is_good(const struct cose_signature_input *input)
{
    uint8_t *der = NULL;
    int is_good = 0, length = der_of(input, &der);
    EVP_PKEY *key = key_of(input);
    EVP_PKEY_CTX *context = key == NULL ? NULL : EVP_PKEY_CTX_new(key, NULL);
    if (length > 0 && context != NULL && EVP_PKEY_verify_init(context) == 1)
        is_good = EVP_PKEY_verify(context, der, (size_t)length, input->digest, input->digest_length) == 1;
    EVP_PKEY_CTX_free(context);
    EVP_PKEY_free(key);
    OPENSSL_free(der);
    return is_good;
}
