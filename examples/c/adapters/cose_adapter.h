/* Whether a signature is good, by a library that computes with curves. A program adds one of the source files beside
 * this header: openssl.c (OpenSSL 3, -lcrypto) or mbedtls.c (Mbed TLS 2.28 or 3, -lmbedcrypto). */
#ifndef COSE_ADAPTER_H
#define COSE_ADAPTER_H

#include "cose.h"

/* 1 where the signature of cose_verify or cose_sign_input is good, and only then: 0 too where its key is no point of
 * the curve, or where memory lacks. It is what cose_verdict takes. */
int cose_signature_is_good(const struct cose_signature_input *input);

#endif
