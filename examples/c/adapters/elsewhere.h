/* A COSE_Sign1 that OpenSSL authenticates, the hash included. A program that is compiled with COSE_ELSEWHERE adds
 * elsewhere.c and openssl.c (OpenSSL 3, -lcrypto). */
#ifndef ELSEWHERE_H
#define ELSEWHERE_H

#include "cose.h"

/* Begins the hash with the pieces before the payload. It returns 0, or -1 where the verifier asks for none, or memory
 * lacks. */
int elsewhere_begin(struct cose_verifier *verifier);

/* Hashes the next bytes of the payload. */
void elsewhere_update(const uint8_t *bytes, size_t length);

/* 1 where the signature of all that was hashed is good, and only then. It is what cose_verdict_of_answer takes. */
int elsewhere_is_good(struct cose_verifier *verifier);

#endif
