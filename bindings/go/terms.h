/*
 * The calls of cose.h under terms and requirements, as Go makes them. What Go passes in a struct has no pointers: bytes are apart.
 */
#ifndef COSE_GO_TERMS_H
#define COSE_GO_TERMS_H

#include "sized.h"

/* Terms without keys and external data. */
struct sized_terms {
    uint8_t kind, permitted;
    uint64_t least_secret, payload_limit;
    int32_t algorithms[16];
    int64_t understood[16];
};

/* Requirements without texts. */
struct sized_requirements {
    uint32_t leeway;
    int64_t now;
    uint64_t lifetime, age;
    uint8_t present, permitted;
};

/* The texts of requirements. */
struct sized_texts {
    struct sized_bytes iss, sub, aud;
};

static inline struct cose_terms sized_terms_of(struct sized_terms terms, struct sized_bytes keys, struct sized_bytes aad)
{
    struct cose_terms given = {0};
    given.size = sizeof given;
    given.kind = terms.kind;
    given.permitted = terms.permitted;
    given.least_secret = terms.least_secret;
    given.payload_limit = terms.payload_limit;
    given.keys = keys.at;
    given.keys_length = keys.length;
    given.aad = aad.at;
    given.aad_length = aad.length;
    memcpy(given.algorithms, terms.algorithms, sizeof given.algorithms);
    memcpy(given.understood, terms.understood, sizeof given.understood);
    return given;
}

static inline struct cose_requirements sized_requirements_of(struct sized_requirements requirements, struct sized_texts texts)
{
    struct cose_requirements given = {0};
    given.size = sizeof given;
    given.leeway = requirements.leeway;
    given.now = requirements.now;
    given.lifetime = requirements.lifetime;
    given.age = requirements.age;
    given.iss = texts.iss.at;
    given.iss_length = texts.iss.length;
    given.sub = texts.sub.at;
    given.sub_length = texts.sub.length;
    given.aud = texts.aud.at;
    given.aud_length = texts.aud.length;
    given.present = requirements.present;
    given.permitted = requirements.permitted;
    return given;
}

static inline struct cose_status sized_open_under(bool large, uint8_t *block, struct sized_terms terms, struct sized_bytes keys,
    struct sized_bytes aad, bool is_detached, uint64_t payload_length)
{
    struct cose_status status = {0};
    struct cose_verifier verifier = {block};
    struct cose_large_verifier large_verifier = {block};
    struct cose_terms given = sized_terms_of(terms, keys, aad);
    if (large && is_detached)
        cose_large_open_under_detached(&large_verifier, &given, payload_length, &status);
    else if (large)
        cose_large_open_under(&large_verifier, &given, &status);
    else if (is_detached)
        cose_open_under_detached(&verifier, &given, payload_length, &status);
    else
        cose_open_under(&verifier, &given, &status);
    return status;
}

static inline struct sized_answer sized_authenticate(bool large, struct sized_terms terms, struct sized_bytes keys, struct sized_bytes aad,
    struct sized_bytes message)
{
    struct sized_answer answer = {0};
    struct cose_terms given = sized_terms_of(terms, keys, aad);
    (large ? cose_large_authenticate : cose_authenticate)(&given, message.at, message.length, &answer.verdict, &answer.input);
    return answer;
}

static inline struct sized_answer sized_authenticate_detached(bool large, struct sized_terms terms, struct sized_bytes keys,
    struct sized_bytes aad, struct sized_bytes message, struct sized_bytes payload)
{
    struct sized_answer answer = {0};
    struct cose_terms given = sized_terms_of(terms, keys, aad);
    (large ? cose_large_authenticate_detached : cose_authenticate_detached)(&given, message.at, message.length, payload.at,
        payload.length, &answer.verdict, &answer.input);
    return answer;
}

static inline struct cose_claims_set sized_admit(bool large, struct sized_terms terms, struct sized_bytes keys, struct sized_bytes aad,
    struct sized_requirements requirements, struct sized_bytes iss, struct sized_bytes sub, struct sized_bytes aud, struct sized_bytes token)
{
    struct cose_claims_set claims = {0};
    struct cose_terms given = sized_terms_of(terms, keys, aad);
    struct cose_requirements required = sized_requirements_of(requirements, (struct sized_texts){iss, sub, aud});
    (large ? cose_large_admit : cose_admit)(&given, &required, token.at, token.length, &claims);
    return claims;
}

static inline struct cose_claims_set sized_admit_claims(bool large, struct sized_requirements requirements, struct sized_bytes iss,
    struct sized_bytes sub, struct sized_bytes aud, struct sized_bytes payload)
{
    struct cose_claims_set claims = {0};
    struct cose_requirements required = sized_requirements_of(requirements, (struct sized_texts){iss, sub, aud});
    (large ? cose_large_admit_claims : cose_admit_claims)(&required, payload.at, payload.length, &claims);
    return claims;
}

static inline struct cose_key_set sized_table_read_under(uint8_t *block, struct sized_terms terms, struct sized_bytes keys,
    struct sized_bytes aad)
{
    struct cose_key_set key_set = {0};
    struct cose_table table = {block};
    struct cose_terms given = sized_terms_of(terms, keys, aad);
    cose_table_read_under(&table, &given, &key_set);
    return key_set;
}

static inline struct sized_answer sized_table_authenticate(uint8_t *block, struct sized_bytes message)
{
    struct sized_answer answer = {0};
    struct cose_table table = {block};
    cose_table_authenticate(&table, message.at, message.length, &answer.verdict, &answer.input);
    return answer;
}

static inline struct cose_claims_set sized_table_admit(uint8_t *block, struct sized_requirements requirements, struct sized_bytes iss,
    struct sized_bytes sub, struct sized_bytes aud, struct sized_bytes token)
{
    struct cose_claims_set claims = {0};
    struct cose_table table = {block};
    struct cose_requirements required = sized_requirements_of(requirements, (struct sized_texts){iss, sub, aud});
    cose_table_admit(&table, &required, token.at, token.length, &claims);
    return claims;
}

static inline struct cose_item sized_key_of(bool large, struct sized_terms terms, struct sized_bytes keys, struct sized_bytes message)
{
    struct cose_item key = {0};
    struct cose_terms given = sized_terms_of(terms, keys, (struct sized_bytes){0});
    (large ? cose_large_key_of : cose_key_of)(&given, message.at, message.length, &key);
    return key;
}

static inline struct cose_item sized_fed_key_of(bool large, uint8_t *block, struct sized_terms terms, struct sized_bytes keys)
{
    struct cose_item key = {0};
    struct cose_verifier verifier = {block};
    struct cose_large_verifier large_verifier = {block};
    struct cose_terms given = sized_terms_of(terms, keys, (struct sized_bytes){0});
    if (large)
        cose_large_fed_key_of(&large_verifier, &given, &key);
    else
        cose_fed_key_of(&verifier, &given, &key);
    return key;
}

static inline struct cose_key_fit sized_mismatch(bool large, struct sized_terms terms, struct sized_bytes keys, struct sized_bytes message,
    uint64_t place)
{
    struct cose_key_fit fit = {0};
    struct cose_terms given = sized_terms_of(terms, keys, (struct sized_bytes){0});
    (large ? cose_large_mismatch : cose_mismatch)(&given, message.at, message.length, place, &fit);
    return fit;
}

#endif
