/* Calls the library as its header allows, and as no careful caller would: empty and NULL slices, numbers out of range,
 * blocks without keys. Each call has to answer with one status, and prints a line where it answers with another. */
#include "edge_misuse.h"

/* A key on P-256, and a COSE_Sign1 of no bytes for it, whose signature is zeros. */
static uint8_t point[76] = {0xa4, 0x01, 0x02, 0x20, 0x01, 0x21, 0x58, 0x20};
static uint8_t sign1[74] = {0xd2, 0x84, 0x43, 0xa1, 0x01, 0x26, 0xa0, 0x40, 0x58, 0x40};

static struct cose_message_verdict verify(const uint8_t *set, size_t set_length, const uint8_t *aad, size_t aad_length,
                                          enum cose_kind_number kind, const uint8_t *message, size_t length)
{
    struct cose_message_verdict verdict;
    struct cose_signature_input input;
    memset(&verdict, 0xee, sizeof verdict);
    cose_verify(set, set_length, aad, aad_length, kind, message, length, &verdict, &input);
    return verdict;
}

static void one_call(void)
{
    const size_t n = sizeof keys, m = sizeof mac0;
    is("a message", verify(keys, n, NULL, 0, COSE_TAGGED, mac0, m).status, COSE_AUTHENTIC);
    is("no bytes", verify(keys, n, NULL, 0, COSE_TAGGED, NULL, 0).reason, COSE_REASON_TRUNCATED);
    is("no keys", verify(NULL, 0, NULL, 0, COSE_TAGGED, mac0, m).status, COSE_KEYS_REFUSED);
    is("NULL for keys", verify(NULL, 1, NULL, 0, COSE_TAGGED, mac0, m).status, COSE_BAD_ARGUMENT);
    is("NULL for data", verify(keys, n, NULL, 1, COSE_TAGGED, mac0, m).status, COSE_BAD_ARGUMENT);
    is("NULL for a message", verify(keys, n, NULL, 0, COSE_TAGGED, NULL, 1).status, COSE_BAD_ARGUMENT);
    is("much data", verify(keys, n, much, 65535, COSE_TAGGED, mac0, m).reason, COSE_REASON_BAD_AUTH);
    is("too much data", verify(keys, n, much, 65536, COSE_TAGGED, mac0, m).status, COSE_AAD_TOO_LONG);
    for (int kind = -600; kind < 600; kind++)
        if (kind != COSE_TAGGED && kind != COSE_MAC0 && kind != COSE_SIGN1)
            is("kind", verify(keys, n, NULL, 0, (enum cose_kind_number)kind, mac0, m).status, COSE_BAD_ARGUMENT);
    struct cose_message_shape shape;
    cose_shape((enum cose_kind_number)273, mac0, m, &shape);
    is("the shape of a kind that isn't", shape.status, COSE_BAD_ARGUMENT);
    cose_shape(COSE_TAGGED, NULL, 0, &shape);
    is("the shape of no bytes", shape.reason, COSE_REASON_TRUNCATED);
    struct cose_key_set key_set;
    cose_read_keys(NULL, 0, &key_set);
    is("a key set of no bytes", key_set.status, COSE_KEYS_REFUSED);
}

static void claims(void)
{
    static const uint8_t aud[] = {0xa1, 0x03, 0x61, 'a'};
    struct cose_policy policy = {0, 0, 0, NULL, 0};
    struct cose_claims_set found;
    struct cose_range audience;
    cose_claims(aud, sizeof aud, &policy, &found);
    is("any audience", found.status, COSE_AUTHENTIC);
    policy.has_audience = 255;
    cose_claims(aud, sizeof aud, &policy, &found);
    is("an empty audience", found.reason, COSE_REASON_WRONG_AUDIENCE);
    policy.audience_length = 1;
    cose_claims(aud, sizeof aud, &policy, &found);
    is("NULL for an audience", found.status, COSE_BAD_ARGUMENT);
    policy.audience = (const uint8_t *)"\xff";
    cose_claims(aud, sizeof aud, &policy, &found);
    is("an audience that isn't UTF-8", found.status, COSE_BAD_AUDIENCE);
    cose_claims(NULL, 0, &policy, &found);
    is("no claims", found.status == COSE_AUTHENTIC, 0);
    for (uint64_t index = 1; index != 0; index <<= 1) {
        cose_audience(aud, sizeof aud, index, &audience);
        is("an audience that isn't there", audience.present, 0);
    }
    cose_audience(NULL, 0, 0, &audience);
    is("the audience of no bytes", audience.present, 0);
    for (uint64_t place = 1; place != 0; place <<= 1) {
        cose_next_audience(aud, sizeof aud, place, &audience);
        is("a text string at a place", audience.present, place == 2);
    }
    cose_next_audience(aud, sizeof aud, UINT64_MAX, &audience);
    is("a text string at the last place", audience.present, 0);
    cose_next_audience(NULL, 1, 0, &audience);
    is("a text string of no bytes", audience.present, 0);
}

/* Terms and requirements of another size, of numbers that are none, and with NULL. */
static struct cose_key_fit fit_of(struct cose_terms *terms, enum cose_kind_number kind, size_t length, uint64_t place)
{
    struct cose_key_fit fit;
    terms->kind = (uint8_t)kind;
    cose_mismatch(terms, mac0, length, place, &fit);
    return fit;
}

/* Of three keys the first names no algorithm, the second that of the message, and the third another one; then no key.
 */
static void choices(void)
{
    static const uint8_t set[] = {0x84, 0xa2, 0x01, 0x04, 0x20, 0x44, 'J', 'e', 'f',  'e',  0xa3, 0x01,
                                  0x04, 0x03, 0x05, 0x20, 0x44, 'J',  'e', 'f', 'e',  0xa3, 0x01, 0x04,
                                  0x03, 0x06, 0x20, 0x44, 'J',  'e',  'f', 'e', 0xa1, 0x01, 0x04};
    struct cose_terms terms = {.size = sizeof(struct cose_terms), .keys = set, .keys_length = sizeof set};
    struct cose_item key;
    terms.kind = COSE_MAC0;
    cose_key_of(&terms, mac0, sizeof mac0, &key);
    is("the key of a message", key.present == 1 && key.at == 10 && key.length == 11, 1);
    terms.keys_length = 1;
    cose_key_of(&terms, mac0, sizeof mac0, &key);
    is("the key of no set", key.present, 0);
    terms.keys_length = sizeof set;
    terms.kind = COSE_TAGGED;
    cose_key_of(&terms, mac0, sizeof mac0, &key);
    is("the key of a message of no kind", key.present, 0);
    terms.kind = COSE_MAC0;
    cose_key_of(&terms, NULL, 1, &key);
    is("the key of NULL", key.present, 0);
    is("no algorithm", fit_of(&terms, COSE_MAC0, sizeof mac0, 1).condition, COSE_NOT_PERMITTED);
    is("the key's algorithm", fit_of(&terms, COSE_MAC0, sizeof mac0, 10).condition, COSE_FITS);
    is("a key that fits", fit_of(&terms, COSE_MAC0, sizeof mac0, 10).status, COSE_COMPLETE);
    is("another algorithm", fit_of(&terms, COSE_MAC0, sizeof mac0, 21).condition, COSE_OTHER_ALGORITHM);
    is("no key", fit_of(&terms, COSE_MAC0, sizeof mac0, 32).status, COSE_KEYS_REFUSED);
    is("no item", fit_of(&terms, COSE_MAC0, sizeof mac0, sizeof set).status, COSE_BAD_ARGUMENT);
    is("a place without end", fit_of(&terms, COSE_MAC0, sizeof mac0, UINT64_MAX).status, COSE_BAD_ARGUMENT);
    is("no kind", fit_of(&terms, COSE_TAGGED, sizeof mac0, 10).status, COSE_BAD_ARGUMENT);
    is("another kind", fit_of(&terms, COSE_SIGN1, sizeof mac0, 10).reason, COSE_REASON_WRONG_TAG);
    is("a part of a message", fit_of(&terms, COSE_MAC0, 5, 10).status, COSE_MORE);
    terms.permitted = COSE_SHORT_MAC + COSE_WITHOUT_ALG;
    is("no algorithm, permitted", fit_of(&terms, COSE_MAC0, sizeof mac0, 1).condition, COSE_FITS);
    terms.least_secret = 5;
    is("a short secret", fit_of(&terms, COSE_MAC0, sizeof mac0, 10).condition, COSE_NOT_PERMITTED);
}

static void stated(void)
{
    static const uint8_t iss[] = {0xa2, 0x01, 0x61, 'a', 0x04, 0x02};
    struct cose_message_verdict verdict;
    struct cose_signature_input input;
    struct cose_claims_set found;
    struct cose_terms terms = {.size = sizeof(struct cose_terms), .keys = by_alg, .keys_length = sizeof by_alg};
    struct cose_requirements requirements = {.size = sizeof(struct cose_requirements), .now = 1};
    cose_authenticate(&terms, mac0, sizeof mac0, &verdict, &input);
    is("terms: a message", verdict.status, COSE_AUTHENTIC);
    for (uint32_t size = 0; size < 2 * sizeof terms; size++) {
        terms.size = size;
        cose_authenticate(&terms, mac0, sizeof mac0, &verdict, &input);
        is("terms: their size", verdict.status, size == sizeof terms ? COSE_AUTHENTIC : COSE_BAD_ARGUMENT);
    }
    terms.size = sizeof terms;
    for (int permitted = 0; permitted < 256; permitted++) {
        terms.permitted = (uint8_t)permitted;
        cose_authenticate(&terms, mac0, sizeof mac0, &verdict, &input);
        is("terms: what is permitted", verdict.status, permitted < 4 ? COSE_AUTHENTIC : COSE_BAD_ARGUMENT);
    }
    terms.permitted = 0;
    for (int kind = 0; kind < 256; kind++) {
        terms.kind = (uint8_t)kind;
        cose_authenticate(&terms, mac0, sizeof mac0, &verdict, &input);
        is("terms: the kind", verdict.status == COSE_BAD_ARGUMENT,
           kind != COSE_TAGGED && kind != COSE_MAC0 && kind != COSE_SIGN1);
    }
    terms.kind = COSE_TAGGED;
    terms.keys = NULL;
    cose_authenticate(&terms, mac0, sizeof mac0, &verdict, &input);
    is("terms: NULL for keys", verdict.status, COSE_BAD_ARGUMENT);
    terms.keys_length = 0;
    cose_authenticate(&terms, mac0, sizeof mac0, &verdict, &input);
    is("terms: no keys", verdict.status, COSE_KEYS_REFUSED);
    terms.keys = keys;
    terms.keys_length = sizeof keys;
    cose_authenticate(&terms, mac0, sizeof mac0, &verdict, &input);
    is("terms: a key without alg", verdict.reason, COSE_REASON_NO_KEY);
    terms.aad_length = 1;
    cose_admit(&terms, &requirements, mac0, sizeof mac0, &found);
    is("terms: NULL for data", found.status, COSE_BAD_ARGUMENT);
    cose_admit_claims(&requirements, iss, sizeof iss, &found);
    is("requirements: claims", found.status, COSE_AUTHENTIC);
    for (uint32_t size = 0; size < 2 * sizeof requirements; size++) {
        requirements.size = size;
        cose_admit_claims(&requirements, iss, sizeof iss, &found);
        is("requirements: their size", found.status, size == sizeof requirements ? COSE_AUTHENTIC : COSE_BAD_ARGUMENT);
    }
    requirements.size = sizeof requirements;
    requirements.now = 0;
    cose_admit_claims(&requirements, iss, sizeof iss, &found);
    is("requirements: no time", found.status, COSE_BAD_ARGUMENT);
    requirements.now = 1;
    requirements.present = 128;
    cose_admit_claims(&requirements, iss, sizeof iss, &found);
    is("requirements: a claim that isn't", found.status, COSE_BAD_ARGUMENT);
    requirements.present = 0;
    requirements.permitted = 2;
    cose_admit_claims(&requirements, iss, sizeof iss, &found);
    is("requirements: a flag that isn't", found.status, COSE_BAD_ARGUMENT);
    requirements.permitted = 0;
    requirements.iss_length = 1;
    cose_admit_claims(&requirements, iss, sizeof iss, &found);
    is("requirements: NULL for a text", found.status, COSE_BAD_ARGUMENT);
    requirements.iss = (const uint8_t *)"\xff";
    cose_admit_claims(&requirements, iss, sizeof iss, &found);
    is("requirements: a text that isn't UTF-8", found.status, COSE_BAD_ARGUMENT);
    requirements.iss = (const uint8_t *)"b";
    cose_admit_claims(&requirements, iss, sizeof iss, &found);
    is("requirements: unmet", found.status, COSE_UNMET);
    is("requirements: which", found.reason, COSE_UNMET_ISSUER);
    is("requirements: where", found.place, 2);
    cose_admit_claims(&requirements, iss + 4, 1, &found);
    is("requirements: no claims", found.status, COSE_CLAIMS_REFUSED);
}

/* How many of the calls about a message that is authenticated elsewhere have an answer. */
static unsigned asked(struct cose_verifier *verifier)
{
    struct cose_pieces pieces;
    struct cose_chosen_key key;
    struct cose_received_signature signature;
    uint8_t header[16];
    return cose_front_pieces(verifier, header, sizeof header, &pieces) + cose_asked_key(verifier, &key) +
           cose_asked_signature(verifier, &signature);
}

/* A block without keys. */
static void closed(struct cose_verifier *verifier)
{
    struct cose_fed fed;
    struct cose_status status;
    struct cose_message_verdict verdict;
    struct cose_signature_input input;
    cose_feed(verifier, mac0, sizeof mac0, &fed);
    is("closed: feed", fed.status.status, COSE_CLOSED);
    is("closed: used", fed.used, 0);
    cose_end(verifier, &status);
    is("closed: end", status.status, COSE_CLOSED);
    cose_verdict(verifier, 1, &verdict);
    is("closed: verdict", verdict.status, COSE_CLOSED);
    is("closed: sign_input", cose_sign_input(verifier, &input), 0);
    is("closed: feed_payload", cose_feed_payload(verifier, mac0, 1), 0);
    cose_verdict_of_mac(verifier, mac0, 32, &verdict);
    is("closed: verdict_of_mac", verdict.status, COSE_CLOSED);
    cose_verdict_of_answer(verifier, cose_message_number(verifier), 1, &verdict);
    is("closed: verdict_of_answer", verdict.status, COSE_CLOSED);
    is("closed: what is asked", asked(verifier), 0);
    is("closed: wanted", cose_wanted(verifier) + cose_payload_wanted(verifier) + cose_taken(verifier), 0);
    cose_reset(verifier);
}

static uint8_t opened(struct cose_verifier *verifier, const uint8_t *set, size_t length, enum cose_kind_number kind)
{
    struct cose_status status;
    cose_open(verifier, set, length, NULL, 0, kind, &status);
    return status.status;
}

static void blocks(void)
{
    struct cose_verifier verifier = {block};
    struct cose_fed fed;
    is("the size of a verifier", cose_verifier_size() <= sizeof block && cose_verifier_align() <= 64, 1);
    memset(block, 0xee, sizeof block);
    cose_begin(block);
    closed(&verifier);
    is("open: NULL", opened(&verifier, NULL, 1, COSE_TAGGED), COSE_BAD_ARGUMENT);
    is("open: no keys", opened(&verifier, NULL, 0, COSE_TAGGED), COSE_KEYS_REFUSED);
    closed(&verifier);
    is("open", opened(&verifier, keys, sizeof keys, COSE_TAGGED), COSE_MORE);
    is("open: kind", opened(&verifier, keys, sizeof keys, (enum cose_kind_number)1), COSE_BAD_ARGUMENT);
    closed(&verifier);
    is("open", opened(&verifier, keys, sizeof keys, COSE_TAGGED), COSE_MORE);
    cose_feed(&verifier, NULL, 0, &fed);
    is("feed: no bytes", fed.status.status, COSE_MORE);
    is("feed_payload: not wanted", cose_feed_payload(&verifier, mac0, 1), 0);
    cose_feed(&verifier, mac0, sizeof mac0, &fed);
    is("feed", fed.status.status, COSE_COMPLETE);
    cose_feed(&verifier, mac0, sizeof mac0, &fed);
    is("feed: after the end", fed.used, 0);
}

/* A block that is opened under terms answers as cose_authenticate does; terms that it doesn't take leave it closed. */
static uint8_t opened_under(struct cose_verifier *verifier, const struct cose_terms *terms)
{
    struct cose_status status;
    cose_open_under(verifier, terms, &status);
    return status.status;
}

static uint8_t fed_under(struct cose_verifier *verifier, const struct cose_terms *terms)
{
    struct cose_message_verdict verdict;
    struct cose_fed fed;
    if (opened_under(verifier, terms) != COSE_MORE)
        return COSE_CLOSED;
    for (size_t at = 0; at < sizeof mac0; at++)
        cose_feed(verifier, mac0 + at, 1, &fed);
    cose_verdict(verifier, 0, &verdict);
    return verdict.status == COSE_AUTHENTIC ? COSE_AUTHENTIC : verdict.reason;
}

static void blocks_under_terms(void)
{
    struct cose_verifier verifier = {block};
    struct cose_terms terms;
    memset(&terms, 0, sizeof terms);
    terms.size = sizeof terms;
    terms.keys = keys;
    terms.keys_length = sizeof keys;
    cose_begin(block);
    is("under: a key without alg", fed_under(&verifier, &terms), COSE_REASON_NO_KEY);
    terms.permitted = COSE_WITHOUT_ALG;
    is("under: a secret without alg alone", fed_under(&verifier, &terms), COSE_REASON_NO_KEY);
    terms.permitted = COSE_WITHOUT_ALG | COSE_SHORT_MAC;
    is("under: both", fed_under(&verifier, &terms), COSE_AUTHENTIC);
    terms.least_secret = 4;
    is("under: a secret as long as asked", fed_under(&verifier, &terms), COSE_AUTHENTIC);
    terms.least_secret = 5;
    is("under: a shorter one", fed_under(&verifier, &terms), COSE_REASON_NO_KEY);
    terms.least_secret = 0;
    terms.algorithms[15] = 5;
    is("under: an algorithm that the key doesn't name", fed_under(&verifier, &terms), COSE_REASON_NO_KEY);
    terms.algorithms[15] = 0;
    terms.understood[0] = 1000;
    is("under: labels", opened_under(&verifier, &terms), COSE_BAD_ARGUMENT);
    closed(&verifier);
    terms.understood[0] = 0;
    terms.size--;
    is("under: another size", opened_under(&verifier, &terms), COSE_BAD_ARGUMENT);
    closed(&verifier);
    terms.size++;
    terms.kind = 1;
    is("under: kind", opened_under(&verifier, &terms), COSE_BAD_ARGUMENT);
    terms.kind = 0;
    is("under: again", fed_under(&verifier, &terms), COSE_AUTHENTIC);
    terms.keys = NULL;
    is("under: NULL", opened_under(&verifier, &terms), COSE_BAD_ARGUMENT);
    closed(&verifier);
}

/* What is stated too early, of a message that isn't authenticated elsewhere, twice, or about another message, is no
 * verdict. */
static void elsewhere(void)
{
    struct cose_verifier verifier = {block};
    struct cose_status status;
    struct cose_fed fed;
    struct cose_message_verdict verdict;
    const uint8_t *tag = mac0 + sizeof mac0 - 32;
    cose_begin(block);
    is("elsewhere: another block", opened(&verifier, keys, sizeof keys, COSE_TAGGED), COSE_MORE);
    cose_feed(&verifier, mac0, sizeof mac0, &fed);
    cose_verdict_of_mac(&verifier, tag, 32, &verdict);
    is("elsewhere: another block's MAC", verdict.status, COSE_BAD_ARGUMENT);
    is("elsewhere: another block's pieces", asked(&verifier), 0);
    cose_open_elsewhere(&verifier, keys, sizeof keys, NULL, 1, COSE_TAGGED, &status);
    is("elsewhere: NULL", status.status, COSE_BAD_ARGUMENT);
    cose_open_elsewhere(&verifier, keys, sizeof keys, NULL, 0, COSE_TAGGED, &status);
    is("elsewhere: open", status.status, COSE_MORE);
    is("elsewhere: nothing is asked yet", asked(&verifier), 0);
    cose_feed(&verifier, mac0, sizeof mac0 - 1, &fed);
    cose_verdict_of_mac(&verifier, tag, 32, &verdict);
    is("elsewhere: too early", verdict.status, COSE_MORE);
    cose_feed(&verifier, mac0 + sizeof mac0 - 1, 1, &fed);
    is("elsewhere: complete", fed.status.status, COSE_COMPLETE);
    is("elsewhere: the pieces and the key", asked(&verifier), 2);
    cose_verdict(&verifier, 1, &verdict);
    is("elsewhere: verdict", verdict.status, COSE_COMPLETE);
    for (size_t length = 0; length < 32; length++) {
        cose_verdict_of_mac(&verifier, tag, length, &verdict);
        is("elsewhere: a shorter MAC", verdict.status, COSE_BAD_ARGUMENT);
    }
    cose_verdict_of_mac(&verifier, NULL, 32, &verdict);
    is("elsewhere: NULL for a MAC", verdict.status, COSE_BAD_ARGUMENT);
    cose_verdict_of_answer(&verifier, cose_message_number(&verifier), 1, &verdict);
    is("elsewhere: an answer", verdict.status, COSE_BAD_ARGUMENT);
    cose_verdict_of_mac(&verifier, tag, 32, &verdict);
    is("elsewhere: the MAC", verdict.status, COSE_AUTHENTIC);
    cose_verdict_of_mac(&verifier, tag, 32, &verdict);
    is("elsewhere: a second MAC", verdict.status, COSE_BAD_ARGUMENT);
    is("elsewhere: nothing is asked any more", asked(&verifier), 0);
}

/* A call with NULL for keys or for external data closes a block that was open: the old keys may be gone. */
static void reopened(void)
{
    struct cose_verifier verifier = {block};
    struct cose_status status;
    cose_begin(block);
    for (int turn = 0; turn < 4; turn++) {
        const uint8_t *set = turn % 2 ? keys : NULL;
        const size_t aad_length = turn % 2;
        is("open", opened(&verifier, keys, sizeof keys, COSE_TAGGED), COSE_MORE);
        if (turn < 2)
            cose_open(&verifier, set, sizeof keys, NULL, aad_length, COSE_TAGGED, &status);
        else
            cose_open_detached(&verifier, set, sizeof keys, NULL, aad_length, COSE_TAGGED, 2, &status);
        is("reopened: NULL", status.status, COSE_BAD_ARGUMENT);
        is("reopened: NULL, its reason and place", status.reason + status.place, 0);
        closed(&verifier);
    }
}

static uint8_t large_fed(struct cose_large_verifier *verifier)
{
    struct cose_fed fed;
    cose_large_feed(verifier, mac0, sizeof mac0, &fed);
    return fed.status.status;
}

/* The same of the large size. */
static void large_reopened(void)
{
    static _Alignas(64) uint8_t large_block[135168];
    struct cose_large_verifier verifier = {large_block};
    struct cose_status status;
    is("the size of a large verifier", cose_large_verifier_size() <= sizeof large_block, 1);
    cose_large_begin(large_block);
    for (int turn = 0; turn < 2; turn++) {
        cose_large_open(&verifier, keys, sizeof keys, NULL, 0, COSE_TAGGED, &status);
        is("a large verifier", large_fed(&verifier), COSE_COMPLETE);
        if (turn == 0)
            cose_large_open(&verifier, NULL, 1, NULL, 0, COSE_TAGGED, &status);
        else
            cose_large_open_detached(&verifier, NULL, 1, NULL, 0, COSE_TAGGED, 2, &status);
        is("large, reopened: NULL", status.status, COSE_BAD_ARGUMENT);
        is("large, reopened: feed", large_fed(&verifier), COSE_CLOSED);
    }
}

/* Of all numbers 1 alone says that a signature is good. */
static void signatures(void)
{
    static const int32_t numbers[] = {0, -1, 2, 255, 256, 257, INT32_MIN, INT32_MAX, 1};
    struct cose_verifier verifier = {block};
    struct cose_message_verdict verdict;
    struct cose_fed fed;
    cose_begin(block);
    memcpy(point + 40, "\x22\x58\x20", 3);
    is("open: a point", opened(&verifier, point, 75, COSE_TAGGED), COSE_MORE);
    for (size_t index = 0; index < sizeof numbers / sizeof *numbers; index++) {
        cose_feed(&verifier, sign1, sizeof sign1, &fed);
        cose_verdict(&verifier, numbers[index], &verdict);
        is("a signature", verdict.status, numbers[index] == 1 ? COSE_AUTHENTIC : COSE_REFUSED);
        cose_verdict(&verifier, 1, &verdict);
        is("the verdict again", verdict.status, numbers[index] == 1 ? COSE_AUTHENTIC : COSE_REFUSED);
        cose_reset(&verifier);
    }
}

/* An answer that was asked for one message isn't taken for another one. */
static void numbers_of_messages(void)
{
    struct cose_verifier verifier = {block};
    struct cose_message_verdict verdict;
    struct cose_fed fed;
    cose_begin(block);
    is("open: a point", opened(&verifier, point, 75, COSE_TAGGED), COSE_MORE);
    const uint64_t first = cose_message_number(&verifier);
    cose_feed(&verifier, sign1, sizeof sign1, &fed);
    is("the number of a message that was fed", cose_message_number(&verifier), first);
    cose_reset(&verifier);
    cose_feed(&verifier, sign1, sizeof sign1, &fed);
    const uint64_t second = cose_message_number(&verifier);
    is("another number", second != first, 1);
    cose_verdict_for(&verifier, first, 1, &verdict);
    is("an answer for another message", verdict.status, COSE_BAD_ARGUMENT);
    cose_verdict_for(&verifier, second, 1, &verdict);
    is("an answer for the message", verdict.status, COSE_AUTHENTIC);
    cose_verdict_for(&verifier, first, 0, &verdict);
    is("an answer for another message, once more", verdict.status, COSE_BAD_ARGUMENT);
    is("open again", opened(&verifier, point, 75, COSE_TAGGED), COSE_MORE);
    is("a third number", cose_message_number(&verifier) != second, 1);
}

/* A block that is wiped has the bytes of one that was begun in memory of zeros: none of a key, of what HMAC makes of
 * it or of a running hash is left, in the middle of a message and after one. */
static void bytes_wiped(void)
{
    static _Alignas(COSE_BLOCK_ALIGN) uint8_t large_block[COSE_LARGE_VERIFIER_BLOCK];
    struct cose_verifier verifier = {block};
    struct cose_large_verifier large = {large_block};
    struct cose_status status;
    struct cose_message_verdict verdict;
    struct cose_fed fed;
    for (size_t length = 0; length <= sizeof mac0; length++) {
        cose_begin(block);
        opened(&verifier, keys, sizeof keys, COSE_TAGGED);
        cose_feed(&verifier, mac0, length, &fed);
        cose_verdict(&verifier, 0, &verdict);
        is("what was in a verifier", length < sizeof mac0 || verdict.status == COSE_AUTHENTIC, 1);
        is("a verifier in use", left_in(block, cose_verifier_size(), cose_begin) > 0, 1);
        cose_wipe(&verifier);
        is("bytes left of a verifier", left_in(block, cose_verifier_size(), cose_begin), 0);
        cose_large_begin(large_block);
        cose_large_open(&large, keys, sizeof keys, NULL, 0, COSE_TAGGED, &status);
        cose_large_feed(&large, mac0, length, &fed);
        is("a large verifier in use", left_in(large_block, cose_large_verifier_size(), cose_large_begin) > 0, 1);
        cose_large_wipe(&large);
        is("bytes left of a large verifier", left_in(large_block, cose_large_verifier_size(), cose_large_begin), 0);
    }
    uint8_t bytes[3] = {1, 2, 3};
    cose_wipe_bytes(bytes, 2);
    is("bytes that were wiped", bytes[0] + bytes[1], 0);
    is("the byte after them", bytes[2], 3);
    cose_wipe_bytes(NULL, 0);
    cose_wipe_bytes(NULL, 1);
}

/* A block that is wiped is as one that was begun, and has no byte of a key. */
static void wiped(void)
{
    struct cose_verifier verifier = {block};
    struct cose_table table = {block};
    struct cose_maker maker = {block};
    struct cose_signer signer = {block};
    struct cose_key_set key_set;
    struct cose_message_verdict verdict;
    struct cose_signature_input input;
    struct cose_made found;
    static uint8_t room[384];
    is("the library of this header", cose_fits(), 1);
    cose_begin(block);
    is("open", opened(&verifier, keys, sizeof keys, COSE_TAGGED), COSE_MORE);
    cose_wipe(&verifier);
    closed(&verifier);
    cose_table_begin(block);
    cose_table_read(&table, keys, sizeof keys, &key_set);
    is("a table in use", left_in(block, cose_table_size(), cose_table_begin) > 0, 1);
    cose_table_wipe(&table);
    is("bytes left of a table", left_in(block, cose_table_size(), cose_table_begin), 0);
    cose_table_verify(&table, NULL, 0, COSE_TAGGED, mac0, sizeof mac0, &verdict, &input);
    is("a table that was wiped", verdict.status, COSE_CLOSED);
    cose_maker_begin(block);
    cose_make(&maker, 5, keys, sizeof keys, NULL, 0, NULL, 0, 2, room, sizeof room, &found);
    is("a maker", found.status, COSE_MORE);
    is("a maker in use", left_in(block, cose_maker_size(), cose_maker_begin) > 0, 1);
    cose_maker_wipe(&maker);
    is("bytes left of a maker", left_in(block, cose_maker_size(), cose_maker_begin), 0);
    cose_make_end(&maker, room, sizeof room, &found);
    is("a maker that was wiped", found.status, COSE_CLOSED);
    cose_signer_begin(block);
    cose_make_sign1(&signer, -7, NULL, 0, NULL, 0, 0, room, sizeof room, &found);
    is("a signer", found.status, COSE_MORE);
    cose_signer_wipe(&signer);
    cose_make_sign1_digest(&signer, room, sizeof room, &found);
    is("a signer that was wiped", found.status, COSE_CLOSED);
}

static void names(void)
{
    is("a reason's name", strcmp(cose_reason_name(COSE_REASON_ATTACHED), "Attached"), 0);
    is("a status's name", strcmp(cose_status_name(COSE_UNMET), "Unmet"), 0);
    is("no reason", cose_reason_name(COSE_REASON_ATTACHED + 1) == NULL && cose_reason_name(255) == NULL, 1);
    is("no status", cose_status_name(COSE_UNMET + 1) == NULL && cose_status_name(255) == NULL, 1);
}

static void tables(void)
{
    struct cose_table table = {block};
    struct cose_key_set key_set;
    struct cose_message_verdict verdict;
    struct cose_signature_input input;
    is("the size of a table", cose_table_size() <= sizeof block && cose_table_align() <= 64, 1);
    cose_table_begin(block);
    cose_table_verify(&table, NULL, 0, COSE_TAGGED, mac0, sizeof mac0, &verdict, &input);
    is("a table without keys", verdict.status, COSE_CLOSED);
    cose_table_read(&table, keys, sizeof keys, &key_set);
    cose_table_verify(&table, NULL, 0, COSE_TAGGED, mac0, sizeof mac0, &verdict, &input);
    is("a table", verdict.status, COSE_AUTHENTIC);
    cose_table_verify(&table, NULL, 0, (enum cose_kind_number)273, mac0, sizeof mac0, &verdict, &input);
    is("a table: kind", verdict.status, COSE_BAD_ARGUMENT);
    cose_table_read(&table, NULL, 0, &key_set);
    is("a table: no keys", key_set.status, COSE_KEYS_REFUSED);
    cose_table_verify(&table, NULL, 0, COSE_TAGGED, mac0, sizeof mac0, &verdict, &input);
    is("a table after refused keys", verdict.status, COSE_CLOSED);
    cose_table_read(&table, keys, sizeof keys, &key_set);
    is("a table, read again", key_set.status, COSE_COMPLETE);
    cose_table_read(&table, NULL, 1, &key_set);
    is("a table: NULL", key_set.status, COSE_BAD_ARGUMENT);
    is("a table: NULL, its reason and place", key_set.reason + key_set.place + key_set.usable, 0);
    cose_table_verify(&table, NULL, 0, COSE_TAGGED, mac0, sizeof mac0, &verdict, &input);
    is("a table after NULL", verdict.status, COSE_CLOSED);
}

static struct cose_made made(struct cose_maker *maker, int32_t alg, const uint8_t *key, size_t key_length,
                             size_t aad_length, size_t head_room)
{
    static uint8_t head[384];
    struct cose_made found;
    cose_make(maker, alg, key, key_length, NULL, 0, much, aad_length, 2, head, head_room, &found);
    return found;
}

static void makers(void)
{
    static uint8_t tail[70];
    const size_t n = sizeof keys;
    struct cose_maker maker = {block};
    struct cose_made found;
    is("the size of a maker", cose_maker_size() <= sizeof block && cose_maker_align() <= 64, 1);
    cose_maker_begin(block);
    is("a piece of nothing", cose_make_piece(&maker, mac0, 1), 0);
    cose_make_end(&maker, tail, sizeof tail, &found);
    is("the end of nothing", found.status, COSE_CLOSED);
    for (int32_t alg = -40; alg < 300; alg++)
        if (alg < 4 || alg > 7)
            is("an algorithm", made(&maker, alg, keys, n, 0, 384).status, COSE_BAD_ARGUMENT);
    is("no key", made(&maker, 5, NULL, 0, 0, 384).status, COSE_KEYS_REFUSED);
    is("NULL for a key", made(&maker, 5, NULL, 1, 0, 384).status, COSE_BAD_ARGUMENT);
    is("a point for a key", made(&maker, 5, point, 75, 0, 384).status, COSE_KEYS_REFUSED);
    is("too much data", made(&maker, 5, keys, n, 65536, 384).status, COSE_AAD_TOO_LONG);
    is("no room", made(&maker, 5, keys, n, 0, 7).status, COSE_BAD_ARGUMENT);
    cose_make_end(&maker, tail, sizeof tail, &found);
    is("the end of what wasn't begun", found.status, COSE_CLOSED);
    is("room for eight", made(&maker, 5, keys, n, 0, 8).length, 8);
    is("three bytes for two", cose_make_piece(&maker, mac0 + 8, 3), 2);
    cose_make_end(&maker, tail, 69, &found);
    is("no room for the end", found.status, COSE_BAD_ARGUMENT);
    cose_make_end(&maker, tail, sizeof tail, &found);
    is("the end", found.status == COSE_COMPLETE && memcmp(tail, mac0 + 10, found.length) == 0, 1);
    cose_make_end(&maker, tail, sizeof tail, &found);
    is("the end again", found.status, COSE_CLOSED);
    is("made again", made(&maker, 5, keys, n, 0, 384).length, 8);
    is("made again: NULL", made(&maker, 5, NULL, 1, 0, 384).status, COSE_BAD_ARGUMENT);
    is("a piece after NULL", cose_make_piece(&maker, mac0 + 8, 2), 0);
    cose_make_end(&maker, tail, sizeof tail, &found);
    is("the end after NULL", found.status, COSE_CLOSED);
}

static struct cose_made signed_by(struct cose_signer *signer, int32_t alg, size_t kid_length, size_t aad_length,
                                  size_t head_room)
{
    static uint8_t head[384];
    struct cose_made found;
    cose_make_sign1(signer, alg, much, kid_length, much, aad_length, 2, head, head_room, &found);
    return found;
}

static void signers(void)
{
    static uint8_t tail[134], digest[64];
    struct cose_signer signer = {block};
    struct cose_made found;
    is("the size of a signer", cose_signer_size() <= sizeof block && cose_signer_align() <= 64, 1);
    cose_signer_begin(block);
    is("a signed piece of nothing", cose_make_sign1_piece(&signer, mac0, 1), 0);
    cose_make_sign1_digest(&signer, digest, sizeof digest, &found);
    is("a digest of nothing", found.status, COSE_CLOSED);
    for (int32_t alg = -60; alg < 300; alg++)
        if (alg != -7 && alg != -35 && alg != -36 && alg != -9 && alg != -51 && alg != -52)
            is("an algorithm of no signatures", signed_by(&signer, alg, 0, 0, 384).status, COSE_BAD_ARGUMENT);
    is("too long a kid to sign", signed_by(&signer, -7, 256, 0, 384).status, COSE_BAD_ARGUMENT);
    is("too much data to sign", signed_by(&signer, -7, 0, 65536, 384).status, COSE_AAD_TOO_LONG);
    is("no room for a signed head", signed_by(&signer, -7, 0, 0, 7).status, COSE_BAD_ARGUMENT);
    cose_make_sign1_end(&signer, much, 64, tail, sizeof tail, &found);
    is("the end of what wasn't begun to be signed", found.status, COSE_CLOSED);
    is("a signed head", signed_by(&signer, -7, 0, 0, 8).length, 8);
    cose_make_sign1_digest(&signer, digest, sizeof digest, &found);
    is("a digest too early", found.status, COSE_MORE);
    is("three bytes for two to sign", cose_make_sign1_piece(&signer, mac0 + 8, 3), 2);
    cose_make_sign1_digest(&signer, digest, 31, &found);
    is("no room for a digest", found.status, COSE_BAD_ARGUMENT);
    cose_make_sign1_digest(&signer, NULL, 32, &found);
    is("NULL for a digest", found.status, COSE_BAD_ARGUMENT);
    for (int time = 0; time < 2; time++) {
        cose_make_sign1_digest(&signer, digest, 32, &found);
        is("a digest", found.status == COSE_COMPLETE && found.length == 32, 1);
    }
    for (size_t length = 0; length < 140; length++)
        if (length != 64) {
            cose_make_sign1_end(&signer, much, length, tail, sizeof tail, &found);
            is("a signature of another length", found.status, COSE_BAD_ARGUMENT);
        }
    cose_make_sign1_end(&signer, much, 64, tail, 65, &found);
    is("no room for a signature", found.status, COSE_BAD_ARGUMENT);
    cose_make_sign1_end(&signer, much, 64, tail, 66, &found);
    is("a signature", found.status == COSE_COMPLETE && found.length == 66 && memcmp(tail + 2, much, 64) == 0, 1);
    cose_make_sign1_end(&signer, much, 64, tail, sizeof tail, &found);
    is("a signature again", found.status, COSE_CLOSED);
}

int main(void)
{
    one_call();
    claims();
    stated();
    choices();
    blocks();
    blocks_under_terms();
    elsewhere();
    reopened();
    large_reopened();
    signatures();
    numbers_of_messages();
    wiped();
    bytes_wiped();
    names();
    tables();
    makers();
    signers();
    printf("%d failed\n", failures);
    return failures != 0;
}
