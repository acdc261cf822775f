/* Calls the tables of the library that are read under terms, and verifiers that are opened under tables, as no careful
 * caller would: without terms or keys, with those that a table doesn't take, and with NULL. Each call has to answer
 * with one status, and prints a line where it answers with another.
 */
#include "edge_misuse.h"

static struct cose_key_set read_under(struct cose_table *table, const struct cose_terms *terms)
{
    struct cose_key_set key_set;
    memset(&key_set, 0xee, sizeof key_set);
    cose_table_read_under(table, terms, &key_set);
    return key_set;
}

/* The verdict of a table on the message, which is the same twice. */
static struct cose_message_verdict under_table(struct cose_table *table)
{
    struct cose_message_verdict verdict, again;
    struct cose_signature_input input;
    cose_table_authenticate(table, mac0, sizeof mac0, &verdict, &input);
    cose_table_authenticate(table, mac0, sizeof mac0, &again, &input);
    is("a table under terms, again", again.status == verdict.status && again.reason == verdict.reason, 1);
    return verdict;
}

/* A table that wasn't read under terms. */
static void without_terms(struct cose_table *table)
{
    const struct cose_requirements requirements = {.size = sizeof(struct cose_requirements), .now = 1};
    struct cose_claims_set found;
    is("a table without terms: a message", under_table(table).status, COSE_CLOSED);
    cose_table_admit(table, &requirements, mac0, sizeof mac0, &found);
    is("a table without terms: a token", found.status, COSE_CLOSED);
}

/* Terms that a table doesn't take leave it without keys too, whatever it had. */
static void not_read_under(const char *what, struct cose_table *table, const struct cose_terms *terms, uint8_t status)
{
    struct cose_terms good = {.size = sizeof(struct cose_terms), .keys = by_alg, .keys_length = sizeof by_alg};
    struct cose_message_verdict verdict;
    struct cose_signature_input input;
    is("a table under terms", read_under(table, &good).status, COSE_COMPLETE);
    is(what, read_under(table, terms).status, status);
    without_terms(table);
    cose_table_verify(table, NULL, 0, COSE_TAGGED, mac0, sizeof mac0, &verdict, &input);
    is("a table after terms that it doesn't take", verdict.status, COSE_CLOSED);
}

static void not_read(void)
{
    const struct cose_terms good = {.size = sizeof(struct cose_terms), .keys = by_alg, .keys_length = sizeof by_alg};
    struct cose_table table = {block};
    struct cose_terms terms = good;
    cose_table_begin(block);
    without_terms(&table);
    terms.keys = NULL;
    not_read_under("a table under terms: NULL for keys", &table, &terms, COSE_BAD_ARGUMENT);
    struct cose_key_set key_set = read_under(&table, &terms);
    is("a table under terms: NULL, its reason and place", key_set.reason + key_set.place + key_set.usable, 0);
    terms.keys_length = 0;
    not_read_under("a table under terms: no keys", &table, &terms, COSE_KEYS_REFUSED);
    terms = good;
    terms.aad_length = 1;
    not_read_under("a table under terms: NULL for data", &table, &terms, COSE_BAD_ARGUMENT);
    terms.aad = much;
    terms.aad_length = 65536;
    not_read_under("a table under terms: too much data", &table, &terms, COSE_AAD_TOO_LONG);
    terms = good;
    terms.kind = 1;
    not_read_under("a table under terms: the kind", &table, &terms, COSE_BAD_ARGUMENT);
    for (uint32_t size = 0; size < 2 * sizeof terms; size++) {
        terms = good;
        terms.size = size;
        if (size != sizeof terms)
            not_read_under("a table under terms: their size", &table, &terms, COSE_BAD_ARGUMENT);
    }
    for (int permitted = 4; permitted < 256; permitted++) {
        terms = good;
        terms.permitted = (uint8_t)permitted;
        not_read_under("a table under terms: what is permitted", &table, &terms, COSE_BAD_ARGUMENT);
    }
}

static void under_terms(void)
{
    struct cose_table table = {block};
    struct cose_terms terms = {.size = sizeof(struct cose_terms), .keys = by_alg, .keys_length = sizeof by_alg};
    struct cose_message_verdict verdict;
    struct cose_signature_input input;
    struct cose_key_set key_set;
    cose_table_begin(block);
    cose_table_read(&table, keys, sizeof keys, &key_set);
    without_terms(&table);
    terms.understood[0] = 1000;
    key_set = read_under(&table, &terms);
    is("a table under terms", key_set.status == COSE_COMPLETE && key_set.usable == 1, 1);
    memset(&terms, 0xee, sizeof terms);
    is("a table under terms: a message", under_table(&table).status, COSE_AUTHENTIC);
    cose_table_authenticate(&table, NULL, 1, &verdict, &input);
    is("a table under terms: NULL for a message", verdict.status, COSE_BAD_ARGUMENT);
    cose_table_authenticate(&table, NULL, 0, &verdict, &input);
    is("a table under terms: no bytes", verdict.reason, COSE_REASON_TRUNCATED);
    cose_table_verify(&table, NULL, 0, COSE_TAGGED, mac0, sizeof mac0, &verdict, &input);
    is("a table under terms: without them", verdict.status, COSE_AUTHENTIC);
    cose_table_read(&table, keys, sizeof keys, &key_set);
    without_terms(&table);
    terms = (struct cose_terms){.size = sizeof terms, .keys = keys, .keys_length = sizeof keys};
    is("a table under terms: a key without alg", read_under(&table, &terms).usable, 0);
    is("a table under terms: no key", under_table(&table).reason, COSE_REASON_NO_KEY);
    terms.permitted = COSE_WITHOUT_ALG | COSE_SHORT_MAC;
    is("a table under terms: both flags", read_under(&table, &terms).usable, 1);
    is("a table under terms: a key without alg", under_table(&table).status, COSE_AUTHENTIC);
    is("a table under terms, in use", left_in(block, cose_table_size(), cose_table_begin) > 0, 1);
    cose_table_wipe(&table);
    is("bytes left of a table under terms", left_in(block, cose_table_size(), cose_table_begin), 0);
    without_terms(&table);
}

static void admits(void)
{
    struct cose_table table = {block};
    const struct cose_terms terms = {.size = sizeof terms, .keys = by_alg, .keys_length = sizeof by_alg};
    struct cose_requirements requirements = {.size = sizeof requirements, .now = 1};
    struct cose_claims_set found;
    cose_table_begin(block);
    is("a table that admits", read_under(&table, &terms).status, COSE_COMPLETE);
    cose_table_admit(&table, &requirements, mac0, sizeof mac0, &found);
    is("a table that admits: no claims", found.status, COSE_CLAIMS_REFUSED);
    cose_table_admit(&table, &requirements, NULL, 1, &found);
    is("a table that admits: NULL for a token", found.status, COSE_BAD_ARGUMENT);
    cose_table_admit(&table, &requirements, NULL, 0, &found);
    is("a table that admits: no bytes", found.reason, COSE_REASON_TRUNCATED);
    for (uint32_t size = 0; size < sizeof requirements; size++) {
        requirements.size = size;
        cose_table_admit(&table, &requirements, mac0, sizeof mac0, &found);
        is("a table that admits: their size", found.status, COSE_BAD_ARGUMENT);
    }
    requirements.size = sizeof requirements;
    requirements.aud_length = 1;
    cose_table_admit(&table, &requirements, mac0, sizeof mac0, &found);
    is("a table that admits: NULL for a text", found.status, COSE_BAD_ARGUMENT);
    requirements.aud_length = 0;
    requirements.now = 0;
    cose_table_admit(&table, &requirements, mac0, sizeof mac0, &found);
    is("a table that admits: no time", found.status, COSE_BAD_ARGUMENT);
    is("a table that admits: a message", under_table(&table).status, COSE_AUTHENTIC);
}

/* Verifiers of both sizes under a table: the calls are written once, and take the handle of either. */
#define FED_UNDER(what, verifier, wanted)                                                                              \
    do {                                                                                                               \
        struct cose_fed fed;                                                                                           \
        struct cose_message_verdict verdict;                                                                           \
        cose_feed(verifier, mac0, sizeof mac0, &fed);                                                                  \
        cose_verdict(verifier, 0, &verdict);                                                                           \
        is(what, verdict.status, wanted);                                                                              \
        cose_reset(verifier);                                                                                          \
    } while (0)
#define OPENED_UNDER(what, verifier, aad, length, kind, wanted)                                                        \
    do {                                                                                                               \
        struct cose_status status;                                                                                     \
        cose_open_table(verifier, &table, aad, length, kind, &status);                                                 \
        is(what, status.status, wanted);                                                                               \
        cose_open_table_detached(verifier, &table, aad, length, kind, 2, &status);                                     \
        is(what ", with a detached payload", status.status, wanted);                                                   \
        FED_UNDER(what ": a message that isn't detached", verifier, wanted == COSE_MORE ? COSE_REFUSED : COSE_CLOSED); \
        cose_open_table(verifier, &table, aad, length, kind, &status);                                                 \
    } while (0)
#define TRY_UNDER(verifier)                                                                                            \
    do {                                                                                                               \
        cose_table_begin(block);                                                                                       \
        OPENED_UNDER("under a table that isn't read", verifier, NULL, 0, COSE_TAGGED, COSE_CLOSED);                    \
        FED_UNDER("under a table that isn't read", verifier, COSE_CLOSED);                                             \
        cose_table_read(&table, keys, sizeof keys, &key_set);                                                          \
        OPENED_UNDER("under a table", verifier, NULL, 0, COSE_MAC0, COSE_MORE);                                        \
        FED_UNDER("under a table", verifier, COSE_AUTHENTIC);                                                          \
        FED_UNDER("under a table, again", verifier, COSE_AUTHENTIC);                                                   \
        OPENED_UNDER("under a table: NULL", verifier, NULL, 1, COSE_MAC0, COSE_BAD_ARGUMENT);                          \
        FED_UNDER("under a table: after NULL", verifier, COSE_CLOSED);                                                 \
        OPENED_UNDER("under a table: other data", verifier, much, 1, COSE_MAC0, COSE_MORE);                            \
        FED_UNDER("under a table: other data", verifier, COSE_REFUSED);                                                \
        OPENED_UNDER("under a table: much data", verifier, much, sizeof much, COSE_MAC0, COSE_AAD_TOO_LONG);           \
        OPENED_UNDER("under a table: kind", verifier, NULL, 0, (enum cose_kind_number)273, COSE_BAD_ARGUMENT);         \
        OPENED_UNDER("under a table: the other kind", verifier, NULL, 0, COSE_SIGN1, COSE_MORE);                       \
        FED_UNDER("under a table: the other kind", verifier, COSE_REFUSED);                                            \
        is("a table under terms", read_under(&table, &terms).usable, 0);                                               \
        OPENED_UNDER("under a table that permits no key", verifier, NULL, 0, COSE_MAC0, COSE_MORE);                    \
        FED_UNDER("under a table that permits no key", verifier, COSE_REFUSED);                                        \
    } while (0)

static void opened_under(void)
{
    static _Alignas(COSE_BLOCK_ALIGN) uint8_t small_block[COSE_VERIFIER_BLOCK], large_block[COSE_LARGE_VERIFIER_BLOCK];
    const struct cose_terms terms = {.size = sizeof terms, .keys = keys, .keys_length = sizeof keys};
    struct cose_verifier small = {small_block};
    struct cose_large_verifier large = {large_block};
    struct cose_table table = {block};
    struct cose_key_set key_set;
    cose_begin(small_block);
    cose_large_begin(large_block);
    TRY_UNDER(&small);
    TRY_UNDER(&large);
}

int main(void)
{
    not_read();
    under_terms();
    admits();
    opened_under();
    printf("%d failed\n", failures);
    return failures != 0;
}
