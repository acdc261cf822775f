/* A caller in C who follows SECURITY's checklist: what it makes of each row of rows/checklist.json. ci/checklist writes
 * rows.h, which has the rows, and runs this; it prints each row that is answered otherwise, and how many there are. */
#include "cose.h"
#include <inttypes.h>
#include <stdio.h>

struct bytes {
    const uint8_t *at;
    size_t length;
};

/* What a row says of a signature. */
struct signature {
    struct bytes digest, bytes;
    int is_good;
};

struct answer {
    uint8_t status, reason;
    uint64_t place;
    int is_dropped;
};

struct row {
    int number, line;
    struct cose_terms terms;
    struct cose_requirements requirements;
    /* the labels without which the message is dropped, before the first 0: of the unprotected bucket, and of the
     * protected one */
    int64_t labels[2][2];
    struct bytes token, payload;
    int is_detached;
    struct signature signature;
    struct answer wanted;
    /* whether the limits of the small calls decide it */
    int is_small;
};

#include "rows.h"

static int is_same(struct bytes wanted, const uint8_t *at, size_t length)
{
    return wanted.length == length && memcmp(wanted.at, at, length) == 0;
}

/* In place of what knows the curve: asked about what the row doesn't have, it says the contrary. */
static int is_good(const struct signature *said, const struct cose_signature_input *input)
{
    int is_asked = is_same(said->digest, input->digest, input->digest_length) &&
                   is_same(said->bytes, input->signature, input->signature_length);
    return said->bytes.length > 0 && is_asked == said->is_good;
}

/* The calls of a row: those of either size, or those of a table that was read under the row's terms. */
enum way { SMALL, LARGE, TABLE };

static _Alignas(COSE_BLOCK_ALIGN) uint8_t block[COSE_TABLE_BLOCK];
static struct cose_table table = {block};

/* The verdict on a message in one call. A signature that isn't good leaves it COSE_SIGNED, which isn't COSE_AUTHENTIC.
 */
static struct cose_message_verdict authenticated(const struct row *row, enum way way)
{
    struct cose_message_verdict verdict;
    struct cose_signature_input input;
    const struct bytes token = row->token, payload = row->payload;
    const int is_large = way == LARGE;
    if (way == TABLE)
        cose_table_authenticate(&table, token.at, token.length, &verdict, &input);
    else if (row->is_detached)
        (is_large ? cose_large_authenticate_detached : cose_authenticate_detached)(
            &row->terms, token.at, token.length, payload.at, payload.length, &verdict, &input);
    else
        (is_large ? cose_large_authenticate : cose_authenticate)(&row->terms, token.at, token.length, &verdict, &input);
    if (verdict.status == COSE_SIGNED && is_good(&row->signature, &input))
        verdict.status = COSE_AUTHENTIC;
    return verdict;
}

/* The claims of a token: of a signed one in two calls. */
static struct answer admitted(const struct row *row, enum way way)
{
    struct cose_claims_set claims;
    const struct bytes token = row->token;
    const int is_large = way == LARGE;
    if (way == TABLE)
        cose_table_admit(&table, &row->requirements, token.at, token.length, &claims);
    else
        (is_large ? cose_large_admit : cose_admit)(&row->terms, &row->requirements, token.at, token.length, &claims);
    if (claims.status == COSE_SIGNED) {
        struct cose_message_verdict verdict = authenticated(row, way);
        if (verdict.status != COSE_AUTHENTIC)
            return (struct answer){verdict.status, verdict.reason, verdict.place, 0};
        (is_large ? cose_large_admit_claims : cose_admit_claims)(&row->requirements, token.at + verdict.payload_at,
                                                                 (size_t)verdict.payload_length, &claims);
    }
    return (struct answer){claims.status, claims.reason, claims.place, 0};
}

/* Whether a bucket has these parameters. */
static int has_parameters(const struct row *row, uint32_t is_protected, int is_large)
{
    int has_all = 1;
    for (const int64_t *label = row->labels[is_protected]; *label != 0; label++) {
        struct cose_item item;
        (is_large ? cose_large_parameter : cose_parameter)((enum cose_kind_number)row->terms.kind, row->token.at,
                                                           row->token.length, is_protected, *label, &item);
        has_all &= item.present;
    }
    return has_all;
}

static struct answer checked(const struct row *row, enum way way)
{
    if (row->is_detached) {
        struct cose_message_verdict verdict = authenticated(row, way);
        return (struct answer){verdict.status, verdict.reason, verdict.place, 0};
    }
    if (way == TABLE) {
        struct cose_key_set key_set;
        cose_table_read_under(&table, &row->terms, &key_set);
        if (key_set.status != COSE_COMPLETE)
            return (struct answer){key_set.status, key_set.reason, key_set.place, 0};
    }
    struct answer answer = admitted(row, way);
    if (answer.status == COSE_AUTHENTIC)
        answer.is_dropped = !has_parameters(row, 0, way == LARGE) || !has_parameters(row, 1, way == LARGE);
    return answer;
}

static int differs(const struct row *row, enum way way)
{
    const struct answer seen = checked(row, way), wanted = row->wanted;
    if (seen.status == wanted.status && seen.reason == wanted.reason && seen.place == wanted.place &&
        seen.is_dropped == wanted.is_dropped)
        return 0;
    printf("row %d, line %d: status %u, reason %u at %" PRIu64 ", not status %u, reason %u at %" PRIu64 "\n",
           row->number, row->line, seen.status, seen.reason, seen.place, wanted.status, wanted.reason, wanted.place);
    return 1;
}

int main(void)
{
    const size_t count = sizeof rows / sizeof *rows;
    int differences = 0, in_table = 0;
    cose_table_begin(block);
    for (size_t at = 0; at < count; at++) {
        differences += differs(&rows[at], SMALL) || (!rows[at].is_small && differs(&rows[at], LARGE));
        /* a table has no call for a detached payload */
        if (!rows[at].is_detached) {
            differences += differs(&rows[at], TABLE);
            in_table++;
        }
    }
    printf("checklist: %zu rows, %d of them by a table too, %d differ\n", count, in_table, differences);
    return differences != 0;
}
