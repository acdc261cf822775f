/* A gateway: verifies the token (RFC 8392) that is in a file, under the keys in another file, and prints its claims.
 *
 * usage: gateway KEYS TOKEN AUDIENCE [NOW]
 *
 * KEYS has a COSE_Key or a COSE_KeySet. AUDIENCE is the gateway's name: a token that doesn't name it is refused, and so
 * is one that never expires. NOW is the current time in seconds since 1970, by default that of the clock.
 *
 * The exit status is 0 where the token is admitted, 1 where it is refused, 2 where there is no answer. */
#include "cose.h"
#include "load.h"
#include <errno.h>
#include <inttypes.h>
#include <stdlib.h>
#include <string.h>
#include <time.h>

enum { ADMITTED = 0, REFUSED = 1, NO_ANSWER = 2 };

static uint8_t keys[65535], token[8192];

/* A text of a stranger: what isn't a printable character of ASCII is escaped. */
static void print_text(const char *name, const uint8_t *payload, struct cose_range text)
{
    if (!text.present)
        return;
    printf("%s ", name);
    for (const uint8_t *byte = payload + text.at; byte < payload + text.at + text.length; byte++)
        printf(*byte >= ' ' && *byte < 0x7f && *byte != '\\' ? "%c" : "\\x%02x", *byte);
    putchar('\n');
}

static void print_bytes(const char *name, const uint8_t *payload, struct cose_range bytes)
{
    if (!bytes.present)
        return;
    printf("%s ", name);
    for (const uint8_t *byte = payload + bytes.at; byte < payload + bytes.at + bytes.length; byte++)
        printf("%02x", *byte);
    putchar('\n');
}

static void print_date(const char *name, struct cose_date date)
{
    if (!date.present)
        return;
    if (!date.negative)
        printf("%s %" PRIu64 "\n", name, date.number);
    else if (date.number < UINT64_MAX)
        printf("%s -%" PRIu64 "\n", name, date.number + 1);
    else
        printf("%s -18446744073709551616\n", name);
}

static void print_claims(const struct cose_claims_set *claims)
{
    const uint8_t *payload = token + claims->payload_at;
    print_text("iss", payload, claims->iss);
    print_text("sub", payload, claims->sub);
    struct cose_range audience = claims->aud;
    for (uint64_t left = claims->aud_count; left > 0; left--) {
        print_text("aud", payload, audience);
        cose_next_audience(payload, (size_t)claims->payload_length, audience.at + audience.length, &audience);
    }
    print_date("exp", claims->exp);
    print_date("nbf", claims->nbf);
    print_date("iat", claims->iat);
    print_bytes("cti", payload, claims->cti);
    print_bytes("cnf kid", payload, claims->cnf_kid);
    if (claims->cnf_crv != 0)
        printf("cnf key on curve %u\n", claims->cnf_crv);
    print_bytes("cnf x", payload, claims->cnf_x);
    print_bytes("cnf y", payload, claims->cnf_y);
}

/* Reads the current time: a number that isn't one would be 1970, when no token has expired. */
static int read_time(const char *text, int64_t *now)
{
    char *end;
    errno = 0;
    long long number = text == NULL ? (long long)time(NULL) : strtoll(text, &end, 10);
    *now = number;
    return errno == 0 && number > 0 && (text == NULL || *end == '\0') ? 0 : -1;
}

/* Says what came of the token. */
static int answer(const struct cose_claims_set *claims)
{
    switch (claims->status) {
    case COSE_AUTHENTIC:
        /* The policy lets these two through; this gateway doesn't. */
        if (claims->aud_count == 0 || !claims->exp.present) {
            puts("refused: the token names no audience, or never expires");
            return REFUSED;
        }
        puts("admitted");
        print_claims(claims);
        return ADMITTED;
    case COSE_SIGNED: /* adapters/ has what verifies a signature */
        puts("refused: the token is signed, and this gateway knows no curve");
        return REFUSED;
    case COSE_REFUSED:
        printf("refused: reason %u at %" PRIu64 " of the token\n", claims->reason, claims->place);
        return REFUSED;
    case COSE_CLAIMS_REFUSED:
        printf("refused: reason %u at %" PRIu64 " of the claims\n", claims->reason, claims->place);
        return REFUSED;
    case COSE_KEYS_REFUSED:
        fprintf(stderr, "the keys are refused: reason %u at %" PRIu64 "\n", claims->reason, claims->place);
        return NO_ANSWER;
    case COSE_BAD_AUDIENCE:
        fputs("the audience isn't UTF-8\n", stderr);
        return NO_ANSWER;
    default:
        fprintf(stderr, "no answer: status %u\n", claims->status);
        return NO_ANSWER;
    }
}

int main(int count, char **arguments)
{
    size_t keys_length, token_length;
    if (count != 4 && count != 5) {
        fputs("usage: gateway KEYS TOKEN AUDIENCE [NOW]\n", stderr);
        return NO_ANSWER;
    }
    if (load(arguments[1], keys, sizeof keys, &keys_length) != 0 ||
        load(arguments[2], token, sizeof token, &token_length) != 0)
        return NO_ANSWER;
    struct cose_policy policy = {
        .leeway = 60, /* seconds, by which the issuer's clock may differ */
        .has_audience = 1,
        .audience = (const uint8_t *)arguments[3],
        .audience_length = strlen(arguments[3]),
    };
    if (read_time(count == 5 ? arguments[4] : NULL, &policy.now) != 0) {
        fputs("the current time isn't known\n", stderr);
        return NO_ANSWER;
    }
    struct cose_claims_set claims;
    cose_verify_cwt(keys, keys_length, NULL, 0, &policy, token, token_length, &claims);
    int status = answer(&claims);
    return fflush(stdout) == 0 ? status : NO_ANSWER;
}
