/* Calls each function of the library on a stack of the size that docs/C.md promises, below which no byte can be
 * touched: a call that takes more ends the program, which says in which call. The bytes are those that take much stack
 * (ci/edge_stack.h). It prints how many calls there were. */
#define _GNU_SOURCE
#include "edge_stack.h"
#include <signal.h>
#include <stdio.h>
#include <sys/mman.h>
#include <ucontext.h>
#include <unistd.h>

static const struct cose_policy policy = {0, 0, 1, (const uint8_t *)"b", 1};

/* Terms that permit one_key, which names no algorithm, and those of 64 keys. */
static struct cose_terms terms, terms_of_keys, terms_of_kind;
static const struct cose_requirements requirements = {
    .size = sizeof(struct cose_requirements),
    .now = 1,
    .aud = (const uint8_t *)"b",
    .aud_length = 1,
    .permitted = COSE_WITHOUT_EXP,
};

static void state(void)
{
    terms.size = sizeof terms;
    terms.permitted = COSE_SHORT_MAC + COSE_WITHOUT_ALG;
    terms_of_keys = terms;
    terms.keys = one_key.bytes;
    terms.keys_length = one_key.length;
    terms_of_keys.keys = keys.bytes;
    terms_of_keys.keys_length = keys.length;
    terms_of_kind = terms_of_keys;
    terms_of_kind.kind = COSE_MAC0;
}

#define OF(written) (written).bytes, (written).length

static void verify(void)
{
    cose_verify(OF(one_key), NULL, 0, COSE_TAGGED, OF(message), &verdict, &input);
}
static void verify_keys(void)
{
    cose_verify(OF(keys), NULL, 0, COSE_TAGGED, OF(message), &verdict, &input);
}
static void verify_beside(void)
{
    cose_verify_detached(OF(one_key), NULL, 0, COSE_TAGGED, OF(detached), OF(payload), &verdict, &input);
}
static void verify_eddsa(void)
{
    cose_verify_eddsa(OF(okp_key), NULL, 0, COSE_TAGGED, OF(signed_message), &eddsa, &pieces);
}
static void verify_eddsa_beside(void)
{
    cose_verify_eddsa_detached(OF(okp_key), NULL, 0, COSE_TAGGED, OF(signed_detached), OF(payload), &eddsa, &pieces);
}
static void open_under(void)
{
    cose_open_under(&verifier, &terms, &status);
}
static void open_under_beside(void)
{
    cose_open_under_detached(&verifier, &terms, payload.length, &status);
}
static void large_open_under(void)
{
    cose_large_open_under(&large, &terms, &status);
}
static void large_open_under_beside(void)
{
    cose_large_open_under_detached(&large, &terms, payload.length, &status);
}
static void shapes(void)
{
    cose_shape(COSE_TAGGED, OF(message), &shape);
}
static void read_keys(void)
{
    cose_read_keys(OF(keys), &key_set);
}
static void verify_cwt(void)
{
    cose_verify_cwt(OF(one_key), NULL, 0, &policy, OF(token), &claims);
}
static void claims_of(void)
{
    cose_claims(OF(deep_claims), &policy, &claims);
}
static void large_claims(void)
{
    cose_large_claims(OF(deep_claims), &policy, &claims);
}
static void audience(void)
{
    cose_audience(OF(deep_claims), 1, &range);
}
static void next_audience(void)
{
    cose_next_audience(OF(deep_claims), range.at - 1, &range);
}
static void claim(void)
{
    cose_claim(OF(deep_claims), 0x17, &item);
}
static void claim_named(void)
{
    cose_claim_named(OF(deep_claims), (const uint8_t *)"s", 1, &item);
}
static void item_at(void)
{
    cose_item_at(OF(deep_claims), 0, &item);
}
static void parameter(void)
{
    cose_parameter(COSE_TAGGED, OF(message), 1, 0x17, &item);
}
static void parameter_named(void)
{
    cose_parameter_named(COSE_TAGGED, OF(message), 0, (const uint8_t *)"s", 1, &item);
}
static void header(void)
{
    cose_header(&verifier, 1, 0x17, room, sizeof room, &item);
}
static void header_named(void)
{
    cose_header_named(&verifier, 0, (const uint8_t *)"s", 1, room, sizeof room, &item);
}
static void begin(void)
{
    cose_begin(block);
}
static void open_it(void)
{
    cose_open(&verifier, OF(one_key), NULL, 0, COSE_TAGGED, &status);
}
static void open_beside(void)
{
    cose_open_detached(&verifier, OF(one_key), NULL, 0, COSE_TAGGED, payload.length, &status);
}
static void feed(void)
{
    cose_feed(&verifier, OF(message), &fed);
}
static void feed_head(void)
{
    cose_feed(&verifier, detached.bytes, detached.length - 34, &fed);
}
static void feed_payload(void)
{
    number = cose_feed_payload(&verifier, OF(payload));
}
static void feed_tag(void)
{
    cose_feed(&verifier, detached.bytes + detached.length - 34, 34, &fed);
}
static void end(void)
{
    cose_end(&verifier, &status);
}
static void sign_input(void)
{
    number = cose_sign_input(&verifier, &input);
}
static void decide(void)
{
    cose_verdict(&verifier, 1, &verdict);
}
static void decide_for(void)
{
    cose_verdict_for(&verifier, cose_message_number(&verifier), 1, &verdict);
}
static void reset(void)
{
    cose_reset(&verifier);
}
static void key_of(void)
{
    cose_key_of(&terms_of_kind, OF(message), &item);
}
static void mismatch(void)
{
    cose_mismatch(&terms_of_kind, OF(message), 2, &fit);
}
static void fed_key_of(void)
{
    cose_fed_key_of(&verifier, &terms_of_kind, &item);
}
static void large_key_of(void)
{
    cose_large_key_of(&terms_of_kind, OF(message), &item);
}
static void large_mismatch(void)
{
    cose_large_mismatch(&terms_of_kind, OF(message), 2, &fit);
}
static void large_fed_key_of(void)
{
    cose_large_fed_key_of(&large, &terms_of_kind, &item);
}
static void wipe_bytes(void)
{
    cose_wipe_bytes(room, sizeof room);
}
static void large_begin(void)
{
    cose_large_begin(large_block);
}
static void large_open(void)
{
    cose_large_open(&large, OF(one_key), NULL, 0, COSE_TAGGED, &status);
}
static void large_feed(void)
{
    cose_large_feed(&large, OF(deep_message), &fed);
}
static void large_decide(void)
{
    cose_large_verdict(&large, 1, &verdict);
}
static void large_reset(void)
{
    cose_large_reset(&large);
}
static void large_open_beside(void)
{
    cose_large_open_detached(&large, OF(one_key), NULL, 0, COSE_TAGGED, payload.length, &status);
}
static void large_feed_head(void)
{
    cose_large_feed(&large, detached.bytes, detached.length - 34, &fed);
}
static void large_feed_payload(void)
{
    number = cose_large_feed_payload(&large, OF(payload));
}
static void large_end(void)
{
    cose_large_end(&large, &status);
}
static void large_sign_input(void)
{
    number = cose_large_sign_input(&large, &input);
}
static void large_decide_for(void)
{
    cose_large_verdict_for(&large, cose_large_message_number(&large), 1, &verdict);
}
/* A function that makes one call. */
#define CALL(name, call)                                                                                               \
    static void name(void)                                                                                             \
    {                                                                                                                  \
        call;                                                                                                          \
    }
CALL(device_begin, cose_device_begin(device_block))
CALL(device_open, cose_device_open(&device, OF(one_key), NULL, 0, COSE_TAGGED, &status))
CALL(device_open_beside, cose_device_open_detached(&device, OF(one_key), NULL, 0, COSE_TAGGED, payload.length, &status))
CALL(device_feed, cose_device_feed(&device, OF(device_message), &fed))
CALL(device_feed_head, cose_device_feed(&device, device_detached.bytes, device_detached.length - 34, &fed))
CALL(device_feed_payload, number = cose_device_feed_payload(&device, OF(payload)))
CALL(device_end, cose_device_end(&device, &status))
CALL(device_sign_input, number = cose_device_sign_input(&device, &input))
CALL(device_decide, cose_device_verdict(&device, 1, &verdict))
CALL(device_decide_for, cose_device_verdict_for(&device, cose_device_message_number(&device), 1, &verdict))
CALL(device_reset, cose_device_reset(&device))
static void device_numbers(void)
{
    number = cose_device_wanted(&device) + cose_device_payload_wanted(&device) + cose_device_taken(&device) +
             cose_device_held(&device) + cose_device_verifier_size() + cose_device_verifier_align();
}
static void open_elsewhere(void)
{
    cose_open_elsewhere(&verifier, OF(one_key), NULL, 0, COSE_TAGGED, &status);
}
static void open_elsewhere_beside(void)
{
    cose_open_elsewhere_detached(&verifier, OF(one_key), NULL, 0, COSE_TAGGED, payload.length, &status);
}
static void front_pieces(void)
{
    answered = cose_front_pieces(&verifier, room, sizeof room, &pieces);
}
static void asked_key(void)
{
    answered = cose_asked_key(&verifier, &asked);
}
static void asked_signature(void)
{
    answered = cose_asked_signature(&verifier, &signature);
}
static void verdict_of_mac(void)
{
    cose_verdict_of_mac(&verifier, room, 32, &verdict);
}
static void verdict_of_answer(void)
{
    cose_verdict_of_answer(&verifier, cose_message_number(&verifier), 1, &verdict);
}
static void large_open_elsewhere(void)
{
    cose_large_open_elsewhere(&large, OF(one_key), NULL, 0, COSE_TAGGED, &status);
}
static void large_open_elsewhere_beside(void)
{
    cose_large_open_elsewhere_detached(&large, OF(one_key), NULL, 0, COSE_TAGGED, payload.length, &status);
}
static void large_front_pieces(void)
{
    answered = cose_large_front_pieces(&large, room, sizeof room, &pieces);
}
static void large_asked_key(void)
{
    answered = cose_large_asked_key(&large, &asked);
}
static void large_asked_signature(void)
{
    answered = cose_large_asked_signature(&large, &signature);
}
static void large_verdict_of_mac(void)
{
    cose_large_verdict_of_mac(&large, room, 32, &verdict);
}
static void large_verdict_of_answer(void)
{
    cose_large_verdict_of_answer(&large, cose_large_message_number(&large), 1, &verdict);
}
static void numbers(void)
{
    number = cose_wanted(&verifier) + cose_payload_wanted(&verifier) + cose_taken(&verifier) + cose_held(&verifier) +
             cose_message_number(&verifier) + cose_version() + cose_verifier_size() + cose_verifier_align() +
             cose_table_size() + cose_table_align() + cose_maker_size() + cose_maker_align() + cose_signer_size() +
             cose_signer_align();
}
static void large_numbers(void)
{
    number = cose_large_wanted(&large) + cose_large_payload_wanted(&large) + cose_large_taken(&large) +
             cose_large_held(&large) + cose_large_verifier_size() + cose_large_verifier_align();
}
static void table_begin(void)
{
    cose_table_begin(table_block);
}
static void table_read(void)
{
    cose_table_read(&table, OF(keys), &key_set);
}
static void table_verify(void)
{
    cose_table_verify(&table, NULL, 0, COSE_TAGGED, OF(message), &verdict, &input);
}
static void table_read_one(void)
{
    cose_table_read(&table, OF(one_key), &key_set);
}
static void table_verify_cwt(void)
{
    cose_table_verify_cwt(&table, NULL, 0, &policy, OF(token), &claims);
}
static void table_read_under(void)
{
    cose_table_read_under(&table, &terms_of_keys, &key_set);
}
static void table_authenticate(void)
{
    cose_table_authenticate(&table, OF(message), &verdict, &input);
}
static void table_read_under_one(void)
{
    cose_table_read_under(&table, &terms, &key_set);
}
static void open_table(void)
{
    cose_open_table(&verifier, &table, NULL, 0, COSE_TAGGED, &status);
}
static void open_table_beside(void)
{
    cose_open_table_detached(&verifier, &table, NULL, 0, COSE_TAGGED, payload.length, &status);
}
static void large_open_table(void)
{
    cose_large_open_table(&large, &table, NULL, 0, COSE_TAGGED, &status);
}
static void large_open_table_beside(void)
{
    cose_large_open_table_detached(&large, &table, NULL, 0, COSE_TAGGED, payload.length, &status);
}
static void table_admit(void)
{
    cose_table_admit(&table, &requirements, OF(token), &claims);
}
static void maker_begin(void)
{
    cose_maker_begin(block);
}
static void make(void)
{
    cose_make(&maker, 7, OF(one_key), (const uint8_t *)"kid", 3, NULL, 0, payload.length, room, sizeof room, &made);
}
static void make_piece(void)
{
    number = cose_make_piece(&maker, OF(payload));
}
static void make_end(void)
{
    cose_make_end(&maker, room, sizeof room, &made);
}
static void signer_begin(void)
{
    cose_signer_begin(block);
}
static void make_sign1(void)
{
    cose_make_sign1(&signer, -36, (const uint8_t *)"kid", 3, NULL, 0, payload.length, room, sizeof room, &made);
}
static void make_sign1_piece(void)
{
    number = cose_make_sign1_piece(&signer, OF(payload));
}
static void make_sign1_digest(void)
{
    cose_make_sign1_digest(&signer, room, sizeof room, &made);
}
static void make_sign1_end(void)
{
    static const uint8_t signature[132];
    cose_make_sign1_end(&signer, signature, sizeof signature, room, sizeof room, &made);
}
static void large_verify(void)
{
    cose_large_verify(OF(one_key), NULL, 0, COSE_TAGGED, OF(deep_message), &verdict, &input);
}
static void large_beside(void)
{
    cose_large_verify_detached(OF(one_key), NULL, 0, COSE_TAGGED, OF(detached), OF(payload), &verdict, &input);
}
static void large_parameter(void)
{
    cose_large_parameter(COSE_TAGGED, OF(deep_message), 1, 0x17, &item);
}
static void large_parameter_named(void)
{
    cose_large_parameter_named(COSE_TAGGED, OF(deep_message), 0, (const uint8_t *)"s", 1, &item);
}
static void large_header(void)
{
    cose_large_header(&large, 1, 0x17, room, sizeof room, &item);
}
static void large_header_named(void)
{
    cose_large_header_named(&large, 0, (const uint8_t *)"s", 1, room, sizeof room, &item);
}
static void large_cwt(void)
{
    cose_large_verify_cwt(OF(one_key), NULL, 0, &policy, OF(token), &claims);
}

static void authenticate(void)
{
    cose_authenticate(&terms, OF(message), &verdict, &input);
}
static void authenticate_keys(void)
{
    cose_authenticate(&terms_of_keys, OF(message), &verdict, &input);
}
static void authenticate_beside(void)
{
    cose_authenticate_detached(&terms, OF(detached), OF(payload), &verdict, &input);
}
static void admit(void)
{
    cose_admit(&terms, &requirements, OF(token), &claims);
}
static void admit_claims(void)
{
    cose_admit_claims(&requirements, OF(deep_claims), &claims);
}
static void large_admit_claims(void)
{
    cose_large_admit_claims(&requirements, OF(deep_claims), &claims);
}
static void large_authenticate(void)
{
    cose_large_authenticate(&terms, OF(deep_message), &verdict, &input);
}
static void large_authenticate_beside(void)
{
    cose_large_authenticate_detached(&terms, OF(detached), OF(payload), &verdict, &input);
}
static void large_admit(void)
{
    cose_large_admit(&terms, &requirements, OF(token), &claims);
}

enum { KIB = 1024, SMALL = 16 * KIB, LARGE = 160 * KIB };

/* The calls in their order, the stack that each is promised, and what its answer is. */
static const struct {
    const char *name;
    void (*call)(void);
    size_t stack;
    const uint8_t *answer;
    uint8_t wanted;
} calls[] = {
    {"verify", verify, SMALL, &verdict.reason, COSE_REASON_BAD_AUTH},
    {"verify, 64 keys", verify_keys, SMALL, &verdict.reason, COSE_REASON_AMBIGUOUS_KEY},
    {"verify_detached", verify_beside, SMALL, &verdict.reason, COSE_REASON_BAD_AUTH},
    {"verify_eddsa", verify_eddsa, SMALL, &eddsa.reason, COSE_REASON_BAD_AUTH_LENGTH},
    {"verify_eddsa_detached", verify_eddsa_beside, SMALL, &eddsa.reason, COSE_REASON_BAD_AUTH_LENGTH},
    {"shape", shapes, SMALL, &shape.status, COSE_COMPLETE},
    {"read_keys", read_keys, SMALL, &key_set.status, COSE_COMPLETE},
    {"verify_cwt", verify_cwt, SMALL, &claims.status, COSE_AUTHENTIC},
    {"claims", claims_of, SMALL, &claims.status, COSE_AUTHENTIC},
    {"large_claims", large_claims, SMALL, &claims.status, COSE_AUTHENTIC},
    {"audience", audience, SMALL, &range.present, 1},
    {"next_audience", next_audience, SMALL, &range.present, 1},
    {"claim", claim, SMALL, &item.present, 1},
    {"claim_named", claim_named, SMALL, &item.present, 0},
    {"item_at", item_at, SMALL, &item.present, 1},
    {"parameter", parameter, SMALL, &item.present, 1},
    {"parameter_named", parameter_named, SMALL, &item.present, 0},
    {"begin", begin, SMALL, NULL, 0},
    {"open", open_it, SMALL, &status.status, COSE_MORE},
    {"feed", feed, SMALL, &fed.status.status, COSE_REFUSED},
    {"the numbers", numbers, SMALL, NULL, 0},
    {"end", end, SMALL, &status.status, COSE_REFUSED},
    {"sign_input", sign_input, SMALL, NULL, 0},
    {"header", header, SMALL, &item.present, 1},
    {"header_named", header_named, SMALL, &item.present, 0},
    {"fed_key_of", fed_key_of, SMALL, &item.present, 1},
    {"verdict", decide, SMALL, &verdict.reason, COSE_REASON_BAD_AUTH},
    {"verdict_for", decide_for, SMALL, &verdict.reason, COSE_REASON_BAD_AUTH},
    {"reset", reset, SMALL, NULL, 0},
    {"wipe_bytes", wipe_bytes, SMALL, NULL, 0},
    {"key_of", key_of, SMALL, &item.present, 1},
    {"mismatch", mismatch, SMALL, &fit.status, COSE_COMPLETE},
    {"large_key_of", large_key_of, LARGE, &item.present, 1},
    {"large_mismatch", large_mismatch, LARGE, &fit.status, COSE_COMPLETE},
    {"open_under", open_under, SMALL, &status.status, COSE_MORE},
    {"feed, under terms", feed, SMALL, &fed.status.status, COSE_REFUSED},
    {"open_under_detached", open_under_beside, SMALL, &status.status, COSE_MORE},
    {"open_detached", open_beside, SMALL, &status.status, COSE_MORE},
    {"feed, to the payload", feed_head, SMALL, &fed.status.status, COSE_PAYLOAD_NEXT},
    {"feed_payload", feed_payload, SMALL, NULL, 0},
    {"feed, from the payload", feed_tag, SMALL, &fed.status.status, COSE_REFUSED},
    {"large_begin", large_begin, SMALL, NULL, 0},
    {"large_open", large_open, SMALL, &status.status, COSE_MORE},
    {"large_feed", large_feed, SMALL, &fed.status.status, COSE_REFUSED},
    {"the large numbers", large_numbers, SMALL, NULL, 0},
    {"large_end", large_end, SMALL, &status.status, COSE_REFUSED},
    {"large_sign_input", large_sign_input, SMALL, NULL, 0},
    {"large_header", large_header, SMALL, &item.present, 1},
    {"large_header_named", large_header_named, SMALL, &item.present, 0},
    {"large_fed_key_of", large_fed_key_of, SMALL, &item.present, 1},
    {"large_verdict", large_decide, SMALL, &verdict.reason, COSE_REASON_BAD_AUTH},
    {"large_verdict_for", large_decide_for, SMALL, &verdict.reason, COSE_REASON_BAD_AUTH},
    {"large_reset", large_reset, SMALL, NULL, 0},
    {"large_open_under", large_open_under, SMALL, &status.status, COSE_MORE},
    {"large_open_under_detached", large_open_under_beside, SMALL, &status.status, COSE_MORE},
    {"large_open_detached", large_open_beside, SMALL, &status.status, COSE_MORE},
    {"large_feed, to the payload", large_feed_head, SMALL, &fed.status.status, COSE_PAYLOAD_NEXT},
    {"large_feed_payload", large_feed_payload, SMALL, NULL, 0},
    {"device_begin", device_begin, SMALL, NULL, 0},
    {"device_open", device_open, SMALL, &status.status, COSE_MORE},
    {"device_feed", device_feed, SMALL, &fed.status.status, COSE_REFUSED},
    {"the device's numbers", device_numbers, SMALL, NULL, 0},
    {"device_end", device_end, SMALL, &status.status, COSE_REFUSED},
    {"device_sign_input", device_sign_input, SMALL, NULL, 0},
    {"device_verdict", device_decide, SMALL, &verdict.reason, COSE_REASON_BAD_AUTH},
    {"device_verdict_for", device_decide_for, SMALL, &verdict.reason, COSE_REASON_BAD_AUTH},
    {"device_reset", device_reset, SMALL, NULL, 0},
    {"device_open_detached", device_open_beside, SMALL, &status.status, COSE_MORE},
    {"device_feed, to the payload", device_feed_head, SMALL, &fed.status.status, COSE_PAYLOAD_NEXT},
    {"device_feed_payload", device_feed_payload, SMALL, NULL, 0},
    {"open_elsewhere", open_elsewhere, SMALL, &status.status, COSE_MORE},
    {"feed, elsewhere", feed, SMALL, &fed.status.status, COSE_COMPLETE},
    {"front_pieces", front_pieces, SMALL, &answered, 1},
    {"asked_key", asked_key, SMALL, &answered, 1},
    {"asked_signature", asked_signature, SMALL, &answered, 0},
    {"verdict_of_answer", verdict_of_answer, SMALL, &verdict.status, COSE_BAD_ARGUMENT},
    {"verdict_of_mac", verdict_of_mac, SMALL, &verdict.reason, COSE_REASON_BAD_AUTH},
    {"open_elsewhere_detached", open_elsewhere_beside, SMALL, &status.status, COSE_MORE},
    {"large_open_elsewhere", large_open_elsewhere, SMALL, &status.status, COSE_MORE},
    {"large_feed, elsewhere", large_feed, SMALL, &fed.status.status, COSE_COMPLETE},
    {"large_front_pieces", large_front_pieces, SMALL, &answered, 1},
    {"large_asked_key", large_asked_key, SMALL, &answered, 1},
    {"large_asked_signature", large_asked_signature, SMALL, &answered, 0},
    {"large_verdict_of_answer", large_verdict_of_answer, SMALL, &verdict.status, COSE_BAD_ARGUMENT},
    {"large_verdict_of_mac", large_verdict_of_mac, SMALL, &verdict.reason, COSE_REASON_BAD_AUTH},
    {"large_open_elsewhere_detached", large_open_elsewhere_beside, SMALL, &status.status, COSE_MORE},
    {"table_begin", table_begin, SMALL, NULL, 0},
    {"table_read", table_read, SMALL, &key_set.status, COSE_COMPLETE},
    {"table_verify", table_verify, SMALL, &verdict.reason, COSE_REASON_AMBIGUOUS_KEY},
    {"table_read, again", table_read_one, SMALL, &key_set.status, COSE_COMPLETE},
    {"table_verify_cwt", table_verify_cwt, SMALL, &claims.status, COSE_AUTHENTIC},
    {"table_read_under", table_read_under, SMALL, &key_set.status, COSE_COMPLETE},
    {"table_authenticate, 64 keys", table_authenticate, SMALL, &verdict.reason, COSE_REASON_AMBIGUOUS_KEY},
    {"table_read_under, again", table_read_under_one, SMALL, &key_set.status, COSE_COMPLETE},
    {"table_authenticate", table_authenticate, SMALL, &verdict.reason, COSE_REASON_BAD_AUTH},
    {"table_admit", table_admit, SMALL, &claims.status, COSE_AUTHENTIC},
    {"open_table", open_table, SMALL, &status.status, COSE_MORE},
    {"feed, under a table", feed, SMALL, &fed.status.status, COSE_REFUSED},
    {"open_table_detached", open_table_beside, SMALL, &status.status, COSE_MORE},
    {"large_open_table", large_open_table, SMALL, &status.status, COSE_MORE},
    {"large_open_table_detached", large_open_table_beside, SMALL, &status.status, COSE_MORE},
    {"maker_begin", maker_begin, SMALL, NULL, 0},
    {"make", make, SMALL, &made.status, COSE_MORE},
    {"make_piece", make_piece, SMALL, NULL, 0},
    {"make_end", make_end, SMALL, &made.status, COSE_COMPLETE},
    {"signer_begin", signer_begin, SMALL, NULL, 0},
    {"make_sign1", make_sign1, SMALL, &made.status, COSE_MORE},
    {"make_sign1_piece", make_sign1_piece, SMALL, NULL, 0},
    {"make_sign1_digest", make_sign1_digest, SMALL, &made.status, COSE_COMPLETE},
    {"make_sign1_end", make_sign1_end, SMALL, &made.status, COSE_COMPLETE},
    {"large_verify", large_verify, LARGE, &verdict.reason, COSE_REASON_BAD_AUTH},
    {"large_verify_detached", large_beside, LARGE, &verdict.reason, COSE_REASON_BAD_AUTH},
    {"large_parameter", large_parameter, LARGE, &item.present, 1},
    {"large_parameter_named", large_parameter_named, LARGE, &item.present, 0},
    {"large_verify_cwt", large_cwt, LARGE, &claims.status, COSE_AUTHENTIC},
    {"authenticate", authenticate, SMALL, &verdict.reason, COSE_REASON_BAD_AUTH},
    {"authenticate, 64 keys", authenticate_keys, SMALL, &verdict.reason, COSE_REASON_AMBIGUOUS_KEY},
    {"authenticate_detached", authenticate_beside, SMALL, &verdict.reason, COSE_REASON_BAD_AUTH},
    {"admit", admit, SMALL, &claims.status, COSE_AUTHENTIC},
    {"admit_claims", admit_claims, SMALL, &claims.status, COSE_AUTHENTIC},
    {"large_admit_claims", large_admit_claims, SMALL, &claims.status, COSE_AUTHENTIC},
    {"large_authenticate", large_authenticate, LARGE, &verdict.reason, COSE_REASON_BAD_AUTH},
    {"large_authenticate_detached", large_authenticate_beside, LARGE, &verdict.reason, COSE_REASON_BAD_AUTH},
    {"large_admit", large_admit, LARGE, &claims.status, COSE_AUTHENTIC},
};

static const char *running = "none";

/* The stack of a call is used up. */
static void overflowed(int number)
{
    (void)number;
    const char *parts[] = {"more stack than promised: ", running, "\n"};
    for (int part = 0; part < 3; part++)
        if (write(STDOUT_FILENO, parts[part], strlen(parts[part])) < 0)
            break;
    _exit(1);
}

/* Runs a call on the last bytes of the memory, so many of them: those before can't be touched. */
static int called(uint8_t *memory, size_t most, size_t stack, void (*call)(void))
{
    ucontext_t here, there;
    if (mprotect(memory, most, PROT_NONE) != 0 || mprotect(memory + most - stack, stack, PROT_READ | PROT_WRITE) != 0)
        return 0;
    if (getcontext(&there) != 0)
        return 0;
    there.uc_stack.ss_sp = memory + most - stack;
    there.uc_stack.ss_size = stack;
    there.uc_link = &here;
    makecontext(&there, call, 0);
    return swapcontext(&here, &there) == 0;
}

int main(void)
{
    static uint8_t signals[65536];
    const size_t most = LARGE + 64 * KIB;
    struct sigaction action = {0};
    stack_t other = {0};
    int failures = 0;
    uint8_t *memory = mmap(NULL, most, PROT_NONE, MAP_PRIVATE | MAP_ANONYMOUS, -1, 0);
    other.ss_sp = signals;
    other.ss_size = sizeof signals;
    action.sa_handler = overflowed;
    action.sa_flags = SA_ONSTACK;
    if (memory == MAP_FAILED || sigaltstack(&other, NULL) != 0 || sigaction(SIGSEGV, &action, NULL) != 0)
        return 2;
    write_all();
    state();
    for (size_t index = 0; index < sizeof calls / sizeof *calls; index++) {
        running = calls[index].name;
        if (!called(memory, most, calls[index].stack, calls[index].call))
            return 2;
        if (calls[index].answer != NULL && *calls[index].answer != calls[index].wanted) {
            printf("%s: %u, not %u\n", running, *calls[index].answer, calls[index].wanted);
            failures++;
        }
    }
    printf("%zu calls, %d failed\n", sizeof calls / sizeof *calls, failures);
    return failures != 0;
}
