/*
 * Verifies the example message on a board, at once (unless FED_ONLY is defined) and a byte at a time, and a changed
 * one. It ends with status 0 where each answer is the one that it has to be, no call took more than STACK_PROMISED
 * bytes of stack, and comparing tags counts the same whether they differ in the first byte or in the last.
 */
#include "board.h"
#include "device.h"
#include "messages.h"

enum { TURNS = 64 };

static _Alignas(64) uint8_t block[4096];
static uintptr_t from;
static int wrong;

/* What was found, and how much stack it took. */
static void judge(const char *what, int good)
{
    uint32_t used = stack_used(from);
    host_print(what);
    host_print(good ? ": as it has to be, " : ": NOT as it has to be, ");
    host_print_number(used);
    host_print(" bytes of stack\n");
    wrong |= !good || used > STACK_PROMISED;
    stack_paint();
}

#ifndef FED_ONLY
static uint8_t at_once(const uint8_t *message)
{
    struct cose_message_verdict verdict;
    struct cose_signature_input input;
    cose_verify(key, sizeof key, NULL, 0, COSE_TAGGED, message, sizeof good_message, &verdict, &input);
    return verdict.status;
}
#endif

static uint8_t in_pieces(struct cose_verifier *verifier, const uint8_t *message, size_t piece)
{
    struct cose_fed fed = {0};
    struct cose_message_verdict verdict;
    for (size_t at = 0; at < sizeof good_message; at += piece) {
        size_t left = sizeof good_message - at;
        cose_feed(verifier, message + at, left < piece ? left : piece, &fed);
    }
    cose_verdict(verifier, 0, &verdict);
    cose_reset(verifier);
    return fed.status.status == COSE_COMPLETE || verdict.status == COSE_REFUSED ? verdict.status : COSE_BAD_ARGUMENT;
}

/* What TURNS verdicts of a message that is fed in pieces count. */
static uint32_t count(struct cose_verifier *verifier, const uint8_t *message, size_t piece, uint8_t status)
{
    count_begin();
    for (int turn = 0; turn < TURNS; turn++)
        wrong |= in_pieces(verifier, message, piece) != status;
    return counted();
}

/* Prints what TURNS verdicts of the example count. */
static void print_counts(struct cose_verifier *verifier)
{
    uint32_t bytes = count(verifier, good_message, 1, COSE_AUTHENTIC);
    uint32_t pieces = count(verifier, good_message, sizeof good_message, COSE_AUTHENTIC);
    host_print("a byte at a time: ");
    host_print_number(bytes);
    host_print(" counted\nin one piece: ");
    host_print_number(pieces);
#ifndef FED_ONLY
    count_begin();
    for (int turn = 0; turn < TURNS; turn++)
        wrong |= at_once(good_message) != COSE_AUTHENTIC;
    uint32_t at_once_count = counted();
    host_print(" counted\nat once: ");
    host_print_number(at_once_count);
#endif
    host_print(" counted\n");
    stack_paint();
}

/* A comparison that ends early would take some instructions less for each byte. A step of the counter is fewer than one
 * byte of each turn. */
static void compare_counts(struct cose_verifier *verifier)
{
    uint32_t first = count(verifier, changed_first, sizeof changed_first, COSE_REFUSED);
    uint32_t last = count(verifier, changed_message, sizeof changed_message, COSE_REFUSED);
    uint32_t difference = first < last ? last - first : first - last;
    host_print("tags that differ in the first byte, in the last: ");
    host_print_number(first);
    host_print(" and ");
    host_print_number(last);
    host_print("\n");
    judge("both the same", difference <= 1);
}

int main(void)
{
    struct cose_verifier verifier = {.at = block};
    struct cose_status status;
    from = stack_now();
    if (cose_verifier_size() > sizeof block || cose_verifier_align() > 64)
        return 2;
    stack_paint();
    cose_begin(block);
    cose_open(&verifier, key, sizeof key, NULL, 0, COSE_MAC0, &status);
    judge("opened", status.status == COSE_MORE);
    for (size_t piece = 1; piece <= sizeof good_message; piece += sizeof good_message - 1) {
        host_print(piece == 1 ? "a byte at a time: " : "in one piece: ");
        judge("the example", in_pieces(&verifier, good_message, piece) == COSE_AUTHENTIC);
        judge("the changed one", in_pieces(&verifier, changed_message, piece) == COSE_REFUSED);
    }
#ifndef FED_ONLY
    judge("at once: the example", at_once(good_message) == COSE_AUTHENTIC);
    judge("at once: the changed one", at_once(changed_message) == COSE_REFUSED);
#endif
    compare_counts(&verifier);
    print_counts(&verifier);
    return wrong;
}
