/* A board on a serial line: takes a COSE_Mac0 a byte at a time, and answers each with a line. Whoever sends waits for
 * that line before the next message: after a refusal nothing else says where one begins. */
#include "board.h"
/* The key names HMAC 256/256, so no other hash function is needed. */
#define COSE_NO_SHA512
#include "cose.h"

/* A COSE_Key. A device has one of its own. */
static const uint8_t key[] = {0xa3, 0x01, 0x04, 0x03, 0x05, 0x20, 0x44, 'J', 'e', 'f', 'e'};

static _Alignas(COSE_BLOCK_ALIGN) uint8_t block[COSE_DEVICE_VERIFIER_BLOCK];

/* The payload of the message that is read, which nobody acts on before the message is authentic. */
static uint8_t payload[128];
static size_t payload_length;

static void print(const char *text)
{
    size_t length = 0;
    while (text[length] != 0)
        length++;
    line_write(text, length);
}

/* Prints a number, by subtraction: a Cortex-M0 has no division. Places that don't have 32 bits are those of messages
 * that nobody sends to a board. */
static void print_number(uint32_t number)
{
    static const uint32_t powers[] = {1000000000, 100000000, 10000000, 1000000, 100000, 10000, 1000, 100, 10, 1};
    int is_begun = 0;
    for (size_t at = 0; at < sizeof powers / sizeof *powers; at++) {
        char digit = '0';
        for (; number >= powers[at]; digit++)
            number -= powers[at];
        is_begun |= digit != '0' || powers[at] == 1;
        if (is_begun)
            line_write(&digit, 1);
    }
}

static void refuse(uint8_t reason, uint64_t place)
{
    print("refused: reason ");
    print_number(reason);
    print(" at ");
    print_number((uint32_t)place);
    print("\n");
}

/* Keeps bytes of the payload. It returns 0 where there is no room for them. */
static int keep(const uint8_t *bytes, uint64_t length)
{
    if (length > sizeof payload - payload_length)
        return 0;
    for (uint64_t at = 0; at < length; at++)
        payload[payload_length++] = bytes[at];
    return 1;
}

/* All bytes of a message are there. 0 says that no signature is good: there is none. */
static void judge(struct cose_device_verifier *verifier)
{
    struct cose_message_verdict verdict;
    cose_device_verdict(verifier, 0, &verdict);
    if (verdict.status != COSE_AUTHENTIC) {
        refuse(verdict.reason, verdict.place);
        return;
    }
    print("authentic: ");
    line_write(payload, payload_length);
    print("\n");
}

/* Takes one message, and answers it. */
static void take_message(struct cose_device_verifier *verifier)
{
    struct cose_fed fed;
    payload_length = 0;
    do {
        uint8_t byte = line_read();
        cose_device_feed(verifier, &byte, 1, &fed);
        if (!keep(&byte + fed.payload_at, fed.payload_length)) {
            print("no room for the payload\n");
            return;
        }
    } while (fed.status.status == COSE_MORE);
    if (fed.status.status == COSE_COMPLETE)
        judge(verifier);
    else
        refuse(fed.status.reason, fed.status.place);
}

int main(void)
{
    struct cose_device_verifier verifier = {.at = block};
    struct cose_status status;
    if (cose_device_verifier_size() > sizeof block || cose_device_verifier_align() > COSE_BLOCK_ALIGN) {
        print("no room for a verifier\n");
        return 1;
    }
    cose_device_begin(block);
    cose_device_open(&verifier, key, sizeof key, NULL, 0, COSE_MAC0, &status);
    if (status.status != COSE_MORE || cose_device_needs_sha512(&verifier)) {
        print("the key is refused\n");
        return 1;
    }
    print("ready\n");
    for (;;) {
        take_message(&verifier);
        cose_device_reset(&verifier);
    }
}
