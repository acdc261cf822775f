/* A firmware update: a COSE_Mac0 whose payload is the image comes over the serial line in blocks. A block is its number
 * of bytes, from 1 to 64, and these bytes; 0 ends the message. The board answers each block with a character: . where
 * it wants the next one, A where the image is authentic, and R where it is not.
 *
 * The image goes to the slot as it comes, and the slot says that it has one only once the message is authentic. */
#include "board.h"
/* The key names HMAC 256/256, so no other hash function is needed. */
#define COSE_NO_SHA512
#include "cose.h"

/* A COSE_Key. A device has one of its own. */
static const uint8_t key[] = {0xa3, 0x01, 0x04, 0x03, 0x05, 0x20, 0x44, 'J', 'e', 'f', 'e'};

static _Alignas(COSE_BLOCK_ALIGN) uint8_t block[COSE_DEVICE_VERIFIER_BLOCK];

enum { BLOCK = 64 };

/* What was written of the image, and the word that isn't whole yet. */
static size_t length;
static uint32_t word;

static void answer(char character)
{
    line_write(&character, 1);
}

/* Writes bytes of the image to the slot. It returns 0 where they don't fit. */
static int write_image(const uint8_t *bytes, uint64_t count)
{
    if (count > slot_size() - length)
        return 0;
    for (uint64_t at = 0; at < count; at++) {
        word |= (uint32_t)bytes[at] << 8 * (length % 4);
        length++;
        if (length % 4 == 0) {
            slot_write(length - 4, word);
            word = 0;
        }
    }
    return 1;
}

/* The image is authentic: the last word goes to the slot too. */
static void accept(void)
{
    if (length % 4 != 0)
        slot_write(length - length % 4, word);
    slot_accept(length);
}

/* Reads a block. It returns its length. */
static size_t read_block(uint8_t *bytes)
{
    size_t count = line_read();
    for (size_t at = 0; at < count; at++) {
        uint8_t byte = line_read();
        if (at < BLOCK)
            bytes[at] = byte;
    }
    return count;
}

/* Takes a message in blocks. It returns 1 where the image is authentic. */
static int take_image(struct cose_device_verifier *verifier)
{
    struct cose_message_verdict verdict;
    struct cose_fed fed = {0};
    uint8_t bytes[BLOCK];
    int good = 1;
    size_t count = read_block(bytes);
    slot_erase(); /* not before a block comes: until then the slot has the last image */
    for (; count != 0; count = read_block(bytes)) {
        good = good && count <= BLOCK;
        if (good) {
            cose_device_feed(verifier, bytes, count, &fed);
            good = fed.used == count && write_image(bytes + fed.payload_at, fed.payload_length);
        }
        answer('.');
    }
    if (!good || fed.status.status != COSE_COMPLETE)
        return 0;
    cose_device_verdict(verifier, 0, &verdict);
    return verdict.status == COSE_AUTHENTIC;
}

int main(void)
{
    struct cose_device_verifier verifier = {.at = block};
    struct cose_status status;
    if (cose_device_verifier_size() > sizeof block || cose_device_verifier_align() > COSE_BLOCK_ALIGN)
        return 1;
    cose_device_begin(block);
    cose_device_open(&verifier, key, sizeof key, NULL, 0, COSE_MAC0, &status);
    if (status.status != COSE_MORE || cose_device_needs_sha512(&verifier))
        return 1;
    for (;;) {
        length = 0;
        word = 0;
        if (take_image(&verifier)) {
            accept();
            answer('A');
        } else {
            answer('R');
        }
        cose_device_reset(&verifier);
    }
}
