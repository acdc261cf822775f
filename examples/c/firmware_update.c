/* A firmware update: writes an image to a slot only where the COSE_Sign1 next to it is authentic. The message has nil
 * for its payload (RFC 9052 section 4.2), and the image is in a file of its own. An adapter verifies the signature:
 * adapters/openssl.c or adapters/mbedtls.c is compiled with this file. With COSE_ELSEWHERE the image is hashed by
 * OpenSSL too, in adapters/elsewhere.c, as it would be by a device's hardware.
 *
 * usage: firmware_update KEYS MESSAGE IMAGE SLOT
 *
 * The image is written to a new file in the folder of SLOT, in pieces, while it is hashed. That file gets the name SLOT
 * only after the verdict, so that SLOT has the old image or the new one at any moment, and never a part of one.
 *
 * The exit status is 0 where the slot has the image, 1 where the message is refused, 2 where there is no answer. With 1
 * and 2 the slot is as it was. */
#define _XOPEN_SOURCE 700
#include "adapters/cose_adapter.h"
#ifdef COSE_ELSEWHERE
#include "adapters/elsewhere.h"
#endif
#include "cose.h"
#include "load.h"
#include <errno.h>
#include <fcntl.h>
#include <inttypes.h>
#include <libgen.h>
#include <stdlib.h>
#include <string.h>
#include <sys/stat.h>
#include <unistd.h>

enum { UPDATED = 0, REFUSED = 1, NO_ANSWER = 2 };

static _Alignas(64) uint8_t block[4096];
static uint8_t keys[4096], message[4096], piece[4096];

static int fail(const char *what)
{
    perror(what);
    return NO_ANSWER;
}

static int refuse(uint8_t reason, uint64_t place)
{
    printf("refused: reason %u at %" PRIu64 "\n", reason, place);
    return REFUSED;
}

/* ---- the image */

/* Opens the image, and says how long it is. */
static int open_image(const char *path, uint64_t *length)
{
    struct stat about;
    int image = open(path, O_RDONLY | O_CLOEXEC);
    if (image < 0 || fstat(image, &about) != 0) {
        perror(path);
    } else if (!S_ISREG(about.st_mode) || about.st_size == 0) {
        fprintf(stderr, "%s: it isn't a file, or is empty\n", path);
    } else {
        *length = (uint64_t)about.st_size;
        return image;
    }
    if (image >= 0)
        close(image);
    return -1;
}

/* Reads the next bytes, in as many calls as it takes: fewer than `room` only at the end. */
static ssize_t read_all(int file, uint8_t *bytes, size_t room)
{
    size_t length = 0;
    while (length < room) {
        ssize_t count = read(file, bytes + length, room - length);
        if (count < 0 && errno == EINTR)
            continue;
        if (count < 0)
            return -1;
        if (count == 0)
            break;
        length += (size_t)count;
    }
    return (ssize_t)length;
}

static int write_all(int file, const uint8_t *bytes, size_t length)
{
    while (length > 0) {
        ssize_t count = write(file, bytes, length);
        if (count < 0 && errno == EINTR)
            continue;
        if (count <= 0)
            return -1;
        bytes += count;
        length -= (size_t)count;
    }
    return 0;
}

/* Copies the image to the new file, and shows it to the verifier. The image has exactly the length that was stated. */
static int copy_image(struct cose_verifier *verifier, int image, int slot)
{
    for (;;) {
        uint64_t wanted = cose_payload_wanted(verifier);
        if (wanted == 0)
            break;
        size_t most = wanted < sizeof piece ? (size_t)wanted : sizeof piece;
        ssize_t count = read_all(image, piece, most);
        if (count < 0)
            return fail("the image");
        if ((size_t)count < most) {
            fputs("the image became shorter while it was read\n", stderr);
            return NO_ANSWER;
        }
        if (cose_feed_payload(verifier, piece, most) != most || write_all(slot, piece, most) != 0)
            return fail("the slot");
#ifdef COSE_ELSEWHERE
        elsewhere_update(piece, most);
#endif
    }
    if (read_all(image, piece, 1) != 0) {
        fputs("the image became longer while it was read\n", stderr);
        return NO_ANSWER;
    }
    return UPDATED;
}

/* ---- the message */

/* The verdict on a complete message. */
static int judge(struct cose_verifier *verifier)
{
    struct cose_message_verdict verdict;
#ifdef COSE_ELSEWHERE
    cose_verdict_of_answer(verifier, cose_message_number(verifier), elsewhere_is_good(verifier), &verdict);
#else
    struct cose_signature_input input;
    int is_good = cose_sign_input(verifier, &input) == 1 && cose_signature_is_good(&input) == 1;
    cose_verdict(verifier, is_good, &verdict);
#endif
    if (verdict.status != COSE_AUTHENTIC)
        return refuse(verdict.reason, verdict.place);
    return UPDATED;
}

/* Feeds the message up to its nil, then the image, then the rest. The new file has the image before the verdict. */
static int verify(struct cose_verifier *verifier, size_t message_length, int image, int slot)
{
    struct cose_fed fed;
    struct cose_status status;
    cose_feed(verifier, message, message_length, &fed);
    size_t taken = (size_t)fed.used;
    if (fed.status.status == COSE_PAYLOAD_NEXT) {
#ifdef COSE_ELSEWHERE
        if (elsewhere_begin(verifier) != 0)
            return NO_ANSWER;
#endif
        int copied = copy_image(verifier, image, slot);
        if (copied != UPDATED)
            return copied;
        cose_feed(verifier, message + taken, message_length - taken, &fed);
        taken += (size_t)fed.used;
    }
    cose_end(verifier, &status);
    if (status.status != COSE_COMPLETE)
        return refuse(status.reason, status.place);
    if (taken < message_length)
        return refuse(COSE_REASON_TRAILING, taken);
    return judge(verifier);
}

/* ---- the slot */

/* Gives the new file the name of the slot. What was written is on the disk before the name is, and then the name. */
static int commit(int slot, const char *new_path, const char *path)
{
    char folder_path[4096];
    if (fchmod(slot, 0644) != 0 || fsync(slot) != 0 || rename(new_path, path) != 0)
        return fail(path);
    snprintf(folder_path, sizeof folder_path, "%s", path);
    int folder = open(dirname(folder_path), O_RDONLY | O_DIRECTORY | O_CLOEXEC);
    if (folder < 0 || fsync(folder) != 0)
        perror(path); /* it has the name, but a crash may still undo that */
    if (folder >= 0)
        close(folder);
    return UPDATED;
}

/* Writes the slot, where the message is authentic. */
static int update(struct cose_verifier *verifier, size_t message_length, int image, const char *path)
{
    char new_path[4096];
    if (snprintf(new_path, sizeof new_path, "%s.XXXXXX", path) >= (int)sizeof new_path) {
        fputs("the name of the slot is too long\n", stderr);
        return NO_ANSWER;
    }
    int slot = mkstemp(new_path);
    if (slot < 0)
        return fail(new_path);
    int answer = verify(verifier, message_length, image, slot);
    if (answer == UPDATED)
        answer = commit(slot, new_path, path);
    if (answer != UPDATED)
        unlink(new_path);
    close(slot);
    return answer;
}

int main(int count, char **arguments)
{
    size_t keys_length, message_length;
    uint64_t image_length = 0;
    if (count != 5) {
        fputs("usage: firmware_update KEYS MESSAGE IMAGE SLOT\n", stderr);
        return NO_ANSWER;
    }
    if (load(arguments[1], keys, sizeof keys, &keys_length) != 0 ||
        load(arguments[2], message, sizeof message, &message_length) != 0)
        return NO_ANSWER;
    if (cose_verifier_size() > sizeof block || cose_verifier_align() > 64) {
        fputs("a verifier of this library doesn't fit into the block\n", stderr);
        return NO_ANSWER;
    }
    int image = open_image(arguments[3], &image_length);
    if (image < 0)
        return NO_ANSWER;
    struct cose_verifier verifier = {.at = block};
    struct cose_status status;
    int answer = NO_ANSWER;
    cose_begin(block);
#ifdef COSE_ELSEWHERE
    cose_open_elsewhere_detached(&verifier, keys, keys_length, NULL, 0, COSE_SIGN1, image_length, &status);
#else
    cose_open_detached(&verifier, keys, keys_length, NULL, 0, COSE_SIGN1, image_length, &status);
#endif
    if (status.status == COSE_MORE)
        answer = update(&verifier, message_length, image, arguments[4]);
    else
        fprintf(stderr, "the keys are refused: reason %u at %" PRIu64 "\n", status.reason, status.place);
    close(image);
    if (answer == UPDATED)
        puts("updated");
    return fflush(stdout) == 0 ? answer : NO_ANSWER;
}
