/*
 * Takes calls of cose.h from a file of the host and answers them, for ci/device_rows, which writes the cases of the
 * calls and says what a request and an answer are.
 */
#include "board.h"
#include "cose.h"

enum {
    HOST_OPEN = 0x01,
    HOST_WRITE = 0x05,
    HOST_READ = 0x06,
};

/* SLOTS, BLOCK and so on are of the command line. */
static _Alignas(64) uint8_t blocks[SLOTS][BLOCK];
static _Alignas(64) uint8_t large_blocks[LARGE_SLOTS ? LARGE_SLOTS : 1][LARGE_SLOTS ? LARGE_BLOCK : 64];
static uint8_t kept[SLOTS + LARGE_SLOTS][KEPT];
static uint8_t request[REQUEST];
static _Alignas(64) uint8_t answer[ANSWER];
static const uint8_t *next;
static size_t filled_to;

static uintptr_t host_open(const char *name, uintptr_t mode)
{
    const uintptr_t given[3] = {(uintptr_t)name, mode, strlen(name)};
    return host_call(HOST_OPEN, given);
}

/* Returns how many bytes were not read, or not written. */
static uintptr_t host_move(uintptr_t operation, uintptr_t file, const void *bytes, size_t length)
{
    const uintptr_t given[3] = {file, (uintptr_t)bytes, length};
    return host_call(operation, given);
}

static void stop(const char *what)
{
    host_print(what);
    host_exit(98);
}

static void read_all(uintptr_t file, uint8_t *to, size_t length)
{
    while (length != 0) {
        size_t left = host_move(HOST_READ, file, to, length);
        if (left >= length)
            host_exit(0); /* the host has closed the file */
        to += length - left;
        length = left;
    }
}

static uint64_t number(size_t size)
{
    uint64_t value = 0;
    memcpy(&value, next, size);
    next += size;
    return value;
}

static const uint8_t *bytes(uint64_t *length)
{
    *length = number(4);
    const uint8_t *found = next;
    next += *length;
    return found;
}

static uint8_t *filled(uint64_t size)
{
    filled_to = (filled_to + 7) / 8 * 8;
    uint8_t *found = answer + 16 + filled_to;
    if (filled_to + size > sizeof answer - 16)
        stop("no room for an answer\n");
    memset(found, 0, (size_t)size);
    filled_to += (size_t)size;
    return found;
}

static uint8_t *block_at(uint64_t slot)
{
    return slot < SLOTS ? blocks[slot] : large_blocks[slot - SLOTS];
}

/* Copies what has to stay until the next opening of a block. */
static const uint8_t *keep(uint64_t slot, const uint8_t *from, uint64_t length, size_t *used)
{
    if (*used + length > KEPT)
        stop("no room for keys\n");
    uint8_t *to = kept[slot] + *used;
    memcpy(to, from, (size_t)length);
    *used += (size_t)length;
    return to;
}

static uint64_t do_call(uint64_t call)
{
    switch (call) {
#include "cases.h"
    default:
        stop("a call that isn't known\n");
        return 0;
    }
}

int main(void)
{
    uintptr_t requests = host_open(REQUESTS, 1), answers = host_open(ANSWERS, 5);
    uint32_t length;
    for (;;) {
        read_all(requests, (uint8_t *)&length, 4);
        if (length > sizeof request)
            stop("a request that is too long\n");
        read_all(requests, request, length);
        next = request;
        filled_to = 0;
        uint64_t call = number(2), result = do_call(call);
        length = (uint32_t)filled_to + 8;
        memcpy(answer + 4, &length, 4);
        memcpy(answer + 8, &result, 8);
        if (host_move(HOST_WRITE, answers, answer + 4, length + 4) != 0)
            stop("an answer that can't be written\n");
    }
}
