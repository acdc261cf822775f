/*
 * What bench/device_hmac counts: the HMAC of a MAC_structure (RFC 9052 section 6.3) by mbedTLS and a comparison with a
 * tag, with nothing that reads a message. It ends with status 0 where the tag is the right one and a changed one isn't.
 */
#include "board.h"
#include "mbedtls/md.h"
#include "structure.h"

enum { TURNS = 64 };

static _Alignas(8) uint8_t room[512];
static size_t room_used;

/* Room for the two contexts of a computation. */
void *room_calloc(size_t count, size_t size)
{
    uint8_t *found = room + room_used;
    if (count * size > sizeof room - room_used)
        return NULL;
    room_used += (count * size + 7) / 8 * 8;
    return memset(found, 0, count * size);
}

void room_free(void *unused)
{
    (void)unused;
    room_used = 0;
}

static int is_good(const uint8_t *tag)
{
    uint8_t computed[32];
    uint8_t difference = 0;
    if (mbedtls_md_hmac(mbedtls_md_info_from_type(MBEDTLS_MD_SHA256), secret, sizeof secret, structure,
                        sizeof structure, computed) != 0)
        return 0;
    for (size_t at = 0; at < sizeof computed; at++)
        difference |= (uint8_t)(computed[at] ^ tag[at]);
    return difference == 0;
}

int main(void)
{
    uintptr_t from = stack_now();
    int wrong = is_good(good_tag) != 1 || is_good(changed_tag) != 0;
    stack_paint();
    count_begin();
    for (int turn = 0; turn < TURNS; turn++)
        wrong |= is_good(good_tag) != 1;
    uint32_t count = counted();
    host_print_number(count);
    host_print(" counted, ");
    host_print_number(stack_used(from));
    host_print(" bytes of stack\n");
    return wrong;
}
