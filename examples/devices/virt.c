/* The board virt of QEMU: a 32-bit RISC-V with an NS16550 as serial line. Start-up, and that line. */
#include "board.h"

#define LINE ((volatile uint8_t *)0x10000000)

enum { DATA = 0, FIFO = 2, FORMAT = 3, STATE = 5, HAS_BYTE = 1, HAS_ROOM = 0x20, EIGHT_BITS = 3 };

extern uint8_t data_from_[], data_begin_[], data_end_[], bss_begin_[], bss_end_[];

int main(void);
void reset_(void);

__asm__(".section .vectors, \"ax\"\n"
        ".global start_\n"
        "start_:\n"
        "  la sp, stack_top_\n"
        "  la t0, stop_\n"
        ".option push\n"
        ".option arch, +zicsr\n"
        "  csrw mtvec, t0\n"
        ".option pop\n"
        "  j reset_\n"
        ".balign 4\n"
        "stop_:\n"
        "  j stop_\n"
        ".text\n");

uint8_t line_read(void)
{
    while ((LINE[STATE] & HAS_BYTE) == 0)
        ;
    return LINE[DATA];
}

void line_write(const void *bytes, size_t length)
{
    for (size_t at = 0; at < length; at++) {
        while ((LINE[STATE] & HAS_ROOM) == 0)
            ;
        LINE[DATA] = ((const uint8_t *)bytes)[at];
    }
}

void reset_(void)
{
    const uint8_t *from = data_from_;
    for (volatile uint8_t *at = data_begin_; at < data_end_; at++)
        *at = *from++;
    for (volatile uint8_t *at = bss_begin_; at < bss_end_; at++)
        *at = 0;
    LINE[FORMAT] = EIGHT_BITS;
    LINE[FIFO] = 1;
    main();
    for (;;)
        ;
}
