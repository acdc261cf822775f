/* A micro:bit: nRF51822, with a Cortex-M0, 256 KB of flash and 16 KB of RAM. Start-up, the serial line over USB, and
 * the slot for an image, in the upper half of the flash; its last page says how long the image is. */
#include "board.h"

#define REGISTER(at) (*(volatile uint32_t *)(at))

enum {
    UART = 0x40002000,
    START_RECEIVING = UART,
    START_SENDING = UART + 0x008,
    RECEIVED = UART + 0x108,
    SENT = UART + 0x11c,
    ENABLE = UART + 0x500,
    PIN_OUT = UART + 0x50c,
    PIN_IN = UART + 0x514,
    BYTE_IN = UART + 0x518,
    BYTE_OUT = UART + 0x51c,
    RATE = UART + 0x524,
    RATE_115200 = 0x01d7e000,
    PINS = 0x50000000,
    SET_HIGH = PINS + 0x508,
    SET_OUTPUT = PINS + 0x518,
    OUT = 24,
    IN = 25,
    FLASH = 0x4001e000,
    FLASH_READY = FLASH + 0x400,
    FLASH_MODE = FLASH + 0x504,
    FLASH_ERASE_PAGE = FLASH + 0x508,
    TO_READ = 0,
    TO_WRITE = 1,
    TO_ERASE = 2,
    PAGE = 1024,
    SLOT = 0x20000,
    SLOT_LENGTH = 0x1fc00,
    MARK = SLOT + SLOT_LENGTH,
};

extern uint8_t stack_top_[], data_from_[], data_begin_[], data_end_[], bss_begin_[], bss_end_[];

int main(void);

uint8_t line_read(void)
{
    while (REGISTER(RECEIVED) == 0)
        ;
    REGISTER(RECEIVED) = 0;
    return (uint8_t)REGISTER(BYTE_IN);
}

void line_write(const void *bytes, size_t length)
{
    for (size_t at = 0; at < length; at++) {
        REGISTER(BYTE_OUT) = ((const uint8_t *)bytes)[at];
        while (REGISTER(SENT) == 0)
            ;
        REGISTER(SENT) = 0;
    }
}

static void line_begin(void)
{
    REGISTER(SET_HIGH) = 1u << OUT;
    REGISTER(SET_OUTPUT) = 1u << OUT;
    REGISTER(PINS + 0x700 + 4 * IN) = 0;
    REGISTER(PIN_OUT) = OUT;
    REGISTER(PIN_IN) = IN;
    REGISTER(RATE) = RATE_115200;
    REGISTER(ENABLE) = 4;
    REGISTER(START_SENDING) = 1;
    REGISTER(START_RECEIVING) = 1;
}

static void flash_mode(uint32_t mode)
{
    while (REGISTER(FLASH_READY) == 0)
        ;
    REGISTER(FLASH_MODE) = mode;
}

static void write_word(uint32_t place, uint32_t word)
{
    flash_mode(TO_WRITE);
    REGISTER(place) = word;
    flash_mode(TO_READ);
}

size_t slot_size(void)
{
    return SLOT_LENGTH;
}

void slot_erase(void)
{
    flash_mode(TO_ERASE);
    REGISTER(FLASH_ERASE_PAGE) = MARK;
    flash_mode(TO_READ);
}

void slot_write(size_t place, uint32_t word)
{
    if (place % PAGE == 0) {
        flash_mode(TO_ERASE);
        REGISTER(FLASH_ERASE_PAGE) = SLOT + (uint32_t)place;
    }
    write_word(SLOT + (uint32_t)place, word);
}

void slot_accept(size_t length)
{
    write_word(MARK, (uint32_t)length);
}

static void copy_words(const uint8_t *from, uint8_t *to, const uint8_t *end)
{
    for (; to < end; to++, from++)
        *to = *from;
}

static void reset(void)
{
    copy_words(data_from_, data_begin_, data_end_);
    for (volatile uint8_t *at = bss_begin_; at < bss_end_; at++)
        *at = 0;
    line_begin();
    main();
    for (;;)
        ;
}

static void fault(void)
{
    for (;;)
        ;
}

__attribute__((section(".vectors"), used)) static void (*const vectors[])(void) = {
    (void (*)(void))stack_top_,
    reset,
    fault,
    fault,
    fault,
    fault,
    fault,
    fault,
    fault,
    fault,
    fault,
    fault,
    fault,
    fault,
    fault,
    fault,
};
