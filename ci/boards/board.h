/*
 * What the start-up code of a board gives to a program: semihosting, by which it speaks through an emulator or a
 * debugger, a stack that is painted, and a counter.
 */
#ifndef BOARD_H
#define BOARD_H

#include <stdint.h>
#include <string.h>

/** Makes a call of semihosting: an operation, and the address of what it is given. */
uintptr_t host_call(uintptr_t operation, const void *given);

/** The lowest address of the stack, and the stack pointer. */
uintptr_t stack_limit(void);
uintptr_t stack_now(void);

/** Begins to count. In an emulator that gives each instruction the same time, what is counted is instructions, some at
 * a time. */
void count_begin(void);

/** What was counted since. */
uint32_t counted(void);

enum {
    HOST_WRITE_TEXT = 0x04,
    HOST_EXIT = 0x20,
    EXIT_BY_PROGRAM = 0x20026,
};

#define STACK_PATTERN 0xa5c3a5c3u

/** Prints a text that ends with a zero. */
static inline void host_print(const char *text)
{
    host_call(HOST_WRITE_TEXT, text);
}

/** Prints a number. */
static inline void host_print_number(uint32_t number)
{
    char text[11] = {0};
    char *at = text + sizeof text - 1;
    do {
        *--at = (char)('0' + number % 10);
        number /= 10;
    } while (number != 0);
    host_print(at);
}

/** Ends the program with a status. */
static inline void host_exit(int status)
{
    const uintptr_t given[2] = {EXIT_BY_PROGRAM, (uintptr_t)status};
    host_call(HOST_EXIT, given);
    for (;;)
        ;
}

/** Writes the pattern below the frame of its caller. */
static inline void stack_paint(void)
{
    volatile uint32_t *end = (volatile uint32_t *)((stack_now() - 128) & ~(uintptr_t)3);
    for (volatile uint32_t *at = (volatile uint32_t *)stack_limit(); at < end; at++)
        *at = STACK_PATTERN;
}

/** How many bytes below an address were written since the stack was painted. */
static inline uint32_t stack_used(uintptr_t from)
{
    const uint32_t *at = (const uint32_t *)stack_limit();
    while ((uintptr_t)at < from && *at == STACK_PATTERN)
        at++;
    return (uint32_t)(from - (uintptr_t)at);
}

#endif
