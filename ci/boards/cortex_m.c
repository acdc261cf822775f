/* Start-up, faults and semihosting of a Cortex-M. */
#include "board.h"

extern uint8_t stack_top_[], stack_limit_[], data_from_[], data_begin_[], data_end_[], bss_begin_[], bss_end_[];

int main(void);

uintptr_t host_call(uintptr_t operation, const void *given)
{
    register uintptr_t r0 __asm__("r0") = operation;
    register const void *r1 __asm__("r1") = given;
    __asm__ volatile("bkpt 0xab" : "+r"(r0) : "r"(r1) : "memory");
    return r0;
}

uintptr_t stack_limit(void)
{
    return (uintptr_t)stack_limit_;
}

uintptr_t stack_now(void)
{
    uintptr_t sp;
    __asm__ volatile("mov %0, sp" : "=r"(sp));
    return sp;
}

/* SysTick counts down, by the clock of the processor. */
#define SYSTICK ((volatile uint32_t *)0xe000e010)
#define SYSTICK_MOST 0xffffffu

void count_begin(void)
{
    SYSTICK[1] = SYSTICK_MOST;
    SYSTICK[2] = 0;
    SYSTICK[0] = 5;
}

uint32_t counted(void)
{
    return SYSTICK_MOST - SYSTICK[2];
}

static void reset(void)
{
#ifdef TRAP_UNALIGNED /* a Cortex-M3 then stops where a Cortex-M0 would */
    *(volatile uint32_t *)0xe000ed14 |= 8;
#endif
    memcpy(data_begin_, data_from_, (size_t)(data_end_ - data_begin_));
    memset(bss_begin_, 0, (size_t)(bss_end_ - bss_begin_));
    host_exit(main());
}

static void fault(void)
{
    host_print("fault\n");
    host_exit(99);
}

__attribute__((section(".vectors"), used)) static void (*const vectors[])(void) = {
    (void (*)(void))stack_top_, reset, fault, fault, fault, fault, fault,
};
