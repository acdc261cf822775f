/* Start-up, faults and semihosting of a 32-bit RISC-V. */
#include "board.h"

extern uint8_t stack_limit_[], data_from_[], data_begin_[], data_end_[], bss_begin_[], bss_end_[];

int main(void);
void reset_(void);
void fault_(void);

/* The three instructions of a call of semihosting stand in one page, and none of them is a compressed one. */
__asm__(".section .vectors, \"ax\"\n"
        ".global start_\n"
        "start_:\n"
        "  la sp, stack_top_\n"
        "  la t0, trap_\n"
        ".option push\n"
        ".option arch, +zicsr\n"
        "  csrw mtvec, t0\n"
        ".option pop\n"
        "  j reset_\n"
        ".balign 4\n"
        "trap_:\n"
        "  j fault_\n"
        ".text\n"
        ".option push\n"
        ".option norvc\n"
        ".balign 16\n"
        ".global host_call\n"
        "host_call:\n"
        "  slli zero, zero, 0x1f\n"
        "  ebreak\n"
        "  srai zero, zero, 7\n"
        "  ret\n"
        ".option pop\n");

uintptr_t stack_limit(void)
{
    return (uintptr_t)stack_limit_;
}

uintptr_t stack_now(void)
{
    uintptr_t sp;
    __asm__ volatile("mv %0, sp" : "=r"(sp));
    return sp;
}

static uint32_t count_from;

static uint32_t instructions(void)
{
    uint32_t count;
    __asm__ volatile(".option push\n.option arch, +zicsr\ncsrr %0, minstret\n.option pop" : "=r"(count));
    return count;
}

void count_begin(void)
{
    count_from = instructions();
}

uint32_t counted(void)
{
    return instructions() - count_from;
}

void reset_(void)
{
    memcpy(data_begin_, data_from_, (size_t)(data_end_ - data_begin_));
    memset(bss_begin_, 0, (size_t)(bss_end_ - bss_begin_));
    host_exit(main());
}

void fault_(void)
{
    host_print("fault\n");
    host_exit(99);
}
