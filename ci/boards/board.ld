/* The memory of a board. What is where, and how large the stack is, comes from symbols of the command line. */
MEMORY
{
    flash (rx) : ORIGIN = FLASH_AT, LENGTH = FLASH_LENGTH
    ram (rwx) : ORIGIN = RAM_AT, LENGTH = RAM_LENGTH
}
SECTIONS
{
    /* constants come last: a C library may have functions that ask for no alignment */
    .text : { KEEP(*(.vectors)) *(.text .text.*) *(.rodata .rodata.* .srodata .srodata.*) . = ALIGN(8); } >flash
    .ARM.exidx : { *(.ARM.exidx*) } >flash
    . = ALIGN(8);
    data_from_ = LOADADDR(.data);
    .data : { data_begin_ = .; *(.data .data.* .sdata .sdata.*) . = ALIGN(8); data_end_ = .; } >ram AT>flash
    .bss (NOLOAD) : { bss_begin_ = .; *(.bss .bss.* .sbss .sbss.* COMMON) . = ALIGN(8); bss_end_ = .; } >ram
    stack_top_ = ORIGIN(ram) + LENGTH(ram);
    stack_limit_ = stack_top_ - STACK_LENGTH;
    ASSERT(bss_end_ <= stack_limit_, "no room for the stack")
    /DISCARD/ : { *(.ARM.attributes .comment .note* .eh_frame* .stack_sizes) }
}
