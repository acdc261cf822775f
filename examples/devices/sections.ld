/* What lies where, of any board. The build fails where a call of the library would have less stack than it may take. */
ENTRY(start_)
SECTIONS
{
    .text : { PROVIDE(start_ = .); KEEP(*(.vectors)) *(.text .text.* .rodata .rodata.* .srodata .srodata.*) . = ALIGN(8); } >flash
    .ARM.exidx : { *(.ARM.exidx*) } >flash
    . = ALIGN(8);
    data_from_ = LOADADDR(.data);
    .data : { data_begin_ = .; *(.data .data.* .sdata .sdata.*) . = ALIGN(8); data_end_ = .; } >ram AT>flash
    .bss (NOLOAD) : { bss_begin_ = .; *(.bss .bss.* .sbss .sbss.* COMMON) . = ALIGN(8); bss_end_ = .; } >ram
    stack_top_ = ORIGIN(ram) + LENGTH(ram);
    ASSERT(bss_end_ + stack_room_ <= stack_top_, "no room for the stack")
    /DISCARD/ : { *(.ARM.attributes .comment .note* .eh_frame* .stack_sizes) }
}
