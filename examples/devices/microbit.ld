/* A micro:bit. The upper half of the flash is the slot for an image. */
MEMORY
{
    flash (rx) : ORIGIN = 0, LENGTH = 128K
    ram (rwx) : ORIGIN = 0x20000000, LENGTH = 16K
}
stack_room_ = 11K;
INCLUDE sections.ld
