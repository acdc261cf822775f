/* The board virt of QEMU, whose memory has no flash. */
MEMORY
{
    flash (rx) : ORIGIN = 0x80000000, LENGTH = 512K
    ram (rwx) : ORIGIN = 0x80080000, LENGTH = 32K
}
stack_room_ = 20K;
INCLUDE sections.ld
