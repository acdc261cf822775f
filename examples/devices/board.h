/* What a board gives to the programs of this folder. */
#ifndef BOARD_H
#define BOARD_H

#include <stddef.h>
#include <stdint.h>

/** Waits for the next byte of the serial line. */
uint8_t line_read(void);

/** Writes bytes to the serial line. */
void line_write(const void *bytes, size_t length);

/** The number of bytes of the slot for an image, which is a multiple of 4. */
size_t slot_size(void);

/** Makes the slot one without an image. */
void slot_erase(void);

/** Writes a word of the image. Its place is a multiple of 4. */
void slot_write(size_t place, uint32_t word);

/** Says that the slot has an image of so many bytes, which may be started from now on. */
void slot_accept(size_t length);

#endif
