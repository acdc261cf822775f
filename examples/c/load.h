/* What the examples share: a file that is read whole, into memory that has an end. */
#ifndef LOAD_H
#define LOAD_H

#include <stddef.h>
#include <stdint.h>
#include <stdio.h>

/* Reads a file of at most `room` bytes. It returns 0, or -1 and says why on standard error. */
static inline int load(const char *path, uint8_t *bytes, size_t room, size_t *length)
{
    FILE *file = fopen(path, "rb");
    if (file == NULL) {
        perror(path);
        return -1;
    }
    *length = fread(bytes, 1, room, file);
    int is_whole = *length < room || fgetc(file) == EOF;
    int has_failed = ferror(file);
    fclose(file);
    if (has_failed || !is_whole)
        fprintf(stderr, "%s: %s\n", path, has_failed ? "it can't be read" : "it is too long");
    return has_failed || !is_whole ? -1 : 0;
}

#endif
