/* Files that are written: whole or not at all. */
#ifndef WRITE_H
#define WRITE_H

#include <stddef.h>
#include <stdint.h>

/* Writes a file: a regular one, or one that is not there yet, by way of a temporary file beside it, flushed and renamed, its mode and owner kept, a link
   followed to its target; anything else (/dev/null, a fifo) directly. 0, or FAILED after a message. */
int write_whole(const char *path, const uint8_t *bytes, size_t n);

/* The same for a file that must not be there yet. */
int write_new(const char *path, const uint8_t *bytes, size_t n);

/* The path that links lead to in the end, whether there is a file or not; NULL after a message. */
char *follow(const char *path);

/* Removes the temporary file where there is one. */
void drop_temporary(void);

/* Has an interrupt remove the temporary file first, and a write that cannot be made answer instead of ending the program. */
void take_signals(void);

#endif
