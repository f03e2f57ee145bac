/* Names for symbols, from the file of --names: lines `s0 flow`. */
#ifndef NAMES_H
#define NAMES_H

#include <stddef.h>
#include <stdint.h>

#define SYMBOLS 256

/* Reads the file; without one symbols are s0 to s255. DONE, or FAILED after a message. */
int names_read(const char *file);

/* Whether there is a file of names. */
int names_given(void);

/* The symbol that a word is, a name or s0 to s255; -1 where it is none. */
int symbol_of(const char *word, size_t n);

/* The symbol of a name alone; -1 where it is none. */
int symbol_named(const char *word, size_t n);

/* How many characters of a word some name begins with. */
size_t names_begin(const char *word, size_t n);

/* A symbol as it is shown. */
const char *symbol_shown(unsigned symbol);

/* What a name is made of. */
int begins_name(uint8_t c);
int within_name(uint8_t c);

#endif
