/* Where a text stops being one that a formula can begin with: the form of Q-6 read character by character, with a stack of the open parentheses. The
   library decides whether a text is a formula; this says only where, and why, it is none. */
#ifndef CARET_H
#define CARET_H

#include "bytes.h"

/* What was read last, or what must follow. */
enum caret_place {
    CARET_OPERAND,      /* a member or a base must follow */
    CARET_MINUS,        /* a sign was read, its number must follow */
    CARET_S,            /* s was read, its number must follow */
    CARET_TO_EXPONENT,  /* ^ was read, the exponent must follow */
    CARET_NUMBER,       /* within an integer without sign */
    CARET_NEGATIVE,     /* within a negative integer */
    CARET_SYMBOL,       /* within the number of a symbol */
    CARET_EXPONENT,     /* within an exponent: a power stands here */
    CARET_SUM,          /* ) was read, behind a sum */
    CARET_PRODUCT,      /* .. behind a product */
    CARET_POWER,        /* .. behind a power, which is a base */
    CARET_NEGATIVE_BASE /* .. behind a negative integer, which is a base */
};

struct caret {
    enum caret_place place;
    uint64_t number;     /* that is being read */
    int plus, star;      /* whether + stands in this pair of parentheses, and * in this member of it */
    struct bytes around; /* the same two of each pair that is open */
};

/* A text is begun; the memory of an earlier one serves again. */
void caret_begin(struct caret *reader);

/* Reads a character: 1, or 0 where no formula goes on like this, and then nothing has changed. */
int caret_step(struct caret *reader, uint8_t c);

/* Whether the text may end here. */
int caret_may_end(const struct caret *reader);

/* The number of characters that some formula begins with; where that is all of them, `n` means that more is missing, or nothing. */
size_t caret_at(struct caret *reader, const char *text, size_t n);

/* The likely cause, where character `c` cannot follow, or, with -1, where the text ends. `named` says whether names are given. */
const char *caret_cause(const struct caret *reader, int c, int named);

void caret_free(struct caret *reader);

#endif
