/* Two formulas compared by the library: the pairs of records that differ. */
#ifndef COMPARED_H
#define COMPARED_H

#include "formula.h"
#include "shape.h"

struct compared {
    const char *names[2]; /* of the files, as they are shown */
    struct formula formulas[2];
    struct shape shapes[2];
    uint8_t *list;
    size_t pairs;
    int equal;
};

/* Reads two formulas and compares them; DONE, or REFUSED or FAILED after a message. */
int compare(const struct operand *a, const struct operand *b, struct compared *to);
void compared_free(struct compared *gone);

/* The record of pair i in the first formula, or the second. */
size_t pair_record(const struct compared *of, size_t i, int side);

/* Whether the bytes are the same. */
int is_same_bytes(const struct compared *of);

/* The rows of a page for a browser: its head, one comparison, its end. */
void put_page_begin(const char *a, const char *b);
void put_page_note(const char *name, const char *what);
void put_page_compared(const char *name, const struct compared *of);
void put_page_end(void);

#endif
