/* A formula shortened by the library, with areas that always suffice. */
#ifndef SIMPLIFIED_H
#define SIMPLIFIED_H

#include "bytes.h"
#include <simmergate.h>

struct simplified {
    uint8_t *out, *steps;
    size_t bytes; /* of the result */
    uint8_t answer[SIMMERGATE_SIMPLIFY_BYTES];
};

/* Shortens an accepted table; the refusal number, 0 or 7. */
uint32_t simplify(const uint8_t *table, size_t bytes, struct simplified *to);
void simplified_free(struct simplified *gone);

/* The area that every call asks for, lent again and again. */
uint8_t *work_area(void);

/* A number of the answer. */
uint64_t answered(const struct simplified *of, size_t at);

/* "steps like-terms power-one, openings 1, weight 11 to 9, tries 11". */
void put_steps(const struct simplified *of);

#endif
