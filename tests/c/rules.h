/* The paper's rules and its driver read plainly in C, for the tests: trees of pointers, no bound on memory, every member copied. It shares
   nothing with the proved code. */
#ifndef RULES_H
#define RULES_H
#include <stddef.h>
#include <stdint.h>

/* What simplifying gives: 0, or 7 with the steps completed before it; the records, the steps a byte each, the openings, the tries. */
struct simplified {
    uint64_t number, place, records, steps, openings, tries;
};

/* Simplifies a table that is not refused by the rules of edition 1 or 2; `out` and `steps` have room for its weight, and hold nothing of use after 7. */
struct simplified own_simplify(int edition, const uint8_t *table, uint8_t *out, uint8_t *steps);

#endif
