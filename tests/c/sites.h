/* A formula with its definitions, and the request for shared sub-formulas read plainly in C, for the tests: it shares nothing with the proved
   code. */
#ifndef SITES_H
#define SITES_H
#include "own.h"

enum { MOST_DEFINITIONS = 16 };

/* The limit; a formula; the symbols, a byte each; the lengths, 8 bytes each; the definitions, end to end. */
struct site {
    size_t limit;
    uint8_t table[RECORD * HIGHER + 64], symbols[512], lengths[4096], definitions[1 << 19];
    size_t table_bytes, symbols_bytes, lengths_bytes, definitions_bytes;
};

/* A refusal's number and place, and after 2 what is wrong with the formula's record; or 0, and records and weight of the opened table. */
struct opened {
    uint64_t number, place, what, byte, records, weight;
};

/* Refusals 19, 8, 1 to 5 and 15 to 18 of a site; where there is none, its opened table goes to `to`, which has room for the limit. */
struct opened own_open(const struct site *site, uint8_t *to);

/* The definition of the symbol, -1 where it has none; where definition i begins and ends. For a site that `own_open` does not refuse by 8. */
int own_definition(const struct site *site, uint8_t symbol);
void own_bounds(const struct site *site, size_t i, size_t *begin, size_t *end);

#endif
