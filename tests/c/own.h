/* The paper read plainly in C, for the tests: it shares nothing with the proved code. */
#ifndef OWN_H
#define OWN_H
#include <stddef.h>
#include <stdint.h>

enum { RECORD = 16, LOWER = 3072, HIGHER = 16384, MOST_BYTES = RECORD * LOWER, MOST_WEIGHT = LOWER, REGISTERS = 256 };

/* A refusal's number and place, and after 2 what is wrong with the record: 1 its kind, 2 a byte, 3 its count; and which byte. */
struct verdict {
    uint64_t number, place, what, byte;
};

/* Refusals 19 and 1 to 5 of a table at a limit; all 0 where there is none. */
struct verdict own_check(size_t limit, const uint8_t *table, size_t bytes);

/* The bytes of `work` that a limit asks for. */
size_t own_work(size_t limit);

/* Some number that is no limit, by turns; among them such as become one where bytes of them are lost. */
size_t own_no_limit(uint64_t turn);

/* The weight of the records of a table. */
uint64_t own_weight(const uint8_t *table, size_t bytes);

/* The value of a table that is not refused. */
uint64_t own_value(const uint8_t *table, const uint64_t *registers);

/* The number in eight bytes, and a number as eight bytes. */
uint64_t own_number(const uint8_t *bytes);
void own_bytes(uint8_t *bytes, uint64_t number);

#endif
