#include "own.h"

uint64_t own_number(const uint8_t *bytes) {
    uint64_t n = 0;
    for (int j = 7; j >= 0; j--) n = n << 8 | bytes[j];
    return n;
}

void own_bytes(uint8_t *bytes, uint64_t number) {
    for (int j = 0; j < 8; j++) bytes[j] = (uint8_t)(number >> 8 * j);
}

static unsigned kind(const uint8_t *table, size_t i) { return table[RECORD * i]; }

static unsigned count(const uint8_t *table, size_t i) { return table[RECORD * i + 2] + 256u * table[RECORD * i + 3]; }

static uint64_t number(const uint8_t *table, size_t i) { return own_number(table + RECORD * i + 8); }

/* "Byte 0 always may; kind 0 adds bytes 8-15, kind 1 byte 8, kinds 2 and 3 bytes 2-3, kind 4 nothing." "Bytes 4-5 of every record become a line
   mark, 0 for none." */
static int may_be_other_than_zero(unsigned k, int j) {
    if (j == 0 || j == 4 || j == 5) return 1;
    if (k == 0) return j >= 8;
    if (k == 1) return j == 8;
    if (k == 2 || k == 3) return j == 2 || j == 3;
    return 0;
}

/* "kind, a byte that must be zero (the lowest), or the count, in that order when several are": what is wrong with record i. */
static struct verdict wrong(const uint8_t *table, size_t i) {
    unsigned k = kind(table, i);
    if (k > 4) return (struct verdict){2, i, 1, 0};
    for (int j = 0; j < RECORD; j++)
        if (table[RECORD * i + j] && !may_be_other_than_zero(k, j)) return (struct verdict){2, i, 2, (uint64_t)j};
    if ((k == 2 || k == 3) && count(table, i) < 2) return (struct verdict){2, i, 3, 0};
    return (struct verdict){0, 0, 0, 0};
}

uint64_t own_weight(const uint8_t *table, size_t bytes) {
    uint64_t w = 0;
    for (size_t i = 0; i < bytes / RECORD; i++) w += kind(table, i) == 1 ? 3 : 1;
    return w;
}

/* The record after the tree at record i; n + 1 where the n records end before it. Counts the trees that are still owed. */
static size_t after(const uint8_t *table, size_t n, size_t i) {
    uint64_t owed = 1;
    while (owed > 0) {
        if (i == n) return n + 1;
        unsigned k = kind(table, i++);
        owed = owed - 1 + (k < 2 ? 0 : k == 4 ? 2 : count(table, i - 1));
    }
    return i;
}

size_t own_work(size_t limit) { return limit == LOWER ? 65536 : 524288; }

size_t own_no_limit(uint64_t turn) {
    static const size_t none[] = {0, 1, LOWER - 1, LOWER + 1, HIGHER - 1, HIGHER + 1, 65536, (size_t)1 << 32 | LOWER, (size_t)1 << 32 | HIGHER, (size_t)-1};
    return none[turn % (sizeof none / sizeof *none)];
}

struct verdict own_check(size_t limit, const uint8_t *table, size_t bytes) {
    if (limit != LOWER && limit != HIGHER) return (struct verdict){19, 0, 0, 0};
    if (bytes == 0 || bytes % RECORD != 0 || bytes > RECORD * limit) return (struct verdict){1, 0, 0, 0};
    size_t n = bytes / RECORD, end;
    for (size_t i = 0; i < n; i++) {
        struct verdict v = wrong(table, i);
        if (v.number) return v;
    }
    if (own_weight(table, bytes) > limit) return (struct verdict){3, 0, 0, 0};
    end = after(table, n, 0);
    if (end > n) return (struct verdict){4, n, 0, 0};
    if (end < n) return (struct verdict){4, end, 0, 0};
    size_t first = n;
    for (size_t i = 0; i < n; i++) {
        if (kind(table, i) != 4) continue;
        size_t e = after(table, n, i + 1);
        if (kind(table, e) == 0 && number(table, e) >= 1 && number(table, e) < (uint64_t)1 << 63) continue;
        if (e < first) first = e;
    }
    return first < n ? (struct verdict){5, first, 0, 0} : (struct verdict){0, 0, 0, 0};
}

static uint64_t raised(uint64_t base, uint64_t exponent) {
    uint64_t r = 1;
    for (; exponent; exponent >>= 1, base *= base)
        if (exponent & 1) r *= base;
    return r;
}

/* The value of the tree at record *at, which moves on to the record after it; unsigned arithmetic is modulo 2^64. */
static uint64_t value(const uint8_t *table, size_t *at, const uint64_t *registers) {
    size_t i = (*at)++;
    uint64_t r;
    switch (kind(table, i)) {
    case 0: return number(table, i);
    case 1: return registers[table[RECORD * i + 8]];
    case 2:
        r = 0;
        for (unsigned m = count(table, i); m; m--) r += value(table, at, registers);
        return r;
    case 3:
        r = 1;
        for (unsigned m = count(table, i); m; m--) r *= value(table, at, registers);
        return r;
    default:
        r = value(table, at, registers);
        return raised(r, number(table, (*at)++));
    }
}

uint64_t own_value(const uint8_t *table, const uint64_t *registers) {
    size_t at = 0;
    return value(table, &at, registers);
}
