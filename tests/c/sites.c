#include "sites.h"
#include <string.h>

/* "8, before 1, if the two lists differ in length or the lengths miss the bytes given": each length is taken off what is left. */
static int misses(const struct site *site) {
    size_t left = site->definitions_bytes;
    if (site->lengths_bytes != 8 * site->symbols_bytes) return 1;
    for (size_t i = 0; i < site->symbols_bytes; i++) {
        uint64_t n = own_number(site->lengths + 8 * i);
        if (n > left) return 1;
        left -= (size_t)n;
    }
    return left != 0;
}

void own_bounds(const struct site *site, size_t i, size_t *begin, size_t *end) {
    *begin = 0;
    for (size_t j = 0; j < i; j++) *begin += (size_t)own_number(site->lengths + 8 * j);
    *end = *begin + (size_t)own_number(site->lengths + 8 * i);
}

int own_definition(const struct site *site, uint8_t symbol) {
    for (size_t i = 0; i < site->symbols_bytes; i++)
        if (site->symbols[i] == symbol) return (int)i;
    return -1;
}

/* The records of definition i, or of the formula where i is -1. */
static const uint8_t *records_of(const struct site *site, int i, size_t *count) {
    size_t begin, end;
    if (i < 0) return *count = site->table_bytes / 16, site->table;
    own_bounds(site, (size_t)i, &begin, &end);
    *count = (end - begin) / 16;
    return site->definitions + begin;
}

/* "a definition reached from the formula that leads back to itself": from part i on, `way` telling which parts are on the way (1) or done (2);
   and the opened weight of each part, no more than a million. */
struct reach { int way[MOST_DEFINITIONS]; uint64_t weights[MOST_DEFINITIONS]; };

static int circle(const struct site *site, int i, struct reach *reach, uint64_t *weight) {
    size_t n;
    const uint8_t *r = records_of(site, i, &n);
    *weight = 0;
    for (size_t k = 0; k < n; k++, r += 16) {
        int d = r[0] == 1 ? own_definition(site, r[8]) : -1;
        if (d < 0) {
            *weight += r[0] == 1 ? 3 : 1;
        } else {
            if (reach->way[d] == 1) return 1;
            if (reach->way[d] == 0) {
                reach->way[d] = 1;
                if (circle(site, d, reach, &reach->weights[d])) return 1;
                reach->way[d] = 2;
            }
            *weight += reach->weights[d];
        }
        if (*weight > 1000000) *weight = 1000000;
    }
    return 0;
}

/* "replaces each by its tree, again inside the replacement": the records of part i, opened, to `to`; where they end. */
static uint8_t *write_opened(const struct site *site, int i, uint8_t *to) {
    size_t n;
    const uint8_t *r = records_of(site, i, &n);
    for (size_t k = 0; k < n; k++, r += 16) {
        int d = r[0] == 1 ? own_definition(site, r[8]) : -1;
        if (d >= 0) to = write_opened(site, d, to);
        else memcpy(to, r, 16), to += 16;
    }
    return to;
}

struct opened own_open(const struct site *site, uint8_t *to) {
    struct reach reach = {{0}, {0}};
    uint64_t weight;
    if (site->limit != LOWER && site->limit != HIGHER) return (struct opened){.number = 19};
    if (misses(site)) return (struct opened){.number = 8};
    struct verdict v = own_check(site->limit, site->table, site->table_bytes);
    if (v.number != 0) return (struct opened){.number = v.number, .place = v.place, .what = v.what, .byte = v.byte};
    for (size_t i = 0; i < site->symbols_bytes; i++) {
        size_t begin, end;
        own_bounds(site, i, &begin, &end);
        if (own_check(site->limit, site->definitions + begin, end - begin).number != 0) return (struct opened){.number = 15};
    }
    if (site->symbols_bytes > MOST_DEFINITIONS) return (struct opened){.number = 16};
    for (size_t i = 0; i < site->symbols_bytes; i++)
        if (own_definition(site, site->symbols[i]) != (int)i) return (struct opened){.number = 16};
    if (circle(site, -1, &reach, &weight)) return (struct opened){.number = 17};
    if (weight > site->limit) return (struct opened){.number = 18};
    return (struct opened){.records = (uint64_t)(write_opened(site, -1, to) - to) / 16, .weight = weight};
}
