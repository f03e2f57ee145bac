/* equal ONE OTHER TIMES: compares two equal trees of 1,535 sums one inside the other so many times. ONE and OTHER, each `first` or `last`, say
   which member of each sum is the deep one in the first tree and in the second.
   equal ROW LIMIT TIMES: compares two equal sums of as many members as the limit allows. ROW: `same`, integers in the same order; `reversed`, in reverse
   order; `shuffled`, in some other; `among`, integers and one symbol in reverse order; `symbols`, symbols alone in reverse order. */
#include "../include/simmergate.h"
#include <stdio.h>
#include <string.h>

enum { RECORD = 16, DEPTH = 1535, MOST = 16384, SYMBOL = 1, SUM = 2 };

static uint8_t one[RECORD * MOST], other[RECORD * MOST], answer[SIMMERGATE_EQUAL_BYTES];

static uint8_t *put(uint8_t *r, unsigned kind, unsigned members, unsigned number) {
    memset(r, 0, RECORD);
    r[0] = (uint8_t)kind;
    r[2] = (uint8_t)members;
    r[3] = (uint8_t)(members >> 8);
    r[8] = (uint8_t)number;
    r[9] = (uint8_t)(number >> 8);
    return r + RECORD;
}

static size_t chain(uint8_t *table, int first) {
    uint8_t *r = table;
    for (unsigned d = 0; d < DEPTH; d++) {
        r = put(r, SUM, 2, 0);
        if (!first) r = put(r, 0, 0, 3 + d);
    }
    r = put(r, 0, 0, 1);
    for (unsigned d = DEPTH; d > 0; d--)
        if (first) r = put(r, 0, 0, 2 + d);
    return (size_t)(r - table);
}

static void swap(uint8_t *table, size_t i, size_t j) {
    uint8_t kept[RECORD];
    memcpy(kept, table + RECORD * i, RECORD);
    memcpy(table + RECORD * i, table + RECORD * j, RECORD);
    memcpy(table + RECORD * j, kept, RECORD);
}

/* A symbol weighs 3, an integer 1. */
static size_t wide(const char *row, unsigned limit) {
    int symbols = row[0] == 's' && row[1] == 'y', among = row[0] == 'a';
    unsigned n = symbols ? (limit - 1) / 3 : limit - 1 - 2 * (unsigned)among;
    uint8_t *r = put(one, SUM, n, 0);
    for (unsigned i = 0; i < n; i++) r = symbols || (among && i == n / 2) ? put(r, SYMBOL, 0, 7 * i % 256) : put(r, 0, 0, i);
    memcpy(other, one, (size_t)(r - one));
    if (row[0] == 's' && row[1] == 'h')
        for (unsigned i = n, seed = 1; i > 1; i--) swap(other, i, 1 + (seed = 1103515245 * seed + 12345) / 65536 % i);
    else if (row[0] != 's' || symbols)
        for (unsigned i = 0; i < n / 2; i++) swap(other, 1 + i, n - i);
    return (size_t)(r - one);
}

static unsigned long number(const char *s) {
    unsigned long n = 0;
    while (*s) n = 10 * n + (unsigned long)(*s++ - '0');
    return n;
}

int main(int arguments, char **words) {
    if (arguments != 4) return 2;
    int deep = words[2][0] == 'f' || words[2][0] == 'l';
    unsigned limit = deep ? 3072 : (unsigned)number(words[2]);
    size_t bytes = deep ? chain(one, words[1][0] == 'f') : wide(words[1], limit);
    if (deep) chain(other, words[2][0] == 'f');
    for (unsigned long times = number(words[3]); times--;)
        if (simmergate_equal(limit, one, bytes, other, bytes, answer, sizeof answer) != 0 || answer[24] != 1) {
            printf("equal: two equal trees, %s and %s: the answer is %d, %d\n", words[1], words[2], answer[0], answer[24]);
            return 1;
        }
    return 0;
}
