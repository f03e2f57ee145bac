/* differ LINES SEED COUNT: simmergate_differ against the stored answers, every line of standard input, and on COUNT random pairs of tables beside
   a plain recursive walk that shares nothing with the proved code: a table and itself with a few records or marks changed, two tables of their own, and
   one time in six a damaged one; at either limit, heavy tables that only the higher one accepts among them, and at limits that there are not.
   Compared: the return, every byte of the answer and of the list, and that nothing around them changed. */
#define LENT_ROOM (1 << 19)
#include "../../include/simmergate.h"
#include "lent.h"
#include "own.h"
#include "text.h"
#include "tables.h"
#include "trees.h"
#include "damage.h"

enum { ANSWER = SIMMERGATE_DIFFER_BYTES, ROOM = RECORD * (HIGHER + 4) };

static struct lent lent_first = {.name = "first"}, lent_second = {.name = "second"}, lent_list = {.name = "list"}, lent_answer = {.name = "answer"};
static uint8_t first[ROOM], second[ROOM];
static size_t first_bytes, second_bytes, limit = LOWER;
static unsigned long calls, refused, with_pairs, without, heavy;
static const char *now;

static void fail(const char *what) {
    printf("differ: %s: %s, two tables of %zu and %zu bytes at the limit %zu, a list of %zu\n", now, what, first_bytes, second_bytes, limit, lent_list.length);
    exit(1);
}

/* ---- the call, with a list of `room` bytes, must give these numbers and the pairs in `listed` */
static void call(size_t room, size_t answer_room, const uint64_t *wanted) {
    uint8_t *a = memcpy(lend(&lent_first, first_bytes), first, first_bytes), *b = memcpy(lend(&lent_second, second_bytes), second, second_bytes);
    uint8_t *list = lend(&lent_list, room), *answer = lend(&lent_answer, answer_room);
    uint32_t r = simmergate_differ(limit, a, first_bytes, b, second_bytes, list, room, answer, answer_room);
    size_t written = answer_room >= ANSWER && wanted[0] == 0 ? 16 * wanted[3] : 0;
    if (r != (answer_room < ANSWER ? 6 : wanted[0])) fail("the return");
    if (answer_room < ANSWER ? !untouched(&lent_answer) : !holds(&lent_answer, numbers(wanted, 6), ANSWER, ANSWER)) fail("the answer");
    if (!holds(&lent_list, listed, written, written)) fail("the list");
    if (!holds(&lent_first, first, first_bytes, first_bytes)) fail("the first table changed");
    if (!holds(&lent_second, second, second_bytes, second_bytes)) fail("the second table changed");
    calls++;
}

/* The same at a limit that there is not: 19, whatever is handed in. */
static void no_limit(size_t room) {
    static const uint64_t nineteen[6] = {19, 0, 0, 0, 0, 0};
    size_t known = limit;
    limit = own_no_limit(calls);
    call(room, ANSWER, nineteen);
    limit = known;
}

/* ---- stored answers */
static void stored(void) {
    static char name[200];
    char *part[8];
    size_t n = cut(line, part, 8);
    if (n != 7) { printf("differ: a line has %zu parts: %s\n", n, line); exit(2); }
    snprintf(name, sizeof name, "%s", part[0]);
    now = name;
    first_bytes = spelt(part[1], first, ROOM);
    second_bytes = spelt(part[2], second, ROOM);
    uint64_t wanted[6];
    char *p = part[4];
    for (int i = 0; i < 4; i++) {
        char *from = p;
        wanted[i] = strtoull(from, &p, 10);
        if (p == from) { printf("differ: %s: a number is missing: %s\n", name, part[4]); exit(2); }
    }
    /* what is wrong with a record is not stored: the plain reading tells it */
    struct verdict v = wanted[2] == 2 ? own_check(limit, second, second_bytes) : own_check(limit, first, first_bytes);
    wanted[4] = wanted[0] == 2 ? v.what : 0;
    wanted[5] = wanted[0] == 2 ? v.byte : 0;
    pairs = 0;
    if (strcmp(part[5], "-") != 0)
        for (p = part[5]; *p != 0;) {
            uint64_t i = strtoull(p, &p, 10);
            if (*p++ != ',') { printf("differ: %s: no pair: %s\n", name, part[5]); exit(2); }
            pair(i, strtoull(p, &p, 10));
            if (*p == ' ') p++;
        }
    if (pairs != wanted[3]) { printf("differ: %s: %zu pairs stored, and %llu answered\n", name, pairs, (unsigned long long)wanted[3]); exit(2); }
    for (size_t room = 0; room <= ANSWER + 9; room += room == 0 ? ANSWER - 1 : 1) call(decimal(part[3]), room, wanted);
    no_limit(decimal(part[3]));
    /* tables up to the lower limit have the same answers at the higher */
    if (wanted[0] != 1 && wanted[0] != 3) limit = HIGHER, call(decimal(part[3]), ANSWER, wanted), limit = LOWER;
    uint8_t answer[SIMMERGATE_EQUAL_BYTES];
    simmergate_equal(limit, first, first_bytes, second, second_bytes, answer, sizeof answer);
    if (strcmp(part[6], own_number(answer) != 0 ? "-" : own_number(answer + 24) ? "equal" : "not equal") != 0) fail("equality");
}

/* A sum of small random tables that weighs over 3,072 and at most 16,384. */
static size_t heavy_table(uint8_t *table, uint64_t seed, uint64_t index) {
    static uint8_t part[RECORD * TABLE_RECORDS];
    uint64_t weight = 1, members = 0, wanted = LOWER + 1 + index * 7919 % (HIGHER - LOWER - 1000);
    size_t records = 1;
    while (weight < wanted) {
        size_t n = random_table(part, seed, index * 100003 + members, 60, 300);
        memcpy(table + RECORD * records, part, RECORD * n);
        weight += own_weight(part, RECORD * n);
        records += n;
        members++;
    }
    if (weight > HIGHER || members < 2) { printf("differ: a heavy table of weight %llu\n", (unsigned long long)weight); exit(2); }
    memset(table, 0, RECORD);
    table[0] = 2, table[2] = (uint8_t)members, table[3] = (uint8_t)(members >> 8);
    return records;
}

static size_t any_table(uint8_t *table, uint64_t seed, uint64_t index, int heavy) {
    return heavy ? heavy_table(table, seed, index) : random_table(table, seed, index, 400, LOWER);
}

static void tried(uint64_t seed, uint64_t at) {
    static char name[100];
    snprintf(name, sizeof name, "random pair %llu of seed %llu", (unsigned long long)at, (unsigned long long)seed);
    now = name;
    limit = at % 3 == 0 ? HIGHER : LOWER;
    int is_heavy = at % 50 < 2; /* two times in three at the lower limit, which refuses it */
    size_t records = any_table(first, seed, 2 * at, is_heavy);
    first_bytes = second_bytes = 16 * records;
    put_marks(first, first_bytes);
    if (chance(3)) second_bytes = 16 * any_table(second, seed, 2 * at + 1, is_heavy && chance(2));
    else { memcpy(second, first, first_bytes); change(second, records); }
    if (chance(6)) first[below(first_bytes)] ^= (uint8_t)(1 << below(8));
    if (chance(6)) second[below(second_bytes)] ^= (uint8_t)(1 << below(8));
    struct verdict v = own_check(limit, first, first_bytes), w = own_check(limit, second, second_bytes);
    pairs = 0;
    if (at % 16 == 0) no_limit(below(100));
    if (v.number != 0 || w.number != 0) {
        refused++;
        call(below(100), ANSWER, v.number != 0 ? (uint64_t[]){v.number, v.place, 1, 0, v.what, v.byte} : (uint64_t[]){w.number, w.place, 2, 0, w.what, w.byte});
        return;
    }
    uint64_t i = 0, j = 0;
    walk(first, &i, second, &j);
    if (16 * i != first_bytes || 16 * j != second_bytes) fail("the plain walk does not end where the tables do");
    uint64_t told[6] = {0, 0, 0, pairs, 0, 0}, six[6] = {6, 0, 0, 0, 0, 0};
    size_t shorter = first_bytes < second_bytes ? first_bytes : second_bytes;
    if (16 * pairs > shorter) fail("more pairs than the shorter table has records");
    call(shorter, ANSWER + below(20), told);
    call(16 * pairs + below(16), ANSWER, told);
    if (pairs > 0) call(16 * pairs - 1 - below(16 * pairs), ANSWER, six);
    if (pairs > 0) with_pairs++;
    else without++;
    if (own_weight(first, first_bytes) > LOWER || own_weight(second, second_bytes) > LOWER) heavy++;
    if ((pairs == 0) != (first_bytes == second_bytes && memcmp(first, second, first_bytes) == 0)) fail("no pair, and other bytes; or the other way round");
}

int main(int count, char **words) {
    if (count != 4) { printf("usage: differ LINES SEED COUNT\n"); return 2; }
    uint64_t lines = 0, seed = decimal(words[2]), many = decimal(words[3]);
    lent_begin();
    while (next_line()) { stored(); lines++; }
    if (lines != decimal(words[1])) { printf("differ: %llu lines, not %s\n", (unsigned long long)lines, words[1]); return 1; }
    for (uint64_t at = 0; at < many; at++) tried(seed, at);
    printf("simmergate_differ: %llu stored pairs of tables and %llu random ones (%lu with pairs, %lu the same, %lu refused; %lu heavier than 3,072), %lu calls, all as they should be\n",
           (unsigned long long)lines, (unsigned long long)many, with_pairs, without, refused, heavy, calls);
    return 0;
}
