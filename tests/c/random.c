/* random SEED COUNT [FROM]: the calls on COUNT random tables, at a limit of its own each, beside a checker and an evaluator (own.c), a simplifier (rules.c) and an equality
   test in plain C that share nothing with the port. Of eight tables one is long or deep and has little to do, of five one is damaged. Compared: every number of every answer and every byte that
   is written. Two tables of three have line marks: simplified without them, they take the same steps, openings and tries to the same records without
   marks; and the other table of the equality test has other marks. Besides, the result by what must hold of it: a good table of the same value under random registers, of the weight that was
   answered, lighter by at least a unit for each step and opening, after at most the cube of the weight in tries, and simplified again by the same edition it is itself,
   with no step, no opening and a try for each record. Every lent area is guarded. */
#include "../../include/simmergate.h"
#define LENT_ROOM (524288 + 4096)
#include "lent.h"
#include "own.h"
#include "rules.h"
#include "text.h"
#include "tables.h"
#include "trees.h"
#include "damage.h"

/* ---- Judged by the plain readings of own.c and rules.c, and equality in plain C (trees.h). ---- */

struct judged { uint64_t number, place, what, byte, weight; };

static size_t limit; /* of the calls on the table at hand */

static struct judged judge(const uint8_t *t, size_t bytes) {
    struct verdict v = own_check(limit, t, bytes);
    return (struct judged){v.number, v.place, v.what, v.byte, v.number == 0 ? own_weight(t, bytes) : 0};
}

/* ---- Tables to try. ---- */

static uint8_t table[RECORD * (HIGHER + 4)], other[RECORD * (HIGHER + 4)];
static size_t length, other_length;
static uint64_t seed, at_table;

static void fail(const char *what) {
    printf("random: %s: table %llu of seed %llu (again by: random %llu 1 %llu), %zu bytes: ", what, (unsigned long long)at_table,
           (unsigned long long)seed, (unsigned long long)seed, (unsigned long long)at_table, length);
    if (length <= RECORD * HIGHER) put_hex(table, length);
    printf("\n");
    exit(1);
}

/* ---- The calls. ---- */

static struct lent lent_table = {.name = "table"}, lent_other = {.name = "other table"}, lent_registers = {.name = "registers"},
                   lent_out = {.name = "out"}, lent_steps = {.name = "steps"}, lent_work = {.name = "work"}, lent_answer = {.name = "answer"};
static uint64_t counts[20], rare_ones, at_higher, erased, flaws[4], each_step[10], steps_seen, openings_seen, tries_seen, equal_seen, unequal_seen, calls;

/* A size for an area that must have `need` bytes: mostly that, at times more, at times too few. */
static size_t some_size(size_t need) { return chance(100) && need > 0 ? (size_t)below(need) : chance(3) ? need + (size_t)below(300) : need; }

static void answered(uint32_t number, const uint64_t *wanted, size_t count, const char *what) {
    calls++;
    if (lent_answer.length < 8 * count) {
        if (number != 6 || !untouched(&lent_answer)) fail(what);
        return;
    }
    if (number != wanted[0] || !holds(&lent_answer, numbers(wanted, count), 8 * count, 8 * count)) fail(what);
}

static const uint8_t *lend_bytes(struct lent *area, const uint8_t *bytes, size_t n) { return memcpy(lend(area, n), bytes, n); }

static void try_check_and_weight(struct judged v) {
    size_t n = some_size(SIMMERGATE_CHECK_BYTES);
    uint8_t *a = lend(&lent_answer, n);
    answered(simmergate_check(limit, lend_bytes(&lent_table, table, length), length, a, n), (uint64_t[]){v.number, v.place, v.what, v.byte}, 4, "check");
    n = some_size(SIMMERGATE_WEIGHT_BYTES);
    a = lend(&lent_answer, n);
    answered(simmergate_weight(limit, lend_bytes(&lent_table, table, length), length, a, n), (uint64_t[]){v.number, v.place, v.weight, v.what, v.byte}, 5,
             "weight");
    if (!holds(&lent_table, table, length, length)) fail("check or weight: the table changed");
}

static void random_registers(uint64_t *registers) {
    int shape = (int)below(4);
    for (int i = 0; i < 256; i++) registers[i] = shape == 0 ? below(4) : shape == 1 ? any() << below(64) : any();
}

static void try_value(struct judged v, const uint8_t *t, size_t n) {
    uint64_t registers[256];
    static uint8_t bytes[4096];
    random_registers(registers);
    for (size_t i = 0; i < 2048; i++) bytes[i] = (uint8_t)(registers[i / 8] >> 8 * (i % 8));
    size_t lent = chance(15) ? (size_t)below(4096) : 2048, room = some_size(SIMMERGATE_VALUE_BYTES);
    uint64_t wanted[5] = {v.number, v.place, 0, v.what, v.byte};
    if (v.number == 0 && lent != 2048) wanted[0] = 6;
    if (wanted[0] == 0) wanted[2] = own_value(t, registers);
    uint8_t *a = lend(&lent_answer, room);
    const uint8_t *r = lend_bytes(&lent_registers, bytes, lent), *lent_t = lend_bytes(&lent_table, t, n);
    answered(simmergate_value(limit, lent_t, n, r, lent, a, room), wanted, 5, "value");
    if (!holds(&lent_table, t, n, n) || !holds(&lent_registers, bytes, lent, lent)) fail("value: the table or the registers changed");
}

static void try_equal(struct judged v) {
    struct judged w = judge(other, other_length);
    uint64_t wanted[6] = {0, 0, 0, 0, 0, 0};
    if (v.number != 0 || w.number != 0) {
        struct judged bad = v.number != 0 ? v : w;
        wanted[0] = bad.number, wanted[1] = bad.place, wanted[2] = v.number == 19 ? 0 : v.number != 0 ? 1 : 2, wanted[4] = bad.what, wanted[5] = bad.byte;
    } else {
        wanted[3] = (uint64_t)equal_trees(table, other);
        if (wanted[3] == 1) equal_seen++;
        else unequal_seen++;
    }
    size_t room = some_size(SIMMERGATE_EQUAL_BYTES);
    uint8_t *a = lend(&lent_answer, room);
    const uint8_t *s = lend_bytes(&lent_table, table, length), *t = lend_bytes(&lent_other, other, other_length);
    answered(simmergate_equal(limit, s, length, t, other_length, a, room), wanted, 6, "equal");
    if (!holds(&lent_table, table, length, length) || !holds(&lent_other, other, other_length, other_length)) fail("equal: a table changed");
}

/* The table without its marks is simplified alike: the same answer, the same steps, and the result without its marks; after 7 the same place. */
static void try_erased(size_t edition, const uint64_t *said, const uint8_t *result, const uint8_t *own_steps) {
    static uint8_t bare[RECORD * HIGHER], bare_result[RECORD * HIGHER], bare_out[RECORD * HIGHER], bare_steps[HIGHER], bare_work[524288], bare_answer[SIMMERGATE_SIMPLIFY_BYTES];
    if (!erase(bare, table, length)) return;
    erase(bare_result, result, 16 * said[2]);
    uint32_t r = simmergate_simplify(limit, edition, bare, length, bare_out, sizeof bare_out, bare_steps, sizeof bare_steps, bare_work, sizeof bare_work,
                                     bare_answer, sizeof bare_answer);
    calls++, erased++;
    if (r != said[0] || memcmp(bare_answer, numbers(said, 10), sizeof bare_answer) != 0) fail("simplify: without marks the answer is another one");
    if (memcmp(bare_out, bare_result, 16 * said[2]) != 0 || memcmp(bare_steps, own_steps, said[3]) != 0) fail("simplify: without marks the result is another one");
}

/* What an accepted call left: the records and steps that the plain C has, and zeros. */
static void try_result(size_t edition, struct judged v, const uint64_t *said, struct simplified own, const uint8_t *own_out, const uint8_t *own_steps) {
    static uint8_t result[RECORD * HIGHER], again[RECORD * HIGHER], again_steps[HIGHER], again_work[524288], again_answer[SIMMERGATE_SIMPLIFY_BYTES];
    uint64_t records = said[2], given = said[3], opened = said[4], tries = said[9];
    if (said[1] != 0 || records != own.records || given != own.steps || opened != own.openings || tries != own.tries) fail("simplify: other counts than the plain C's");
    memcpy(result, own_out, 16 * records);
    try_erased(edition, said, result, own_steps);
    if (!holds(&lent_out, own_out, 16 * records, 16 * v.weight)) fail("simplify: out is another one, or changed past its stretch");
    if (!holds(&lent_steps, own_steps, given, v.weight)) fail("simplify: steps is another one, or changed past its stretch");
    struct judged after = judge(result, 16 * records);
    if (after.number != 0) fail("simplify: the result is no good table");
    if (said[5] != v.weight || said[6] != after.weight) fail("simplify: the weights are others");
    if (after.weight + given + opened > v.weight) fail("simplify: a step or an opening made nothing lighter");
    if (tries < records || tries > v.weight * v.weight * v.weight) fail("simplify: fewer tries than the result has records, or more than the cube of the weight");
    for (int i = 0; i < 2; i++) {
        uint64_t registers[256];
        random_registers(registers);
        if (own_value(table, registers) != own_value(result, registers)) fail("simplify: the value is another one");
    }
    try_value(after, result, 16 * records);
    uint32_t r = simmergate_simplify(limit, edition, result, 16 * records, again, sizeof again, again_steps, sizeof again_steps, again_work, sizeof again_work,
                                     again_answer, sizeof again_answer);
    calls++;
    uint64_t wanted[10] = {0, 0, records, 0, 0, after.weight, after.weight, 0, 0, records};
    if (r != 0 || memcmp(again_answer, numbers(wanted, 10), sizeof again_answer) != 0 || memcmp(again, result, 16 * records) != 0)
        fail("simplify: the result simplified again is not itself");
    steps_seen += given;
    for (uint64_t i = 0; i < given; i++) each_step[own_steps[i]]++;
    openings_seen += opened;
    tries_seen += tries;
}

/* The editions: mostly those that there are, at times another number, among them such as become 1 or 2 where bytes of them are lost. */
static size_t some_edition(void) {
    static const size_t unknown[] = {0, 3, 255, 257, 258, 65537, ((size_t)1 << 32) + 1, ((size_t)1 << 32) + 2, (size_t)-1};
    return chance(50) ? unknown[below(sizeof unknown / sizeof *unknown)] : 1 + below(2);
}

static void try_simplify(struct judged v) {
    size_t edition = some_edition();
    size_t w = v.number == 0 ? (size_t)v.weight : (size_t)below(50), room = some_size(SIMMERGATE_SIMPLIFY_BYTES);
    size_t out_size = some_size(16 * w), steps_size = some_size(w), work_size = limit == HIGHER && chance(30) ? own_work(LOWER) : some_size(own_work(limit));
    const uint8_t *t = lend_bytes(&lent_table, table, length);
    uint8_t *o = lend(&lent_out, out_size), *s = lend(&lent_steps, steps_size), *k = lend(&lent_work, work_size), *a = lend(&lent_answer, room);
    uint32_t number = simmergate_simplify(limit, edition, t, length, o, out_size, s, steps_size, k, work_size, a, room);
    if (!holds(&lent_table, table, length, length)) fail("simplify: the table changed");
    if (v.number == 0 && (out_size < 16 * w || steps_size < w || work_size < own_work(limit))) v.number = 6;
    if (v.number != 19 && edition != 1 && edition != 2) v = (struct judged){.number = 9};
    if (v.number != 0 || room < SIMMERGATE_SIMPLIFY_BYTES) {
        answered(number, (uint64_t[]){v.number, v.place, 0, 0, 0, 0, 0, v.what, v.byte, 0}, 10, "simplify");
        if (!untouched(&lent_out) || !untouched(&lent_steps) || !untouched(&lent_work)) fail("simplify: refused, and a lent byte changed");
        flaws[room < SIMMERGATE_SIMPLIFY_BYTES ? 0 : v.what]++;
        counts[room < SIMMERGATE_SIMPLIFY_BYTES ? 6 : v.number]++;
        return;
    }
    calls++;
    uint64_t said[10];
    for (int i = 0; i < 10; i++) said[i] = own_number(a + 8 * i);
    if (!holds(&lent_answer, a, SIMMERGATE_SIMPLIFY_BYTES, SIMMERGATE_SIMPLIFY_BYTES)) fail("simplify: changed past the answer");
    if (said[7] != 0 || said[8] != 0) fail("simplify: a good table, and something is wrong with a record");
    if (said[0] != number || (number != 0 && number != 7)) fail("simplify: a good table refused by another number than 7");
    if (!holds(&lent_work, lent_zeros, 0, own_work(limit))) fail("simplify: work is not zero, or changed past its stretch");
    counts[number]++;
    at_higher += limit == HIGHER;
    static uint8_t own_out[RECORD * HIGHER], own_steps[HIGHER];
    struct simplified own = own_simplify((int)edition, table, own_out, own_steps);
    if (number != own.number) fail("simplify: the plain C says otherwise whether an integer leaves the range");
    if (number == 0) { try_result(edition, v, said, own, own_out, own_steps); return; }
    if (said[1] != own.place) fail("simplify: 7 at another place than the plain C's");
    try_erased(edition, said, own_out, own_steps);
    if (said[2] + said[3] + said[4] + said[5] + said[6] + said[9] != 0) fail("simplify: other numbers than 0 beside 7");
    if (!holds(&lent_out, lent_zeros, 0, 16 * w) || !holds(&lent_steps, lent_zeros, 0, w)) fail("simplify: 7, and out or steps is not zero");
}

int main(int argc, char **argv) {
    if (argc < 3) { printf("usage: random SEED COUNT [FROM]\n"); return 2; }
    seed = decimal(argv[1]);
    uint64_t count = decimal(argv[2]), from = argc > 3 ? decimal(argv[3]) : 0;
    lent_begin();
    for (at_table = from; at_table < from + count; at_table++) {
        int large = at_table % 5000 == 0, larger = at_table % 5000 == 2500, rare = at_table % 8 == 5;
        limit = larger || at_table % 4000 == 13 ? HIGHER : LOWER;
        length = 16 * (rare ? rare_table(table, seed, at_table, limit) : random_table(table, seed, at_table, large ? LOWER : larger ? HIGHER : 200, limit));
        put_marks(table, length);
        const uint8_t *source = table;
        uint8_t *end = other;
        shuffled(&source, &end);
        other_length = (size_t)(end - other);
        put_marks(other, other_length);
        if (judge(table, length).number != 0) fail("the table that was made is no good one");
        if (!equal_trees(table, other)) fail("the shuffled table is not equal");
        if (chance(5)) damage(table, &length);
        if (chance(4)) damage(other, &other_length);
        if (limit == LOWER) limit = chance(50) ? own_no_limit(any()) : some_limit();
        struct judged v = judge(table, length);
        try_check_and_weight(v);
        try_value(v, table, length);
        try_equal(v);
        try_simplify(v);
        rare_ones += rare && v.number == 0;
    }
    if (count >= 10000) {
        for (int i = 0; i < 10; i++) {
            if (counts[i == 8 ? 19 : i] == 0) { printf("random: no table of seed %llu was answered %d: nothing is shown of it\n", (unsigned long long)seed, i == 8 ? 19 : i); return 1; }
        }
        for (int i = 1; i < 4; i++) {
            if (flaws[i] == 0) { printf("random: no table of seed %llu has what is wrong %d: nothing is shown of it\n", (unsigned long long)seed, i); return 1; }
        }
        for (int i = 1; i < 10; i++) {
            if (each_step[i] == 0 && i != 5) { printf("random: no table of seed %llu has step %d: nothing is shown of it\n", (unsigned long long)seed, i); return 1; }
        }
        if (rare_ones == 0) { printf("random: no good table was long or deep with little to do\n"); return 1; }
        if (erased == 0) { printf("random: no table had marks\n"); return 1; }
        if (at_higher == 0) { printf("random: no table was simplified at the limit 16,384\n"); return 1; }
        if (equal_seen == 0 || unequal_seen == 0) { printf("random: no equal or no unequal tables\n"); return 1; }
    }
    printf("random tables beside plain C: %llu (seed %llu; %llu good ones long or deep with little to do), %llu calls; simplified %llu (%llu of them or of those out of range at the limit 16,384, %llu simplified without their marks as well; %llu steps, %llu of them on powers, %llu openings, %llu tries, all bytes equal, values equal), refused 1 to 7:",
           (unsigned long long)count, (unsigned long long)seed, (unsigned long long)rare_ones, (unsigned long long)calls, (unsigned long long)counts[0],
           (unsigned long long)at_higher, (unsigned long long)erased, (unsigned long long)steps_seen, (unsigned long long)(each_step[7] + each_step[8] + each_step[9]), (unsigned long long)openings_seen, (unsigned long long)tries_seen);
    for (int i = 1; i < 8; i++) printf(" %llu", (unsigned long long)counts[i]);
    printf("; 9: %llu, 19: %llu", (unsigned long long)counts[9], (unsigned long long)counts[19]);
    printf("; of 2 by kind %llu, byte %llu, count %llu; equal %llu, unequal %llu\n", (unsigned long long)flaws[1], (unsigned long long)flaws[2],
           (unsigned long long)flaws[3], (unsigned long long)equal_seen, (unsigned long long)unequal_seen);
    return 0;
}
