/* shared_random SEED COUNT [FROM]: simmergate_open and simmergate_simplify_shared on COUNT random sites beside an opener (sites.c), a checker and an
   evaluator (own.c) and a simplifier (rules.c) in plain C that share nothing with the port. A site has up to 18 definitions, with line marks, circles, too
   heavy ones, damaged tables, lists that do not fit, areas that are too short, and either limit or another number. Compared: every number of every answer and every byte of
   every area. Besides, the value of the opened table is that of the formula under registers that hold the values of the definitions. */
#define LENT_ROOM (524288 + 4096)
#include "../../include/simmergate.h"
#include "lent.h"
#include "rules.h"
#include "sites.h"
#include "text.h"
#include "tables.h"
#include "random_sites.h"

static struct lent lent_table = {.name = "table"}, lent_symbols = {.name = "symbols"}, lent_lengths = {.name = "lengths"},
                   lent_definitions = {.name = "definitions"}, lent_opened = {.name = "opened"}, lent_out = {.name = "out"},
                   lent_steps = {.name = "steps"}, lent_work = {.name = "work"}, lent_answer = {.name = "answer"};
static struct site site;
static uint64_t seed, at_site, counts[20], calls, values, replaced;

static void fail(const char *what) {
    printf("shared_random: %s: site %llu of seed %llu (again by: shared_random %llu 1 %llu): formula ", what, (unsigned long long)at_site,
           (unsigned long long)seed, (unsigned long long)seed, (unsigned long long)at_site);
    put_hex(site.table, site.table_bytes <= 49152 ? site.table_bytes : 0);
    printf(" symbols ");
    put_hex(site.symbols, site.symbols_bytes);
    printf(" lengths ");
    put_hex(site.lengths, site.lengths_bytes);
    printf(" definitions ");
    put_hex(site.definitions, site.definitions_bytes <= 49152 ? site.definitions_bytes : 0);
    printf("\n");
    exit(1);
}

/* ---- The calls. ---- */

static const uint8_t *lend_bytes(struct lent *area, const uint8_t *bytes, size_t n) { return memcpy(lend(area, n), bytes, n); }

static size_t some_size(size_t need) { return chance(40) && need > 0 ? (size_t)below(need) : chance(40) && need > 0 ? need - 1 : chance(3) ? need + (size_t)below(300) : need; }

static void look_at_what_was_handed_in(void) {
    if (!holds(&lent_table, site.table, site.table_bytes, site.table_bytes) || !holds(&lent_symbols, site.symbols, site.symbols_bytes, site.symbols_bytes) ||
        !holds(&lent_lengths, site.lengths, site.lengths_bytes, site.lengths_bytes) ||
        !holds(&lent_definitions, site.definitions, site.definitions_bytes, site.definitions_bytes))
        fail("what was handed in, or what is around it, changed");
}

static void try_open(struct opened w, const uint8_t *table) {
    size_t room = some_size((size_t)(16 * w.weight)), answer = some_size(SIMMERGATE_OPEN_BYTES);
    const uint8_t *t = lend_bytes(&lent_table, site.table, site.table_bytes), *y = lend_bytes(&lent_symbols, site.symbols, site.symbols_bytes),
                  *l = lend_bytes(&lent_lengths, site.lengths, site.lengths_bytes), *d = lend_bytes(&lent_definitions, site.definitions, site.definitions_bytes);
    uint8_t *o = lend(&lent_opened, room), *a = lend(&lent_answer, answer);
    uint32_t number = simmergate_open(site.limit, t, site.table_bytes, y, site.symbols_bytes, l, site.lengths_bytes, d, site.definitions_bytes, o, room, a, answer);
    calls++;
    look_at_what_was_handed_in();
    if (w.number == 0 && room < 16 * w.weight) w = (struct opened){.number = 6};
    uint64_t wanted[6] = {w.number, w.place, w.records, w.weight, w.what, w.byte};
    if (answer < SIMMERGATE_OPEN_BYTES) {
        if (number != 6 || !untouched(&lent_answer) || !untouched(&lent_opened)) fail("open: the answer is too short, and the call does more than return 6");
    } else if (number != w.number || !holds(&lent_answer, numbers(wanted, 6), SIMMERGATE_OPEN_BYTES, SIMMERGATE_OPEN_BYTES)) fail("open: another answer");
    else if (w.number != 0 ? !untouched(&lent_opened) : !holds(&lent_opened, table, 16 * w.records, 16 * w.records)) fail("open: opened is another one");
}

static size_t some_edition(void) {
    static const size_t unknown[] = {0, 3, 257, ((size_t)1 << 32) + 1, (size_t)-1};
    return chance(50) ? unknown[below(sizeof unknown / sizeof *unknown)] : 1 + below(2);
}

static void try_simplify(struct opened w, const uint8_t *table) {
    static uint8_t own_out[RECORD * HIGHER], own_steps[HIGHER];
    size_t edition = some_edition(), weight = (size_t)w.weight, opened_bytes = some_size(16 * weight), out_bytes = some_size(16 * weight),
           steps_bytes = some_size(weight), work_bytes = some_size(own_work(site.limit)), answer = some_size(SIMMERGATE_SIMPLIFY_BYTES);
    const uint8_t *t = lend_bytes(&lent_table, site.table, site.table_bytes), *y = lend_bytes(&lent_symbols, site.symbols, site.symbols_bytes),
                  *l = lend_bytes(&lent_lengths, site.lengths, site.lengths_bytes), *d = lend_bytes(&lent_definitions, site.definitions, site.definitions_bytes);
    uint8_t *v = lend(&lent_opened, opened_bytes), *o = lend(&lent_out, out_bytes), *s = lend(&lent_steps, steps_bytes), *k = lend(&lent_work, work_bytes),
            *a = lend(&lent_answer, answer);
    uint32_t number = simmergate_simplify_shared(site.limit, edition, t, site.table_bytes, y, site.symbols_bytes, l, site.lengths_bytes, d, site.definitions_bytes, v,
                                                 opened_bytes, o, out_bytes, s, steps_bytes, k, work_bytes, a, answer);
    calls++;
    look_at_what_was_handed_in();
    if (answer < SIMMERGATE_SIMPLIFY_BYTES) {
        if (number != 6 || !untouched(&lent_answer)) fail("the answer is too short, and the call does more than return 6");
        w.number = 6;
    } else {
        struct simplified own = {0};
        if (w.number == 0 && (opened_bytes < 16 * weight || out_bytes < 16 * weight || steps_bytes < weight || work_bytes < own_work(site.limit))) w = (struct opened){.number = 6};
        if (w.number != 19 && edition != 1 && edition != 2) w = (struct opened){.number = 9};
        uint64_t wanted[10] = {w.number, w.place, 0, 0, 0, 0, 0, w.what, w.byte, 0};
        if (w.number == 0) {
            own = own_simplify((int)edition, table, own_out, own_steps);
            if (own.number == 7) own.records = own.steps = 0, wanted[0] = 7, wanted[1] = own.place;
            else wanted[2] = own.records, wanted[3] = own.steps, wanted[4] = own.openings, wanted[5] = weight, wanted[6] = own_weight(own_out, 16 * own.records), wanted[9] = own.tries;
            if (!holds(&lent_opened, table, 16 * w.records, 16 * w.records)) fail("opened is another one");
            if (!holds(&lent_out, own_out, 16 * own.records, 16 * weight)) fail("out is another one");
            if (!holds(&lent_steps, own_steps, own.steps, weight)) fail("steps is another one");
            if (!holds(&lent_work, lent_zeros, 0, own_work(site.limit))) fail("work is another one");
            if (own.tries > w.weight * w.weight * w.weight) fail("more tries than the cube of the opened weight");
        }
        if (number != wanted[0] || !holds(&lent_answer, numbers(wanted, 10), SIMMERGATE_SIMPLIFY_BYTES, SIMMERGATE_SIMPLIFY_BYTES)) fail("another answer");
    }
    if (w.number != 0 && (!untouched(&lent_opened) || !untouched(&lent_out) || !untouched(&lent_steps) || !untouched(&lent_work))) fail("refused, and a lent byte changed");
    counts[number]++;
}

/* The value of the opened table beside that of the formula, every register of a defined symbol holding the value of its definition. */
static void try_value(struct opened w, const uint8_t *table) {
    static struct site alone;
    static uint8_t opened[RECORD * HIGHER], bytes[2048], answer[SIMMERGATE_VALUE_BYTES];
    uint64_t registers[256];
    for (int i = 0; i < 256; i++) registers[i] = any();
    for (size_t i = 0; i < site.symbols_bytes; i++) {
        size_t begin, end;
        alone = site;
        own_bounds(&site, i, &begin, &end);
        memcpy(alone.table, site.definitions + begin, end - begin);
        alone.table_bytes = end - begin;
        if (own_open(&alone, opened).number == 0) registers[site.symbols[i]] = own_value(opened, registers), replaced++;
    }
    for (size_t i = 0; i < 2048; i++) bytes[i] = (uint8_t)(registers[i / 8] >> 8 * (i % 8));
    if (simmergate_value(site.limit, table, 16 * w.records, bytes, sizeof bytes, answer, sizeof answer) != 0) fail("the opened table has no value");
    if (own_number(answer + 16) != own_value(site.table, registers)) fail("the opened table has another value than the formula");
    values++;
}

int main(int argc, char **argv) {
    static uint8_t table[RECORD * HIGHER];
    static const int numbers_given[] = {0, 1, 2, 4, 6, 7, 8, 9, 15, 16, 17, 18, 19};
    if (argc < 3) { printf("usage: shared_random SEED COUNT [FROM]\n"); return 2; }
    seed = decimal(argv[1]);
    uint64_t count = decimal(argv[2]), from = argc > 3 ? decimal(argv[3]) : 0;
    lent_begin();
    for (at_site = from; at_site < from + count; at_site++) {
        random_site(&site, seed, at_site);
        struct opened w = own_open(&site, table);
        try_open(w, table);
        try_simplify(w, table);
        if (w.number == 0) try_value(w, table);
    }
    if (count >= 5000) {
        for (size_t i = 0; i < sizeof numbers_given / sizeof *numbers_given; i++)
            if (counts[numbers_given[i]] == 0) { printf("shared_random: no site of seed %llu was answered %d: nothing is shown of it\n", (unsigned long long)seed, numbers_given[i]); return 1; }
    }
    printf("random sites beside plain C: %llu (seed %llu), %llu calls, all bytes equal; %llu values equal (%llu definitions in their registers); answered 0:", (unsigned long long)count,
           (unsigned long long)seed, (unsigned long long)calls, (unsigned long long)values, (unsigned long long)replaced);
    for (int i = 0; i < 20; i++) {
        if (i == 10) i = 15;
        if (i == 0) printf(" %llu; refused", (unsigned long long)counts[0]);
        else printf(" %d: %llu", i, (unsigned long long)counts[i]);
    }
    printf("\n");
    return 0;
}
