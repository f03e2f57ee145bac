/* site_random SEED COUNT: COUNT random sites of up to 200 tables through simmergate_batch, beside one call of simmergate_simplify for each item, which
   is handed what remains of `out` and `steps`, and all of `work`. Compared: what the call returns, and every byte of the answers, `out`, `steps`
   and `work`, with the guards around them; the tables and the lengths stay. Of three tables one is damaged; the room is what all need, more, or
   less; the limit is the lower or the higher, the edition one or two. Then the same site refused by 8, in each of its ways, by 9, before 8, and by 19,
   before both: nothing changes. */
#define LENT_ROOM (1 << 21)
#include "../../include/simmergate.h"
#include "lent.h"
#include "own.h"
#include "text.h"
#include "tables.h"

#define ITEMS 201
#define PLACE SIMMERGATE_SIMPLIFY_BYTES

static struct lent tables = {.name = "tables"}, lengths = {.name = "lengths"}, out = {.name = "out"}, steps = {.name = "steps"},
                   work = {.name = "work"}, answers = {.name = "answers"};
static uint8_t given[LENT_ROOM], list[8 * ITEMS], wanted_out[LENT_ROOM], wanted_steps[LENT_ROOM], wanted_work[LENT_ROOM],
    wanted_answers[PLACE * ITEMS + 64];
static size_t bytes, items, length_of[ITEMS], limit, edition, work_bytes;
static uint64_t seed, at_site, calls, seen[10], refused[20];

static void fail(const char *what) {
    printf("site_random: %s: site %llu of seed %llu, limit %zu, edition %zu, %zu items (out %zu, steps %zu, work %zu, answers %zu bytes lent)\n", what,
           (unsigned long long)at_site, (unsigned long long)seed, limit, edition, items, out.length, steps.length, work.length, answers.length);
    exit(1);
}

static uint64_t number_at(const uint8_t *b) {
    uint64_t v = 0;
    for (int i = 7; i >= 0; i--) v = v << 8 | b[i];
    return v;
}

/* A bit wrong, cut short, nothing at all, an exponent of 0, or, in a small site, a table that is too heavy for one of the limits. */
static size_t damaged(uint8_t *t, size_t n) {
    making.at = t;
    switch (below(6)) {
    case 0: t[below(n)] ^= (uint8_t)(1 << below(8)); return n;
    case 1: return (size_t)below(n);
    case 2: return 16 * (size_t)below(n / 16);
    case 3:
        making.records = 0;
        put_record(4, 0, 0), put_record(1, 0, 0), put_record(0, 0, 0);
        return 48;
    case 4: {
        if (items > 8) return 0;
        making.records = 0;
        size_t members = (chance(2) ? HIGHER : LOWER) / 3 + 1;
        put_record(2, (unsigned)members, 0);
        while (making.records < 1 + members) put_record(1, 0, below(3));
        return 16 * making.records;
    }
    default: return 0;
    }
}

static uint64_t weight(const uint8_t *t, size_t n) {
    uint8_t answer[SIMMERGATE_WEIGHT_BYTES];
    simmergate_weight(limit, t, n, answer, sizeof answer);
    return number_at(answer + 16);
}

/* A site, and the W of all its tables. */
static uint64_t make_site(void) {
    uint64_t all = 0;
    size_t most;
    random_state = seed * 0xD1342543DE82EF95u + at_site;
    limit = chance(3) ? HIGHER : LOWER;
    work_bytes = own_work(limit);
    edition = 1 + below(2);
    items = chance(10) ? 200 - below(3) : chance(3) ? below(40) : below(8);
    most = items < 8 && chance(4) ? 400 : 40;
    uint64_t kept = any();
    bytes = 0;
    for (size_t i = 0; i < items; i++) {
        size_t n = 16 * random_table(given + bytes, kept, i, most, limit);
        length_of[i] = chance(3) ? damaged(given + bytes, n) : n;
        all += weight(given + bytes, length_of[i]);
        bytes += length_of[i];
    }
    for (size_t i = 0; i < 8 * items; i++) list[i] = (uint8_t)((uint64_t)length_of[i / 8] >> 8 * (i % 8));
    random_state = kept;
    return all;
}

/* The areas afterwards by separate calls, from the areas as they are lent. */
static void by_separate_calls(void) {
    size_t at = 0, used = 0;
    memcpy(wanted_out, lent_pattern + GUARD, out.length);
    memcpy(wanted_steps, lent_pattern + GUARD, steps.length);
    memcpy(wanted_work, lent_pattern + GUARD, work.length);
    for (size_t i = 0; i < items; i++) {
        uint32_t number = simmergate_simplify(limit, edition, given + at, length_of[i], wanted_out + 16 * used, out.length - 16 * used, wanted_steps + used,
                                              steps.length - used, wanted_work, work.length, wanted_answers + PLACE * i, PLACE);
        seen[number]++;
        if (number == 0 || number == 7) used += weight(given + at, length_of[i]);
        at += length_of[i];
    }
}

static uint32_t call(size_t out_length, size_t steps_length, size_t work_length, size_t answers_length, size_t list_length, size_t given_length) {
    uint8_t *t = memcpy(lend(&tables, given_length), given, given_length), *l = memcpy(lend(&lengths, list_length), list, list_length);
    uint8_t *o = lend(&out, out_length), *s = lend(&steps, steps_length), *w = lend(&work, work_length), *a = lend(&answers, answers_length);
    uint32_t number = simmergate_batch(limit, edition, t, given_length, l, list_length, o, out_length, s, steps_length, w, work_length, a, answers_length);
    calls++;
    if (!holds(&tables, given, given_length, given_length) || !holds(&lengths, list, list_length, list_length)) fail("the tables or the lengths changed");
    return number;
}

static void try_room(uint64_t room_out, uint64_t room_steps, size_t room_work) {
    if (call(room_out, room_steps, room_work, PLACE * items + below(60), 8 * items, bytes) != 0) fail("the call does not return 0");
    by_separate_calls();
    if (!holds(&answers, wanted_answers, PLACE * items, PLACE * items)) fail("the answers are others");
    if (!holds(&out, wanted_out, out.length, out.length)) fail("out is another one");
    if (!holds(&steps, wanted_steps, steps.length, steps.length)) fail("steps is another one");
    if (!holds(&work, wanted_work, work.length, work.length)) fail("work is another one");
}

static void try_refused(uint32_t number, uint64_t all, size_t answers_length, size_t list_length, size_t given_length, const char *what) {
    if (call(16 * all, all, work_bytes, answers_length, list_length, given_length) != number) fail(what);
    if (!untouched(&out) || !untouched(&steps) || !untouched(&work) || !untouched(&answers)) fail("refused, and a lent byte changed");
    refused[number]++;
}

int main(int argc, char **argv) {
    if (argc != 3) { printf("usage: site_random SEED COUNT\n"); return 2; }
    seed = decimal(argv[1]);
    uint64_t count = decimal(argv[2]);
    lent_begin();
    for (at_site = 0; at_site < count; at_site++) {
        uint64_t all = make_site();
        try_room(16 * all, all, work_bytes);
        try_room(16 * all + below(50), all + below(50), work_bytes + below(50));
        try_room(below(16 * all + 1), all, work_bytes);
        try_room(16 * all, below(all + 1), work_bytes);
        if (chance(8)) try_room(16 * all, all, work_bytes - 1 - below(work_bytes));
        if (items > 0) try_refused(8, all, PLACE * items - 1 - below(PLACE), 8 * items, bytes, "a place is missing, and the call does not return 8");
        if (bytes > 0) try_refused(8, all, PLACE * items, 8 * items, bytes - 1, "a byte is missing, and the call does not return 8");
        try_refused(8, all, PLACE * items, 8 * items, bytes + 1, "a byte is too much, and the call does not return 8");
        memset(list + 8 * items, 0, 8);
        try_refused(8, all, PLACE * (items + 1), 8 * items + 1 + below(7), bytes, "half a length, and the call does not return 8");
        if (items == 200) try_refused(8, all, PLACE * 201, 8 * 201, bytes, "201 items, and the call does not return 8");
        edition = chance(2) ? 0 : chance(2) ? 3 + below(100) : ((size_t)1 << 32) + 1 + below(2);
        try_refused(9, all, PLACE * items, 8 * items, bytes, "an unknown edition, and the call does not return 9");
        try_refused(9, all, PLACE * items, 8 * items, bytes + 1, "an unknown edition and a byte too much, and the call does not return 9");
        limit = own_no_limit(at_site);
        try_refused(19, all, PLACE * items, 8 * items, bytes + 1, "no such limit, an unknown edition and a byte too much, and the call does not return 19");
        edition = 1;
        try_refused(19, all, PLACE * items, 8 * items, bytes, "no such limit, and the call does not return 19");
    }
    printf("random sites: %llu calls, %llu of them refused by 8, %llu by 9, %llu by 19; items by their number: 0 %llu", (unsigned long long)calls,
           (unsigned long long)refused[8], (unsigned long long)refused[9], (unsigned long long)refused[19], (unsigned long long)seen[0]);
    for (int k = 1; k < 8; k++) printf(", %d %llu", k, (unsigned long long)seen[k]);
    printf("; all as by separate calls\n");
    return 0;
}
