/* everything SEED COUNT: the whole library at once, on random sites until COUNT formulas were made; a site is 1 to 40 formulas at one limit by one edition, some damaged, some
   wild, some marked, a few near the limits. A formula is a table, or read from a text, or written and read again, or opened by definitions, its result then once more with
   the same definitions; all come in pieces, and what was kept goes through
   one batch, in another order through another, and each through the simplifier alone. Each accepted result is weighed, evaluated, compared with a copy in another order, differed
   with its formula and with the result before, written and read again, and simplified again, alone and in a batch of the results. Compared with plain C that shares nothing with the port: every
   number of every answer, every byte of every lent area and around it. Areas end in guard bytes or at a page that nothing may touch. */
#define LENT_ROOM (1 << 21)
#include "../../include/simmergate.h"
#include "lent.h"
#include "rules.h"
#include "sites.h"
#include "settings.h"
#include "text.h"
#include "tables.h"
#include "plain_text.h"
#include "edge.h"
#include "trees.h"
#include "damage.h"
#include "random_sites.h"
#include <time.h>

enum { MOST_ITEMS = 40, FULL_SITE = 1 << 20, PLACE = SIMMERGATE_SIMPLIFY_BYTES, SLOTS = 4, KEYS = 7, NUMBERS = 20 };

/* A formula or a result: its table; the plain C's ten numbers, result and steps; its weight, 0 where it is refused by 1 to 5. */
struct item { const uint8_t *table, *out, *steps; size_t bytes, weight; uint64_t said[10]; };

static struct item items[MOST_ITEMS], results[MOST_ITEMS];
static size_t item_count, result_count, limit, edition;
static uint8_t made[RECORD * (HIGHER + 64)], text_read[RECORD * HIGHER], texts[LENT_ROOM];
static struct edge lent_table, lent_other, lent_registers, lent_out, lent_steps, lent_work, lent_answer, lent_text, lent_lengths, lent_symbols, lent_definitions,
    lent_opened, lent_receiver, lent_area, lent_piece, lent_settings;
static uint64_t round_seed, calls, rounds, formulas, judged, marked, refused[NUMBERS], accepted[2][2], each_step[10], steps_seen, openings_seen, tries_seen, opened_seen, texts_read,
    texts_written, pieces_seen, equal_seen, unequal_seen, differed, pairs_seen, same_seen, batches, settings_calls, above_lower, near_limit,
    shared_again;

/* What is being tried, and on which table. */
static const char *now = "";
static const struct item *at_hand;

static void fail(const char *what) {
    printf("everything: %s: %s: the site of seed %llu (again by: tests/everything --seed %llu --count 1), limit %zu, edition %zu, %zu formulas; at hand ", now, what,
           (unsigned long long)round_seed, (unsigned long long)round_seed, limit, edition, item_count);
    if (at_hand == NULL) printf("all of them");
    else if (at_hand->bytes <= RECORD * LOWER) put_hex(at_hand->table, at_hand->bytes);
    else printf("a table of %zu bytes", at_hand->bytes);
    printf("\n");
    exit(1);
}

void (*signal(int, void (*)(int)))(int);
static void touched(int number) { (void)number, fail("a page that nothing may touch was touched"); }

/* Bytes that stay until the round ends. */
static uint8_t pool[8 << 20];
static size_t pool_used;
static const uint8_t *kept(const uint8_t *bytes, size_t n) {
    if (sizeof pool - pool_used < n) { printf("everything: no room for the site of seed %llu\n", (unsigned long long)round_seed); exit(2); }
    pool_used += n;
    return memcpy(pool + pool_used - n, bytes, n);
}

/* ---- Answers ---- */

/* A length for an answer of so many numbers, seldom too short. */
static size_t some_answer(size_t count) { return chance(80) ? (size_t)below(8 * count) : 8 * count + (size_t)below(3) * 5; }

/* Looks at the returned number and at the answer; whether the answer was long enough. */
static int answered(uint32_t number, const uint64_t *said, size_t count) {
    calls++;
    if (lent_answer.length < 8 * count) {
        if (number != 6 || !edge_untouched(&lent_answer)) fail("the answer is too short, and the call does more than return 6");
        refused[6]++;
        return 0;
    }
    if (number != said[0]) fail("another number is returned");
    if (!edge_holds(&lent_answer, numbers(said, count), 8 * count, 8 * count)) fail("the answer, or what is around it, is another one");
    return 1;
}

static void keeps(const struct edge *area, const uint8_t *bytes) {
    if (!edge_kept(area, bytes)) fail("what was handed in, or what is around it, changed");
}

static int is_good(const struct item *x) { return x->said[0] == 0 || x->said[0] == 7; }

/* A table with what the plain checker says of it at this limit. */
static struct item checked(const uint8_t *table, size_t bytes) {
    struct verdict v = own_check(limit, table, bytes);
    return (struct item){table, NULL, NULL, bytes, v.number == 0 ? (size_t)own_weight(table, bytes) : 0, {v.number, v.place, 0, 0, 0, 0, 0, v.what, v.byte, 0}};
}

/* A table with what the plain C says of it at this limit by this edition. */
static struct item judge(const uint8_t *table, size_t bytes) {
    static uint8_t out[RECORD * HIGHER], steps[HIGHER];
    struct item x = checked(table, bytes);
    if (x.said[0] != 0) return x;
    struct simplified own = own_simplify((int)edition, table, out, steps);
    x.said[0] = own.number, x.said[1] = own.place;
    if (own.number != 0) return x;
    uint64_t after = own_weight(out, RECORD * own.records), told[10] = {0, 0, own.records, own.steps, own.openings, x.weight, after, 0, 0, own.tries};
    memcpy(x.said, told, sizeof told);
    x.out = kept(out, RECORD * own.records), x.steps = kept(steps, own.steps);
    return x;
}

/* ---- Judged, weighed, evaluated ---- */

static void try_check_and_weight(const struct item *x) {
    const uint64_t *s = x->said;
    int bad = !is_good(x);
    now = "check", at_hand = x;
    const uint8_t *t = lend_bytes(&lent_table, x->table, x->bytes);
    size_t n = some_answer(4);
    uint8_t *a = lend_edge(&lent_answer, n);
    answered(simmergate_check(limit, t, x->bytes, a, n), (uint64_t[]){bad ? s[0] : 0, bad ? s[1] : 0, s[7], s[8]}, 4);
    now = "weight", n = some_answer(5), a = lend_edge(&lent_answer, n);
    answered(simmergate_weight(limit, t, x->bytes, a, n), (uint64_t[]){bad ? s[0] : 0, bad ? s[1] : 0, x->weight, s[7], s[8]}, 5);
    keeps(&lent_table, x->table);
    judged++;
}

static void random_registers(uint64_t *registers, uint8_t *bytes) {
    uint64_t shift = chance(2) ? 0 : below(64);
    for (int i = 0; i < REGISTERS; i++) registers[i] = any() >> shift, own_bytes(bytes + 8 * i, registers[i]);
}

static void try_value(const struct item *x, const uint64_t *registers, const uint8_t *bytes) {
    const uint64_t *s = x->said;
    int bad = !is_good(x);
    size_t n = some_answer(5), length = chance(40) ? (size_t)below(8 * REGISTERS) : 8 * REGISTERS;
    uint64_t said[5] = {bad ? s[0] : length < 8 * REGISTERS ? 6 : 0, bad ? s[1] : 0, 0, s[7], s[8]};
    if (said[0] == 0) said[2] = own_value(x->table, registers);
    now = "value", at_hand = x;
    const uint8_t *t = lend_bytes(&lent_table, x->table, x->bytes), *r = lend_bytes(&lent_registers, bytes, length);
    answered(simmergate_value(limit, t, x->bytes, r, length, lend_edge(&lent_answer, n), n), said, 5);
    keeps(&lent_table, x->table), keeps(&lent_registers, bytes);
}

/* ---- Two tables ---- */

/* What the calls on two tables say of a refused one; whether one is. */
static int one_is_refused(const struct item *x, const struct item *y, uint64_t *said) {
    const struct item *bad = !is_good(x) ? x : y;
    memset(said, 0, 6 * sizeof *said);
    if (is_good(bad)) return 0;
    said[0] = bad->said[0], said[1] = bad->said[1], said[2] = bad == x ? 1 : 2, said[4] = bad->said[7], said[5] = bad->said[8];
    return 1;
}

static void try_equal(const struct item *x, const struct item *y) {
    uint64_t said[6];
    now = "equal", at_hand = x;
    if (!one_is_refused(x, y, said)) {
        said[3] = (uint64_t)equal_trees(x->table, y->table);
        equal_seen += said[3], unequal_seen += !said[3];
    }
    size_t n = some_answer(6);
    const uint8_t *t = lend_bytes(&lent_table, x->table, x->bytes), *u = lend_bytes(&lent_other, y->table, y->bytes);
    answered(simmergate_equal(limit, t, x->bytes, u, y->bytes, lend_edge(&lent_answer, n), n), said, 6);
    keeps(&lent_table, x->table), keeps(&lent_other, y->table);
}

static void try_differ(const struct item *x, const struct item *y) {
    uint64_t said[6], i = 0, j = 0;
    now = "differ", at_hand = x, pairs = 0;
    int bad = one_is_refused(x, y, said);
    if (!bad) walk(x->table, &i, y->table, &j);
    size_t n = some_answer(6), room = 16 * pairs + (size_t)below(40);
    if (!bad) said[3] = pairs, differed++, pairs_seen += pairs, same_seen += pairs == 0;
    if (pairs > 0 && chance(20)) room = (size_t)below(16 * pairs), said[0] = 6, said[3] = 0, refused[6]++;
    const uint8_t *t = lend_bytes(&lent_table, x->table, x->bytes), *u = lend_bytes(&lent_other, y->table, y->bytes);
    uint8_t *list = lend_edge(&lent_out, room);
    int told = answered(simmergate_differ(limit, t, x->bytes, u, y->bytes, list, room, lend_edge(&lent_answer, n), n), said, 6);
    if (!edge_holds(&lent_out, listed, told ? 16 * said[3] : 0, told ? 16 * said[3] : 0)) fail("the list, or what is around it, is another one");
    keeps(&lent_table, x->table), keeps(&lent_other, y->table);
}

static void try_pair(const struct item *x, const struct item *y) { try_equal(x, y), try_differ(x, y); }

/* ---- Text ---- */

/* A table written by the call beside the plain writer, to `texts`; the text's length, 0 where there is none. */
static size_t try_write(const struct item *x, int shorter) {
    static char own[LENT_ROOM];
    const uint8_t *at = x->table;
    int bad = !is_good(x);
    size_t length = bad ? 0 : (size_t)(plain_text(&at, "", own) - own), room = shorter ? (size_t)below(length + 1) : length + (size_t)below(30), n = some_answer(5);
    int small = room < length;
    uint64_t said[5] = {bad ? x->said[0] : small ? 6 : 0, bad ? x->said[1] : 0, small ? 0 : length, x->said[7], x->said[8]};
    now = "write_text", at_hand = x;
    const uint8_t *t = lend_bytes(&lent_table, x->table, x->bytes);
    uint8_t *to = lend_edge(&lent_text, room);
    int told = answered(simmergate_write_text(limit, t, x->bytes, to, room, lend_edge(&lent_answer, n), n), said, 5);
    if (!edge_holds(&lent_text, (uint8_t *)own, told ? said[2] : 0, told ? said[2] : 0)) fail("the text, or what is around it, is another one");
    keeps(&lent_table, x->table);
    refused[6] += small, texts_written += said[0] == 0;
    memcpy(texts, own, length);
    return length;
}

/* A text of n bytes read by the call beside the plain reader; the bytes of its table, which the plain reader leaves in `text_read`; 0 where it is refused. */
static size_t try_read(const uint8_t *text, size_t n, int shorter) {
    uint32_t node = plain_read(text, n);
    uint64_t number = node == 0 ? 14 : plain_weight() > limit ? 3 : 0;
    size_t bytes = number == 0 ? (size_t)(plain_records(node, text_read) - text_read) : 0, room = shorter ? (size_t)below(bytes + 1) : bytes + (size_t)below(30), count = some_answer(3);
    uint64_t said[3] = {room < bytes ? 6 : number, 0, room < bytes ? 0 : bytes / RECORD};
    now = "read_text";
    const uint8_t *s = lend_bytes(&lent_text, text, n);
    uint8_t *to = lend_edge(&lent_out, room);
    int told = answered(simmergate_read_text(limit, s, n, to, room, lend_edge(&lent_answer, count), count), said, 3);
    if (!edge_holds(&lent_out, text_read, told ? RECORD * said[2] : 0, told ? RECORD * said[2] : 0)) fail("the table, or what is around it, is another one");
    keeps(&lent_text, text);
    refused[said[0]] += said[0] > 5, texts_read += said[0] == 0;
    return bytes;
}

/* A table as text and read again: its records without their marks, in `text_read`; their bytes. */
static size_t through_text(const struct item *x) {
    static uint8_t bare[RECORD * HIGHER];
    if (chance(15)) try_write(x, 1);
    size_t n = try_write(x, 0), bytes = try_read(texts, n, 0);
    erase(bare, x->table, x->bytes);
    if (bytes != x->bytes || memcmp(text_read, bare, bytes) != 0) fail("written and read again, the table is another one");
    return bytes;
}

/* ---- Simplified: alone, in a batch ---- */

/* The three areas after a call on a table that uses them, or after a refusal. */
static void left(const struct item *x, int used) {
    size_t w = used ? x->weight : 0, records = used ? (size_t)x->said[2] : 0, steps = used ? (size_t)x->said[3] : 0;
    if (!edge_holds(&lent_out, x->out == NULL ? lent_zeros : x->out, RECORD * records, RECORD * w)) fail("out, or what is around it, is another one");
    if (!edge_holds(&lent_steps, x->steps == NULL ? lent_zeros : x->steps, steps, w)) fail("steps, or what is around it, is another one");
    if (!edge_holds(&lent_work, lent_zeros, 0, used ? own_work(limit) : 0)) fail("work, or what is around it, is another one");
}

/* Room for a table in the areas: enough, or in one of them too little. */
static void some_room(const struct item *x, int shorter, size_t *room) {
    size_t need[3] = {RECORD * x->weight, x->weight, own_work(limit)};
    for (int k = 0; k < 3; k++) room[k] = need[k] + (size_t)below(3) * 7;
    size_t k = (size_t)below(3);
    if (shorter) room[k] = chance(2) ? need[k] - 1 : (size_t)below(need[k]);
}

/* What a call alone has wrong: nothing, the room for a good table, the edition, the limit. */
enum wrong { NOTHING, ROOM, EDITION, LIMIT };

static void simplify_alone(const struct item *x, enum wrong wrong) {
    static const uint64_t numbers_of[][10] = {{0}, {6}, {9}, {19}};
    size_t room[3], n = wrong ? PLACE : some_answer(10), l = wrong == LIMIT ? own_no_limit(any()) : limit, e = wrong == EDITION ? 3 + (size_t)below(600) : edition;
    some_room(x, wrong == ROOM, room);
    now = "simplify", at_hand = x;
    const uint8_t *t = lend_bytes(&lent_table, x->table, x->bytes);
    uint8_t *o = lend_edge(&lent_out, room[0]), *s = lend_edge(&lent_steps, room[1]), *w = lend_edge(&lent_work, room[2]), *a = lend_edge(&lent_answer, n);
    int told = answered(simmergate_simplify(l, e, t, x->bytes, o, room[0], s, room[1], w, room[2], a, n), wrong ? numbers_of[wrong] : x->said, 10);
    left(x, told && !wrong && is_good(x));
    keeps(&lent_table, x->table);
    refused[numbers_of[wrong][0]]++;
}

static uint8_t joined[LENT_ROOM], lengths[8 * MOST_ITEMS + 8], wanted_out[LENT_ROOM], wanted_steps[LENT_ROOM], wanted_answers[PLACE * MOST_ITEMS];

/* What a batch must leave in `out`, `steps` and the answers, from those areas as they are lent; the tables end to end, and their bytes; whether `work` is used. */
static int expect(const struct item *const *list, size_t n, const size_t *room, size_t *bytes) {
    static const uint64_t six[10] = {6};
    size_t used = 0;
    memcpy(wanted_out, lent_pattern + GUARD, room[0]);
    memcpy(wanted_steps, lent_pattern + GUARD, room[1]);
    *bytes = 0;
    for (size_t i = 0; i < n; i++) {
        const struct item *x = list[i];
        int fits = RECORD * (used + x->weight) <= room[0] && used + x->weight <= room[1] && room[2] >= own_work(limit);
        memcpy(joined + *bytes, x->table, x->bytes), *bytes += x->bytes;
        own_bytes(lengths + 8 * i, x->bytes);
        memcpy(wanted_answers + PLACE * i, numbers(is_good(x) && !fits ? six : x->said, 10), PLACE);
        refused[6] += is_good(x) && !fits;
        if (!is_good(x) || !fits) continue;
        memset(wanted_out + RECORD * used, 0, RECORD * x->weight), memset(wanted_steps + used, 0, x->weight);
        if (x->said[0] == 0) memcpy(wanted_out + RECORD * used, x->out, RECORD * x->said[2]), memcpy(wanted_steps + used, x->steps, x->said[3]);
        used += x->weight;
    }
    return used > 0;
}

/* The call with these bytes of tables, lengths and answers, after `expect`. */
static uint32_t call_batch(size_t l, size_t e, const size_t *room, size_t bytes, size_t lengths_bytes, size_t answers_bytes) {
    const uint8_t *t = lend_bytes(&lent_table, joined, bytes), *n = lend_bytes(&lent_lengths, lengths, lengths_bytes);
    uint8_t *o = lend_edge(&lent_out, room[0]), *s = lend_edge(&lent_steps, room[1]), *w = lend_edge(&lent_work, room[2]), *a = lend_edge(&lent_answer, answers_bytes);
    uint32_t number = simmergate_batch(l, e, t, bytes, n, lengths_bytes, o, room[0], s, room[1], w, room[2], a, answers_bytes);
    calls++;
    keeps(&lent_table, joined), keeps(&lent_lengths, lengths);
    return number;
}

/* The same site refused as a whole, by 8, 9 or 19: nothing changes. */
static void refused_batch(size_t n, const size_t *room, size_t bytes) {
    uint64_t way = below(5);
    uint32_t wanted = way < 3 ? 8 : way == 3 ? 9 : 19;
    size_t l = way == 4 ? own_no_limit(any()) : limit, e = way == 3 ? 3 + (size_t)below(600) : edition;
    uint32_t number = call_batch(l, e, room, bytes + (way == 0), 8 * n + (way == 1), PLACE * n - (way == 2));
    if (number != wanted) fail("the batch is not refused as a whole, or by another number");
    if (!edge_untouched(&lent_out) || !edge_untouched(&lent_steps) || !edge_untouched(&lent_work) || !edge_untouched(&lent_answer)) fail("refused as a whole, and a lent byte changed");
    refused[wanted]++;
}

static void try_batch(const struct item *const *list, size_t n, int shorter) {
    size_t w = 0, bytes;
    for (size_t i = 0; i < n; i++) w += list[i]->weight;
    size_t room[3] = {RECORD * w + (size_t)below(50), w + (size_t)below(50), own_work(limit) + (size_t)below(50)};
    now = "batch", at_hand = NULL;
    if (shorter) room[0] = chance(2) ? (size_t)below(room[0] + 1) : room[0], room[1] = (size_t)below(room[1] + 1), room[2] -= chance(10) ? 50 : 0;
    int used = expect(list, n, room, &bytes);
    if (chance(10)) refused_batch(n, room, bytes);
    if (call_batch(limit, edition, room, bytes, 8 * n, PLACE * n + below(3) * 7) != 0) fail("the call does not return 0");
    for (size_t i = 0; i < n; i++)
        if (memcmp(lent_answer.at + PLACE * i, wanted_answers + PLACE * i, PLACE) != 0) at_hand = list[i], fail("the answer of an item is another one");
    if (!edge_holds(&lent_answer, wanted_answers, PLACE * n, PLACE * n)) fail("what is around the answers changed");
    if (!edge_kept(&lent_out, wanted_out)) fail("out, or what is around it, is another one");
    if (!edge_kept(&lent_steps, wanted_steps)) fail("steps, or what is around it, is another one");
    if (!edge_holds(&lent_work, lent_zeros, 0, used ? own_work(limit) : 0)) fail("work, or what is around it, is another one");
    batches++;
}

/* ---- Shared definitions ---- */

static struct site site;

/* The four areas of a site lent. */
static void lend_site(void) {
    lend_bytes(&lent_table, site.table, site.table_bytes), lend_bytes(&lent_symbols, site.symbols, site.symbols_bytes);
    lend_bytes(&lent_lengths, site.lengths, site.lengths_bytes), lend_bytes(&lent_definitions, site.definitions, site.definitions_bytes);
}

static void keeps_site(void) {
    keeps(&lent_table, site.table), keeps(&lent_symbols, site.symbols), keeps(&lent_lengths, site.lengths), keeps(&lent_definitions, site.definitions);
}

static void try_open(struct opened o, const uint8_t *table) {
    size_t room = RECORD * (size_t)o.weight + (size_t)below(30), n = some_answer(6);
    if (o.number == 0 && chance(20)) room = (size_t)below(RECORD * o.weight), o = (struct opened){.number = 6}, refused[6]++;
    now = "open";
    lend_site();
    uint8_t *to = lend_edge(&lent_opened, room), *a = lend_edge(&lent_answer, n);
    uint32_t number = simmergate_open(limit, lent_table.at, site.table_bytes, lent_symbols.at, site.symbols_bytes, lent_lengths.at, site.lengths_bytes, lent_definitions.at,
                                      site.definitions_bytes, to, room, a, n);
    int told = answered(number, (uint64_t[]){o.number, o.place, o.records, o.weight, o.what, o.byte}, 6);
    if (!edge_holds(&lent_opened, table, told ? RECORD * o.records : 0, told ? RECORD * o.records : 0)) fail("opened, or what is around it, is another one");
    keeps_site();
}

/* Opened and simplified in one call, beside what the plain C says of the opened table; x is refused where the opening is. */
static void try_shared(const struct item *x, int shorter) {
    static const uint64_t six[10] = {6};
    size_t room[3], n = shorter ? PLACE : some_answer(10), opened_bytes = RECORD * x->weight + (size_t)below(30);
    int first = shorter && chance(3);
    some_room(x, shorter && !first, room);
    if (first) opened_bytes = (size_t)below(RECORD * x->weight);
    now = "simplify_shared", at_hand = x;
    lend_site();
    uint8_t *to = lend_edge(&lent_opened, opened_bytes), *o = lend_edge(&lent_out, room[0]), *s = lend_edge(&lent_steps, room[1]), *w = lend_edge(&lent_work, room[2]);
    uint32_t number = simmergate_simplify_shared(limit, edition, lent_table.at, site.table_bytes, lent_symbols.at, site.symbols_bytes, lent_lengths.at, site.lengths_bytes,
                                                 lent_definitions.at, site.definitions_bytes, to, opened_bytes, o, room[0], s, room[1], w, room[2], lend_edge(&lent_answer, n), n);
    int told = answered(number, shorter ? six : x->said, 10), used = told && !shorter && is_good(x);
    if (!edge_holds(&lent_opened, x->table, used ? x->bytes : 0, used ? x->bytes : 0)) fail("opened, or what is around it, is another one");
    left(x, used);
    keeps_site();
    refused[6] += (uint64_t)shorter;
}

/* The result of a formula, as a table of its own: simplified again it is itself. */
static struct item result_of(const struct item *x) {
    uint64_t records = x->said[2], w = own_weight(x->out, RECORD * records);
    return (struct item){x->out, x->out, NULL, RECORD * records, (size_t)w, {0, 0, records, 0, 0, w, w, 0, 0, records}};
}

/* The result with the same definitions again: nothing is left to open, and nothing to shorten. */
static void try_shared_again(const struct item *x) {
    struct item y = result_of(x);
    memcpy(site.table, y.table, y.bytes);
    site.table_bytes = y.bytes;
    try_open((struct opened){.records = y.said[2], .weight = y.weight}, y.table);
    try_shared(&y, 0);
    shared_again++;
}

/* A formula with definitions, opened into `made` where it can be; else itself. Its bytes. */
static size_t from_definitions(uint64_t s, uint64_t i) {
    memset(site.symbols, 0, sizeof site.symbols), memset(site.lengths, 0, sizeof site.lengths);
    random_site(&site, s, i);
    site.limit = limit;
    struct opened o = own_open(&site, made);
    size_t before = pool_used;
    struct item x = {made, NULL, NULL, 0, 0, {o.number, o.place, 0, 0, 0, 0, 0, o.what, o.byte, 0}};
    if (o.number == 0) x = judge(made, RECORD * o.records);
    at_hand = &x;
    try_open(o, made);
    try_shared(&x, 0);
    if (is_good(&x) && chance(15)) try_shared(&x, 1);
    if (x.said[0] == 0) try_shared_again(&x);
    pool_used = before;
    refused[o.number] += o.number > 7, opened_seen += o.number == 0;
    if (o.number == 0) return RECORD * o.records;
    memcpy(made, site.table, site.table_bytes);
    return site.table_bytes;
}

/* ---- Pieces ---- */

static uint8_t held[LENT_ROOM];

/* A receiver and an area for the tables of a site. */
static void begin_receiver(void) {
    memset(lend_edge(&lent_receiver, SIMMERGATE_RECEIVER + (size_t)below(9)), 0, SIMMERGATE_RECEIVER);
    size_t n = SIMMERGATE_TABLE_BYTES(limit) + (size_t)below(50);
    memcpy(held, lend_edge(&lent_area, n), n);
}

static void see_record(size_t came, size_t most) {
    uint64_t tally[2] = {came < most ? came : most, came > most};
    if (!edge_holds(&lent_receiver, numbers(tally, 2), SIMMERGATE_RECEIVER, SIMMERGATE_RECEIVER)) fail("the receiver's record, or what is around it, is another one");
}

/* A piece that is refused, for the record, the limit or the area; the record stays. */
static void refused_piece(const uint8_t *piece, size_t n) {
    uint64_t way = below(3);
    uint32_t wanted = way == 1 ? 19 : 6;
    size_t l = way == 1 ? own_no_limit(any()) : limit, record = way == 0 ? (size_t)below(16) : lent_receiver.length, area = way == 2 ? (size_t)below(16 * limit) : lent_area.length;
    if (simmergate_receive(l, lent_receiver.at, record, lent_area.at, area, piece, n) != wanted) fail("a piece is not refused, or by another number");
    calls++, refused[wanted]++;
}

/* The table in `made` in pieces; what was kept, or the whole where more came than is kept, goes on. */
static struct item try_receive(size_t bytes) {
    size_t most = SIMMERGATE_TABLE_BYTES(limit), from = 0, manner = (size_t)below(4), n = some_answer(4);
    struct item x = {.table = made, .bytes = bytes};
    now = "receive", at_hand = &x;
    while (from < bytes) {
        size_t most_now = manner == 0 ? (bytes < 300 ? 1 : 40) : manner == 1 ? 160 : bytes - from, m = chance(7) ? 0 : manner == 3 ? most_now : 1 + (size_t)below(most_now);
        if (m > bytes - from) m = bytes - from;
        const uint8_t *piece = lend_bytes(&lent_piece, made + from, m);
        if (chance(200)) refused_piece(piece, m), see_record(from, most);
        if (simmergate_receive(limit, lent_receiver.at, lent_receiver.length, lent_area.at, lent_area.length, piece, m) != 0) fail("a piece is refused");
        keeps(&lent_piece, made + from);
        from += m, calls++, pieces_seen++;
        see_record(from, most);
    }
    memcpy(held, made, bytes < most ? bytes : most);
    x = checked(made, bytes);
    now = "receive_finish";
    for (int told = 0; !told; n = 8 * 4) {
        uint8_t *a = lend_edge(&lent_answer, n);
        told = answered(simmergate_receive_finish(limit, lent_receiver.at, lent_receiver.length, lent_area.at, lent_area.length, a, n), (uint64_t[]){x.said[0], x.said[1], x.said[7], x.said[8]}, 4);
        see_record(told ? 0 : bytes, most);
    }
    if (!edge_kept(&lent_area, held)) fail("the area, or what is around it, is another one");
    return judge(kept(bytes <= most ? lent_area.at : made, bytes), bytes);
}

/* ---- Settings ---- */

static struct { unsigned key, unit; uint64_t setting; } stored[SLOTS];
static size_t stored_count;

/* The slots as they must be. */
static const uint8_t *slots(void) {
    static uint8_t bytes[SLOT * SLOTS];
    memset(bytes, 0, sizeof bytes);
    for (size_t i = 0; i < stored_count; i++) write_slot(bytes + SLOT * i, NEW_RELEASE, stored[i].key, stored[i].setting, stored[i].unit);
    return bytes;
}

static void see_settings(uint32_t number, uint32_t wanted) {
    if (number != wanted) fail("another number is returned");
    if (!edge_kept(&lent_settings, slots())) fail("the settings, or what is around them, are others");
    settings_calls++, calls++;
    refused[wanted]++;
}

/* The old release refuses every area that the new one wrote to, but for an empty one. */
static void try_old_release(unsigned key) {
    uint32_t number = stored_count > 0 ? 10 : 12;
    uint8_t *area = lend_bytes(&lent_settings, slots(), SLOT * SLOTS), *a = lend_edge(&lent_answer, 24);
    now = "settings_fetch_1";
    uint32_t r = simmergate_settings_fetch_1(area, SLOT * SLOTS, (uint16_t)key, a, 24);
    if (!edge_holds(&lent_answer, numbers((uint64_t[]){number, 0, 0}, 3), 24, 24)) fail("the answer is another one");
    see_settings(r, number);
}

/* A number of a result stored under a key, fetched, and now and then another key removed. */
static void try_settings(uint64_t setting) {
    unsigned key = (unsigned)below(KEYS), unit = (unsigned)below(3), gone = (unsigned)below(KEYS);
    size_t i = 0, j = 0;
    while (i < stored_count && stored[i].key != key) i++;
    uint32_t number = i == SLOTS ? 13 : 0;
    uint8_t *area = lend_bytes(&lent_settings, slots(), SLOT * SLOTS);
    now = "settings_store";
    uint32_t r = simmergate_settings_store(area, SLOT * SLOTS, (uint16_t)key, setting, (uint16_t)unit);
    if (number == 0) stored[i].key = key, stored[i].unit = unit, stored[i].setting = setting, stored_count += i == stored_count;
    see_settings(r, number);
    now = "settings_fetch", number = number == 13 ? 12 : 0;
    uint8_t *a = lend_edge(&lent_answer, 32);
    r = simmergate_settings_fetch(area, SLOT * SLOTS, (uint16_t)key, a, 32);
    if (!edge_holds(&lent_answer, numbers((uint64_t[]){number, 0, number == 0 ? setting : 0, number == 0 ? unit : 0}, 4), 32, 32)) fail("the answer is another one");
    see_settings(r, number);
    try_old_release(key);
    if (!chance(3)) return;
    while (j < stored_count && stored[j].key != gone) j++;
    now = "settings_remove", number = j == stored_count ? 12 : 0;
    area = lend_bytes(&lent_settings, slots(), SLOT * SLOTS);
    r = simmergate_settings_remove(area, SLOT * SLOTS, (uint16_t)gone);
    if (number == 0) for (stored_count--; j < stored_count; j++) stored[j] = stored[j + 1];
    see_settings(r, number);
}

static uint64_t hash(const uint8_t *bytes, size_t n) {
    uint64_t h = 14695981039346656037u;
    for (size_t i = 0; i < n; i++) h = (h ^ bytes[i]) * 1099511628211u;
    return h;
}

/* ---- Formulas ---- */

/* A sum or a product in `made` that weighs just so much; its records. */
static size_t full_table(uint64_t weight) {
    unsigned kind = 2 + (unsigned)below(2), count = 0;
    making.at = made, making.records = 1, making.symbols = chance(3) ? 4 : 256, making.wild = chance(4) ? 1 : -1;
    for (uint64_t so_far = 1; so_far < weight; count++) {
        size_t before = making.records;
        if (weight - so_far < 30) put_record(0, 0, 1 + below(3));
        else rare_part(kind);
        so_far += weight_of_records(made + RECORD * before, making.records - before);
    }
    memset(made, 0, RECORD);
    made[0] = (uint8_t)kind, made[2] = (uint8_t)count, made[3] = (uint8_t)(count >> 8);
    return making.records;
}

/* So many sums, products and powers one inside the other; the records. */
static size_t deep_table(size_t levels) {
    size_t powers = 0;
    making.at = made, making.records = 0, making.wild = -1;
    for (size_t i = 0; i < levels; i++) {
        unsigned kind = 2 + (unsigned)below(3);
        put_record(kind, kind == 4 ? 0 : 2, 0);
        if (kind == 4) powers++;
        else put_record(0, 0, chance(30) ? below(3) : 2 + below(3));
    }
    put_record(1, 0, below(9));
    for (; powers > 0; powers--) put_record(0, 0, 1 + below(3));
    return making.records;
}

/* A random table in `made`; its bytes. */
static size_t some_table(uint64_t s, uint64_t i, int large) {
    random_state = s ^ i << 32;
    if (large) return RECORD * (chance(6) ? deep_table(300 + below(700)) : full_table(chance(8) ? limit + 1 : limit - below(40)));
    return RECORD * (chance(8) ? rare_table(made, s, i, LOWER) : random_table(made, s, i, 200, limit));
}

/* Formula i of the site, a table in `made` by one of four ways; its bytes. */
static size_t make_formula(uint64_t s, uint64_t i, int large) {
    static uint8_t damaged_text[LENT_ROOM];
    size_t bytes = some_table(s, i, large);
    const uint8_t *at = made;
    struct item x = checked(made, bytes);
    uint64_t way = large ? below(3) : below(4);
    if (way == 3) return from_definitions(s, i);
    if (way == 0 || (way == 1 && x.said[0] != 0)) return put_marks(made, bytes), bytes;
    if (way == 1) {
        put_marks(made, bytes);
        bytes = through_text(&x);
        memcpy(made, text_read, bytes);
        return bytes;
    }
    at_hand = &x;
    size_t n = (size_t)(plain_text(&at, "", (char *)texts) - (char *)texts);
    if (chance(3)) memcpy(damaged_text, texts, n), try_read(damaged_text, damage_text(damaged_text, n), 0);
    if (chance(15)) try_read(texts, n, 1);
    size_t came = try_read(texts, n, 0);
    if (came != (x.said[0] == 0 ? bytes : 0) || memcmp(text_read, made, came) != 0) fail("the table of a text is another one than the text was made of");
    return bytes;
}

static void count_item(const struct item *x) {
    static uint8_t bare[RECORD * (HIGHER + 64)];
    formulas++, marked += (uint64_t)erase(bare, x->table, x->bytes);
    if (x->said[0] != 0) { refused[x->said[0]]++; return; }
    accepted[limit == HIGHER][edition - 1]++;
    steps_seen += x->said[3], openings_seen += x->said[4], tries_seen += x->said[9];
    for (uint64_t i = 0; i < x->said[3]; i++) each_step[x->steps[i]]++;
    above_lower += x->weight > LOWER, near_limit += x->weight + 40 > limit;
}

/* The formulas of a site, received. */
static void make_site(void) {
    uint64_t s = any();
    limit = chance(3) ? HIGHER : LOWER, edition = 1 + (size_t)below(2);
    size_t many = 1 + (size_t)below(chance(3) ? MOST_ITEMS : 8), large = chance(20) ? (size_t)below(many) : many, bytes = 0, weight = 0;
    begin_receiver();
    for (item_count = 0; item_count < many && bytes < FULL_SITE && RECORD * weight < FULL_SITE; item_count++) {
        struct item *x = &items[item_count];
        size_t n = make_formula(s, item_count, item_count == large);
        if (n >= RECORD && chance(6)) damage(made, &n);
        *x = try_receive(n);
        bytes += x->bytes, weight += x->weight;
        count_item(x);
    }
}

/* ---- Results ---- */

static void try_result(const struct item *x, const struct item *y, const struct item *before) {
    static uint8_t other[RECORD * HIGHER], bytes[8 * REGISTERS];
    uint64_t registers[REGISTERS];
    const uint8_t *from = y->table;
    uint8_t *to = other;
    try_check_and_weight(y);
    random_registers(registers, bytes);
    try_value(x, registers, bytes), try_value(y, registers, bytes);
    if (own_value(x->table, registers) != own_value(y->table, registers)) fail("the result has another value than the formula");
    shuffled(&from, &to);
    put_marks(other, y->bytes);
    if (!equal_trees(y->table, other)) fail("the copy in another order is not equal");
    if (chance(3)) memcpy(other, y->table, y->bytes);
    if (chance(3)) change(other, y->bytes / RECORD);
    struct item z = checked(other, y->bytes);
    try_pair(y, &z), try_pair(x, y), try_differ(y, before);
    through_text(y);
    simplify_alone(y, NOTHING);
    if (chance(4)) try_settings(chance(2) ? y->bytes : hash(y->table, y->bytes));
}

/* The items in a random order. */
static void some_order(const struct item **list, size_t n) {
    for (size_t i = n; i > 1; i--) {
        size_t j = (size_t)below(i);
        const struct item *x = list[i - 1];
        list[i - 1] = list[j], list[j] = x;
    }
}

static void try_site(void) {
    const struct item *list[MOST_ITEMS];
    static uint8_t bytes[8 * REGISTERS];
    uint64_t registers[REGISTERS];
    pool_used = stored_count = result_count = 0;
    make_site();
    for (size_t i = 0; i < item_count; i++) list[i] = &items[i];
    try_batch(list, item_count, 0);
    if (chance(3)) try_batch(list, item_count, 1);
    some_order(list, item_count);
    try_batch(list, item_count, 0);
    for (size_t i = 0; i < item_count; i++) {
        const struct item *x = &items[i];
        simplify_alone(x, NOTHING);
        if (is_good(x) && chance(15)) simplify_alone(x, ROOM);
        if (chance(30)) simplify_alone(x, chance(2) ? EDITION : LIMIT);
        try_check_and_weight(x);
        if (x->said[0] == 0) {
            results[result_count] = result_of(x);
            try_result(x, &results[result_count], &results[result_count == 0 ? 0 : result_count - 1]);
            result_count++;
        } else {
            random_registers(registers, bytes);
            try_value(x, registers, bytes);
            if (!is_good(x)) try_write(x, 0), try_pair(&items[i / 2], x), try_pair(x, &items[i / 2]);
        }
    }
    for (size_t i = 0; i < result_count; i++) list[i] = &results[i];
    some_order(list, result_count);
    if (result_count > 0) try_batch(list, result_count, 0);
}

/* ---- What was seen ---- */

/* Says that something was not seen. */
static int nothing_of(const char *what, int number) {
    printf("everything: no %s %d: nothing is shown of it\n", what, number);
    return 1;
}

/* Whether something that must be seen was not. */
static int missing(void) {
    static const int must[] = {1, 2, 3, 4, 5, 6, 7, 8, 9, 10, 12, 13, 14, 15, 16, 17, 18, 19};
    for (size_t i = 0; i < sizeof must / sizeof *must; i++)
        if (refused[must[i]] == 0) return nothing_of("refusal", must[i]);
    for (int i = 1; i < 10; i++)
        if (i != 5 && each_step[i] == 0) return nothing_of("step", i);
    for (int i = 0; i < 4; i++)
        if (accepted[i / 2][i % 2] == 0) return nothing_of(i < 2 ? "formula at 3072 accepted by edition" : "formula at 16384 accepted by edition", i % 2 + 1);
    if (marked == 0 || above_lower == 0 || near_limit == 0) return nothing_of("marks, or no accepted formula that is heavier than or near", LOWER);
    if (equal_seen == 0 || unequal_seen == 0 || pairs_seen == 0 || same_seen == 0) return nothing_of("equal, unequal, differing or same tables at", LOWER);
    return 0;
}

static void report(uint64_t seed, uint64_t seconds) {
    typedef unsigned long long n;
    printf("everything at once: %llu sites (seed %llu), %llu formulas (%llu marked, %llu opened, %llu of them simplified and opened again), %llu tables judged, %llu calls, %llu batches, %llu pieces; texts read %llu, written %llu; "
           "accepted at 3,072 by edition one %llu, two %llu, at 16,384 %llu, %llu (heavier than 3,072 %llu, within 40 of the limit %llu; %llu steps, %llu openings, %llu tries); refused",
           (n)rounds, (n)seed, (n)formulas, (n)marked, (n)opened_seen, (n)shared_again, (n)judged, (n)calls, (n)batches, (n)pieces_seen, (n)texts_read, (n)texts_written, (n)accepted[0][0],
           (n)accepted[0][1], (n)accepted[1][0], (n)accepted[1][1], (n)above_lower, (n)near_limit, (n)steps_seen, (n)openings_seen, (n)tries_seen);
    for (int i = 1; i < NUMBERS; i++)
        if (i != 11) printf(" %d: %llu", i, (n)refused[i]);
    printf("; equal %llu, unequal %llu; differed %llu (%llu the same, %llu pairs); settings %llu; %llu seconds; no difference\n", (n)equal_seen, (n)unequal_seen, (n)differed, (n)same_seen, (n)pairs_seen,
           (n)settings_calls, (n)seconds);
}

int main(int argc, char **argv) {
    if (argc != 3) { printf("usage: everything SEED COUNT\n"); return 2; }
    uint64_t seed = decimal(argv[1]), count = decimal(argv[2]);
    struct timespec begun, ended;
    clock_gettime(CLOCK_MONOTONIC, &begun);
    lent_begin();
    signal(11, touched), signal(7, touched);
    /* the seed of the next round comes from that of this one, so that a run from there begins with it */
    for (uint64_t next = seed; formulas < count; rounds++) {
        random_state = round_seed = next;
        next = any();
        random_state = round_seed * 0x2545F4914F6CDD1Du + 1;
        try_site();
    }
    if (count >= 20000 && missing()) return 1;
    clock_gettime(CLOCK_MONOTONIC, &ended);
    report(seed, (uint64_t)(ended.tv_sec - begun.tv_sec));
    return 0;
}
