/* shared FILE LINES: replays the stored sites of a file (tests/answers/shared.tsv or shared-marked.tsv on standard input, so many lines; see
   tests/answers/README.md) through simmergate_open and simmergate_simplify_shared, by the edition and at the limit that the line names, or else by
   edition one at the limit 3,072, and where the site is not too heavy for that at 16,384 as well. On every site: the returned number, all numbers of the answer, every byte of opened, out,
   steps and work, and the bytes around them; with the areas that the line lends and, where it is simplified or leaves the range, with areas
   exactly as large as they must be, larger ones, and each of them one byte too short. Records and weight of the opened table, and what is wrong
   with a record, are as the plain reading of sites.c says; tries are the same in every call, and at most the cube of the opened weight. */
#define LENT_ROOM (524288 + 4096)
#include "../../include/simmergate.h"
#include "lent.h"
#include "sites.h"
#include "text.h"

static struct lent lent_table = {.name = "table"}, lent_symbols = {.name = "symbols"}, lent_lengths = {.name = "lengths"},
                   lent_definitions = {.name = "definitions"}, lent_opened = {.name = "opened"}, lent_out = {.name = "out"},
                   lent_steps = {.name = "steps"}, lent_work = {.name = "work"}, lent_answer = {.name = "answer"};
static struct site site;
static uint8_t own_table[RECORD * HIGHER], wanted_opened[RECORD * HIGHER], wanted_out[RECORD * HIGHER], wanted_steps[HIGHER];
static const char *name;
static long calls;
static size_t edition = 1;

static void fail(const char *what) {
    printf("shared: line `%s`: %s (opened %zu, out %zu, steps %zu, work %zu, answer %zu bytes lent)\n", name, what, lent_opened.length, lent_out.length,
           lent_steps.length, lent_work.length, lent_answer.length);
    exit(1);
}

/* The bytes that the digits name, `{N:x}` standing for x N times. */
static size_t unhex_repeated(const char *text, uint8_t *bytes, size_t room) {
    static char plain[LINE_ROOM];
    size_t n = 0;
    while (*text != 0) {
        size_t times = 1, part = 1;
        const char *end = text + 1;
        if (*text == '{') {
            char *colon;
            times = (size_t)strtoull(text + 1, &colon, 10);
            end = strchr(text, '}');
            if (*colon != ':' || end == NULL) fail("no repetition");
            text = colon + 1, part = (size_t)(end - text), end++;
        }
        for (; times > 0; times--) {
            if (n + part >= sizeof plain) fail("the line is too long");
            memcpy(plain + n, text, part);
            n += part;
        }
        text = end;
    }
    plain[n] = 0;
    return unhex(plain, bytes, room);
}

/* What the line says, and what the plain reading adds to it. */
static struct { struct opened open; uint64_t numbers[10]; size_t areas[4]; } wanted;

static const uint8_t *lend_bytes(struct lent *area, const uint8_t *bytes, size_t n) { return memcpy(lend(area, n), bytes, n); }

static void look_at_what_was_handed_in(void) {
    if (!holds(&lent_table, site.table, site.table_bytes, site.table_bytes) || !holds(&lent_symbols, site.symbols, site.symbols_bytes, site.symbols_bytes) ||
        !holds(&lent_lengths, site.lengths, site.lengths_bytes, site.lengths_bytes) ||
        !holds(&lent_definitions, site.definitions, site.definitions_bytes, site.definitions_bytes))
        fail("what was handed in, or what is around it, changed");
}

static void call_open(size_t opened_bytes, size_t answer_bytes) {
    struct opened w = wanted.open;
    const uint8_t *t = lend_bytes(&lent_table, site.table, site.table_bytes), *y = lend_bytes(&lent_symbols, site.symbols, site.symbols_bytes),
                  *l = lend_bytes(&lent_lengths, site.lengths, site.lengths_bytes), *d = lend_bytes(&lent_definitions, site.definitions, site.definitions_bytes);
    uint8_t *o = lend(&lent_opened, opened_bytes), *a = lend(&lent_answer, answer_bytes);
    uint32_t number = simmergate_open(site.limit, t, site.table_bytes, y, site.symbols_bytes, l, site.lengths_bytes, d, site.definitions_bytes, o, opened_bytes, a, answer_bytes);
    calls++;
    look_at_what_was_handed_in();
    if (answer_bytes < SIMMERGATE_OPEN_BYTES) {
        if (number != 6 || !untouched(&lent_answer) || !untouched(&lent_opened)) fail("open: the answer is too short, and the call does more than return 6");
        return;
    }
    if (w.number == 0 && opened_bytes < 16 * w.weight) w = (struct opened){.number = 6};
    uint64_t expected[6] = {w.number, w.place, w.records, w.weight, w.what, w.byte};
    if (number != w.number || !holds(&lent_answer, numbers(expected, 6), SIMMERGATE_OPEN_BYTES, SIMMERGATE_OPEN_BYTES)) fail("open: another answer");
    if (w.number != 0 ? !untouched(&lent_opened) : !holds(&lent_opened, wanted_opened, 16 * w.records, 16 * w.records)) fail("open: opened is another one");
}

static void call_simplify(size_t opened_bytes, size_t out_bytes, size_t steps_bytes, size_t work_bytes, size_t answer_bytes) {
    uint64_t expected[10], weight = wanted.open.weight;
    const uint8_t *t = lend_bytes(&lent_table, site.table, site.table_bytes), *y = lend_bytes(&lent_symbols, site.symbols, site.symbols_bytes),
                  *l = lend_bytes(&lent_lengths, site.lengths, site.lengths_bytes), *d = lend_bytes(&lent_definitions, site.definitions, site.definitions_bytes);
    uint8_t *v = lend(&lent_opened, opened_bytes), *o = lend(&lent_out, out_bytes), *s = lend(&lent_steps, steps_bytes), *w = lend(&lent_work, work_bytes),
            *a = lend(&lent_answer, answer_bytes);
    uint32_t number = simmergate_simplify_shared(site.limit, edition, t, site.table_bytes, y, site.symbols_bytes, l, site.lengths_bytes, d, site.definitions_bytes, v, opened_bytes,
                                                 o, out_bytes, s, steps_bytes, w, work_bytes, a, answer_bytes);
    calls++;
    look_at_what_was_handed_in();
    if (answer_bytes < SIMMERGATE_SIMPLIFY_BYTES) {
        if (number != 6) fail("the answer is too short, and the call does not return 6");
        if (!untouched(&lent_answer) || !untouched(&lent_opened) || !untouched(&lent_out) || !untouched(&lent_steps) || !untouched(&lent_work)) fail("the answer is too short, and a byte changed");
        return;
    }
    if (number == 0 && wanted.numbers[9] == 0) wanted.numbers[9] = own_number(a + 72);
    memcpy(expected, wanted.numbers, sizeof expected);
    int small = opened_bytes < 16 * weight || out_bytes < 16 * weight || steps_bytes < weight || work_bytes < own_work(site.limit);
    if (small && (expected[0] == 0 || expected[0] == 7)) {
        memset(expected, 0, sizeof expected);
        expected[0] = 6;
    }
    if (number != expected[0]) fail("the returned number is another one");
    if (!holds(&lent_answer, numbers(expected, 10), SIMMERGATE_SIMPLIFY_BYTES, SIMMERGATE_SIMPLIFY_BYTES)) fail("the answer or what is around it is another one");
    if (number != 0 && number != 7) {
        if (!untouched(&lent_opened) || !untouched(&lent_out) || !untouched(&lent_steps) || !untouched(&lent_work)) fail("refused, and a lent byte changed");
        return;
    }
    uint64_t records = number == 0 ? expected[2] : 0, count = number == 0 ? expected[3] : 0;
    if (!holds(&lent_opened, wanted_opened, 16 * wanted.open.records, 16 * wanted.open.records)) fail("opened is another one");
    if (!holds(&lent_out, wanted_out, 16 * records, 16 * weight)) fail("out is another one");
    if (!holds(&lent_steps, wanted_steps, count, weight)) fail("steps is another one");
    if (!holds(&lent_work, lent_zeros, 0, own_work(site.limit))) fail("work is another one");
}

/* The site, its areas and its answer, from a line. */
static void read_line(char **parts) {
    site.table_bytes = unhex_repeated(parts[1], site.table, sizeof site.table);
    site.symbols_bytes = unhex_repeated(parts[2], site.symbols, sizeof site.symbols);
    site.lengths_bytes = unhex_repeated(parts[3], site.lengths, sizeof site.lengths);
    site.definitions_bytes = unhex_repeated(parts[4], site.definitions, sizeof site.definitions);
    for (int i = 0; i < 4; i++) {
        wanted.areas[i] = (size_t)decimal(parts[5 + i]);
        if (wanted.areas[i] > LENT_ROOM) fail("an area is longer than the test lends");
    }
    char *end = parts[9];
    memset(wanted.numbers, 0, sizeof wanted.numbers);
    for (int i = 0; i < 7; i++) wanted.numbers[i] = strtoull(end, &end, 10);
    for (int i = 7; i < 10 && *end != 0; i++) wanted.numbers[i] = strtoull(end, &end, 10);
    if (*end != 0) fail("no answer of seven numbers, or of ten");
}

/* Every call on the site of the line at a limit, with so much `work` where the line says what is lent. */
static void try_site(size_t limit, size_t work) {
    uint64_t number = wanted.numbers[0], w;
    site.limit = limit;
    wanted.open = own_open(&site, own_table);
    w = wanted.open.weight;
    if (wanted.open.number != (number == 0 || number == 6 || number == 7 ? 0 : number)) fail("the test's own reading is refused otherwise");
    wanted.numbers[7] = wanted.open.what, wanted.numbers[8] = wanted.open.byte;
    if ((number == 0 || number == 7) && memcmp(own_table, wanted_opened, 16 * wanted.open.records) != 0) fail("the test's own reading opens otherwise");
    if (number != 0 && number != 7) memcpy(wanted_opened, own_table, sizeof own_table);
    if (number == 0 && w != wanted.numbers[5]) fail("the opened weight is not the one that the answer says");
    call_simplify(wanted.areas[0], wanted.areas[1], wanted.areas[2], work, SIMMERGATE_SIMPLIFY_BYTES);
    call_simplify(wanted.areas[0], wanted.areas[1], wanted.areas[2], work, SIMMERGATE_SIMPLIFY_BYTES - 1);
    call_simplify(wanted.areas[0], wanted.areas[1], wanted.areas[2], work, 0);
    call_open(wanted.areas[0], SIMMERGATE_OPEN_BYTES);
    call_open(wanted.areas[0], SIMMERGATE_OPEN_BYTES - 1);
    call_open(16 * w + 5, SIMMERGATE_OPEN_BYTES + 3);
    if (wanted.open.number == 0) {
        call_open(16 * w, SIMMERGATE_OPEN_BYTES);
        call_open(16 * w - 1, SIMMERGATE_OPEN_BYTES);
    }
    if (number == 0 || number == 7) {
        call_simplify(16 * w, 16 * w, w, own_work(limit), SIMMERGATE_SIMPLIFY_BYTES);
        call_simplify(16 * w + 777, 16 * w + 4096, w + 1000, own_work(limit) + 4096, SIMMERGATE_SIMPLIFY_BYTES + 8);
        call_simplify(16 * w - 1, 16 * w, w, own_work(limit), SIMMERGATE_SIMPLIFY_BYTES);
        call_simplify(16 * w, 16 * w - 1, w, own_work(limit), SIMMERGATE_SIMPLIFY_BYTES);
        call_simplify(16 * w, 16 * w, w - 1, own_work(limit), SIMMERGATE_SIMPLIFY_BYTES);
        call_simplify(16 * w, 16 * w, w, own_work(limit) - 1, SIMMERGATE_SIMPLIFY_BYTES);
    }
    if (number == 0 && (wanted.numbers[9] == 0 || wanted.numbers[9] > w * w * w)) fail("no tries, or more than the cube of the opened weight");
}

/* Another limit is 19, whatever else is handed in. */
static void try_no_limit(uint64_t turn) {
    memset(wanted.numbers, 0, sizeof wanted.numbers);
    wanted.numbers[0] = 19;
    site.limit = own_no_limit(turn);
    wanted.open = own_open(&site, own_table);
    if (wanted.open.number != 19) fail("the test's own reading knows the limit");
    call_open(64, SIMMERGATE_OPEN_BYTES);
    call_simplify(64, 64, 64, 64, SIMMERGATE_SIMPLIFY_BYTES);
}

int main(int argc, char **argv) {
    long lines = 0, simplified = 0, left_range = 0, short_areas = 0, at_both = 0;
    lent_begin();
    while (next_line()) {
        char *parts[17];
        name = line;
        size_t told = cut(line, parts, 17);
        if (told != 17 && told != 15) fail("not seventeen parts, and not fifteen");
        read_line(parts);
        edition = told == 15 ? (size_t)decimal(parts[13]) : 1;
        size_t limit = told == 15 ? (size_t)decimal(parts[14]) : LOWER;
        uint64_t number = wanted.numbers[0];
        size_t records = unhex_repeated(parts[10], wanted_opened, sizeof wanted_opened) / 16;
        if (unhex_repeated(parts[11], wanted_out, sizeof wanted_out) != 16 * wanted.numbers[2]) fail("the records are not as many as the answer says");
        if (unhex_repeated(parts[12], wanted_steps, sizeof wanted_steps) != wanted.numbers[3]) fail("the steps are not as many as the answer says");
        site.limit = limit;
        if ((number == 0 || number == 7) && own_open(&site, own_table).records != records) fail("the test's own reading opens to other records");
        try_site(limit, wanted.areas[3]);
        site.limit = HIGHER;
        if (limit == LOWER && own_open(&site, own_table).number == (number == 6 || number == 7 ? 0 : number)) try_site(HIGHER, wanted.areas[3] + own_work(HIGHER) - own_work(LOWER)), at_both++;
        lines++;
        simplified += number == 0;
        left_range += number == 7;
        short_areas += number == 6;
        try_no_limit((uint64_t)lines);
    }
    if (argc != 3 || (uint64_t)lines != decimal(argv[2])) { printf("shared: %ld stored sites on standard input, not as many as they should be\n", lines); return 1; }
    printf("stored answers of %s: %ld sites (%ld simplified, %ld out of range, %ld short of room, %ld refused otherwise), %ld of them at both limits, %ld calls, all bytes as stored\n", argv[1], lines, simplified,
           left_range, short_areas, lines - simplified - left_range - short_areas, at_both, calls);
    return 0;
}
