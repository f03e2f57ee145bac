/* deep [names]: what each call needs of the stack, measured, beside what include/simmergate.h says of it; to be run where that file is found under this name.

   The deepest tables that are accepted, 1,535 nodes one inside the other at the limit 3,072 and 8,191 at 16,384, are checked, weighed, evaluated,
   compared, walked in step, simplified by both editions, alone, as a site of one item and by way of 16 definitions, received in pieces, written as
   text and read again; the widest tables are simplified, texts nested far deeper than any table are judged, tables with each flaw are refused by
   every call, and settings are stored, shown and removed. All this on a stack of 1 MiB, and of 8 MiB, that lies behind a page that nothing may touch. The stack is painted before each call, and
   what is painted over when the call is back is what it needed. The figures are printed as the header's table has them; exit 1 where a call needs
   more than stands there. The header's figures are the bounds that tests/stack tells from the machine code; what is measured comes near them. With `names` a call is held to
   the name that covers it alone: the figures of the calls are those of x86-64. */
#include "../../include/simmergate.h"
#include "own.h"
#include <pthread.h>
#include <stdio.h>
#include <stdlib.h>
#include <string.h>

int mprotect(void *, size_t, int);

enum { PAGE = 4096, STACK = 8 << 20, BEGINNING = 1 << 16, PAINT = 0xe5, SLOTS = 300 };

static uint8_t area[PAGE + STACK] __attribute__((aligned(PAGE)));
static uint8_t *const stack = area + PAGE;

/* A limit, how deep its deepest tables are, the stack that they are tried on, and what the header says that they need. */
struct level { size_t limit, stack, said, reading; int depth; };
enum { LEVELS = 2 };
static const struct level levels[LEVELS] = {
    {LOWER, 1 << 20, SIMMERGATE_STACK, SIMMERGATE_READ_TEXT_STACK, 1535},
    {HIGHER, STACK, SIMMERGATE_STACK_16384, SIMMERGATE_READ_TEXT_STACK_16384, 8191},
};
static struct level at;
static int level;

/* What is handed to the calls. */
static uint8_t table[RECORD * HIGHER], second[RECORD * HIGHER], registers[SIMMERGATE_REGISTERS_BYTES], answer[SIMMERGATE_SIMPLIFY_BYTES];
static uint8_t out[RECORD * HIGHER], steps[HIGHER], work[SIMMERGATE_WORK_BYTES(HIGHER)], lengths[8];
static uint8_t formula[RECORD * HIGHER], symbols[SIMMERGATE_DEFINITIONS], definition_lengths[8 * SIMMERGATE_DEFINITIONS];
static uint8_t definitions[RECORD * (HIGHER + SIMMERGATE_DEFINITIONS)], opened[RECORD * HIGHER];
static uint8_t receiver[SIMMERGATE_RECEIVER_BYTES], received[RECORD * HIGHER], text[1 << 20], slots[SIMMERGATE_SLOT_BYTES * SLOTS];
static size_t bytes, second_bytes, formula_bytes, edition = 1, defined, definitions_bytes, text_bytes, slots_bytes;
static const uint8_t *piece;
static size_t piece_bytes;
static uint16_t key;
static uint32_t returned;

/* ---- The calls ---- */

static void check(void) { returned = simmergate_check(at.limit, table, bytes, answer, sizeof answer); }
static void weigh(void) { returned = simmergate_weight(at.limit, table, bytes, answer, sizeof answer); }
static void evaluate(void) { returned = simmergate_value(at.limit, table, bytes, registers, sizeof registers, answer, sizeof answer); }
static void compare(void) { returned = simmergate_equal(at.limit, table, bytes, second, second_bytes, answer, sizeof answer); }
static void walk(void) { returned = simmergate_differ(at.limit, table, bytes, second, second_bytes, out, sizeof out, answer, sizeof answer); }
static void spell(void) { returned = simmergate_write_text(at.limit, table, bytes, text, sizeof text, answer, sizeof answer); }
static void take_in(void) { returned = simmergate_read_text(at.limit, text, text_bytes, second, sizeof second, answer, sizeof answer); }
static void receive(void) { returned = simmergate_receive(at.limit, receiver, sizeof receiver, received, sizeof received, piece, piece_bytes); }
static void finish(void) {
    returned = simmergate_receive_finish(at.limit, receiver, sizeof receiver, received, sizeof received, answer, sizeof answer);
}
static void store(void) { returned = simmergate_settings_store(slots, slots_bytes, key, 77, 3); }
static void fetch(void) { returned = simmergate_settings_fetch(slots, slots_bytes, key, answer, sizeof answer); }
static void fetch_1(void) { returned = simmergate_settings_fetch_1(slots, slots_bytes, key, answer, sizeof answer); }
static void take_out(void) { returned = simmergate_settings_remove(slots, slots_bytes, key); }
static void ask_release(void) { returned = simmergate_release(); }

static void simplify(void) {
    returned = simmergate_simplify(at.limit, edition, table, bytes, out, sizeof out, steps, sizeof steps, work, sizeof work, answer, sizeof answer);
}

static void site(void) {
    returned = simmergate_batch(at.limit, edition, table, bytes, lengths, sizeof lengths, out, sizeof out, steps, sizeof steps, work, sizeof work,
                                answer, sizeof answer);
}

static void open_up(void) {
    returned = simmergate_open(at.limit, formula, formula_bytes, symbols, defined, definition_lengths, 8 * defined, definitions, definitions_bytes,
                               opened, sizeof opened, answer, sizeof answer);
}

static void simplify_shared(void) {
    returned = simmergate_simplify_shared(at.limit, edition, formula, formula_bytes, symbols, defined, definition_lengths, 8 * defined, definitions,
                                          definitions_bytes, opened, sizeof opened, out, sizeof out, steps, sizeof steps, work, sizeof work, answer,
                                          sizeof answer);
}

enum {
    CHECK, WEIGHT, VALUE, EQUAL, DIFFER, SIMPLIFY, BATCH, RECEIVE, FINISH, OPEN, SHARED, WRITE_TEXT, READ_TEXT, STORE, FETCH, FETCH_1, REMOVE,
    RELEASE, CALLS
};

/* Their names, and what the header says behind the figures. */
static const char depth[] = "whatever the depth", editions[] = "by either edition", areas[] = "whatever the area";
static const struct { void (*call)(void); const char *name, *remark; } calls[CALLS] = {
    [CHECK] = {check, "simmergate_check", depth},
    [WEIGHT] = {weigh, "simmergate_weight", depth},
    [VALUE] = {evaluate, "simmergate_value", ""},
    [EQUAL] = {compare, "simmergate_equal", ""},
    [DIFFER] = {walk, "simmergate_differ", depth},
    [SIMPLIFY] = {simplify, "simmergate_simplify", editions},
    [BATCH] = {site, "simmergate_batch", editions},
    [RECEIVE] = {receive, "simmergate_receive", "whatever the piece"},
    [FINISH] = {finish, "simmergate_receive_finish", depth},
    [OPEN] = {open_up, "simmergate_open", depth},
    [SHARED] = {simplify_shared, "simmergate_simplify_shared", editions},
    [WRITE_TEXT] = {spell, "simmergate_write_text", ""},
    [READ_TEXT] = {take_in, "simmergate_read_text", "for any text"},
    [STORE] = {store, "simmergate_settings_store", areas},
    [FETCH] = {fetch, "simmergate_settings_fetch", areas},
    [FETCH_1] = {fetch_1, "simmergate_settings_fetch_1", areas},
    [REMOVE] = {take_out, "simmergate_settings_remove", areas},
    [RELEASE] = {ask_release, "simmergate_release", ""},
};

/* ---- The stack ---- */

/* What each call needed at the most, and what is taken of the stack where a call begins. */
static size_t need[CALLS][LEVELS], begun, touched;
static void (*running)(void);
static void nothing(void) { begun = (size_t)(stack + at.stack - (uint8_t *)__builtin_frame_address(0)); }

/* What the thread's beginning has left below is painted over, but for the 32 bytes next to it: no call is found to need less. */
static __attribute__((noinline)) void paint(void) {
    volatile uint8_t *end = (uint8_t *)__builtin_frame_address(0) - 32;
    for (volatile uint8_t *p = stack + at.stack - BEGINNING; p < end; p++) *p = PAINT;
}

/* How many bytes at the far end are still painted: eight at a time, then one by one. */
static size_t still_painted(void) {
    uint64_t eight, painted;
    size_t i = 0;
    memset(&painted, PAINT, sizeof painted);
    for (; memcpy(&eight, stack + i, sizeof eight), eight == painted; i += sizeof eight) {}
    while (stack[i] == PAINT) i++;
    return i;
}

static void *run(void *unused) {
    paint();
    running();
    touched = at.stack - still_painted();
    return unused;
}

static void on_the_stack(void (*call)(void)) {
    pthread_attr_t attributes;
    pthread_t thread;
    running = call;
    memset(stack, PAINT, at.stack);
    if (pthread_attr_init(&attributes) || pthread_attr_setstack(&attributes, stack, at.stack)
        || pthread_create(&thread, &attributes, run, NULL) || pthread_join(thread, NULL)) {
        printf("deep: no thread on a stack of %zu bytes\n", at.stack);
        exit(1);
    }
}

static void measure(int k) {
    on_the_stack(calls[k].call);
    if (touched - begun > need[k][level]) need[k][level] = touched - begun;
}

/* ---- What the calls must answer ---- */

static unsigned kind_a, kind_b;

static void same(const char *what, uint64_t expected, uint64_t got) {
    if (got == expected) return;
    printf("deep: %s of %d nested nodes of kinds %u and %u is %llu, not %llu\n", what, at.depth, kind_a, kind_b, (unsigned long long)got,
           (unsigned long long)expected);
    exit(1);
}

static void put(unsigned kind, unsigned count, uint64_t number) {
    uint8_t *r = table + bytes;
    memset(r, 0, RECORD);
    r[0] = (uint8_t)kind;
    r[2] = (uint8_t)count;
    r[3] = (uint8_t)(count >> 8);
    own_bytes(r + 8, number);
    bytes += RECORD;
}

/* The deepest nest of nodes of the two kinds by turns, each the first member of the one around it, or the last; and the innermost leaf. */
static void nest(int first, uint64_t innermost) {
    bytes = 0;
    for (int d = 0; d < at.depth; d++) {
        unsigned k = d % 2 ? kind_b : kind_a;
        put(k, k == 4 ? 0 : 2, 0);
        if (k != 4 && !first) put(0, 0, 3 + (uint64_t)d);
    }
    put(0, 0, innermost);
    for (int d = at.depth - 1; d >= 0; d--) {
        unsigned k = d % 2 ? kind_b : kind_a;
        if (k == 4 || first) put(0, 0, 3 + (uint64_t)d);
    }
}

static void judge(void) {
    static const uint64_t zeros[REGISTERS];
    measure(CHECK), same("the return of the checker", 0, returned);
    measure(WEIGHT), same("the return of the weight", 0, returned), same("the weight", bytes / RECORD, own_number(answer + 16));
    measure(VALUE), same("the return of the evaluator", 0, returned), same("the value", own_value(table, zeros), own_number(answer + 16));
}

/* Compared with a copy, with the deep member on the other side, and with another innermost leaf; and walked in step with them: no pair where the
   bytes are the same. */
static void compare_all(int first) {
    for (int k = 0; k < 3; k++) {
        nest(k == 1 ? !first : first, k == 2 ? 2 : 3);
        memcpy(second, table, bytes);
        second_bytes = bytes;
        nest(first, 3);
        measure(EQUAL), same("the return of the comparison", 0, returned), same("the comparison", k < 2, own_number(answer + 24));
        uint64_t copy = bytes == second_bytes && memcmp(table, second, bytes) == 0;
        measure(DIFFER), same("the return of the walk", 0, returned), same("whether there is no pair", copy, own_number(answer + 24) == 0);
    }
}

/* A chain of n definitions, each the symbol of the next; the last is the table that stands there, or leads back to the first. */
static void define(size_t n, int back) {
    memset(formula, 0, RECORD);
    formula_bytes = RECORD;
    formula[0] = 1;
    formula[8] = 100;
    definitions_bytes = 0;
    for (defined = 0; defined < n; defined++) {
        int last = defined + 1 == n;
        size_t length = last && !back ? bytes : RECORD;
        symbols[defined] = (uint8_t)(100 + defined);
        memcpy(definitions + definitions_bytes, last && !back ? table : formula, length);
        if (!last) definitions[definitions_bytes + 8] = (uint8_t)(101 + defined);
        own_bytes(definition_lengths + 8 * defined, length);
        definitions_bytes += length;
    }
}

static void open_all(void) {
    for (size_t n = 1; n <= SIMMERGATE_DEFINITIONS; n += SIMMERGATE_DEFINITIONS - 1) {
        define(n, 0);
        memset(opened, 0, sizeof opened);
        measure(OPEN), same("the return of opening", 0, returned), same("the opened table", 0, (uint64_t)(memcmp(opened, table, bytes) != 0));
    }
    define(SIMMERGATE_DEFINITIONS, 1);
    measure(OPEN), same("the return of opening what leads back to itself", 17, returned);
}

/* Simplifies the table that stands there, or what is opened to it; the result has its value. */
static void simplify_by(int k) {
    static const uint64_t own_registers[REGISTERS] = {5, 7, 11};
    measure(k);
    if (returned != 7) same("the return of simplifying", 0, returned);
    if (returned == 0) same("the value of the result", own_value(table, own_registers), own_value(out, own_registers));
}

static void simplify_all(void) {
    own_bytes(lengths, bytes);
    for (edition = 1; edition <= 2; edition++) {
        simplify_by(SIMPLIFY);
        uint32_t alone = returned;
        measure(BATCH), same("the return of a site", 0, returned), same("the answer of a site", alone, own_number(answer));
        for (size_t n = 1; n <= SIMMERGATE_DEFINITIONS; n += SIMMERGATE_DEFINITIONS - 1) {
            define(n, 0);
            simplify_by(SHARED), same("the return with definitions", alone, returned);
            same("the opened table", 0, (uint64_t)(memcmp(opened, table, bytes) != 0));
        }
    }
    edition = 1;
}

/* The table in pieces, one of no bytes among them, and then more than there is room for. */
static void receive_all(void) {
    size_t cuts[] = {0, 0, 1, RECORD + 1, bytes / 2 + 5, bytes};
    memset(receiver, 0, sizeof receiver);
    for (size_t i = 0; i + 1 < sizeof cuts / sizeof *cuts; i++) {
        piece = table + cuts[i], piece_bytes = cuts[i + 1] - cuts[i];
        measure(RECEIVE), same("the return of receiving", 0, returned);
    }
    same("the table received", 0, (uint64_t)(memcmp(received, table, bytes) != 0));
    measure(FINISH), same("the return of the finish", 0, returned);
    piece = text, piece_bytes = sizeof text;
    measure(RECEIVE), same("the return of receiving too much", 0, returned);
    measure(FINISH), same("the return of the finish after too much", 1, returned);
}

static void as_text(void) {
    measure(WRITE_TEXT), same("the return of writing", 0, returned);
    text_bytes = own_number(answer + 16);
    measure(READ_TEXT), same("the return of reading", 0, returned), same("the records read", bytes / RECORD, own_number(answer + 16));
    same("the table read", 0, (uint64_t)(memcmp(table, second, bytes) != 0));
}

static void add(const char *s, size_t times) {
    for (size_t n = strlen(s); times > 0; times--, text_bytes += n) memcpy(text + text_bytes, s, n);
}

/* A text of `groups` groups before, `inner`, and as many ends; what the reader must return. */
static void judged(const char *open, size_t groups, const char *inner, const char *close, uint32_t expected) {
    text_bytes = 0;
    add(open, groups), add(inner, 1), add(close, groups);
    measure(READ_TEXT);
    if (returned == expected) return;
    printf("deep: %zu times %s, then %s: %u, not %u\n", groups, open, inner, (unsigned)returned, (unsigned)expected);
    exit(1);
}

static void judge_texts(void) {
    judged("(", sizeof text, "", "", 14);
    judged("(", 10000, "1+1", ")+1", 3);
    judged("(", 10000, "1*1", ")*1", 3);
    judged("(", 10000, "s0^2", ")^2", 3);
    judged("1+(", 10000, "1+1", ")", 3);
    judged("(", 10000, "1", ")+1", 14);
    judged("(", 10000, "1*1", ")+1", 14);
    judged("1+(", 10000, "1+", ")", 14);
    judged("(", 10000, "1+1", ")+1)", 14);
}

/* ---- Refused tables ---- */

static const char *flaw;

static void refused(int k, uint32_t expected) {
    measure(k);
    if (returned == expected) return;
    printf("deep: %s of a table with %s: %u, not %u\n", calls[k].name, flaw, (unsigned)returned, (unsigned)expected);
    exit(1);
}

/* The table that stands there in place of one good record: as the only one, as the second of two, and as a formula or a definition. */
static void refused_all(uint32_t expected) {
    static const uint8_t good[RECORD];
    static const int alone[] = {CHECK, WEIGHT, VALUE, SIMPLIFY, WRITE_TEXT, EQUAL, DIFFER};
    memcpy(second, table, bytes), second_bytes = bytes;
    for (size_t i = 0; i < sizeof alone / sizeof *alone; i++) refused(alone[i], expected);
    own_bytes(lengths, bytes);
    refused(BATCH, 0);
    if (own_number(answer) != expected) printf("deep: a site of a table with %s\n", flaw), exit(1);
    memset(receiver, 0, sizeof receiver);
    piece = table, piece_bytes = bytes;
    refused(RECEIVE, 0), refused(FINISH, expected);
    define(1, 0);
    refused(OPEN, 15), refused(SHARED, 15);
    defined = definitions_bytes = 0;
    memcpy(formula, table, bytes), formula_bytes = bytes;
    refused(OPEN, expected), refused(SHARED, expected);
    memcpy(table, good, RECORD), bytes = RECORD;
    refused(EQUAL, expected), refused(DIFFER, expected);
}

/* Each flaw in one record, and the refusals that are no flaw of a record. */
static void refuse_all(void) {
    static const struct { unsigned kind, count, byte; const char *flaw; } flaws[] = {
        {0, 0, 7, "a stray byte in an integer"}, {1, 0, 9, "a stray byte in a symbol"}, {2, 2, 7, "a stray byte in a sum"},
        {3, 2, 15, "a stray byte in a product"}, {4, 0, 2, "a stray byte in a power"},  {5, 0, 0, "a kind over 4"},
        {2, 1, 0, "a sum of one member"},        {3, 0, 0, "a product of no member"},
    };
    for (size_t i = 0; i < sizeof flaws / sizeof *flaws; i++) {
        bytes = 0, put(flaws[i].kind, flaws[i].count, 0);
        if (flaws[i].byte != 0) table[flaws[i].byte] = 1;
        flaw = flaws[i].flaw, refused_all(2);
    }
    bytes = RECORD + 1, flaw = "half a record", refused_all(1);
    for (bytes = 0; bytes < RECORD * at.limit;) put(1, 0, 0);
    flaw = "too great a weight", refused_all(3);
    bytes = 0, put(2, 2, 0), put(0, 0, 3), flaw = "too few records", refused_all(4);
    bytes = 0, put(0, 0, 3), put(0, 0, 3), flaw = "a record too many", refused_all(4);
    bytes = 0, put(4, 0, 0), put(0, 0, 3), put(0, 0, 0), flaw = "the exponent 0", refused_all(5);
}

/* ---- Settings ---- */

static void setting(int k, unsigned of, uint32_t expected) {
    key = (uint16_t)of;
    measure(k);
    if (returned == expected) return;
    printf("deep: %s of key %u in %zu bytes: %u, not %u\n", calls[k].name, of, slots_bytes, (unsigned)returned, (unsigned)expected);
    exit(1);
}

/* No slot, one and many: filled up, shown by both readers, refused where they are full, not whole or written by a newer release, and emptied. */
static void settings(void) {
    static const size_t counts[] = {0, 1, SLOTS};
    for (size_t c = 0; c < sizeof counts / sizeof *counts; c++) {
        unsigned n = (unsigned)counts[c];
        memset(slots, 0, sizeof slots);
        slots_bytes = SIMMERGATE_SLOT_BYTES * counts[c];
        setting(FETCH, 0, 12), setting(FETCH_1, 0, 12), setting(REMOVE, 0, 12);
        for (unsigned i = 0; i < n; i++) {
            uint8_t *slot = slots + SIMMERGATE_SLOT_BYTES * i;
            slot[0] = 1, slot[2] = (uint8_t)i, slot[3] = (uint8_t)(i >> 8);
        }
        setting(STORE, n, 13);
        if (n == 0) continue;
        setting(FETCH, n - 1, 0), setting(FETCH_1, n - 1, 0), setting(STORE, n - 1, 0), setting(FETCH, n - 1, 0), setting(FETCH_1, n - 1, 10);
        setting(REMOVE, 0, 0), setting(STORE, n, 0), setting(FETCH, n, 0), setting(REMOVE, n, 0);
        slots_bytes--;
        for (int k = STORE; k <= REMOVE; k++) setting(k, 0, k == FETCH_1 && n > 1 ? 10 : 11); /* what was stored is newer than the old reader */
    }
}

/* ---- The widest sums ---- */

/* A sum of n members: the integer 1, the symbol 0, or powers of 2 that are all different; the records and the steps that come of it. */
static void widest(unsigned n, int which, size_t records, size_t taken) {
    bytes = 0;
    put(2, n, 0);
    for (unsigned i = 0; i < n; i++) {
        if (which == 0) put(0, 0, 1);
        if (which == 1) put(1, 0, 0);
        if (which == 2) { put(4, 0, 0); put(0, 0, 2); put(0, 0, i + 1); }
    }
    simplify_by(SIMPLIFY), same("the return of simplifying a wide sum", 0, returned);
    same("the records of a wide sum", records, own_number(answer + 16)), same("the steps of a wide sum", taken, own_number(answer + 24));
}

/* All calls at the level. */
static void try_all(void) {
    static const unsigned kinds[][3] = {{4, 4, 0}, {2, 2, 0}, {2, 2, 1}, {3, 3, 0}, {3, 3, 1}, {2, 3, 0}, {3, 2, 1}, {4, 2, 0}, {4, 3, 1}};
    unsigned all = (unsigned)at.limit - 1;
    on_the_stack(nothing);
    for (size_t i = 0; i < sizeof kinds / sizeof *kinds; i++) {
        kind_a = kinds[i][0], kind_b = kinds[i][1];
        int first = kinds[i][2] != 0;
        nest(first, 3);
        judge();
        compare_all(first);
        open_all();
        simplify_all();
        receive_all();
        as_text();
    }
    judge_texts();
    refuse_all();
    settings();
    measure(RELEASE), same("the release", SIMMERGATE_RELEASE, returned);
    widest(all, 0, 1, 1);
    widest(all / 3, 1, 3, 1);
    widest(1000, 2, 3001, 0);
    printf("deep: at the limit %zu, %zu shapes of %d nested nodes on a stack of %zu MiB, the widest sums, texts, flaws and settings\n", at.limit,
           sizeof kinds / sizeof *kinds, at.depth, at.stack >> 20);
}

/* ---- The header's table ---- */

/* A number with commas between its thousands, as text, and read from text: 0 where there is none. */
static const char *figure(size_t n, char *to) {
    if (n >= 1000000) snprintf(to, 32, "%zu,%03zu,%03zu", n / 1000000, n / 1000 % 1000, n % 1000);
    else if (n >= 1000) snprintf(to, 32, "%zu,%03zu", n / 1000, n % 1000);
    else snprintf(to, 32, "%zu", n);
    return to;
}

static size_t read_figure(const char **at_text) {
    size_t n = 0;
    while (**at_text == ' ') ++*at_text;
    for (; (**at_text >= '0' && **at_text <= '9') || **at_text == ','; ++*at_text)
        if (**at_text != ',') n = 10 * n + (size_t)(**at_text - '0');
    return n;
}

/* The rows of the header: a line that has a call's name and two figures behind it. */
static void read_said(size_t said[CALLS][LEVELS]) {
    static char line[1024];
    FILE *header = fopen("include/simmergate.h", "r");
    if (header == NULL) printf("deep: there is no include/simmergate.h here\n"), exit(1);
    while (fgets(line, sizeof line, header) != NULL) {
        const char *p = line;
        while (*p == ' ') p++;
        for (int k = 0; k < CALLS; k++) {
            size_t n = strlen(calls[k].name);
            if (strncmp(p, calls[k].name, n) != 0 || p[n] != ' ') continue;
            const char *rest = p + n;
            size_t lower = read_figure(&rest), higher = read_figure(&rest);
            if (lower != 0 && higher != 0) said[k][0] = lower, said[k][1] = higher;
        }
    }
    fclose(header);
}

/* Whether the header says enough of a call at a limit, by the name that covers it and, where rows count, in its row; a line where it does not. */
static int rows = 1;
static int enough(int k, int i, size_t row) {
    size_t n = need[k][i], name = k == READ_TEXT ? levels[i].reading : levels[i].said;
    const char *of = calls[k].name;
    if (!rows) row = n;
    if (rows && row == 0 && i == 0) printf("deep: the header has no row of %s\n", of);
    if (row != 0 && n > row) printf("deep: %s needs %zu bytes at the limit %zu, and its row says %zu\n", of, n, levels[i].limit, row);
    if (n > name) printf("deep: %s needs %zu bytes at the limit %zu, and the name for it says %zu\n", of, n, levels[i].limit, name);
    return n <= row && n <= name;
}

/* Prints what is needed, as the header has it, and says where that is more than the header allows. */
static int report(void) {
    static size_t said[CALLS][LEVELS];
    int failed = 0, more = 0;
    char a[32], b[32];
    read_said(said);
    printf("deep: bytes of stack that a call needs at the limits 3,072 and 16,384:\n");
    for (int k = 0; k < CALLS; k++) {
        printf("     %-28s%9s%13s", calls[k].name, figure(need[k][0], a), figure(need[k][1], b));
        printf("%s%s\n", *calls[k].remark ? "   " : "", calls[k].remark);
    }
    for (int k = 0; k < CALLS; k++) {
        for (int i = 0; i < LEVELS; i++) {
            if (!enough(k, i, said[k][i])) failed = 1;
            else if (rows && need[k][i] < said[k][i]) more++;
        }
    }
    if (!failed && more == 0) printf("deep: the header says %s\n", rows ? "the same" : "enough");
    if (!failed && more != 0) printf("deep: the header says no less, and more in %d figures\n", more);
    return failed;
}

int main(int arguments, char **words) {
    if (arguments > 2 || (arguments == 2 && strcmp(words[1], "names") != 0)) return printf("usage: deep [names]\n"), 2;
    rows = arguments == 1;
    if (mprotect(area, PAGE, 0)) {
        printf("deep: no page to guard the stack\n");
        return 1;
    }
    for (level = 0; level < LEVELS; level++) {
        at = levels[level];
        try_all();
    }
    return report();
}
