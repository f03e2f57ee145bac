#include "shape.h"
#include "names.h"
#include <simmergate_words.h>
#include <stdlib.h>

const uint8_t *record_of(const struct shape *of, size_t i) { return of->table + SIMMERGATE_RECORD_BYTES * i; }

unsigned record_kind(const struct shape *of, size_t i) { return record_of(of, i)[0]; }

unsigned record_line(const struct shape *of, size_t i) { return record_of(of, i)[4] + 256u * record_of(of, i)[5]; }

int64_t record_integer(const struct shape *of, size_t i) { return (int64_t)simmergate_number(record_of(of, i), 1); }

/* Members of a record: 2 for a power, 0 for an integer or a symbol. */
unsigned record_count(const struct shape *of, size_t i) {
    const uint8_t *record = record_of(of, i);
    switch (record[0]) {
    case SIMMERGATE_KIND_SUM:
    case SIMMERGATE_KIND_PRODUCT: return record[2] + 256u * record[3];
    case SIMMERGATE_KIND_POWER: return 2;
    default: return 0;
    }
}

int is_last(const struct shape *of, size_t i) { return i == 0 || of->end[i] == of->end[of->parent[i]]; }

/* ---- The walk ---- */

static uint32_t *numbers(size_t n) { return allot(n * sizeof(uint32_t)); }

/* A node that has all its members ends where the next record begins; so may the ones around it. `owed` counts the members still to come. */
static uint32_t ends_here(struct shape *to, uint32_t node, uint32_t *owed, uint32_t next) {
    while (owed[node] == 0) {
        to->end[node] = next;
        if (node == 0) break;
        node = to->parent[node];
        owed[node]--;
    }
    return node;
}

void shape_make(struct shape *to, const uint8_t *table, size_t bytes) {
    size_t n = bytes / SIMMERGATE_RECORD_BYTES;
    uint32_t *owed = numbers(n), around = 0;
    *to = (struct shape){table, n, numbers(n), numbers(n), numbers(n)};
    for (uint32_t i = 0; i < n; i++) {
        to->parent[i] = around;
        to->depth[i] = i == 0 ? 0 : to->depth[around] + 1;
        owed[i] = record_count(to, i);
        around = ends_here(to, i, owed, i + 1);
    }
    free(owed);
}

void shape_free(struct shape *gone) {
    free(gone->parent);
    free(gone->end);
    free(gone->depth);
}

/* ---- Words and branches ---- */

void add_record_words(struct bytes *to, const struct shape *of, size_t i) {
    unsigned kind = record_kind(of, i);
    switch (kind) {
    case SIMMERGATE_KIND_INTEGER: bytes_format(to, "%lld", (long long)record_integer(of, i)); break;
    case SIMMERGATE_KIND_SYMBOL: bytes_text(to, symbol_shown(record_of(of, i)[8])); break;
    case SIMMERGATE_KIND_POWER: bytes_text(to, simmergate_kind_word(kind)); break;
    default: bytes_format(to, "%s of %u", simmergate_kind_word(kind), record_count(of, i)); break;
    }
}

/* Levels past BRANCHES - 1 are not drawn; their number is told. */
void add_branches(struct bytes *to, const struct shape *of, size_t i, uint8_t *open) {
    uint32_t depth = of->depth[i];
    if (depth < BRANCHES) open[depth] = !is_last(of, i);
    for (uint32_t k = 1; k < depth && k < BRANCHES; k++) bytes_text(to, open[k] ? "|  " : "   ");
    if (depth >= BRANCHES) bytes_format(to, "level %u: ", depth);
    else if (depth > 0) bytes_text(to, is_last(of, i) ? "`- " : "|- ");
}

/* ---- Lines ---- */

/* Whether the text has parentheses round a record. */
static int in_parentheses(const struct shape *of, size_t i) {
    unsigned kind = record_kind(of, i), around = record_kind(of, of->parent[i]);
    if (i == 0) return 0;
    switch (kind) {
    case SIMMERGATE_KIND_SUM: return 1;
    case SIMMERGATE_KIND_PRODUCT: return around != SIMMERGATE_KIND_SUM;
    case SIMMERGATE_KIND_POWER: return around == SIMMERGATE_KIND_POWER;
    case SIMMERGATE_KIND_INTEGER: return around == SIMMERGATE_KIND_POWER && record_integer(of, i) < 0;
    default: return 0;
    }
}

/* Past an integer or a symbol, the ) behind it and the sign that follows. */
static size_t past_leaf(const char *exact, size_t n, size_t at) {
    if (at < n && (exact[at] == '-' || exact[at] == 's')) at++;
    while (at < n && exact[at] >= '0' && exact[at] <= '9') at++;
    while (at < n && (exact[at] == ')' || exact[at] == '+' || exact[at] == '*' || exact[at] == '^')) at++;
    return at;
}

/* The line of a place in the text, by the place and line of an earlier one. */
static void go_to(const char *text, size_t to, size_t *at, size_t *line) {
    for (; *at < to; ++*at) *line += text[*at] == '\n';
}

/* Records stand in the order of their first characters: text and table are gone through side by side. */
int mark_lines(uint8_t *table, size_t bytes, const struct typed *typed, const char *text) {
    struct shape shape;
    size_t at = 0, place = 0, line = 1, i = 0;
    shape_make(&shape, table, bytes);
    for (; i < shape.records; i++) {
        go_to(text, typed->at[at], &place, &line);
        if (line > 65535) break;
        uint8_t *record = table + SIMMERGATE_RECORD_BYTES * i;
        record[4] = (uint8_t)line, record[5] = (uint8_t)(line >> 8);
        if (in_parentheses(&shape, i)) at++;
        if (record_count(&shape, i) == 0) at = past_leaf((const char *)typed->exact.at, typed->exact.n, at);
    }
    int all = i == shape.records;
    shape_free(&shape);
    return all;
}
