#include "items.h"
#include "say.h"
#include <simmergate_words.h>
#include <stdio.h>
#include <stdlib.h>
#include <string.h>

static void put_number(uint8_t *bytes, size_t i, uint64_t x) { put_eight(bytes + 8 * i, x); }

/* ---- Reading ---- */

static int too_many(const char *path, size_t n) { return complain(REFUSED, path, "over %d items: %zu", SIMMERGATE_ITEMS, n), 0; }

/* What a refusal before the call is told by, as the call would tell it. */
static void answer_refused(struct item *of) {
    memset(of->made.answer, 0, sizeof of->made.answer);
    put_number(of->made.answer, SIMMERGATE_AT_REFUSAL, of->formula.number);
    put_number(of->made.answer, SIMMERGATE_AT_PLACE, of->formula.place);
    put_number(of->made.answer, SIMMERGATE_AT_SIMPLIFY_WHAT, of->formula.what);
    put_number(of->made.answer, SIMMERGATE_AT_SIMPLIFY_BYTE, of->formula.byte);
}

static struct item *next_item(struct items *to, const char *name) {
    to->at[to->n] = (struct item){.name = text_copy(name, strlen(name))};
    return &to->at[to->n++];
}

static int read_folder(struct items *to, const char *path) {
    struct folder folder;
    if (!folder_read(&folder, path)) return 0;
    size_t n = folder.n;
    for (size_t i = 0; i < n && n <= SIMMERGATE_ITEMS; i++) {
        struct item *item = next_item(to, folder.names[i]);
        struct operand file = {path_in(path, item->name), 0};
        item->status = is_regular(file.word) ? formula_read(&file, 0, &item->formula) : FAILED;
        answer_refused(item);
        free((char *)file.word);
    }
    folder_free(&folder);
    return n <= SIMMERGATE_ITEMS || too_many(path, n);
}

/* The name of an item of a file: its line, or the file's own name for a table. */
static void name_line(char *name, size_t room, const struct formulas *all) {
    const char *file = all->source.name, *slash = strrchr(file, '/');
    if (all->is_table) snprintf(name, room, "%s", slash == NULL ? file : slash + 1);
    else snprintf(name, room, "line-%05zu", all->source.line);
}

static int read_file(struct items *to, const char *path) {
    struct operand file = {path, 0};
    struct formulas all;
    struct formula formula;
    size_t n = 0;
    if (!formulas_begin(&all, &file)) return 0;
    while (formulas_next(&all, &formula)) {
        char name[256];
        if (n++ >= SIMMERGATE_ITEMS) {
            formula_free(&formula);
            continue;
        }
        name_line(name, sizeof name, &all);
        struct item *item = next_item(to, name);
        item->formula = formula, item->status = formula.number == SIMMERGATE_OK ? DONE : REFUSED;
        answer_refused(item);
    }
    int failed = all.failed;
    formulas_end(&all);
    return !failed && (n <= SIMMERGATE_ITEMS || too_many(path, n));
}

int items_read(struct items *to, const char *path) {
    *to = (struct items){.path = path, .in_folder = is_folder(path), .at = allot(SIMMERGATE_ITEMS * sizeof *to->at)};
    return to->in_folder ? read_folder(to, path) : read_file(to, path);
}

/* ---- The call ---- */

/* The bytes of `out` that an item may use up: 16 for each unit of its weight, which is 3 a record at the most. */
static size_t most_out(size_t bytes) {
    size_t most = SIMMERGATE_TABLE_BYTES(given.limit);
    return 3 * bytes < most ? 3 * bytes : most;
}

/* Lends the areas, and puts the tables end to end; how many items there are. */
static size_t lend(struct items *all, uint8_t *lengths, size_t *tables, size_t *out) {
    size_t n = 0;
    *tables = *out = 0;
    for (size_t i = 0; i < all->n; i++) *tables += all->at[i].formula.bytes, *out += most_out(all->at[i].formula.bytes); /* 0 for one that was refused */
    all->tables = allot(*tables), all->out = allot(*out), all->steps = allot(*out / SIMMERGATE_RECORD_BYTES);
    all->answers = allot(SIMMERGATE_ITEMS * SIMMERGATE_SIMPLIFY_BYTES);
    for (size_t i = 0, at = 0; i < all->n; i++) {
        const struct formula *formula = &all->at[i].formula;
        if (all->at[i].status != DONE) continue;
        memcpy(all->tables + at, formula->table, formula->bytes);
        put_number(lengths, n++, formula->bytes);
        at += formula->bytes;
    }
    return n;
}

/* W of an item: after 7 its answer does not tell it. */
static size_t weight_of(const struct item *of) {
    uint8_t answer[SIMMERGATE_WEIGHT_BYTES];
    if (item_shortened(of)) return (size_t)answered(&of->made, SIMMERGATE_AT_SIMPLIFY_WEIGHT_IN);
    simmergate_weight(given.limit, of->formula.table, of->formula.bytes, answer, sizeof answer);
    return (size_t)simmergate_number(answer, SIMMERGATE_AT_WEIGHT_WEIGHT);
}

/* Gives each item its answer and what it left: items with 0 or 7 used up 16 x W and W bytes. */
static void hand_out(struct items *all) {
    size_t used = 0, n = 0;
    for (size_t i = 0; i < all->n; i++) {
        struct item *item = &all->at[i];
        if (item->status != DONE) continue;
        memcpy(item->made.answer, all->answers + SIMMERGATE_SIMPLIFY_BYTES * n++, SIMMERGATE_SIMPLIFY_BYTES);
        item->made.out = all->out + SIMMERGATE_RECORD_BYTES * used, item->made.steps = all->steps + used;
        item->made.bytes = SIMMERGATE_RECORD_BYTES * (size_t)answered(&item->made, SIMMERGATE_AT_SIMPLIFY_RECORDS);
        used += weight_of(item);
    }
}

void items_simplify(struct items *all) {
    uint8_t lengths[8 * SIMMERGATE_ITEMS];
    size_t tables, out, n = lend(all, lengths, &tables, &out);
    uint32_t why = simmergate_batch(given.limit, given.edition, all->tables, tables, lengths, 8 * n, all->out, out, all->steps, out / SIMMERGATE_RECORD_BYTES,
                                    work_area(), (size_t)SIMMERGATE_WORK_BYTES(given.limit), all->answers, SIMMERGATE_ITEMS * SIMMERGATE_SIMPLIFY_BYTES);
    if (why != SIMMERGATE_OK) {
        complain(FAILED, NULL, "the call is refused: %u: %s", why, simmergate_refusal_words(why)); /* which cannot be, as it is made here */
        leave();
    }
    hand_out(all);
}

void items_free(struct items *gone) {
    for (size_t i = 0; i < gone->n; i++) free(gone->at[i].name), formula_free(&gone->at[i].formula);
    free(gone->at), free(gone->tables), free(gone->out), free(gone->steps), free(gone->answers);
}

/* ---- What is shown ---- */

int item_shortened(const struct item *of) { return of->status == DONE && answered(&of->made, SIMMERGATE_AT_REFUSAL) == SIMMERGATE_OK; }

void complain_item(const struct items *all, const struct item *of) {
    const struct formula *formula = &of->formula;
    if (of->status != DONE || item_shortened(of)) return;
    char *path = path_in(all->path, of->name);
    const char *place = all->in_folder ? path : place_name(all->path, formula->line);
    complain_refused(place, formula->table, formula->bytes, of->made.answer, SIMMERGATE_AT_SIMPLIFY_WHAT);
    free(path);
}

void put_item_refused(const struct item *of) {
    char words[SIMMERGATE_WORDS_BYTES];
    simmergate_refused(words, sizeof words, of->made.answer, SIMMERGATE_AT_SIMPLIFY_WHAT);
    put_format("%s", words);
}

void put_item_name(const char *name) {
    struct bytes shown = {NULL, 0, 0};
    bytes_name(&shown, name);
    put_format(given.tabs ? "%s\t" : "%-16s ", bytes_end(&shown));
    bytes_free(&shown);
}
