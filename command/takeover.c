/* takeover: what the second machine does with the results that it restores. */
#include "items.h"
#include "say.h"
#include "source.h"
#include "subcommands.h"
#include <stdlib.h>
#include <string.h>

/* Whether shortening left the very bytes, with no step and no opening. */
static int is_still(const struct item *of) {
    return item_shortened(of) && answered(&of->made, SIMMERGATE_AT_SIMPLIFY_STEPS) == 0 && answered(&of->made, SIMMERGATE_AT_SIMPLIFY_OPENINGS) == 0 &&
           of->made.bytes == of->formula.bytes && memcmp(of->made.out, of->formula.table, of->made.bytes) == 0;
}

/* ---- The other machine ---- */

enum other { NOT_ASKED, SAME, OTHER, MISSING, NOT_READ };

static const char *const other_tabs[] = {"-", "same", "other", "missing", "not read"};
static const char *const other_words[] = {"", "; the other machine: the same bytes", "; the other machine: other bytes", "; the other machine: none",
                                          "; the other machine: not read"};

static enum other compare_file(const char *path, const struct formula *of) {
    struct source from;
    if (!is_regular(path) || !source_open(&from, path)) return NOT_READ;
    size_t n = source_rest(&from, of->bytes + 1);
    int same = n == of->bytes && memcmp(from.read.at, of->table, n) == 0, failed = from.failed;
    source_close(&from);
    return failed ? NOT_READ : same ? SAME : OTHER;
}

static enum other compare_other(const struct folder *other, const struct item *of) {
    if (other == NULL || of->formula.table == NULL) return NOT_ASKED;
    if (!folder_has(other, of->name)) return MISSING;
    char *path = path_in(other->path, of->name);
    enum other found = compare_file(path, &of->formula);
    free(path);
    return found;
}

/* ---- The report ---- */

static void put_words(const struct item *of, enum other found) {
    if (of->status == FAILED) put_format("not read");
    else if (!item_shortened(of)) put_item_refused(of);
    else if (is_still(of)) put_format("same bytes, no step");
    else
        put_format("other bytes, steps %llu, openings %llu", (unsigned long long)answered(&of->made, SIMMERGATE_AT_SIMPLIFY_STEPS),
                   (unsigned long long)answered(&of->made, SIMMERGATE_AT_SIMPLIFY_OPENINGS));
    put_format("%s\n", other_words[found]);
}

static void put_tabs(const struct item *of, enum other found) {
    if (of->status == FAILED) put_format("-");
    else put_format("%llu", (unsigned long long)answered(&of->made, SIMMERGATE_AT_REFUSAL));
    put_format("\t%llu\t%s\t%llu\t%llu\t%s\n", (unsigned long long)answered(&of->made, SIMMERGATE_AT_PLACE), is_still(of) ? "same" : "other",
               (unsigned long long)answered(&of->made, SIMMERGATE_AT_SIMPLIFY_STEPS), (unsigned long long)answered(&of->made, SIMMERGATE_AT_SIMPLIFY_OPENINGS),
               other_tabs[found]);
}

/* One item; whether all is as it must be. */
static int report(const struct items *all, const struct item *of, const struct folder *other) {
    enum other found = compare_other(other, of);
    int well = is_still(of) && (found == NOT_ASKED || found == SAME);
    complain_item(all, of);
    if (!well) raise_status(REFUSED);
    put_item_name(of->name);
    if (given.tabs) put_tabs(of, found);
    else put_words(of, found);
    return well;
}

/* What only the other machine has. */
static void report_others(const struct items *all, const struct folder *other) {
    for (size_t i = 0; i < other->n; i++) {
        size_t k = 0;
        while (k < all->n && strcmp(all->at[k].name, other->names[i]) != 0) k++;
        if (k < all->n) continue;
        raise_status(REFUSED);
        put_item_name(other->names[i]);
        put_format(given.tabs ? "-\t0\tmissing\t0\t0\t-\n" : "only on the other machine\n");
    }
}

static void report_all(const struct items *all, const struct folder *other) {
    size_t well = 0;
    for (size_t i = 0; i < all->n; i++) well += (size_t)report(all, &all->at[i], other);
    if (other != NULL) report_others(all, other);
    if (!given.tabs) put_format("%zu results, %zu the same\n", all->n, well);
}

int run_takeover(void) {
    struct items all;
    struct folder folder, *other = NULL;
    const char *path = given.operands[0].word;
    given.as_table = 1; /* results are tables */
    if (!is_folder(path)) return complain(FAILED, path, "not a folder of results"), 0;
    if (given.operands_n > 1 && !folder_read(&folder, given.operands[1].word)) return 0;
    if (given.operands_n > 1) other = &folder;
    int read = items_read(&all, path);
    if (read) {
        items_simplify(&all);
        report_all(&all, other);
    }
    items_free(&all);
    if (other != NULL) folder_free(other);
    return read;
}
