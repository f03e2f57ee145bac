/* site: a whole site shortened in one call, and its results written to a folder. */
#define _GNU_SOURCE
#include "items.h"
#include "say.h"
#include "subcommands.h"
#include "write.h"
#include <stdlib.h>
#include <string.h>
#include <sys/stat.h>

/* ---- The report ---- */

static void put_tabs(const struct item *of) {
    static const size_t fields[] = {SIMMERGATE_AT_PLACE,
                                    SIMMERGATE_AT_SIMPLIFY_RECORDS,
                                    SIMMERGATE_AT_SIMPLIFY_STEPS,
                                    SIMMERGATE_AT_SIMPLIFY_OPENINGS,
                                    SIMMERGATE_AT_SIMPLIFY_WEIGHT_IN,
                                    SIMMERGATE_AT_SIMPLIFY_WEIGHT_OUT,
                                    SIMMERGATE_AT_SIMPLIFY_TRIES};
    if (of->status == FAILED) put_format("-");
    else put_format("%llu", (unsigned long long)answered(&of->made, SIMMERGATE_AT_REFUSAL));
    for (size_t i = 0; i < sizeof fields / sizeof *fields; i++) put_format("\t%llu", (unsigned long long)answered(&of->made, fields[i]));
}

static void put_words(const struct item *of) {
    unsigned long long in = answered(&of->made, SIMMERGATE_AT_SIMPLIFY_WEIGHT_IN), out = answered(&of->made, SIMMERGATE_AT_SIMPLIFY_WEIGHT_OUT),
                       steps = answered(&of->made, SIMMERGATE_AT_SIMPLIFY_STEPS), openings = answered(&of->made, SIMMERGATE_AT_SIMPLIFY_OPENINGS),
                       tries = answered(&of->made, SIMMERGATE_AT_SIMPLIFY_TRIES);
    if (of->status == FAILED) put_format("not read");
    else if (!item_shortened(of)) put_item_refused(of);
    else put_format("weight %llu to %llu, steps %llu, openings %llu, tries %llu", in, out, steps, openings, tries);
}

static void report(const struct items *all, const struct item *of) {
    complain_item(all, of);
    put_item_name(of->name);
    if (given.tabs) put_tabs(of);
    else put_words(of);
    put("\n", 1);
}

static void report_all(const struct items *all) {
    size_t shortened = 0, failed = 0;
    for (size_t i = 0; i < all->n; i++) {
        report(all, &all->at[i]);
        shortened += (size_t)item_shortened(&all->at[i]), failed += all->at[i].status == FAILED;
    }
    if (given.tabs) return;
    put_format("%zu formulas, %zu shortened, %zu refused", all->n, shortened, all->n - shortened - failed);
    if (failed > 0) put_format(", %zu not read", failed);
    put_format("\n");
}

/* ---- The results ---- */

/* The folder is made where it is not there; 0 after a message. */
static int have_folder(const char *out, const char *input) {
    if (is_same(out, input)) return complain(FAILED, out, "the results do not go into the input folder"), 0;
    if (is_folder(out) || mkdir(out, 0777) == 0) return 1;
    return complain_system(out), 0;
}

static int is_result(const struct items *all, const char *name) {
    for (size_t i = 0; i < all->n; i++) {
        if (strcmp(all->at[i].name, name) == 0) return item_shortened(&all->at[i]);
    }
    return 0;
}

/* What else stands in the folder would be taken for results of this run. */
static void name_others(const char *out, const struct items *all) {
    struct folder folder;
    if (!folder_read(&folder, out)) return;
    for (size_t i = 0; i < folder.n; i++) {
        char *path = path_in(out, folder.names[i]);
        if (!is_result(all, folder.names[i])) complain(REFUSED, path, "it stands there and is no result of this run");
        free(path);
    }
    folder_free(&folder);
}

static void write_results(const char *out, const struct items *all) {
    for (size_t i = 0; i < all->n; i++) {
        if (!item_shortened(&all->at[i])) continue;
        char *path = path_in(out, all->at[i].name);
        write_whole(path, all->at[i].made.out, all->at[i].made.bytes);
        free(path);
    }
    name_others(out, all);
}

int run_site(void) {
    struct items all;
    const char *path = given.operands[0].word;
    int read = items_read(&all, path);
    if (read && (given.out == NULL || have_folder(given.out, path))) {
        items_simplify(&all);
        report_all(&all);
        if (given.out != NULL) write_results(given.out, &all);
    }
    items_free(&all);
    return 1;
}
