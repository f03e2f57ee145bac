/* differ: what differs between two formulas, or between two folders of them. */
#include "compared.h"
#include "folder.h"
#include "say.h"
#include "subcommands.h"
#include <stdlib.h>
#include <string.h>

/* ---- Pairs ---- */

static void put_tree(const struct compared *of, int side, size_t record) {
    const struct shape *shape = &of->shapes[side];
    put_formula(record_of(shape, record), 16 * (shape->end[record] - record));
}

static void put_tree_and_line(const struct compared *of, int side, size_t record) {
    unsigned line = record_line(&of->shapes[side], record);
    put_tree(of, side, record);
    if (line != 0) put_format(" (line %u)", line);
}

static void put_pair(const char *before, const struct compared *of, size_t i) {
    size_t a = pair_record(of, i, 0), b = pair_record(of, i, 1);
    put_format("%srecord %zu, record %zu: ", before, a, b);
    put_tree_and_line(of, 0, a);
    put(", ", 2);
    put_tree_and_line(of, 1, b);
    put("\n", 1);
}

static void put_pair_tabs(const struct compared *of, size_t i) {
    size_t a = pair_record(of, i, 0), b = pair_record(of, i, 1);
    put_format("%zu\t%zu\t%u\t%u\t", a, b, record_line(&of->shapes[0], a), record_line(&of->shapes[1], b));
    put_tree(of, 0, a);
    put("\t", 1);
    put_tree(of, 1, b);
    put_format("\t%s\n", of->equal ? "equal" : "not equal");
}

static void put_compared(const char *before, const struct compared *of) {
    for (size_t i = 0; i < of->pairs; i++) put_pair(before, of, i);
    if (is_same_bytes(of)) put_format("%sthe same bytes\n", before);
    else put_format("%sdifferences %zu; the formulas are %s\n", before, of->pairs, of->equal ? "equal" : "not equal");
}

/* ---- Two formulas ---- */

static int differ_files(const struct operand *a, const struct operand *b) {
    struct compared compared;
    if (!a->typed && !b->typed && strcmp(a->word, "-") == 0 && strcmp(b->word, "-") == 0)
        return complain(FAILED, "-", "standard input is there once"), 0;
    if (compare(a, b, &compared) != DONE) return 0;
    if (!is_same_bytes(&compared)) raise_status(REFUSED);
    if (given.html) {
        put_page_begin(operand_name(a), operand_name(b));
        put_page_compared(NULL, &compared);
        put_page_end();
    } else if (given.tabs) {
        for (size_t i = 0; i < compared.pairs; i++) put_pair_tabs(&compared, i);
    } else {
        put_compared("", &compared);
    }
    compared_free(&compared);
    return 1;
}

/* ---- Two folders ---- */

/* A name and what was found, in the form that is asked for. */
static void put_found(const char *name, const char *tabs, const char *words, size_t pairs) {
    struct bytes line = {NULL, 0, 0};
    if (given.html) {
        put_page_note(name, words);
        return;
    }
    bytes_name(&line, name);
    if (given.tabs) bytes_format(&line, "\t%s\t%zu\n", tabs, pairs);
    else bytes_format(&line, ": %s\n", words);
    put(line.at, line.n);
    bytes_free(&line);
}

static void put_both(const char *name, const struct compared *of) {
    struct bytes before = {NULL, 0, 0};
    if (!is_same_bytes(of)) raise_status(REFUSED);
    if (given.tabs) {
        put_found(name, is_same_bytes(of) ? "same" : of->equal ? "equal" : "different", "", of->pairs);
        return;
    }
    bytes_name(&before, name);
    bytes_text(&before, ": ");
    put_compared(bytes_end(&before), of);
    bytes_free(&before);
}

static void differ_name(const char *a, const char *b, const char *name) {
    struct operand files[2] = {{path_in(a, name), 0}, {path_in(b, name), 0}};
    struct compared compared;
    int regular = is_regular(files[0].word) & is_regular(files[1].word);
    if (!regular || compare(&files[0], &files[1], &compared) != DONE) {
        put_found(name, "not compared", "not compared", 0);
    } else {
        if (given.html) put_page_compared(name, &compared);
        if (given.html && !is_same_bytes(&compared)) raise_status(REFUSED);
        if (!given.html) put_both(name, &compared);
        compared_free(&compared);
    }
    free((char *)files[0].word);
    free((char *)files[1].word);
}

static void only_in(const char *name, const char *folder, const char *tabs) {
    struct bytes words = {NULL, 0, 0};
    raise_status(REFUSED);
    bytes_text(&words, "only in ");
    bytes_name(&words, folder);
    put_found(name, tabs, bytes_end(&words), 0);
    bytes_free(&words);
}

/* Both lists of names are in order: they are gone through side by side. */
static void differ_names(const struct folder *a, const struct folder *b) {
    for (size_t i = 0, j = 0; i < a->n || j < b->n;) {
        int order = i == a->n ? 1 : j == b->n ? -1 : strcmp(a->names[i], b->names[j]);
        if (order < 0) only_in(a->names[i], a->path, "first only");
        else if (order > 0) only_in(b->names[j], b->path, "second only");
        else differ_name(a->path, b->path, a->names[i]);
        i += order <= 0, j += order >= 0;
    }
}

static int differ_folders(const char *a, const char *b) {
    struct folder one, other;
    if (!folder_read(&one, a)) return 0;
    if (!folder_read(&other, b)) return folder_free(&one), 0;
    if (given.html) put_page_begin(a, b);
    differ_names(&one, &other);
    if (given.html) put_page_end();
    folder_free(&one);
    folder_free(&other);
    return 1;
}

int run_differ(void) {
    const struct operand *a = &given.operands[0], *b = &given.operands[1];
    int folders = (!a->typed && is_folder(a->word)) + (!b->typed && is_folder(b->word));
    if (folders == 1) return complain(FAILED, NULL, "one is a folder and the other is not: %s, %s", operand_name(a), operand_name(b)), 0;
    if (given.html && given.tabs) return complain(FAILED, "--html", "--tabs says otherwise"), 0;
    return folders == 2 ? differ_folders(a->word, b->word) : differ_files(a, b);
}
