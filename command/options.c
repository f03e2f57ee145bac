#include "options.h"
#include "bytes.h"
#include "say.h"
#include <errno.h>
#include <stdio.h>
#include <stdlib.h>
#include <string.h>

struct options given = {.limit = 3072, .edition = 1, .piece = 64};

/* ---- Numbers ---- */

int read_word(const char *digits, uint64_t *to) {
    char *end;
    const char *first = digits + (*digits == '-');
    if (*first < '0' || *first > '9') return 0;
    errno = 0;
    *to = *digits == '-' ? (uint64_t)strtoll(digits, &end, 10) : strtoull(digits, &end, 10);
    return *end == 0 && errno == 0;
}

int read_number(const char *word, uint64_t most, uint64_t *to) {
    if (*word != '-' && read_word(word, to) && *to <= most) return 1;
    complain(FAILED, word, "not a number from 0 to %llu", (unsigned long long)most);
    return 0;
}

/* ---- What each option does ---- */

static int take_limit(const char *value) {
    uint64_t n;
    if (!read_word(value, &n) || (n != 3072 && n != 16384)) return complain(FAILED, value, "there is no such limit: it is 3072 or 16384"), 0;
    return given.limit = (size_t)n, 1;
}

static int take_edition(const char *value) {
    uint64_t n;
    if (!read_word(value, &n) || (n != 1 && n != 2)) return complain(FAILED, value, "there is no such edition of the rules: it is 1 or 2"), 0;
    return given.edition = (size_t)n, 1;
}

static int take_piece(const char *value) {
    uint64_t n;
    if (!read_number(value, 1048576, &n)) return 0;
    if (n == 0) return complain(FAILED, value, "a piece has at least one byte"), 0;
    return given.piece = (size_t)n, 1;
}

static int take_operand(const char *word, int typed) {
    given.operands[given.operands_n++] = (struct operand){word, typed};
    return 1;
}

static int take_typed(const char *value) { return take_operand(value, 1); }
static int take_names(const char *value) { return given.names = value, 1; }
static int take_out(const char *value) { return given.out = value, 1; }
static int take_tabs(const char *value) { return (void)value, given.tabs = 1; }
static int take_steps(const char *value) { return (void)value, given.steps = 1; }
static int take_lines(const char *value) { return (void)value, given.lines = 1; }
static int take_dot(const char *value) { return (void)value, given.dot = 1; }
static int take_html(const char *value) { return (void)value, given.html = 1; }
static int take_opened(const char *value) { return (void)value, given.opened = 1; }
static int take_old(const char *value) { return (void)value, given.old = 1; }
static int take_as_table(const char *value) { return (void)value, given.as_table = 1; }
static int take_as_text(const char *value) { return (void)value, given.as_text = 1; }

static const struct option {
    const char *word, *value; /* value: NULL where it takes none */
    unsigned bit;
    int (*take)(const char *value);
    const char *does;
} all[] = {
    {"-t", "FORMULA", TAKES_TYPED, take_typed, "a formula on the command line, in place of a file"},
    {"-l", "LIMIT", TAKES_LIMIT, take_limit, "the greatest weight: 3072, or 16384"},
    {"-e", "EDITION", TAKES_EDITION, take_edition, "the edition of the rules: 1, or 2, which finishes powers as well"},
    {"--table", NULL, TAKES_FORM, take_as_table, "what is read are tables, whatever their first byte"},
    {"--text", NULL, TAKES_FORM, take_as_text, "what is read are texts, whatever their first byte"},
    {"--names", "FILE", TAKES_NAMES, take_names, "names for symbols, a line each: s0 flow"},
    {"--steps", NULL, TAKES_STEPS, take_steps, "adds steps, openings, weights and tries, as a comment"},
    {"--opened", NULL, TAKES_OPENED, take_opened, "the opened formula, not shortened"},
    {"--lines", NULL, TAKES_LINES, take_lines, "one formula over several lines; marks each record with its line"},
    {"--dot", NULL, TAKES_DOT, take_dot, "a drawing for Graphviz: dot -Tpng"},
    {"--html", NULL, TAKES_HTML, take_html, "a page with both trees side by side, for a browser"},
    {"--tabs", NULL, TAKES_TABS, take_tabs, "a line an item, fields apart by tabs, for other programs"},
    {"--piece", "BYTES", TAKES_PIECE, take_piece, "the length of a piece, 1 to 1048576; 64 without it"},
    {"--old", NULL, TAKES_OLD, take_old, "with fetch: what a machine with the old release answers"},
    {"-o", "FILE", TAKES_OUT, take_out, "writes the results to a file, whole or not at all"},
    {"-o", "FOLDER", TAKES_FOLDER, take_out, "writes the table of each result to a file in this folder"},
};

#define OPTIONS (sizeof all / sizeof *all)

/* ---- The command line ---- */

static int wrong_use(const struct subcommand *of, const char *word, const char *what) {
    return complain(FAILED, word, "%s; `simmergate %s --help` says more", what, of->name);
}

/* The option that a word is, with a value attached or not; NULL where it is none of this subcommand. */
static const struct option *find(const struct subcommand *of, const char *word, const char **value) {
    for (size_t i = 0; i < OPTIONS; i++) {
        size_t n = strlen(all[i].word);
        if (!(of->takes & all[i].bit) || strncmp(word, all[i].word, n) != 0) continue;
        *value = NULL;
        if (word[n] == 0) return &all[i];
        if (all[i].value == NULL) continue;
        if (word[1] != '-') return *value = word + n, &all[i];
        if (word[n] == '=') return *value = word + n + 1, &all[i];
    }
    return NULL;
}

static int take_option(const struct subcommand *of, int words, char **word, int *i, unsigned *seen) {
    const char *value, *name = word[*i];
    const struct option *option = find(of, name, &value);
    if (option == NULL) return wrong_use(of, name, "there is no such option here");
    if (option->value != NULL && value == NULL) {
        if (*i + 1 == words) return wrong_use(of, name, "its value is missing");
        value = word[++*i];
    }
    if (option->value != NULL && option->bit != TAKES_TYPED) {
        if (*seen & option->bit) return wrong_use(of, option->word, "it is there twice");
        *seen |= option->bit;
    }
    return option->take(value) ? DONE : FAILED;
}

/* A word that begins with - and is no number, nor - alone. */
static int is_option(const char *word) { return word[0] == '-' && word[1] != 0 && !(word[1] >= '0' && word[1] <= '9'); }

static int judge(const struct subcommand *of) {
    if (given.as_table && given.as_text) return wrong_use(of, "--text", "--table says otherwise");
    if (given.operands_n < of->least) return wrong_use(of, NULL, "an operand is missing");
    if (given.operands_n > of->most) return wrong_use(of, given.operands[of->most].word, "there is no place for this operand");
    return DONE;
}

int options_read(const struct subcommand *of, int words, char **word, int *help) {
    unsigned seen = 0;
    int ended = 0;
    given.operands = allot((size_t)(words + 1) * sizeof *given.operands);
    for (int i = 0; i < words; i++) {
        int status = DONE;
        if (!ended && strcmp(word[i], "--") == 0) ended = 1;
        else if (!ended && strcmp(word[i], "--help") == 0) return *help = 1, DONE;
        else if (!ended && is_option(word[i])) status = take_option(of, words, word, &i, &seen);
        else take_operand(word[i], 0);
        if (status != DONE) return status;
    }
    return judge(of);
}

/* ---- Help ---- */

void put_help(const struct subcommand *of) {
    put_format("usage: simmergate %s\n\n%s\n\n", of->usage, of->does);
    for (size_t i = 0; i < OPTIONS; i++) {
        char words[32];
        if (!(of->takes & all[i].bit)) continue;
        snprintf(words, sizeof words, "%s%s%s", all[i].word, all[i].value == NULL ? "" : " ", all[i].value == NULL ? "" : all[i].value);
        put_format("  %-16s %s\n", words, all[i].does);
    }
    put_format("  %-16s %s\n", "--help", "this text");
}
