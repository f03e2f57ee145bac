#include "formula.h"
#include "names.h"
#include "say.h"
#include "shape.h"
#include <simmergate_words.h>
#include <stdlib.h>
#include <string.h>

#define MOST_SHOWN 72 /* characters of a line that a message shows */

const char *place_name(const char *file, size_t line) {
    static struct bytes name;
    if (line == 0 || (line == 1 && strcmp(file, TYPED) == 0)) return file;
    name.n = 0;
    bytes_format(&name, "%s, line %zu", file, line);
    return bytes_end(&name);
}

struct operand the_input(void) { return given.operands_n > 0 ? given.operands[0] : (struct operand){"-", 0}; }

const char *operand_name(const struct operand *of) { return of->typed ? TYPED : strcmp(of->word, "-") == 0 ? "standard input" : of->word; }

int complain_refused(const char *of, const uint8_t *table, size_t bytes, const uint8_t *answer, size_t what_at) {
    char number[SIMMERGATE_WORDS_BYTES], words[SIMMERGATE_WORDS_BYTES];
    simmergate_refused(number, sizeof number, answer, what_at);
    simmergate_explain(words, sizeof words, given.limit, table, bytes, answer, what_at);
    return complain(REFUSED, of, "%s: %s", number, words);
}

void formula_free(struct formula *gone) {
    free(gone->table);
    *gone = (struct formula){0};
}

/* ---- A text ---- */

/* A character as a message shows it, one for each byte. */
static char shown(char c) { return c == '\t' ? ' ' : c < 0x20 || c > 0x7e ? '?' : c; }

/* The line that was typed, with a caret below the place; of a long one the part around it. */
static void show_caret(const char *line, size_t n, size_t column) {
    size_t from = column > MOST_SHOWN / 2 && n > MOST_SHOWN ? column - MOST_SHOWN / 2 : 0;
    size_t to = n - from > MOST_SHOWN ? from + MOST_SHOWN : n;
    struct bytes text = {NULL, 0, 0};
    bytes_text(&text, from > 0 ? "    .. " : "    ");
    size_t margin = text.n;
    for (size_t i = from; i < to; i++) bytes_format(&text, "%c", shown(line[i]));
    bytes_text(&text, to < n ? " .." : "");
    add_to_message("%s", bytes_end(&text));
    add_to_message("%*s^", (int)(margin + column - from), "");
    bytes_free(&text);
}

/* Says where a typed text is no formula, and why; `line` is that of its first byte. */
static int complain_typed(const char *of, size_t line, const char *text, size_t n, const struct typed *typed, struct caret *caret) {
    int c;
    size_t at = typed_caret(typed, caret, &c), begin = 0;
    for (size_t i = 0; i < at; i++) {
        if (text[i] == '\n') begin = i + 1, line++;
    }
    const char *line_end = memchr(text + begin, '\n', n - begin);
    size_t length = line_end == NULL ? n - begin : (size_t)(line_end - text) - begin;
    if (length > 0 && text[begin + length - 1] == '\r') length--;
    complain(REFUSED, place_name(of, line), "column %zu: refused %d at 0: %s", at - begin + 1, SIMMERGATE_REFUSED_TEXT, caret_cause(caret, c, names_given()));
    show_caret(text + begin, length, at - begin);
    return REFUSED;
}

/* Reads the exact text by the library; the refusal number. */
static uint32_t read_exact(const struct typed *typed, struct formula *to) {
    uint8_t answer[SIMMERGATE_READ_TEXT_BYTES];
    size_t most = SIMMERGATE_TABLE_BYTES(given.limit), room = typed->exact.n < most / 16 ? 16 * typed->exact.n : most;
    to->table = allot(room); /* a record for each character is enough */
    uint32_t why = simmergate_read_text(given.limit, typed->exact.at, typed->exact.n, to->table, room, answer, sizeof answer);
    to->bytes = SIMMERGATE_RECORD_BYTES * (size_t)simmergate_number(answer, SIMMERGATE_AT_READ_TEXT_RECORDS);
    return why;
}

/* The formula of a typed text, which is no blank one; `line` is that of its first byte. */
static int read_typed(const char *of, size_t line, const char *text, size_t n, const struct typed *typed, struct caret *caret, struct formula *to) {
    *to = (struct formula){.line = line};
    to->number = typed->space != NOWHERE ? SIMMERGATE_REFUSED_TEXT : read_exact(typed, to);
    if (to->number == SIMMERGATE_OK) return DONE;
    free(to->table), to->table = NULL;
    if (to->number == SIMMERGATE_REFUSED_TEXT) return complain_typed(of, line, text, n, typed, caret);
    uint8_t answer[SIMMERGATE_CHECK_BYTES] = {(uint8_t)to->number};
    return complain_refused(place_name(of, line), NULL, 0, answer, 0);
}

/* ---- A table ---- */

static int read_table(struct source *from, struct formula *to) {
    uint8_t answer[SIMMERGATE_CHECK_BYTES];
    size_t n = source_rest(from, SIMMERGATE_TABLE_BYTES(given.limit) + 1); /* one byte more shows that it is too long */
    *to = (struct formula){0};
    if (from->failed) return FAILED;
    to->table = allot(n), to->bytes = n;
    if (n > 0) memcpy(to->table, from->read.at + from->from, n);
    to->number = simmergate_check(given.limit, to->table, n, answer, sizeof answer);
    if (to->number == SIMMERGATE_OK) return DONE;
    to->place = simmergate_number(answer, SIMMERGATE_AT_PLACE);
    to->what = (size_t)simmergate_number(answer, SIMMERGATE_AT_CHECK_WHAT), to->byte = (size_t)simmergate_number(answer, SIMMERGATE_AT_CHECK_BYTE);
    complain_refused(from->name, to->table, n, answer, SIMMERGATE_AT_CHECK_WHAT);
    free(to->table), to->table = NULL, to->bytes = 0;
    return REFUSED;
}

/* ---- One after the other ---- */

int formulas_begin(struct formulas *all, const struct operand *from) {
    *all = (struct formulas){.is_table = given.as_table};
    if (from->typed) source_typed(&all->source, from->word);
    else if (!source_open(&all->source, from->word)) return 0;
    if (!given.as_table && !given.as_text && source_some(&all->source) > 0) all->is_table = all->source.read.at[0] <= SIMMERGATE_KIND_POWER;
    if (all->source.failed) return formulas_end(all), 0;
    return 1;
}

void formulas_end(struct formulas *all) {
    source_close(&all->source);
    typed_free(&all->typed);
    caret_free(&all->caret);
}

/* The next line that is not blank; 0 at the end. */
static int next_typed(struct formulas *all, const char **line, size_t *n) {
    while (source_line(&all->source, line, n)) {
        typed_take(&all->typed, *line, *n);
        if (!typed_is_blank(&all->typed)) return 1;
    }
    return 0;
}

int formulas_next(struct formulas *all, struct formula *to) {
    const char *line;
    size_t n;
    int status = DONE;
    if (all->is_table) {
        if (all->begun++ > 0) return 0;
        status = read_table(&all->source, to);
    } else if (next_typed(all, &line, &n)) {
        status = read_typed(all->source.name, all->source.line, line, n, &all->typed, &all->caret, to);
    } else {
        return all->failed = all->source.failed, 0;
    }
    all->failed = status == FAILED;
    return !all->failed;
}

int formulas_each(const struct operand *from, void (*put_one)(const char *of, const struct formula *formula)) {
    struct formulas all;
    struct formula formula;
    if (!formulas_begin(&all, from)) return 0;
    while (formulas_next(&all, &formula)) {
        put_one(all.source.name, &formula);
        put("\n", 1);
        formula_free(&formula);
    }
    int whole = !all.failed;
    formulas_end(&all);
    return whole;
}

/* ---- Exactly one ---- */

static int no_formula(const char *of, struct formula *to) {
    *to = (struct formula){.number = SIMMERGATE_REFUSED_TEXT};
    return complain(REFUSED, of, "refused %d at 0: there is no formula in it", SIMMERGATE_REFUSED_TEXT);
}

static int second_formula(struct formulas *all, struct formula *to) {
    formula_free(to);
    to->number = SIMMERGATE_REFUSED_TEXT;
    const char *place = place_name(all->source.name, all->source.line);
    return complain(REFUSED, place, "refused %d at 0: a second formula; there may be one here", SIMMERGATE_REFUSED_TEXT);
}

static int one_formula(struct formulas *all, struct formula *to) {
    const char *line;
    size_t n;
    if (!formulas_next(all, to)) return all->failed ? FAILED : no_formula(all->source.name, to);
    if (to->number != SIMMERGATE_OK) return REFUSED;
    if (!all->is_table && next_typed(all, &line, &n)) return second_formula(all, to);
    return all->source.failed ? (formula_free(to), FAILED) : DONE;
}

/* A formula over several lines: all of the text, and each record with the line where its first character stands. */
static int formula_of_lines(struct formulas *all, struct formula *to) {
    size_t n = source_rest(&all->source, MOST_LINE + 1);
    const char *text = (const char *)all->source.read.at;
    if (all->source.failed) return FAILED;
    if (n > MOST_LINE) return complain(FAILED, all->source.name, "it is longer than %d bytes", MOST_LINE);
    typed_take(&all->typed, text, n);
    if (typed_is_blank(&all->typed)) return no_formula(all->source.name, to);
    int status = read_typed(all->source.name, 1, text, n, &all->typed, &all->caret, to);
    if (status != DONE || mark_lines(to->table, to->bytes, &all->typed, text)) return status;
    formula_free(to);
    return complain(FAILED, all->source.name, "a record stands on a line over 65535, which no mark can name");
}

int formula_read(const struct operand *from, int lines, struct formula *to) {
    struct formulas all;
    int status;
    *to = (struct formula){0};
    if (!formulas_begin(&all, from)) return FAILED;
    if (lines && all.is_table) status = complain(FAILED, all.source.name, "a table has its marks: --lines is for a text");
    else status = lines ? formula_of_lines(&all, to) : one_formula(&all, to);
    formulas_end(&all);
    return status;
}

/* ---- What is shown ---- */

/* The library's text with each symbol that has a name as that name. */
static void add_named(struct bytes *to, const uint8_t *text, size_t n) {
    for (size_t i = 0; i < n; i++) {
        unsigned symbol = 0;
        if (text[i] != 's') {
            bytes_add(to, text + i, 1);
            continue;
        }
        for (; i + 1 < n && text[i + 1] >= '0' && text[i + 1] <= '9'; i++) symbol = 10 * symbol + (text[i + 1] - '0');
        bytes_text(to, symbol_shown(symbol));
    }
}

void add_formula(struct bytes *to, const uint8_t *table, size_t bytes) {
    uint8_t answer[SIMMERGATE_WRITE_TEXT_BYTES];
    size_t room = SIMMERGATE_TEXT_BYTES(3 * bytes / SIMMERGATE_RECORD_BYTES); /* a record weighs 3 at the most */
    uint8_t *text = allot(room);
    simmergate_write_text(given.limit, table, bytes, text, room, answer, sizeof answer);
    add_named(to, text, (size_t)simmergate_number(answer, SIMMERGATE_AT_WRITE_TEXT_LENGTH));
    free(text);
}

void put_formula(const uint8_t *table, size_t bytes) {
    struct bytes text = {NULL, 0, 0};
    add_formula(&text, table, bytes);
    put(text.at, text.n);
    bytes_free(&text);
}
