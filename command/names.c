#include "names.h"
#include "bytes.h"
#include "formula.h"
#include "say.h"
#include "source.h"
#include <stdio.h>
#include <string.h>

static char *names[SYMBOLS]; /* NULL: it has none */

int begins_name(uint8_t c) { return (c >= 'a' && c <= 'z') || (c >= 'A' && c <= 'Z') || c == '_'; }

int within_name(uint8_t c) { return begins_name(c) || (c >= '0' && c <= '9'); }

int names_given(void) { return given.names != NULL; }

/* ---- Symbols and names ---- */

/* s and digits alone, whatever the number. */
static int is_numbered(const char *word, size_t n) {
    if (n < 2 || word[0] != 's') return 0;
    for (size_t i = 1; i < n; i++) {
        if (word[i] < '0' || word[i] > '9') return 0;
    }
    return 1;
}

static int is_name(const char *word, size_t n) {
    if (n == 0 || !begins_name((uint8_t)word[0]) || is_numbered(word, n)) return 0;
    for (size_t i = 1; i < n; i++) {
        if (!within_name((uint8_t)word[i])) return 0;
    }
    return 1;
}

static int symbol_numbered(const char *word, size_t n) {
    int x = 0;
    if (!is_numbered(word, n) || n > 4 || (word[1] == '0' && n > 2)) return -1;
    for (size_t i = 1; i < n; i++) x = 10 * x + (word[i] - '0');
    return x < SYMBOLS ? x : -1;
}

int symbol_named(const char *word, size_t n) {
    for (int i = 0; i < SYMBOLS; i++) {
        if (names[i] != NULL && strlen(names[i]) == n && memcmp(names[i], word, n) == 0) return i;
    }
    return -1;
}

int symbol_of(const char *word, size_t n) {
    int symbol = symbol_numbered(word, n);
    return symbol >= 0 ? symbol : symbol_named(word, n);
}

size_t names_begin(const char *word, size_t n) {
    size_t most = 0;
    for (int i = 0; i < SYMBOLS; i++) {
        size_t k = 0;
        if (names[i] == NULL) continue;
        while (k < n && names[i][k] == word[k]) k++;
        if (k > most) most = k;
    }
    return most;
}

const char *symbol_shown(unsigned symbol) {
    static char numbered[16];
    if (names[symbol] != NULL) return names[symbol];
    snprintf(numbered, sizeof numbered, "s%u", symbol);
    return numbered;
}

/* ---- The file ---- */

static int is_blank(uint8_t c) { return c == ' ' || c == '\t'; }

/* The next word of a line from *at on, up to a blank or the line's end; its length, 0 for none. */
static size_t next_word(const char *line, size_t n, size_t *at, const char **word) {
    while (*at < n && is_blank((uint8_t)line[*at])) ++*at;
    size_t from = *at;
    while (*at < n && !is_blank((uint8_t)line[*at])) ++*at;
    *word = line + from;
    return *at - from;
}

static int wrong_line(const char *file, size_t line, const char *what) { return complain(FAILED, place_name(file, line), "%s", what); }

static int take_name(const char *file, size_t line, int symbol, const char *name, size_t n) {
    if (symbol < 0) return wrong_line(file, line, "it does not begin with a symbol s0 to s255");
    if (n == 0) return wrong_line(file, line, "there is no name behind the symbol");
    if (!is_name(name, n)) return wrong_line(file, line, "a name is a letter or _, then letters, digits and _, and not s and digits");
    if (names[symbol] != NULL) return wrong_line(file, line, "this symbol has a name already");
    if (symbol_named(name, n) >= 0) return wrong_line(file, line, "another symbol has this name already");
    names[symbol] = text_copy(name, n);
    return DONE;
}

static int take_line(const char *file, size_t number, const char *line, size_t n) {
    const char *comment = memchr(line, '#', n), *symbol, *name, *more;
    size_t at = 0;
    if (comment != NULL) n = (size_t)(comment - line);
    size_t symbol_n = next_word(line, n, &at, &symbol), name_n = next_word(line, n, &at, &name);
    if (symbol_n == 0) return DONE;
    if (next_word(line, n, &at, &more) > 0) return wrong_line(file, number, "there is more than a symbol and its name");
    return take_name(file, number, symbol_numbered(symbol, symbol_n), name, name_n);
}

int names_read(const char *file) {
    struct source from;
    const char *line;
    size_t n;
    int status = DONE;
    if (!source_open(&from, file)) return FAILED;
    while (status == DONE && source_line(&from, &line, &n)) status = take_line(from.name, from.line, line, n);
    if (from.failed) status = FAILED;
    source_close(&from);
    return status;
}
