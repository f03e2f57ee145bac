#include "typed.h"
#include "names.h"
#include <stdio.h>
#include <stdlib.h>
#include <string.h>

void typed_free(struct typed *gone) {
    bytes_free(&gone->exact);
    free(gone->at);
    gone->at = NULL;
}

int typed_is_blank(const struct typed *of) { return of->exact.n == 0; }

static int is_blank(char c) { return c == ' ' || c == '\t' || c == '\n'; }

/* Blanks may stand beside these. */
static int lets_blanks(char c) { return c == '+' || c == '*' || c == '^' || c == '(' || c == ')'; }

/* One character of the exact text, typed there. */
static void keep(struct typed *to, char c, size_t at) {
    to->at[to->exact.n] = at;
    bytes_add(&to->exact, &c, 1);
}

/* A blank before `c`, which was typed there, is refused where neither side lets it stand. */
static void judge_blank(struct typed *to, char c, size_t at) {
    if (to->exact.n == 0 || to->space != NOWHERE) return;
    if (lets_blanks((char)to->exact.at[to->exact.n - 1]) || lets_blanks(c)) return;
    to->space = to->exact.n, to->space_at = at;
}

/* A word: a name becomes its symbol, all of it typed where the name begins. Its length. */
static size_t keep_word(struct typed *to, const char *text, size_t n, size_t at) {
    size_t length = 1;
    while (at + length < n && within_name((uint8_t)text[at + length])) length++;
    int symbol = symbol_named(text + at, length);
    if (symbol >= 0) {
        char exact[16];
        snprintf(exact, sizeof exact, "s%d", symbol);
        for (const char *c = exact; *c != 0; c++) keep(to, *c, at);
        return length;
    }
    if (to->unknown == NOWHERE && symbol_of(text + at, length) < 0) to->unknown = to->exact.n, to->unknown_n = length;
    for (size_t i = 0; i < length; i++) keep(to, text[at + i], at + i);
    return length;
}

/* Digits are no part of a word behind them. */
static size_t keep_digits(struct typed *to, const char *text, size_t n, size_t at) {
    size_t length = 0;
    for (; at + length < n && text[at + length] >= '0' && text[at + length] <= '9'; length++) keep(to, text[at + length], at + length);
    return length;
}

/* Past a comment, up to the line's end. */
static size_t comment_end(const char *text, size_t n, size_t at) {
    const char *end = memchr(text + at, '\n', n - at);
    return end == NULL ? n : (size_t)(end - text);
}

/* Past the blanks, comments and line ends from `at` on. */
static size_t skip_blanks(const char *text, size_t n, size_t at) {
    for (;;) {
        if (at < n && is_blank(text[at])) at++;
        else if (at < n && text[at] == '\r' && (at + 1 == n || text[at + 1] == '\n')) at++;
        else if (at < n && text[at] == '#') at = comment_end(text, n, at);
        else return at;
    }
}

static size_t keep_next(struct typed *to, const char *text, size_t n, size_t at) {
    if (begins_name((uint8_t)text[at])) return keep_word(to, text, n, at);
    if (text[at] >= '0' && text[at] <= '9') return keep_digits(to, text, n, at);
    keep(to, text[at], at);
    return 1;
}

/* A name of one letter becomes a symbol of up to four characters. */
static void make_room(struct typed *to, size_t n) {
    to->exact.n = 0;
    to->space = to->space_at = to->unknown = NOWHERE;
    if (to->room > 4 * n) return;
    free(to->at);
    to->room = 4 * n + 1;
    to->at = allot(to->room * sizeof *to->at);
}

void typed_take(struct typed *to, const char *text, size_t n) {
    size_t end = 0;
    make_room(to, n);
    for (size_t at = 0;;) {
        size_t next = skip_blanks(text, n, at);
        if (next == n) break;
        if (next > at) judge_blank(to, text[next], at);
        at = next + keep_next(to, text, n, next);
        end = at;
    }
    to->at[to->exact.n] = end;
}

/* ---- Where it stops being a formula ---- */

/* How far into an unknown word one can go where some name goes further than a symbol does: behind what they have in common. Else `at`. */
static size_t within_unknown(const struct typed *of, struct caret *reader, size_t at) {
    const char *exact = (const char *)of->exact.at;
    if (of->unknown == NOWHERE || at < of->unknown || at > of->unknown + of->unknown_n) return at;
    caret_at(reader, exact, of->unknown);
    size_t named = of->unknown + names_begin(exact + of->unknown, of->unknown_n);
    return reader->place == CARET_OPERAND && named > at ? named : at;
}

size_t typed_caret(const struct typed *of, struct caret *reader, int *c) {
    const char *exact = (const char *)of->exact.at;
    size_t n = of->space < of->exact.n ? of->space : of->exact.n, fails = caret_at(reader, exact, n), at = within_unknown(of, reader, fails);
    caret_at(reader, exact, fails);
    if (of->space != NOWHERE && at >= n) return *c = ' ', of->space_at;
    *c = at == of->exact.n && at == fails ? -1 : at == fails ? of->exact.at[at] : of->exact.at[of->unknown]; /* the cause is the word */
    return of->at[at];
}
