/* carets MOST: where the command puts its caret, for all texts of up to MOST characters over s 0 2 - + * ^ ( ), beside the longest prefix of any text that
   the library accepts. A prefix is one of an accepted text exactly where one of a few endings makes it one: the number or symbol at its end is completed, or
   a base gets its exponent, 1 is added, and then every open parenthesis is closed and 1 added. The library judges each. Compared as well: whether
   a text may end where it does. */
#include "../../command/caret.h"
#include "../../include/simmergate.h"
#include <stdio.h>
#include <stdlib.h>
#include <string.h>

#define MOST 8
#define ROOM (16 * 64)

static const char set[] = "s02-+*^()";
static struct caret reader;
static long texts, prefixes, accepted;

static int accepts(const char *text, size_t n) {
    static uint8_t table[ROOM];
    uint8_t answer[SIMMERGATE_READ_TEXT_BYTES];
    return simmergate_read_text(3072, (const uint8_t *)text, n, table, sizeof table, answer, sizeof answer) == SIMMERGATE_OK;
}

static void fail(const char *what, const char *text, size_t n) {
    printf("carets: %s: %.*s\n", what, (int)n, text);
    exit(1);
}

/* Whether some accepted text begins with these characters. */
static int begins(const char *text, size_t n) {
    static const char *const endings[] = {"+2", "2+2", "^2+2", "*2+2"};
    char whole[64];
    long open = 0;
    memcpy(whole, text, n);
    for (size_t i = 0; i < n; i++) open += text[i] == '(' ? 1 : text[i] == ')' ? -1 : 0;
    if (accepts(text, n)) return 1;
    for (size_t e = 0; e < sizeof endings / sizeof *endings; e++) {
        size_t length = n + strlen(endings[e]);
        strcpy(whole + n, endings[e]);
        for (long k = 0; k < open; k++, length += 3) memcpy(whole + length, ")+2", 3);
        if (accepts(whole, length)) return 1;
    }
    return 0;
}

/* Compares one text, whose longest prefix of an accepted text has `longest` characters. */
static void compare(const char *text, size_t n, size_t longest) {
    texts++;
    if (caret_at(&reader, text, n) != longest) fail("the caret stands elsewhere", text, n);
    if (longest < n) return;
    int may_end = caret_may_end(&reader);
    prefixes++, accepted += may_end;
    if (may_end != accepts(text, n)) fail("it may not end there, or it may", text, n);
}

/* All texts of `most` characters that begin with these `n`, whose longest prefix of an accepted text has `longest`; each once, the short ones first met. */
static void all(char *text, size_t n, size_t most, size_t longest) {
    compare(text, n, longest);
    for (size_t i = 0; n < most && set[i] != 0; i++) {
        text[n] = set[i];
        all(text, n + 1, most, longest < n ? longest : begins(text, n + 1) ? n + 1 : n);
    }
}

int main(int words, char **word) {
    char text[MOST + 1];
    long most = words == 2 ? strtol(word[1], NULL, 10) : 0;
    if (most < 1 || most > MOST) return printf("usage: carets MOST, up to %d\n", MOST), 2;
    all(text, 0, (size_t)most, 0);
    printf("caret: all %ld texts of up to %ld characters: it stands behind the longest prefix of an accepted text; %ld are such prefixes, %ld accepted\n",
           texts, most, prefixes, accepted);
    return 0;
}
