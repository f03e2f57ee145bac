/* text WHAT TIMES: reads or writes one text so many times: read-first and read-last, 1,535 sums one inside the other, the deep member being the first of each or the
   last; write-first and write-last, the same from its table; read-longest, a sum of 3,071 integers of 20 characters; judge-nested, a text of 16,384 such sums, which is too heavy. */
#include "../include/simmergate.h"
#include <stdio.h>
#include <string.h>

enum { DEPTH = 1535, GROUPS = 16383, MEMBERS = 3071 };

static uint8_t text[1 << 17], table[49152], answer[SIMMERGATE_WRITE_TEXT_BYTES];
static size_t length;

static void add(const char *s, unsigned times) {
    for (size_t n = strlen(s); times > 0; times--, length += n) memcpy(text + length, s, n);
}

static void chain(const char *open, const char *inner, const char *close, unsigned depth) { add(open, depth), add(inner, 1), add(close, depth); }

static size_t told(void) { return (size_t)answer[16] + 256 * (size_t)answer[17] + 65536 * (size_t)answer[18]; }

int main(int arguments, char **words) {
    unsigned long times = 0, wanted = 0;
    if (arguments != 3) return 2;
    for (const char *s = words[2]; *s; s++) times = 10 * times + (unsigned long)(*s - '0');
    const char *which = strchr(words[1], '-');
    if (which == NULL) return 2;
    if (strcmp(which, "-first") == 0) chain("(", "1+1", ")+1", DEPTH - 1);
    else if (strcmp(which, "-last") == 0) chain("1+(", "1+1", ")", DEPTH - 1);
    else if (strcmp(which, "-longest") == 0) chain("-9223372036854775808+", "-9223372036854775808", "", MEMBERS - 1);
    else chain("(", "1+1", ")+1", GROUPS), wanted = 3;
    uint32_t number = simmergate_read_text(3072, text, length, table, sizeof table, answer, sizeof answer);
    size_t bytes = 16 * told();
    while (number == wanted && times--)
        number = words[1][0] == 'w' ? simmergate_write_text(3072, table, bytes, text, sizeof text, answer, sizeof answer)
                                    : simmergate_read_text(3072, text, length, table, sizeof table, answer, sizeof answer);
    if (number != wanted) printf("text: %s: %u, not %lu\n", words[1], (unsigned)number, wanted);
    return number != wanted;
}
