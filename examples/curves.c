/* A site formula that shares sub-formulas: reads its table and those of its definitions from files, has it opened and shortened, and evaluates it.

     curves [-l LIMIT] [-e EDITION] FILE [SYMBOL:FILE ...] [SYMBOL=NUMBER ...]

   SYMBOL:FILE defines a symbol by the table in a file, SYMBOL=NUMBER sets the register of one. The limit is 3,072, or the one that is named; the
   rules are those of edition one, or of the edition that is named. It writes the formula, the definitions, the opened formula, the shortened one and
   its weight, and the value with the symbols named set and all others 0. Symbols are s0 to s255. What goes wrong goes to standard error in words.

   All memory is lent from here; the library has none of its own. No two areas overlap. */
#define PROGRAM "curves"
#include "common.h"

#define MOST_NAMED 64 /* definitions on the command line; the library takes SIMMERGATE_DEFINITIONS of them */

static uint8_t table[MOST_BYTES + 1]; /* one byte more, to see that a file is too long */
static uint8_t symbols[MOST_NAMED], lengths[8 * MOST_NAMED], definitions[MOST_NAMED * (MOST_BYTES + 1)];
static uint8_t opened[MOST_BYTES], out[MOST_BYTES], steps[HIGHEST], work[SIMMERGATE_WORK_BYTES(HIGHEST)]; /* enough for every formula that is accepted */
static uint8_t registers[SIMMERGATE_REGISTERS_BYTES];
static size_t limit = 3072, edition = 1, defined, definitions_bytes;
static const char *files[MOST_NAMED];

/* SYMBOL:FILE or SYMBOL=NUMBER; 0 after a message. */
static int take(const char *word) {
    int symbol = read_symbol(word, ':');
    if (symbol < 0 && strchr(word, ':') != NULL) return complain(word, "not SYMBOL:FILE with a symbol s0 to s255"), 0;
    if (symbol < 0) return set_register(word, registers);
    if (defined == MOST_NAMED) return complain(word, "too many definitions"), 0;
    files[defined] = strchr(word, ':') + 1;
    long n = read_file(files[defined], definitions + definitions_bytes, MOST_BYTES + 1);
    if (n < 0) return 0;
    symbols[defined] = (uint8_t)symbol;
    put_number(lengths, defined++, (uint64_t)n);
    definitions_bytes += (size_t)n;
    return 1;
}

/* 15 does not say which definition is refused, nor why: the checker does. */
static void say_which(void) {
    uint8_t answer[SIMMERGATE_CHECK_BYTES];
    const uint8_t *begin = definitions;
    for (size_t i = 0; i < defined; i++) {
        size_t n = (size_t)number(lengths, i);
        if (simmergate_check(limit, begin, n, answer, sizeof answer) != SIMMERGATE_OK) refused(files[i], limit, begin, n, answer, SIMMERGATE_AT_CHECK_WHAT);
        begin += n;
    }
}

static void print_line(const char *what, const uint8_t *formula, size_t bytes) {
    printf("%-10s ", what);
    print_text(limit, formula, bytes);
    putchar('\n');
}

int main(int argc, char **argv) {
    uint8_t answer[SIMMERGATE_SIMPLIFY_BYTES], open_answer[SIMMERGATE_OPEN_BYTES], value[SIMMERGATE_VALUE_BYTES];
    take_options(&argc, &argv, &limit, &edition, NULL);
    if (argc < 2) {
        fprintf(stderr, "usage: curves [-l LIMIT] [-e EDITION] FILE [SYMBOL:FILE ...] [SYMBOL=NUMBER ...]\n");
        return FAILED;
    }
    for (int i = 2; i < argc; i++) {
        if (!take(argv[i])) return FAILED;
    }
    long length = read_file(argv[1], table, sizeof table);
    if (length < 0) return FAILED;
    size_t n = (size_t)length;

    uint32_t why = simmergate_simplify_shared(limit, edition, table, n, symbols, defined, lengths, 8 * defined, definitions, definitions_bytes, opened,
                                              sizeof opened, out, sizeof out, steps, sizeof steps, work, sizeof work, answer, sizeof answer);
    if (why == SIMMERGATE_REFUSED_DEFINITION) say_which();
    if (why != SIMMERGATE_OK) return refused(argv[1], limit, table, n, answer, SIMMERGATE_AT_SIMPLIFY_WHAT);

    /* how long the opened table is, the call that only opens tells */
    why = simmergate_open(limit, table, n, symbols, defined, lengths, 8 * defined, definitions, definitions_bytes, opened, sizeof opened, open_answer,
                          sizeof open_answer);
    if (why != SIMMERGATE_OK) return refused(argv[1], limit, table, n, open_answer, SIMMERGATE_AT_OPEN_WHAT);
    print_line("formula", table, n);
    const uint8_t *begin = definitions;
    for (size_t i = 0; i < defined; i++) {
        char name[16];
        snprintf(name, sizeof name, "s%u is", symbols[i]);
        print_line(name, begin, (size_t)number(lengths, i));
        begin += number(lengths, i);
    }
    size_t shortened = SIMMERGATE_RECORD_BYTES * (size_t)number(answer, SIMMERGATE_AT_SIMPLIFY_RECORDS);
    print_line("opened", opened, SIMMERGATE_RECORD_BYTES * (size_t)number(open_answer, SIMMERGATE_AT_OPEN_RECORDS));
    print_line("shortened", out, shortened);
    printf("weight     %llu to %llu\n", number(answer, SIMMERGATE_AT_SIMPLIFY_WEIGHT_IN), number(answer, SIMMERGATE_AT_SIMPLIFY_WEIGHT_OUT));
    why = simmergate_value(limit, out, shortened, registers, sizeof registers, value, sizeof value);
    if (why != SIMMERGATE_OK) return refused(argv[1], limit, out, shortened, value, SIMMERGATE_AT_VALUE_WHAT);
    printf("value      %lld\n", (long long)number(value, SIMMERGATE_AT_VALUE_VALUE));
    return ended(DONE);
}
