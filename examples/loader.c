/* What the controller's loader does: reads the table of a site formula from a file, has it judged and shortened, and evaluates it.

     loader [-l LIMIT] [-e EDITION] FILE [SYMBOL=NUMBER ...]

   The limit is 3,072, or the one that is named; the rules are those of edition one, or of the edition that is named. It writes the formula, the
   shortened one, the lines of the sheet that the records of that one come from, where any is marked, the steps by name, and the value of both
   with the symbols named set and all others 0. Symbols are s0 to s255. What goes wrong goes to standard error in words.

   All memory is lent from here; the library has none of its own. No two areas overlap. */
#define PROGRAM "loader"
#include "common.h"

static uint8_t table[MOST_BYTES + 1]; /* one byte more, to see that a file is too long */
static uint8_t out[MOST_BYTES], steps[HIGHEST], work[SIMMERGATE_WORK_BYTES(HIGHEST)]; /* enough for every table that is accepted */
static uint8_t registers[SIMMERGATE_REGISTERS_BYTES];

/* Prints the line of the sheet that each record comes from, in their order and 0 for none, where any of them has one. */
static void print_lines(const uint8_t *from, size_t bytes) {
    unsigned any = 0;
    for (size_t i = 0; i < bytes; i += SIMMERGATE_RECORD_BYTES) any |= from[i + 4] | from[i + 5];
    if (any == 0) return;
    printf("lines     ");
    for (size_t i = 0; i < bytes; i += SIMMERGATE_RECORD_BYTES) printf(" %u", from[i + 4] + 256u * from[i + 5]);
    putchar('\n');
}

int main(int argc, char **argv) {
    uint8_t answer[SIMMERGATE_SIMPLIFY_BYTES], before[SIMMERGATE_VALUE_BYTES], after[SIMMERGATE_VALUE_BYTES];
    size_t limit = 3072, edition = 1;
    take_options(&argc, &argv, &limit, &edition, NULL);
    if (argc < 2) {
        fprintf(stderr, "usage: loader [-l LIMIT] [-e EDITION] FILE [SYMBOL=NUMBER ...]\n");
        return FAILED;
    }
    for (int i = 2; i < argc; i++) {
        if (!set_register(argv[i], registers)) return FAILED;
    }
    const char *file = argv[1];
    long length = read_file(file, table, sizeof table);
    if (length < 0) return FAILED;
    size_t n = (size_t)length;

    uint32_t why = simmergate_value(limit, table, n, registers, sizeof registers, before, sizeof before);
    if (why != SIMMERGATE_OK) return refused(file, limit, table, n, before, SIMMERGATE_AT_VALUE_WHAT);
    printf("formula    ");
    print_text(limit, table, n);
    putchar('\n');

    why = simmergate_simplify(limit, edition, table, n, out, sizeof out, steps, sizeof steps, work, sizeof work, answer, sizeof answer);
    if (why != SIMMERGATE_OK) return refused(file, limit, table, n, answer, SIMMERGATE_AT_SIMPLIFY_WHAT);
    size_t shortened = SIMMERGATE_RECORD_BYTES * (size_t)number(answer, SIMMERGATE_AT_SIMPLIFY_RECORDS);
    printf("shortened  ");
    print_text(limit, out, shortened);
    putchar('\n');
    print_lines(out, shortened);
    printf("weight     %llu to %llu\n", number(answer, SIMMERGATE_AT_SIMPLIFY_WEIGHT_IN), number(answer, SIMMERGATE_AT_SIMPLIFY_WEIGHT_OUT));
    printf("opened     %llu\n", number(answer, SIMMERGATE_AT_SIMPLIFY_OPENINGS));
    printf("tries      %llu\n", number(answer, SIMMERGATE_AT_SIMPLIFY_TRIES));
    for (size_t i = 0; i < number(answer, SIMMERGATE_AT_SIMPLIFY_STEPS); i++) printf("step %-5zu %s\n", i + 1, simmergate_step_word(steps[i]));

    why = simmergate_value(limit, out, shortened, registers, sizeof registers, after, sizeof after);
    if (why != SIMMERGATE_OK) return refused(file, limit, out, shortened, after, SIMMERGATE_AT_VALUE_WHAT);
    uint64_t value = number(after, SIMMERGATE_AT_VALUE_VALUE);
    printf("value      %lld\n", (long long)value);
    if (number(before, SIMMERGATE_AT_VALUE_VALUE) != value) return complain(file, "the shortened formula has another value");
    return ended(DONE);
}
