/* A formula as people type it: reads its text, has it shortened, and writes the text of what it has become.

     text [-l LIMIT] [-e EDITION] [-o TABLE] FORMULA

   The limit is 3,072, or the one that is named; the rules are those of edition one, or of the edition that is named. With -o the table that was read goes
   to the file TABLE. What goes wrong goes to standard error in words.

   The calls need SIMMERGATE_STACK bytes of stack, or SIMMERGATE_STACK_16384, whatever the text is: a task with less must not make them. All memory is lent from here; the library has none of its own. No two areas overlap. */
#define PROGRAM "text"
#include "common.h"

static uint8_t table[MOST_BYTES], out[MOST_BYTES], steps[HIGHEST], work[SIMMERGATE_WORK_BYTES(HIGHEST)]; /* enough for every formula that is accepted */

int main(int argc, char **argv) {
    uint8_t taken[SIMMERGATE_READ_TEXT_BYTES], answer[SIMMERGATE_SIMPLIFY_BYTES];
    size_t limit = 3072, edition = 1;
    const char *kept_in = NULL;
    take_options(&argc, &argv, &limit, &edition, &kept_in);
    if (argc != 2) {
        fprintf(stderr, "usage: text [-l LIMIT] [-e EDITION] [-o TABLE] FORMULA\n");
        return FAILED;
    }
    const char *formula = argv[1];

    uint32_t why = simmergate_read_text(limit, (const uint8_t *)formula, strlen(formula), table, sizeof table, taken, sizeof taken);
    if (why != SIMMERGATE_OK) return refused(formula, limit, NULL, 0, taken, 0); /* the reader has no table and no WHAT to tell of */
    size_t bytes = SIMMERGATE_RECORD_BYTES * (size_t)number(taken, SIMMERGATE_AT_READ_TEXT_RECORDS);
    if (kept_in != NULL && write_file(kept_in, table, bytes) != DONE) return FAILED;

    why = simmergate_simplify(limit, edition, table, bytes, out, sizeof out, steps, sizeof steps, work, sizeof work, answer, sizeof answer);
    if (why != SIMMERGATE_OK) return refused(formula, limit, table, bytes, answer, SIMMERGATE_AT_SIMPLIFY_WHAT);
    print_text(limit, out, SIMMERGATE_RECORD_BYTES * (size_t)number(answer, SIMMERGATE_AT_SIMPLIFY_RECORDS));
    printf("\nsteps %llu, openings %llu, weight %llu to %llu\n", number(answer, SIMMERGATE_AT_SIMPLIFY_STEPS), number(answer, SIMMERGATE_AT_SIMPLIFY_OPENINGS),
           number(answer, SIMMERGATE_AT_SIMPLIFY_WEIGHT_IN), number(answer, SIMMERGATE_AT_SIMPLIFY_WEIGHT_OUT));
    return ended(DONE);
}
