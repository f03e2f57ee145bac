/* table and text: a formula from the one form to the other. */
#include "formula.h"
#include "say.h"
#include "subcommands.h"

int run_table(void) {
    struct formula formula;
    struct operand input = the_input();
    if (results_on_terminal()) return complain(FAILED, "standard output", "a table is no text for a terminal: -o FILE, or a pipe"), 0;
    if (formula_read(&input, given.lines, &formula) != DONE) return 0;
    put(formula.table, formula.bytes);
    formula_free(&formula);
    return 1;
}

int run_text(void) {
    struct formula formula;
    struct operand input = the_input();
    if (formula_read(&input, 0, &formula) != DONE) return 0;
    put_formula(formula.table, formula.bytes);
    put("\n", 1);
    formula_free(&formula);
    return 1;
}
