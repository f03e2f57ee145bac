/* shorten: formulas, one a line. */
#include "formula.h"
#include "say.h"
#include "simplified.h"
#include "subcommands.h"

static void put_tabs(const struct formula *of, const struct simplified *made) {
    static const size_t fields[] = {SIMMERGATE_AT_REFUSAL, SIMMERGATE_AT_PLACE, SIMMERGATE_AT_SIMPLIFY_STEPS, SIMMERGATE_AT_SIMPLIFY_OPENINGS,
                                    SIMMERGATE_AT_SIMPLIFY_WEIGHT_IN, SIMMERGATE_AT_SIMPLIFY_WEIGHT_OUT, SIMMERGATE_AT_SIMPLIFY_TRIES};
    put_format("%zu", of->line);
    for (size_t i = 0; i < sizeof fields / sizeof *fields; i++) put_format("\t%llu", (unsigned long long)answered(made, fields[i]));
    put("\t", 1);
    put_formula(made->out, made->bytes);
}

/* A formula that is refused before it is shortened. */
static void put_refused(const struct formula *of) {
    if (given.tabs) put_format("%zu\t%u\t%llu\t0\t0\t0\t0\t0\t", of->line, of->number, (unsigned long long)of->place);
}

static void put_shortened(const struct simplified *made) {
    put_formula(made->out, made->bytes);
    if (!given.steps) return;
    put("  # ", 4);
    put_steps(made);
}

static void shorten_one(const char *of, const struct formula *formula) {
    struct simplified made;
    if (formula->number != SIMMERGATE_OK) {
        put_refused(formula);
        return;
    }
    uint32_t why = simplify(formula->table, formula->bytes, &made);
    if (why != SIMMERGATE_OK) complain_refused(place_name(of, formula->line), formula->table, formula->bytes, made.answer, SIMMERGATE_AT_SIMPLIFY_WHAT);
    if (given.tabs) put_tabs(formula, &made);
    else if (why == SIMMERGATE_OK) put_shortened(&made);
    simplified_free(&made);
}

int run_shorten(void) {
    struct operand input = the_input();
    return formulas_each(&input, shorten_one);
}
