/* value: the value of formulas under the registers that are given. */
#include "formula.h"
#include "names.h"
#include "say.h"
#include "subcommands.h"
#include <simmergate.h>
#include <string.h>

static uint8_t registers[SIMMERGATE_REGISTERS_BYTES];
static uint8_t is_given[SYMBOLS];

/* SYMBOL=NUMBER; 0 after a message. */
static int set_register(const char *word) {
    const char *sign = strchr(word, '=');
    int symbol = symbol_of(word, (size_t)(sign - word));
    uint64_t number;
    if (symbol < 0) return complain(FAILED, word, "no symbol s0 to s255 and no name stands before ="), 0;
    if (is_given[symbol]) return complain(FAILED, word, "this symbol is given twice"), 0;
    if (!read_word(sign + 1, &number)) return complain(FAILED, word, "not a number of 64 bits"), 0;
    is_given[symbol] = 1;
    put_eight(registers + 8 * symbol, number);
    return 1;
}

/* The operands: at the most one file or typed formula, and registers. A file with = in its name is ./NAME. 0 after a message. */
static int take_operands(struct operand *input) {
    int inputs = 0;
    for (size_t i = 0; i < given.operands_n; i++) {
        const struct operand *operand = &given.operands[i];
        const char *sign = strchr(operand->word, '='), *slash = strchr(operand->word, '/');
        if (!operand->typed && sign != NULL && (slash == NULL || slash > sign)) {
            if (!set_register(operand->word)) return 0;
        } else if (inputs++ > 0) {
            return complain(FAILED, operand->word, "there is no place for a second formula here"), 0;
        } else {
            *input = *operand;
        }
    }
    return 1;
}

/* Names each symbol that the formula reads and that is not given; whether there is none. */
static int all_given(const char *of, const struct formula *formula) {
    uint8_t named[SYMBOLS] = {0};
    int all = 1;
    for (size_t i = 0; i < formula->bytes; i += SIMMERGATE_RECORD_BYTES) {
        uint8_t symbol = formula->table[i + 8];
        if (formula->table[i] != SIMMERGATE_KIND_SYMBOL || is_given[symbol] || named[symbol]) continue;
        named[symbol] = 1, all = 0;
        complain(FAILED, place_name(of, formula->line), "%s is read and not given", symbol_shown(symbol));
    }
    return all;
}

static void value_one(const char *of, const struct formula *formula) {
    uint8_t answer[SIMMERGATE_VALUE_BYTES];
    if (formula->number != SIMMERGATE_OK || !all_given(of, formula)) return;
    simmergate_value(given.limit, formula->table, formula->bytes, registers, sizeof registers, answer, sizeof answer);
    put_format("%lld", (long long)simmergate_number(answer, SIMMERGATE_AT_VALUE_VALUE));
}

int run_value(void) {
    struct operand input = {"-", 0};
    return take_operands(&input) && formulas_each(&input, value_one);
}
