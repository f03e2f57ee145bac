/* open: a formula with its shared curves, opened and shortened. */
#include "formula.h"
#include "names.h"
#include "say.h"
#include "simplified.h"
#include "subcommands.h"
#include <simmergate.h>
#include <stdlib.h>
#include <string.h>

/* The definitions as the library takes them: symbols, lengths, tables end to end. */
static struct bytes symbols, lengths, tables;

/* A formula and the operand that it was read from. */
static struct formula formula;
static const char *formula_name;

/* SYMBOL=CURVE; DONE, or a status after a message. */
static int take_definition(const struct operand *operand, const char *sign) {
    struct formula curve;
    int symbol = symbol_of(operand->word, (size_t)(sign - operand->word));
    if (symbol < 0) return complain(FAILED, operand->word, "no symbol s0 to s255 and no name stands before =");
    struct operand from = {sign + 1, operand->typed};
    int status = formula_read(&from, 0, &curve);
    if (status != DONE) return status;
    uint8_t one = (uint8_t)symbol, length[8];
    put_eight(length, curve.bytes);
    bytes_add(&symbols, &one, 1);
    bytes_add(&lengths, length, sizeof length);
    bytes_add(&tables, curve.table, curve.bytes);
    formula_free(&curve);
    return DONE;
}

static int take_formula(const struct operand *operand) {
    if (formula_name != NULL) return complain(FAILED, operand->word, "there is no place for a second formula here");
    formula_name = operand_name(operand);
    return formula_read(operand, 0, &formula);
}

/* Every operand is read, and every fault told. */
static int take_operands(void) {
    int status = DONE;
    for (size_t i = 0; i < given.operands_n; i++) {
        const struct operand *operand = &given.operands[i];
        const char *sign = strchr(operand->word, '='), *slash = strchr(operand->word, '/');
        int defines = sign != NULL && (operand->typed || slash == NULL || slash > sign);
        int one = defines ? take_definition(operand, sign) : take_formula(operand);
        if (one > status) status = one;
    }
    if (status == DONE && formula_name == NULL) return complain(FAILED, NULL, "there is no formula, only definitions");
    return status;
}

/* The opened table alone. */
static void put_opened(void) {
    uint8_t answer[SIMMERGATE_OPEN_BYTES];
    size_t room = SIMMERGATE_TABLE_BYTES(given.limit);
    uint8_t *opened = allot(room);
    uint32_t why = simmergate_open(given.limit, formula.table, formula.bytes, symbols.at, symbols.n, lengths.at, lengths.n, tables.at, tables.n, opened, room,
                                   answer, sizeof answer);
    if (why != SIMMERGATE_OK) complain_refused(formula_name, formula.table, formula.bytes, answer, SIMMERGATE_AT_OPEN_WHAT);
    else put_formula(opened, SIMMERGATE_RECORD_BYTES * (size_t)simmergate_number(answer, SIMMERGATE_AT_OPEN_RECORDS));
    free(opened);
}

/* Opened and shortened. */
static void put_shortened(void) {
    size_t room = SIMMERGATE_TABLE_BYTES(given.limit);
    uint8_t *opened = allot(room);
    struct simplified made = {.out = allot(room), .steps = allot(given.limit)};
    uint32_t why = simmergate_simplify_shared(given.limit, given.edition, formula.table, formula.bytes, symbols.at, symbols.n, lengths.at, lengths.n, tables.at,
                                              tables.n, opened, room, made.out, room, made.steps, given.limit, work_area(),
                                              (size_t)SIMMERGATE_WORK_BYTES(given.limit), made.answer, sizeof made.answer);
    if (why != SIMMERGATE_OK) {
        complain_refused(formula_name, formula.table, formula.bytes, made.answer, SIMMERGATE_AT_SIMPLIFY_WHAT);
    } else {
        put_formula(made.out, SIMMERGATE_RECORD_BYTES * (size_t)answered(&made, SIMMERGATE_AT_SIMPLIFY_RECORDS));
        if (given.steps) put("  # ", 4), put_steps(&made);
    }
    simplified_free(&made);
    free(opened);
}

int run_open(void) {
    int status = take_operands();
    if (status == DONE) {
        if (given.opened) put_opened();
        else put_shortened();
        status = highest_status();
        if (status == DONE) put("\n", 1);
    }
    formula_free(&formula);
    bytes_free(&symbols), bytes_free(&lengths), bytes_free(&tables);
    return status == DONE;
}
