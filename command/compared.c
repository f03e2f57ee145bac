#include "compared.h"
#include "say.h"
#include <simmergate.h>
#include <stdlib.h>

size_t pair_record(const struct compared *of, size_t i, int side) { return (size_t)simmergate_number(of->list, 2 * i + (size_t)side); }

int is_same_bytes(const struct compared *of) { return of->pairs == 0; }

/* Both tables are accepted: no call refuses them. */
static void compare_tables(struct compared *to) {
    const struct formula *a = &to->formulas[0], *b = &to->formulas[1];
    uint8_t answer[SIMMERGATE_DIFFER_BYTES], equal[SIMMERGATE_EQUAL_BYTES];
    size_t room = a->bytes < b->bytes ? a->bytes : b->bytes;
    to->list = allot(room);
    simmergate_differ(given.limit, a->table, a->bytes, b->table, b->bytes, to->list, room, answer, sizeof answer);
    to->pairs = (size_t)simmergate_number(answer, SIMMERGATE_AT_DIFFER_PAIRS);
    simmergate_equal(given.limit, a->table, a->bytes, b->table, b->bytes, equal, sizeof equal);
    to->equal = simmergate_number(equal, SIMMERGATE_AT_EQUAL_YES) == 1;
    for (int side = 0; side < 2; side++) shape_make(&to->shapes[side], to->formulas[side].table, to->formulas[side].bytes);
}

int compare(const struct operand *a, const struct operand *b, struct compared *to) {
    *to = (struct compared){.names = {operand_name(a), operand_name(b)}};
    int first = formula_read(a, 0, &to->formulas[0]), second = formula_read(b, 0, &to->formulas[1]), status = first > second ? first : second;
    if (status == DONE) compare_tables(to);
    else compared_free(to);
    return status;
}

void compared_free(struct compared *gone) {
    for (int side = 0; side < 2; side++) {
        formula_free(&gone->formulas[side]);
        if (gone->list != NULL) shape_free(&gone->shapes[side]);
    }
    free(gone->list);
    gone->list = NULL;
}
