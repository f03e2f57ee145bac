#include "simplified.h"
#include "options.h"
#include "say.h"
#include <simmergate_words.h>
#include <stdlib.h>

uint8_t *work_area(void) {
    static uint8_t *work;
    if (work == NULL) work = allot((size_t)SIMMERGATE_WORK_BYTES(given.limit));
    return work;
}

/* The weight that a table has at the most: 3 for each record, and no more than the limit. */
static size_t most_weight(size_t bytes) {
    size_t weight = 3 * (bytes / SIMMERGATE_RECORD_BYTES);
    return weight < given.limit ? weight : given.limit;
}

uint32_t simplify(const uint8_t *table, size_t bytes, struct simplified *to) {
    size_t most = most_weight(bytes), out_bytes = SIMMERGATE_TABLE_BYTES(most);
    to->out = allot(out_bytes), to->steps = allot(most);
    uint32_t why = simmergate_simplify(given.limit, given.edition, table, bytes, to->out, out_bytes, to->steps, most, work_area(),
                                       (size_t)SIMMERGATE_WORK_BYTES(given.limit), to->answer, sizeof to->answer);
    to->bytes = SIMMERGATE_RECORD_BYTES * (size_t)answered(to, SIMMERGATE_AT_SIMPLIFY_RECORDS);
    return why;
}

void simplified_free(struct simplified *gone) {
    free(gone->out);
    free(gone->steps);
}

uint64_t answered(const struct simplified *of, size_t at) { return simmergate_number(of->answer, at); }

void put_steps(const struct simplified *of) {
    uint64_t steps = answered(of, SIMMERGATE_AT_SIMPLIFY_STEPS);
    put_format("steps %llu", (unsigned long long)steps);
    for (uint64_t i = 0; i < steps; i++) put_format(" %s", simmergate_step_word(of->steps[i]));
    put_format(", openings %llu, weight %llu to %llu, tries %llu", (unsigned long long)answered(of, SIMMERGATE_AT_SIMPLIFY_OPENINGS),
               (unsigned long long)answered(of, SIMMERGATE_AT_SIMPLIFY_WEIGHT_IN), (unsigned long long)answered(of, SIMMERGATE_AT_SIMPLIFY_WEIGHT_OUT),
               (unsigned long long)answered(of, SIMMERGATE_AT_SIMPLIFY_TRIES));
}
