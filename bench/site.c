/* site WAY LIMIT N: a site on standard input, a table a line in hexadecimal digits, N times over, WAY being `batch`, one call of simmergate_batch; or `calls`, a call
   of simmergate_simplify for each, on what remains of the areas. Prints a number that its answers make, and the nanoseconds of one time. With N = 0 the formulas are
   only read: what that takes is to be taken off the instructions of the others. site results LIMIT 1: the tables that the one call leaves, a line each. */
#include <time.h>
#include "../include/simmergate.h"
#include "../tests/c/text.h"

#define ITEMS 200
#define PLACE SIMMERGATE_SIMPLIFY_BYTES
static uint8_t given[ITEMS * 16 * 400], list[8 * ITEMS], out[1 << 22], steps[1 << 18], work[SIMMERGATE_WORK_BYTES(16384)], answers[PLACE * ITEMS];
static size_t limit, bytes, items, length[ITEMS];

static uint64_t number(const uint8_t *answer, int i) {
    uint64_t x = 0;
    for (int k = 7; k >= 0; k--) x = x << 8 | answer[8 * i + k];
    return x;
}

static void one_call(void) {
    if (simmergate_batch(limit, 1, given, bytes, list, 8 * items, out, sizeof out, steps, sizeof steps, work, SIMMERGATE_WORK_BYTES(limit), answers, PLACE * items) == 0) return;
    printf("site: the site is refused\n");
    exit(1);
}

static void calls(void) {
    size_t used = 0, at = 0;
    for (size_t i = 0; i < items; i++) {
        uint8_t *answer = answers + PLACE * i;
        if (simmergate_simplify(limit, 1, given + at, length[i], out + 16 * used, sizeof out - 16 * used, steps + used, sizeof steps - used, work,
                                SIMMERGATE_WORK_BYTES(limit), answer, PLACE) != 0) { printf("site: formula %zu is refused\n", i); exit(1); }
        used += number(answer, 5);
        at += length[i];
    }
}

static void results(void) {
    size_t used = 0;
    one_call();
    for (size_t i = 0; i < items; i++) {
        const uint8_t *answer = answers + PLACE * i;
        put_hex(out + 16 * used, 16 * number(answer, 2));
        putchar('\n');
        used += number(answer, 5);
    }
}

int main(int argc, char **argv) {
    uint64_t sum = 0, times;
    struct timespec from, to;
    if (argc != 4) { printf("usage: site batch|calls|results LIMIT N\n"); return 2; }
    limit = decimal(argv[2]);
    times = decimal(argv[3]);
    while (next_line()) {
        if (items == ITEMS) { printf("site: over %d lines\n", ITEMS); return 2; }
        length[items] = unhex(line, given + bytes, sizeof given - bytes);
        for (int k = 0; k < 8; k++) list[8 * items + k] = (uint8_t)((uint64_t)length[items] >> 8 * k);
        bytes += length[items++];
    }
    if (strcmp(argv[1], "results") == 0) { results(); return 0; }
    if (strcmp(argv[1], "batch") != 0 && strcmp(argv[1], "calls") != 0) { printf("site: no way %s\n", argv[1]); return 2; }
    clock_gettime(CLOCK_MONOTONIC, &from);
    for (uint64_t n = times; n > 0; n--) {
        if (argv[1][0] == 'b') one_call();
        else calls();
    }
    clock_gettime(CLOCK_MONOTONIC, &to);
    for (size_t i = 0; i < sizeof answers; i++) sum = 31 * sum + answers[i];
    printf("%llu %.0f\n", (unsigned long long)sum, ((double)(to.tv_sec - from.tv_sec) * 1e9 + (double)(to.tv_nsec - from.tv_nsec)) / (times > 0 ? (double)times : 1));
    return 0;
}
