/* Tables on standard input, a line of hexadecimal digits each; the simplifier's answer to each, by edition one at the limit 3,072, on standard output:
   `0 OPENINGS STEPS RECORDS`, the steps a digit each (`-` for none), or `NUMBER PLACE` for a refusal. */
#include "../../include/simmergate.h"
#include "text.h"

static uint64_t number(const uint8_t *answer, int i) {
    uint64_t x = 0;
    for (int k = 7; k >= 0; k--) x = 256 * x + answer[8 * i + k];
    return x;
}

int main(void) {
    static uint8_t table[65536], out[49152], steps[3072], work[65536], answer[SIMMERGATE_SIMPLIFY_BYTES];
    while (next_line()) {
        size_t n = unhex(line, table, sizeof table);
        uint32_t r = simmergate_simplify(3072, 1, table, n, out, sizeof out, steps, sizeof steps, work, sizeof work, answer, sizeof answer);
        if (r != 0) {
            printf("%u %llu\n", r, (unsigned long long)number(answer, 1));
            continue;
        }
        printf("0 %llu ", (unsigned long long)number(answer, 4));
        uint64_t given = number(answer, 3), records = number(answer, 2);
        if (given > sizeof steps || records > sizeof out / 16) { printf("impossible counts\n"); return 1; }
        for (uint64_t i = 0; i < given; i++) putchar('0' + steps[i]);
        if (given == 0) putchar('-');
        putchar(' ');
        put_hex(out, 16 * (size_t)records);
        putchar('\n');
    }
    return 0;
}
