/* Tables on standard input, a line of hexadecimal digits each, decoded first; then
     port N         simplifies all of them N times, bytes to bytes, and writes how long that took
     port fill N    clears `work` N times, the part of a call that is a library fill
     port stack     the stack that the most demanding of them took
   All at the limit 3,072, or with the word `higher` before the others at 16,384. A table that is refused ends the program. */
#include "../include/simmergate.h"
#include "../tests/c/text.h"
#include <time.h>

static uint8_t store[64 << 20], out[262144], steps[16384], work[524288], answer[SIMMERGATE_SIMPLIFY_BYTES];
static struct { uint8_t *bytes; size_t length; } tables[4096];
static size_t table_count, used, limit = 3072;

static void simplify(size_t i) {
    uint32_t why = simmergate_simplify(limit, 1, tables[i].bytes, tables[i].length, out, sizeof out, steps, sizeof steps, work, SIMMERGATE_WORK_BYTES(limit), answer, sizeof answer);
    if (why != 0) { printf("table %zu is refused: %u\n", i, why); exit(1); }
}

static double seconds(void) {
    struct timespec t;
    clock_gettime(CLOCK_MONOTONIC, &t);
    return (double)t.tv_sec + 1e-9 * (double)t.tv_nsec;
}

/* The stack below this function's frame is painted, and looked at after the call. */
#define STACK (4 << 20)
static __attribute__((noinline)) void paint(void) {
    volatile uint8_t area[STACK];
    for (size_t i = 0; i < STACK; i++) area[i] = 0xA5;
}
static __attribute__((noinline)) size_t painted(void) {
    volatile uint8_t area[STACK];
    size_t i = 0;
    while (i < STACK && area[i] == 0xA5) i++;
    return STACK - i;
}

int main(int argc, char **argv) {
    if (argc > 1 && strcmp(argv[1], "higher") == 0) limit = 16384, argc--, argv++;
    while (next_line()) {
        if (table_count == 4096 || used + LINE_ROOM > sizeof store) { printf("too many tables\n"); return 2; }
        tables[table_count].bytes = store + used;
        tables[table_count].length = unhex(line, store + used, 262144);
        used += tables[table_count++].length;
    }
    if (argc == 2 && strcmp(argv[1], "stack") == 0) {
        size_t most = 0;
        for (size_t i = 0; i < table_count; i++) {
            paint();
            simplify(i);
            size_t now = painted();
            if (now > most) most = now;
        }
        printf("%zu\n", most);
        return 0;
    }
    int fill = argc == 3 && strcmp(argv[1], "fill") == 0;
    if (argc != 2 && !fill) { printf("usage: port [higher] N | fill N | stack\n"); return 2; }
    uint64_t times = decimal(argv[argc - 1]);
    double start = seconds();
    for (uint64_t n = 0; n < times; n++) {
        if (fill) {
            memset(work, 0, SIMMERGATE_WORK_BYTES(limit));
            __asm__ volatile("" : : "r"(work) : "memory");
        } else {
            for (size_t i = 0; i < table_count; i++) simplify(i);
        }
    }
    printf("%.0f ns\n", 1e9 * (seconds() - start));
    return 0;
}
