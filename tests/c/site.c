/* site LINES: replays tests/answers/batch.tsv (standard input, so many lines) through simmergate_batch, at the limit 3,072 and in edition one: what it returns, the answers,
   and every byte of out, steps, work and the list of answers, each filled with a5 before the call. What is wrong with a record after 2, which
   the lines do not tell, is as the plain reading of tests/c/own.c has it. */
#include "../../include/simmergate.h"
#include "own.h"
#include "text.h"

#define ROOM (1 << 17)
#define ITEMS 256
#define PLACE SIMMERGATE_SIMPLIFY_BYTES
static uint8_t given[ROOM], list[8 * ITEMS], out[ROOM], steps[ROOM], work[ROOM], answers[PLACE * ITEMS];
static uint8_t wanted_out[ROOM], wanted_steps[ROOM], wanted_work[ROOM], wanted_answers[PLACE * ITEMS];
static const char *name;

static void fail(const char *what) {
    printf("site: line `%s`: %s\n", name, what);
    exit(1);
}

/* Numbers with anything between them; how many they are. */
static size_t numbers_of(const char *text, uint64_t *values, size_t most) {
    size_t n = 0;
    while (*text >= '0' && *text <= '9') {
        char *end;
        if (n == most) fail("more numbers than there is room for");
        values[n++] = strtoull(text, &end, 10);
        text = *end != 0 ? end + 1 : end;
    }
    return n;
}

/* The wanted answers of n items: seven numbers of each, what is wrong with its record, and its tries. */
static void want(size_t n, const uint64_t *lengths, const uint64_t *seven, const uint64_t *tries) {
    size_t at = 0;
    for (size_t i = 0; i < n; i++) {
        struct verdict wrong = own_check(LOWER, given + at, lengths[i]);
        uint8_t *place = wanted_answers + PLACE * i;
        for (int k = 0; k < 7; k++) own_bytes(place + 8 * k, seven[7 * i + k]);
        own_bytes(place + 56, wrong.what);
        own_bytes(place + 64, wrong.byte);
        own_bytes(place + 72, tries[i]);
        at += lengths[i];
    }
}

int main(int argc, char **argv) {
    static uint64_t lengths[ITEMS], seven[7 * ITEMS], tries[ITEMS], seen[10];
    uint64_t lines = 0;
    if (argc != 2) { printf("usage: site LINES\n"); return 2; }
    while (next_line()) {
        char *part[10], *end;
        if (cut(line, part, 10) != 10) { printf("site: line %llu has not ten parts\n", (unsigned long long)lines + 1); return 2; }
        name = part[0];
        size_t n = numbers_of(part[1], lengths, ITEMS), bytes = spelt(part[2], given, ROOM), room[4];
        for (size_t i = 0; i < n; i++) own_bytes(list + 8 * i, lengths[i]);
        end = part[3];
        for (int i = 0; i < 4; i++) room[i] = (size_t)strtoull(end, &end, 10), end++;
        if (room[0] > ROOM || room[1] > ROOM || room[2] > ROOM || room[3] > ITEMS) fail("more room than there is");
        memset(out, 0xa5, ROOM); memset(steps, 0xa5, ROOM); memset(work, 0xa5, ROOM); memset(answers, 0xa5, sizeof answers);
        memset(wanted_out, 0xa5, ROOM); memset(wanted_steps, 0xa5, ROOM); memset(wanted_work, 0xa5, ROOM);
        memset(wanted_answers, 0xa5, sizeof wanted_answers);
        if (spelt(part[7], wanted_out, ROOM) != room[0] || spelt(part[8], wanted_steps, ROOM) != room[1]) fail("out or steps of another length in the line");
        if (strcmp(part[9], "zero") == 0) memset(wanted_work, 0, 65536);
        size_t items = decimal(part[4]) == 0 ? n : 0;
        if (numbers_of(part[5], seven, 7 * ITEMS) != 7 * items || numbers_of(part[6], tries, ITEMS) != items) fail("not an answer for each item in the line");
        want(items, lengths, seven, tries);
        uint32_t number = simmergate_batch(LOWER, 1, given, bytes, list, 8 * n, out, room[0], steps, room[1], work, room[2], answers, PLACE * room[3]);
        if (number != decimal(part[4])) fail("the returned number is another one");
        if (memcmp(answers, wanted_answers, sizeof answers) != 0) fail("the answers are others");
        if (memcmp(out, wanted_out, ROOM) != 0) fail("out is another one");
        if (memcmp(steps, wanted_steps, ROOM) != 0) fail("steps is another one");
        if (memcmp(work, wanted_work, ROOM) != 0) fail("work is another one");
        lines++;
        for (size_t i = 0; i < items; i++) seen[seven[7 * i]]++;
        seen[8] += number == 8;
    }
    if (lines != decimal(argv[1])) { printf("site: %llu lines, not %s\n", (unsigned long long)lines, argv[1]); return 1; }
    printf("batch.tsv: %llu sites, %llu of them refused by 8; items by their number: 0 %llu", (unsigned long long)lines, (unsigned long long)seen[8],
           (unsigned long long)seen[0]);
    for (int k = 1; k < 8; k++) printf(", %d %llu", k, (unsigned long long)seen[k]);
    printf("; all equal\n");
    return 0;
}
