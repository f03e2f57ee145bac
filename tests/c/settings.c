/* settings LINES: replays tests/answers/settings.tsv (standard input, so many lines) through the four settings calls. On every line: each
   returned number, every byte of each answer slice, the area byte by byte after each call that must not change it and after the last one, and
   the bytes around them. Each fetch is also tried with slices too short and longer than they must be. */
#include "../../include/simmergate.h"
#include "lent.h"
#include "settings.h"
#include "text.h"

static struct lent area = {.name = "area"}, answer = {.name = "answer"};
static uint8_t held[LENT_ROOM], wanted_area[LENT_ROOM];
static const char *name;
static size_t bytes;
static long calls;

static void fail(const char *what, const char *op) {
    printf("settings: line `%s`: %s: %s (%zu bytes of area, %zu of answer)\n", name, op, what, bytes, answer.length);
    exit(1);
}

/* The numbers that follow the word; as many as there should be, and nothing else. */
static void numbers_in(const char *text, uint64_t *to, int count) {
    char *end = (char *)text;
    for (int i = 0; i < count; i++) {
        const char *from = end;
        to[i] = strtoull(from, &end, 10);
        if (end == from) fail("a number is missing", text);
    }
    if (*end != 0) fail("more than the numbers that there should be", text);
}

static uint8_t *lend_area(void) { return memcpy(lend(&area, bytes), held, bytes); }

static void area_kept(const char *op) {
    if (!holds(&area, held, bytes, bytes)) fail("the area or what is around it changed", op);
}

/* A fetch of the new or the old release with `room` bytes for the answer: number, place, setting and, in the new one, unit. */
static void fetch(const char *op, int is_new, unsigned key, const uint64_t *wanted, size_t room) {
    size_t count = is_new ? 4 : 3;
    uint64_t said[4] = {wanted[0], 0, wanted[1], wanted[2]};
    uint8_t *a = lend_area(), *to = lend(&answer, room);
    uint32_t number = is_new ? simmergate_settings_fetch(a, bytes, (uint16_t)key, to, room) : simmergate_settings_fetch_1(a, bytes, (uint16_t)key, to, room);
    calls++;
    area_kept(op);
    if (room < 8 * count) {
        if (number != 6) fail("the answer is too short, and the call does not return 6", op);
        if (!untouched(&answer)) fail("the answer is too short, and a byte of it changed", op);
        return;
    }
    if (number != wanted[0]) fail("the returned number is another one", op);
    if (!holds(&answer, numbers(said, count), 8 * count, 8 * count)) fail("the answer or what is around it is another one", op);
}

static void fetches(const char *op, int is_new, const char *asked, const char *answers) {
    uint64_t key, wanted[3] = {0, 0, 0};
    size_t room = is_new ? 32 : 24;
    numbers_in(asked, &key, 1);
    numbers_in(answers, wanted, is_new ? 3 : 2);
    fetch(op, is_new, (unsigned)key, wanted, room);
    fetch(op, is_new, (unsigned)key, wanted, room + 1 + (size_t)(calls % 40));
    fetch(op, is_new, (unsigned)key, wanted, room - 1);
    fetch(op, is_new, (unsigned)key, wanted, 0);
}

/* A store or a remove; what it leaves is held for the next call, after a refusal what was there. */
static void change(const char *op, int is_store, const char *asked, const char *answers) {
    uint64_t given[3] = {0, 0, 0}, wanted;
    numbers_in(asked, given, is_store ? 3 : 1);
    numbers_in(answers, &wanted, 1);
    uint8_t *a = lend_area();
    uint32_t number = is_store ? simmergate_settings_store(a, bytes, (uint16_t)given[0], given[1], (uint16_t)given[2])
                               : simmergate_settings_remove(a, bytes, (uint16_t)given[0]);
    calls++;
    if (number != wanted) fail("the returned number is another one", op);
    if (number != 0) area_kept(op);
    if (number == 0) memcpy(held, a, bytes);
    area_kept(op);
}

static void operation(char *op, char *answers) {
    if (strncmp(op, "store ", 6) == 0) change(op, 1, op + 6, answers);
    else if (strncmp(op, "remove ", 7) == 0) change(op, 0, op + 7, answers);
    else if (strncmp(op, "fetch ", 6) == 0) fetches(op, 1, op + 6, answers);
    else if (strncmp(op, "fetch_1 ", 8) == 0) fetches(op, 0, op + 8, answers);
    else fail("no such operation", op);
}

/* Cuts the first part off at `; `; what follows, or NULL. */
static char *rest_of(char *text) {
    char *end = strchr(text, ';');
    if (end == NULL) return NULL;
    if (end[1] != ' ') fail("a semicolon without a space", text);
    *end = 0;
    return end + 2;
}

int main(int argc, char **argv) {
    long lines = 0, operations = 0;
    lent_begin();
    while (next_line()) {
        char *parts[5];
        name = line;
        if (cut(line, parts, 5) != 5) fail("not five parts", "");
        bytes = spelt(parts[1], held, LENT_ROOM);
        char *op = parts[2], *said = parts[3];
        while (op != NULL && said != NULL) {
            char *next_op = rest_of(op), *next_said = rest_of(said);
            operation(op, said);
            op = next_op, said = next_said;
            operations++;
        }
        if (op != NULL || said != NULL) fail("not as many answers as operations", "");
        if (spelt(parts[4], wanted_area, LENT_ROOM) != bytes || memcmp(wanted_area, held, bytes) != 0) fail("the area afterwards is another one", "all operations");
        lines++;
    }
    if (argc != 2 || (uint64_t)lines != decimal(argv[1])) { printf("settings: %ld stored lines on standard input, not as many as they should be\n", lines); return 1; }
    printf("stored settings: %ld areas, %ld operations, %ld calls, all bytes as stored\n", lines, operations, calls);
    return 0;
}
