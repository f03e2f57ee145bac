/* replay FILE LINES: replays a file of stored answers (on standard input, so many lines; see tests/answers/README.md) through
   simmergate_simplify. On every table, by the edition that the line names or else by edition one, at the limit that it names or else at 3,072 and,
   where the table is up to that limit, at 16,384 too with the same answer and bytes: the returned number, the ten numbers of the answer, every byte of out, steps and work, and the
   bytes around them, with areas exactly as large as they must be, larger ones, and each of them one byte too short. What is wrong with a
   record is as own.c says, and as the line says where it does; tries that the line does not tell are the same in every call, and at most the
   cube of the weight. */
#include "../../include/simmergate.h"
#define LENT_ROOM (524288 + 4096)
#include "lent.h"
#include "own.h"
#include "text.h"

static struct lent table = {.name = "table"}, out = {.name = "out"}, steps = {.name = "steps"}, work = {.name = "work"},
                   answer = {.name = "answer"};
static uint8_t given[RECORD * (HIGHER + 4)], wanted_out[RECORD * HIGHER], wanted_steps[HIGHER];
static const char *name;
static long calls;
enum { ANSWER = SIMMERGATE_SIMPLIFY_BYTES };

static void fail(const char *what) {
    printf("replay: line `%s`: %s (out %zu, steps %zu, work %zu, answer %zu bytes lent)\n", name, what, out.length, steps.length, work.length,
           answer.length);
    exit(1);
}

/* What the call must say on areas that are large enough. */
static struct { size_t limit, edition, length; uint64_t weight, numbers[10]; } wanted;

/* One call on areas of these sizes. */
static void call(size_t out_length, size_t steps_length, size_t work_length, size_t answer_length) {
    uint8_t *t = lend(&table, wanted.length);
    uint64_t expected[10];
    uint64_t records = wanted.numbers[2], count = wanted.numbers[3];
    memcpy(t, given, wanted.length);
    uint8_t *o = lend(&out, out_length), *s = lend(&steps, steps_length), *w = lend(&work, work_length), *a = lend(&answer, answer_length);
    uint32_t number = simmergate_simplify(wanted.limit, wanted.edition, t, wanted.length, o, out_length, s, steps_length, w, work_length, a, answer_length);
    calls++;
    if (!holds(&table, given, wanted.length, wanted.length)) fail("the table or what is around it changed");
    if (answer_length < ANSWER) {
        if (number != 6) fail("the answer is too short, and the call does not return 6");
        if (!untouched(&answer) || !untouched(&out) || !untouched(&steps) || !untouched(&work)) fail("the answer is too short, and a byte changed");
        return;
    }
    if (number == 0 && wanted.numbers[9] == 0) wanted.numbers[9] = own_number(a + 72);
    memcpy(expected, wanted.numbers, sizeof expected);
    int small = out_length < 16 * wanted.weight || steps_length < wanted.weight || work_length < own_work(wanted.limit);
    if (small && (expected[0] == 0 || expected[0] == 7)) {
        memset(expected, 0, sizeof expected);
        expected[0] = 6;
    }
    if (expected[0] == 6 && !small) fail("the areas are large enough, and 6 is stored");
    if (number != expected[0]) fail("the returned number is another one");
    if (!holds(&answer, numbers(expected, 10), ANSWER, ANSWER)) fail("the answer or what is around it is another one");
    if (number != 0 && number != 7) {
        if (!untouched(&out) || !untouched(&steps) || !untouched(&work)) fail("refused, and a lent byte changed");
        return;
    }
    if (number == 7) records = count = 0;
    if (!holds(&out, wanted_out, 16 * records, 16 * wanted.weight)) fail("out is another one");
    if (!holds(&steps, wanted_steps, count, wanted.weight)) fail("steps is another one");
    if (!holds(&work, lent_zeros, 0, own_work(wanted.limit))) fail("work is another one");
}

/* All calls at a limit, on areas of the sizes that it asks for and of others. */
static void at_limit(size_t limit) {
    wanted.limit = limit;
    size_t w = wanted.weight > limit ? limit : (size_t)wanted.weight, work = own_work(limit);
    call(16 * w, w, work, ANSWER);
    if (wanted.numbers[0] == 0 && (wanted.numbers[9] == 0 || wanted.numbers[9] > w * w * w)) fail("no tries, or more than the cube of the weight");
    call(16 * w + 1, w + 1, work + 1, ANSWER + 1);
    call(16 * w + 4096, w + 1000, work + 4096, ANSWER + 8);
    if (w > 0) {
        call(16 * w - 1, w, work, ANSWER);
        call(16 * w, w - 1, work, ANSWER);
    }
    call(16 * w, w, work - 1, ANSWER);
    call(16 * w, w, limit == LOWER ? own_work(HIGHER) : own_work(LOWER), ANSWER);
    call(16 * w, w, work, ANSWER - 1);
    call(0, 0, 0, ANSWER);
    call(16 * w, w, work, ANSWER - 16);
    call(16 * w, w, work, 0);
}

/* One call on areas of the lengths that the line names, OUT/STEPS/WORK. */
static void at_lengths(char *lengths) {
    size_t lent[3];
    char *end = lengths;
    for (int i = 0; i < 3; i++) {
        if (i > 0 && *end++ != '/') fail("no three lengths");
        lent[i] = (size_t)strtoull(end, &end, 10);
        if (lent[i] > LENT_ROOM) fail("a length that is over what can be lent here");
    }
    if (*end != 0) fail("no three lengths");
    call(lent[0], lent[1], lent[2], ANSWER);
}

int main(int argc, char **argv) {
    long lines = 0, second = 0, higher = 0, accepted = 0, left_range = 0, named = 0, counted = 0;
    lent_begin();
    while (next_line()) {
        char *parts[9];
        name = line;
        size_t told = cut(line, parts, 9);
        if (told < 6) fail("not six parts");
        wanted.edition = told >= 7 ? (size_t)decimal(parts[6]) : 1;
        wanted.limit = told >= 8 ? (size_t)decimal(parts[7]) : LOWER;
        wanted.length = spelt(parts[1], given, sizeof given);
        if (!read_verdict(parts[2], wanted.numbers)) fail("no verdict");
        uint64_t number = wanted.numbers[0], *field = wanted.numbers + 7;
        struct verdict own = own_check(wanted.limit, given, wanted.length);
        if (number == 9 && own.number != 19) own = (struct verdict){9, 0, 0, 0};
        if (own.number != (number == 7 || number == 6 ? 0 : number)) fail("the test's own reading is refused otherwise");
        if (field[0] != 0 && (field[0] != own.what || field[1] != own.byte)) fail("the test's own reading finds something else wrong with the record");
        named += field[0] != 0;
        field[0] = own.what, field[1] = own.byte;
        counted += wanted.numbers[9] != 0;
        size_t count = strlen(parts[3]);
        if (count != wanted.numbers[3] || count > sizeof wanted_steps) fail("the steps are not as many as the verdict says");
        for (size_t i = 0; i < count; i++) wanted_steps[i] = (uint8_t)(parts[3][i] - '0');
        if (spelt(parts[4], wanted_out, sizeof wanted_out) != 16 * wanted.numbers[2]) fail("the records are not as many as the verdict says");
        wanted.weight = own_weight(given, wanted.length);
        if (number == 0 && wanted.weight != wanted.numbers[5]) fail("the weight is not the one that the verdict says");
        if (told == 9 && *parts[8] != 0) at_lengths(parts[8]);
        else if (number == 6) fail("6 is stored, and no lengths are");
        else at_limit(wanted.limit);
        /* a table up to the lower limit, with the same answer and bytes at the higher */
        if (told < 8 && own.number != 1 && own.number != 3) at_limit(HIGHER), higher++;
        higher += told >= 8 && wanted.limit == HIGHER;
        lines++;
        second += wanted.edition == 2;
        accepted += number == 0;
        left_range += number == 7;
    }
    if (argc != 3 || (uint64_t)lines != decimal(argv[2])) { printf("replay: %ld stored answers on standard input, not as many as they should be\n", lines); return 1; }
    printf("stored answers of %s: %ld tables (%ld by edition two, %ld at the limit 16,384; %ld accepted, %ld out of range, %ld refused otherwise, %ld with what is wrong, %ld with their tries), %ld calls, all bytes as stored\n",
           argv[1], lines, second, higher, accepted, left_range, lines - accepted - left_range, named, counted, calls);
    return 0;
}
