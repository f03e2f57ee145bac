/* text_replay LINES: replays tests/answers/text.tsv (standard input, so many lines) through simmergate_read_text and simmergate_write_text. On every
   line: the returned number, every byte of the answer slice and of the area, and the bytes around them; the same with a longer area, with each that is
   too short by one byte or by all, with an answer slice too short, at the higher limit where it answers alike, and at limits that there are not. What is accepted goes back through
   the other call. */
#include "../../include/simmergate.h"
#include "lent.h"
#include "text.h"

static struct lent area = {.name = "area"}, answer = {.name = "answer"}, back = {.name = "back"};
#define INPUT_ROOM (1 << 21)
static uint8_t input[INPUT_ROOM], wanted[LENT_ROOM];
static long calls, lines;

static void fail(const char *what) {
    printf("text_replay: line %ld: %s (area of %zu bytes, answer of %zu)\n", lines + 1, what, area.length, answer.length);
    exit(1);
}

/* The bytes that a column spells: `{N:x}` is x, N times; where the column is a text, \xNN is the byte NN, and any other character itself. */
static size_t unescaped(const char *from, const char *end, int is_text, uint8_t *to, size_t room) {
    size_t n = 0;
    while (from < end) {
        if (*from == '{') {
            char *x;
            uint64_t times = strtoull(from + 1, &x, 10);
            const char *close = strchr(x, '}');
            if (*x != ':' || close == NULL || close >= end) fail("a brace that is no repetition");
            size_t one = unescaped(x + 1, close, is_text, to + n, room - n);
            if (times == 0 || one == 0 || times > (room - n) / one) fail("no bytes, or too many");
            for (uint64_t i = 1; i < times; i++) memcpy(to + n + i * one, to + n, one);
            n += times * one, from = close + 1;
            continue;
        }
        if (n == room) fail("too many bytes");
        int escaped = is_text && *from == '\\' && from + 3 < end && from[1] == 'x';
        if (is_text && !escaped) { to[n++] = (uint8_t)*from++; continue; }
        if (escaped) from += 2;
        int high = digit(from[0]), low = from + 1 < end ? digit(from[1]) : -1;
        if (high < 0 || low < 0) fail("no hexadecimal digits");
        to[n++] = (uint8_t)(16 * high + low), from += 2;
    }
    return n;
}

static size_t limit = 3072;

static uint32_t call(int is_read, size_t bytes, size_t length, size_t slice) {
    uint8_t *a = lend(&area, length), *to = lend(&answer, slice);
    calls++;
    return is_read ? simmergate_read_text(limit, input, bytes, a, length, to, slice) : simmergate_write_text(limit, input, bytes, a, length, to, slice);
}

/* One call: what is returned, the answer (number, place, what was written, and of the writer what is wrong and which byte), the area. */
static void meets(int is_read, size_t bytes, size_t length, size_t slice, const uint64_t *said, size_t count) {
    size_t numbers_said = is_read ? 3 : 5;
    uint32_t number = call(is_read, bytes, length, slice);
    if (slice < 8 * numbers_said) {
        if (number != 6) fail("the answer is too short, and the call does not return 6");
        if (!untouched(&answer) || !untouched(&area)) fail("the answer is too short, and a byte changed");
        return;
    }
    if (number != said[0]) fail("the returned number is another one");
    /* after 2 the stored line does not say what is wrong with the record */
    if (number == 2 ? memcmp(answer.store + GUARD, numbers(said, 3), 24) != 0 : !holds(&answer, numbers(said, numbers_said), 8 * numbers_said, 8 * numbers_said))
        fail("the answer or what is around it is another one");
    if (number == 0 ? !holds(&area, wanted, count, count) : !untouched(&area)) fail("the area or what is around it is another one");
}

/* What was written goes back through the other call, and gives the input again. */
static void returns(int is_read, size_t bytes, size_t count) {
    uint8_t *to = lend(&back, bytes), *said = lend(&answer, 40);
    uint32_t number = is_read ? simmergate_write_text(limit, wanted, count, to, bytes, said, 40) : simmergate_read_text(limit, wanted, count, to, bytes, said, 40);
    calls++;
    if (number != 0) fail("what was written is refused by the other call");
    if (!holds(&back, input, bytes, bytes)) fail("what was written does not give the input again");
}

int main(int argc, char **argv) {
    lent_begin();
    while (next_line()) {
        char *parts[7];
        if (cut(line, parts, 7) != 7) fail("not seven parts");
        int is_read = strcmp(parts[0], "read") == 0;
        if (!is_read && strcmp(parts[0], "write") != 0) fail("neither read nor write");
        size_t bytes = unescaped(parts[1], parts[1] + strlen(parts[1]), is_read, input, INPUT_ROOM);
        size_t length = decimal(parts[2]), count = unescaped(parts[6], parts[6] + strlen(parts[6]), !is_read, wanted, LENT_ROOM);
        uint64_t said[5] = {decimal(parts[3]), decimal(parts[4]), decimal(parts[5]), 0, 0}, short_said[5] = {6, 0, 0, 0, 0};
        size_t slice = is_read ? 24 : 40;
        if (said[0] == 0 && count != said[2] * (is_read ? 16 : 1)) fail("the stored line contradicts itself");
        meets(is_read, bytes, length, slice, said, count);
        meets(is_read, bytes, length, slice + 1 + (size_t)(calls % 40), said, count);
        meets(is_read, bytes, length, slice - 1, said, count);
        meets(is_read, bytes, length, 0, said, count);
        if (said[0] != 6) meets(is_read, bytes, length + 1 + (size_t)(calls % 50), slice, said, count);
        if (said[0] == 0) {
            meets(is_read, bytes, count - 1, slice, short_said, 0);
            meets(is_read, bytes, 0, slice, short_said, 0);
            returns(is_read, bytes, count);
        }
        static const size_t none[] = {0, 1, 3071, 3073, 16383, 16385, (size_t)-1};
        uint64_t unlimited[5] = {19, 0, 0, 0, 0};
        limit = none[lines % 7];
        meets(is_read, bytes, length, slice, unlimited, 0);
        limit = 16384;
        if (said[0] != 1 && said[0] != 3) meets(is_read, bytes, length, slice, said, count);
        limit = 3072;
        lines++;
    }
    if (argc != 2 || (uint64_t)lines != decimal(argv[1])) { printf("text_replay: %ld stored lines on standard input, not as many as they should be\n", lines); return 1; }
    printf("stored texts: %ld lines, %ld calls, all bytes as stored\n", lines, calls);
    return 0;
}
