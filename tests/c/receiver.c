/* receiver LINES: replays tests/answers/receiver.tsv (standard input, so many lines) through simmergate_receive and simmergate_receive_finish, at the
   limit 3,072. On every call: the returned number, every byte of the record, of the area and of the answer slice, and the bytes around them. Each call
   is tried before with what must be refused: a record or an answer slice that is too short, a limit that there is not, an area that is too
   short, and two of these at once. What is wrong with a record after 2 is a plain reading's (own.c). */
#include "../../include/simmergate.h"
#include "lent.h"
#include "own.h"
#include "text.h"

enum { LIMIT = LOWER, RECEIVER = SIMMERGATE_RECEIVER, CHECK = SIMMERGATE_CHECK_BYTES };

static struct lent state = {.name = "record"}, area = {.name = "area"}, answer = {.name = "answer"};
static uint8_t held[LENT_ROOM], piece[LENT_ROOM], wanted_area[LENT_ROOM];
static uint64_t tally[2]; /* the record: count and past */
static size_t bytes, piece_bytes;
static const char *name;
static long calls;

static void fail(const char *what, const char *call) {
    printf("receiver: line `%s`: %.40s: %s (a record of %zu bytes, an area of %zu, an answer of %zu)\n", name, call, what, state.length, area.length, answer.length);
    exit(1);
}

static size_t least(size_t a, size_t b) { return a < b ? a : b; }

/* What a call is given: its limit, and the lengths of record, area and answer slice. */
struct given {
    size_t limit, state, area, answer;
};

/* One call, a finish or the piece, with everything lent anew. */
static uint32_t make_call(int finish, struct given g) {
    uint8_t *s = lend(&state, g.state), *a = lend(&area, g.area), *to = lend(&answer, g.answer);
    memcpy(s, numbers(tally, 2), least(g.state, RECEIVER));
    memcpy(a, held, g.area);
    calls++;
    return finish ? simmergate_receive_finish(g.limit, s, g.state, a, g.area, to, g.answer)
                  : simmergate_receive(g.limit, s, g.state, a, g.area, piece, piece_bytes);
}

/* Record and area are as they should be: the record's 16 bytes, or as many as were lent, and the area's. */
static void see_both(const char *call) {
    size_t n = least(state.length, RECEIVER);
    if (!holds(&state, numbers(tally, 2), n, n)) fail("the record or what is around it is another one", call);
    if (!holds(&area, held, area.length, area.length)) fail("the area or what is around it is another one", call);
}

/* The answer slice: untouched, or four numbers at its front. */
static void see_answer(const char *call, int finish, int written, const uint64_t *wanted) {
    if (!finish || !written) {
        if (!untouched(&answer)) fail("a byte of the answer slice changed", call);
    } else if (!holds(&answer, numbers(wanted, 4), CHECK, CHECK)) fail("the answer or what is around it is another one", call);
}

/* A call that must be refused by this number, and change nothing but, where there is room, the finish's answer. */
static void refused(const char *call, int finish, struct given g, uint32_t number) {
    uint64_t wanted[4] = {number, 0, 0, 0};
    if (make_call(finish, g) != number) fail("a call that must be refused is not, or by another number", call);
    see_both(call);
    see_answer(call, finish, g.state >= RECEIVER && g.answer >= CHECK, wanted);
}

static void refusals(const char *call, int finish) {
    size_t none = own_no_limit((uint64_t)calls), few = least(bytes, SIMMERGATE_TABLE_BYTES(LIMIT) - 1);
    refused(call, finish, (struct given){LIMIT, RECEIVER - 1, bytes, CHECK}, 6);
    refused(call, finish, (struct given){none, 0, bytes, CHECK}, 6);
    refused(call, finish, (struct given){none, RECEIVER, bytes, CHECK}, 19);
    refused(call, finish, (struct given){none, RECEIVER + 3, few, CHECK + 5}, 19);
    refused(call, finish, (struct given){LIMIT, RECEIVER, few, CHECK}, 6);
    refused(call, finish, (struct given){LIMIT, RECEIVER + 9, few - few / 3, CHECK + 1}, 6);
    refused(call, finish, (struct given){HIGHER, RECEIVER, bytes, CHECK}, 6);
    if (!finish) return;
    refused(call, finish, (struct given){LIMIT, RECEIVER, bytes, CHECK - 1}, 6);
    refused(call, finish, (struct given){none, RECEIVER, bytes, 0}, 6);
}

/* `COUNT,PAST` */
static void read_tally(const char *text, uint64_t *to) {
    char *end;
    to[0] = strtoull(text, &end, 10);
    if (*end != ',') fail("no count and past", text);
    to[1] = strtoull(end + 1, &end, 10);
    if (*end != 0) fail("more than count and past", text);
}

/* A call of the line, and what is said of it: `NUMBER:COUNT,PAST`, at a finish `NUMBER@PLACE:COUNT,PAST`. */
static void operation(char *call, char *said) {
    int finish = strcmp(call, "finish") == 0;
    char shown[41], *end;
    snprintf(shown, sizeof shown, "%s", call);
    if (!finish) piece_bytes = spelt(call, piece, LENT_ROOM);
    refusals(shown, finish);
    uint64_t wanted[4] = {strtoull(said, &end, 10), 0, 0, 0}, after[2];
    if (finish && *end == '@') wanted[1] = strtoull(end + 1, &end, 10);
    if (*end != ':') fail("no number, or no place", shown);
    read_tally(end + 1, after);
    if (wanted[0] == 2) {
        struct verdict v = own_check(LIMIT, held, tally[0]);
        wanted[2] = v.what, wanted[3] = v.byte;
    }
    uint32_t number = make_call(finish, (struct given){LIMIT, RECEIVER + (size_t)(calls % 40), bytes, CHECK + (size_t)(calls % 30)});
    if (number != wanted[0]) fail("the returned number is another one", shown);
    if (!finish && after[0] > tally[0] && after[0] <= bytes && after[0] - tally[0] <= piece_bytes) memcpy(held + tally[0], piece, after[0] - tally[0]);
    memcpy(tally, after, sizeof tally);
    see_both(shown);
    see_answer(shown, finish, 1, wanted);
}

/* Cuts the first part off at a space; what follows, or NULL. */
static char *rest_of(char *text) {
    char *end = strchr(text, ' ');
    if (end == NULL) return NULL;
    *end = 0;
    return end + 1;
}

int main(int argc, char **argv) {
    long lines = 0, operations = 0;
    lent_begin();
    while (next_line()) {
        char *parts[6];
        name = line;
        if (cut(line, parts, 6) != 6) fail("not six parts", "");
        read_tally(parts[1], tally);
        bytes = decimal(parts[2]);
        if (bytes > LENT_ROOM) fail("an area longer than this program lends", "");
        memset(held, 0xa5, bytes);
        char *call = parts[3], *said = parts[4];
        while (call != NULL && said != NULL) {
            char *next_call = rest_of(call), *next_said = rest_of(said);
            operation(call, said);
            call = next_call, said = next_said;
            operations++;
        }
        if (call != NULL || said != NULL) fail("not as many answers as calls", "");
        if (spelt(parts[5], wanted_area, LENT_ROOM) != bytes || memcmp(wanted_area, held, bytes) != 0) fail("the area afterwards is another one", "all calls");
        lines++;
    }
    if (argc != 2 || (uint64_t)lines != decimal(argv[1])) { printf("receiver: %ld stored lines on standard input, not as many as they should be\n", lines); return 1; }
    printf("stored pieces: %ld records and areas, %ld calls in turn, %ld calls, all bytes as stored\n", lines, operations, calls);
    return 0;
}
