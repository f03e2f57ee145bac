/* text_random SEED COUNT [FROM]: the calls on text beside the plain reader and writer of plain_text.h. First every text of up to 7 characters over
   ( 1 ) + * ^ and of up to 5 with - s 0 2 besides; then COUNT random tables: each is written, its text read again, damaged in one or a few places and
   read again, in an area that is just long enough, longer, or too short. Every third time at the higher limit. Compared: every number of every answer
   and every lent byte. */
#include "../../include/simmergate.h"
#include "lent.h"
#include "own.h"
#include "text.h"
#include "tables.h"
#include "plain_text.h"
#include "damage.h"

static struct lent area = {.name = "area"}, answer = {.name = "answer"};
static uint8_t table[16 * TABLE_RECORDS], wanted[16 * 16384], texts[LENT_ROOM];
static char own[LENT_ROOM];
static long calls, accepted;

static void fail(const char *what, const uint8_t *s, size_t n) {
    printf("text_random: %s; text of %zu bytes: %.*s\n", what, n, (int)(n < 200 ? n : 200), (const char *)s);
    exit(1);
}

static size_t limit = 3072;

/* A text read by the call, with so many bytes of area more or less than it needs, and by the plain reader. */
static void reads(const uint8_t *s, size_t n, long more) {
    uint32_t node = plain_read(s, n);
    uint64_t weight = node == 0 ? 0 : plain_weight(), said[3] = {node == 0 ? 14 : weight > limit ? 3 : 0, 0, 0};
    size_t bytes = said[0] == 0 ? (size_t)(plain_records(node, wanted) - wanted) : 0;
    size_t length = more < 0 && (size_t)-more > bytes ? 0 : bytes + (size_t)more;
    if (said[0] == 0 && length < bytes) said[0] = 6;
    if (said[0] == 0) said[2] = bytes / 16, accepted++;
    uint8_t *to = lend(&area, length), *told = lend(&answer, 24);
    calls++;
    if (simmergate_read_text(limit, s, n, to, length, told, 24) != said[0]) fail("the returned number is another one", s, n);
    if (!holds(&answer, numbers(said, 3), 24, 24)) fail("the answer is another one", s, n);
    if (said[0] == 0 ? !holds(&area, wanted, bytes, bytes) : !untouched(&area)) fail("the area is another one", s, n);
}

/* Every text of `n` characters of `set`. */
static void each_of(const char *set, size_t n) {
    uint8_t s[8];
    size_t most = strlen(set), digits[8] = {0};
    for (;;) {
        for (size_t i = 0; i < n; i++) s[i] = (uint8_t)set[digits[i]];
        reads(s, n, 0);
        size_t i = 0;
        while (i < n && ++digits[i] == most) digits[i++] = 0;
        if (i == n) return;
    }
}

/* A random table written, beside the plain writer; its text's length. */
static size_t writes(size_t records) {
    const uint8_t *t = table;
    size_t n = (size_t)(plain_text(&t, "", own) - own);
    size_t length = n + below(3) - (n > 0 && chance(4));
    uint64_t said[5] = {length < n ? 6 : 0, 0, length < n ? 0 : n, 0, 0};
    uint8_t *to = lend(&area, length), *told = lend(&answer, 40);
    calls++;
    if (simmergate_write_text(limit, table, 16 * records, to, length, told, 40) != said[0]) fail("the writer returns another number", (uint8_t *)own, n);
    if (!holds(&answer, numbers(said, 5), 40, 40)) fail("the writer's answer is another one", (uint8_t *)own, n);
    if (said[0] == 0 ? !holds(&area, (uint8_t *)own, n, n) : !untouched(&area)) fail("the writer's area is another one", (uint8_t *)own, n);
    memcpy(texts, own, n);
    return n;
}

int main(int argc, char **argv) {
    if (argc < 3) { printf("usage: text_random SEED COUNT [FROM]\n"); return 2; }
    uint64_t seed = decimal(argv[1]), count = decimal(argv[2]), from = argc > 3 ? decimal(argv[3]) : 0;
    lent_begin();
    for (size_t n = 0; n <= 7; n++) each_of("(1)+*^", n);
    for (size_t n = 1; n <= 5; n++) each_of("(1)+*^-s02", n);
    long small = calls;
    for (uint64_t k = from; k < from + count; k++) {
        size_t records = random_table(table, seed, k, k % 20 == 0 ? 3072 : 60, 3072);
        limit = k % 3 == 0 ? 16384 : 3072;
        put_marks(table, 16 * records); /* which the writer passes by */
        size_t n = writes(records);
        reads(texts, n, (long)below(40) - (chance(4) ? 40 : 0));
        for (uint64_t times = 1 + below(4); times > 0; times--) n = damage_text(texts, n), reads(texts, n, (long)below(20));
    }
    printf("texts: %ld small ones, then %llu random tables of seed %llu written, read, damaged and read: %ld calls beside plain C, %ld texts accepted, all bytes equal\n", small,
           (unsigned long long)count, (unsigned long long)seed, calls, accepted);
    return 0;
}
