/* equal LINES: simmergate_equal against the stored answers, every line of standard input, and on pairs that are built here, whose answer is
   known by construction: the deepest trees, sums of 1,000 and of 3,071 members, and ten levels of pairs; at the limit 3,072, and all of it that is
   up to that limit at 16,384 too; and there the deepest trees and the longest sums that only it accepts. Each pair is also exchanged, and each
   stored table compared with a copy of itself. Every lent area has canary bytes on both sides and a length of its own. */
#include "../../include/simmergate.h"
#include "own.h"
#include "text.h"

enum { GUARD = 64, LONGEST = RECORD * (HIGHER + 4), ANSWER = SIMMERGATE_EQUAL_BYTES, NUMBERS = ANSWER / 8, MOST_MEMBERS = 16383, LEVELS = 10, LEAVES = 1 << LEVELS };

/* An area that is lent to a call: canary bytes, the area, canary bytes; and what the area held before. */
struct room {
    uint8_t cells[GUARD + 8 + LONGEST + GUARD], before[LONGEST], *start;
    size_t bytes;
};

static struct room first, second, answer;
static const char *now, *but = "";
static unsigned long calls, turn;
static size_t limit = LOWER;
static int depth = 1535; /* of the deepest trees that the limit accepts */

static uint8_t canary(size_t i) { return (uint8_t)(0xa5 ^ (i * 7)); }

/* Lends the bytes given, or canary bytes where none are, at a start of any alignment. */
static void lend(struct room *r, const uint8_t *given, size_t bytes, unsigned long at) {
    r->start = r->cells + GUARD + at % 8;
    r->bytes = bytes;
    for (size_t i = 0; i < GUARD; i++) r->start[-1 - (int)i] = r->start[bytes + i] = canary(i);
    if (given) memcpy(r->before, given, bytes);
    else for (size_t i = 0; i < bytes; i++) r->before[i] = canary(i);
    memcpy(r->start, r->before, bytes);
}

static void fail(const char *what, uint64_t expected, uint64_t got) {
    printf("equal: %s%s: two tables of %zu and %zu bytes at the limit %zu, %zu bytes for the answer: %s is %llu, and should be %llu\n", now, but, first.bytes, second.bytes,
           limit, answer.bytes, what, (unsigned long long)got, (unsigned long long)expected);
    exit(1);
}

/* In the area from byte `from` on, and around it, nothing changed. */
static void kept(const char *what, const struct room *r, size_t from) {
    if (memcmp(r->start + from, r->before + from, r->bytes - from))
        for (size_t i = from; i < r->bytes; i++)
            if (r->start[i] != r->before[i]) fail(what, r->before[i], r->start[i]);
    for (size_t i = 0; i < GUARD; i++) {
        if (r->start[-1 - (int)i] != canary(i)) fail("a byte before a lent area", canary(i), r->start[-1 - (int)i]);
        if (r->start[r->bytes + i] != canary(i)) fail("a byte after a lent area", canary(i), r->start[r->bytes + i]);
    }
}

/* The numbers of an answer; the last two say what is wrong with a record. */
struct numbers {
    uint64_t is[NUMBERS];
};

/* The call with `room` bytes for the answer must return and write these numbers; 6, and nothing, where they do not fit. */
static void call(size_t room, struct numbers expected) {
    static const char *const names[] = {"the number", "the place", "the table refused", "yes or no", "what is wrong", "which byte"};
    size_t written = room < ANSWER ? 0 : ANSWER;
    lend(&answer, NULL, room, turn / 3);
    uint32_t r = simmergate_equal(limit, first.start, first.bytes, second.start, second.bytes, answer.start, answer.bytes);
    if (r != (written ? expected.is[0] : 6)) fail("the return", written ? expected.is[0] : 6, r);
    for (size_t i = 0; i < written / 8; i++) {
        uint64_t got = own_number(answer.start + 8 * i);
        if (got != expected.is[i]) fail(names[i], expected.is[i], got);
    }
    kept("a byte past the answer", &answer, written);
    kept("a byte of the first table", &first, 0);
    kept("a byte of the second table", &second, 0);
    calls++;
}

/* The answer that the test's own reading of two tables leads to, trees that are not refused being equal or not. */
static struct numbers led_to(const uint8_t *a, size_t a_bytes, const uint8_t *b, size_t b_bytes, uint64_t yes) {
    struct verdict v = own_check(limit, a, a_bytes), w = own_check(limit, b, b_bytes);
    if (v.number) return (struct numbers){{v.number, v.place, 1, 0, v.what, v.byte}};
    if (w.number) return (struct numbers){{w.number, w.place, 2, 0, w.what, w.byte}};
    return (struct numbers){{0, 0, 0, yes, 0, 0}};
}

static void lend_both(const uint8_t *a, size_t a_bytes, const uint8_t *b, size_t b_bytes) {
    turn++;
    lend(&first, a, a_bytes, turn);
    lend(&second, b, b_bytes, 3 * turn + 1);
}

/* A pair: with just enough room for the answer, with room to spare, and with too little; the answer at the higher limit, which is the same where
   both tables are up to the lower; and 19 at a limit that there is not. */
static void pair(const uint8_t *a, size_t a_bytes, const uint8_t *b, size_t b_bytes, struct numbers expected) {
    size_t now_at = limit;
    lend_both(a, a_bytes, b, b_bytes);
    call(ANSWER, expected);
    call(turn % ANSWER, expected);
    if (turn % 4 == 0) call(ANSWER + 1 + turn % 41, expected);
    if (limit == LOWER && expected.is[0] != 1 && expected.is[0] != 3) limit = HIGHER, call(ANSWER, expected);
    limit = own_no_limit(turn);
    if (turn % 4 == 1) call(ANSWER, (struct numbers){{19, 0, 0, 0, 0, 0}});
    limit = now_at;
}

/* A pair, whose first four numbers are these, and the pair exchanged; what is wrong with a record is as own.c says. */
static void pairs(const char *name, const uint8_t *a, size_t a_bytes, const uint8_t *b, size_t b_bytes, struct numbers expected) {
    uint64_t yes = expected.is[3];
    struct numbers own = led_to(a, a_bytes, b, b_bytes, yes);
    now = name;
    lend_both(a, a_bytes, b, b_bytes);
    for (int i = 0; i < 4; i++)
        if (own.is[i] != expected.is[i]) fail("a number by the test's own reading", expected.is[i], own.is[i]);
    pair(a, a_bytes, b, b_bytes, own);
    pair(b, b_bytes, a, a_bytes, led_to(b, b_bytes, a, a_bytes, yes));
}

/* Two tables under construction. */
static uint8_t t[2][LONGEST];
static size_t bytes[2];

static unsigned long lines, yes_lines, by_number[6];

/* The stored answers: name, two tables, the first four numbers. */
static void stored(void) {
    while (next_line()) {
        char *parts[4], *end;
        struct numbers expected = {{0, 0, 0, 0, 0, 0}};
        now = line;
        if (cut(line, parts, 4) != 4) fail("the parts of the stored line", 4, 0);
        for (int w = 0; w < 2; w++) bytes[w] = unhex(parts[1 + w], t[w], sizeof t[w]);
        end = parts[3];
        for (int i = 0; i < 4; i++) expected.is[i] = strtoull(end, &end, 10);
        if (*end != 0 || expected.is[0] > 5) fail("the end of the four stored numbers", 0, (uint64_t)*end);
        pairs(now, t[0], bytes[0], t[1], bytes[1], expected);
        for (int w = 0; w < 2; w++) pair(t[w], bytes[w], t[w], bytes[w], led_to(t[w], bytes[w], t[w], bytes[w], 1));
        lines++, yes_lines += expected.is[3], by_number[expected.is[0]]++;
    }
}

static uint64_t seed = 0x13198a2e03707344;

static uint64_t dice(uint64_t n) {
    seed ^= seed << 13, seed ^= seed >> 7, seed ^= seed << 17;
    return seed % n;
}

static void shuffle(uint64_t *numbers, size_t n) {
    for (size_t i = n; i > 1; i--) {
        size_t j = dice(i);
        uint64_t x = numbers[i - 1];
        numbers[i - 1] = numbers[j], numbers[j] = x;
    }
}

static void put(int w, unsigned kind, unsigned count, uint64_t number) {
    uint8_t *r = t[w] + bytes[w];
    memset(r, 0, RECORD);
    r[0] = (uint8_t)kind;
    r[2] = (uint8_t)count;
    r[3] = (uint8_t)(count >> 8);
    own_bytes(r + 8, number);
    bytes[w] += RECORD;
}

static unsigned long yes_built, no_built;

/* The two tables that were built are equal, or not because of a difference that is named. */
static void built(const char *name, const char *difference) {
    uint64_t yes = *difference == 0;
    but = difference;
    pairs(name, t[0], bytes[0], t[1], bytes[1], (struct numbers){{0, 0, 0, yes, 0, 0}});
    for (size_t room = 0; room < ANSWER; room++) call(room, (struct numbers){{0, 0, 0, 0, 0, 0}});
    *(yes ? &yes_built : &no_built) += 1;
    but = "";
}

/* The leaves of a chain from the outermost to the innermost. */
static uint64_t leaf[HIGHER];

/* As many nodes of one kind as the limit accepts, each the first member of the one around it, or the last; the innermost node may be of another kind. */
static void chain(int w, unsigned kind, unsigned innermost, int deep_first) {
    bytes[w] = 0;
    for (int d = 0; d < depth; d++) {
        unsigned k = d == depth - 1 ? innermost : kind;
        put(w, k, k == 4 ? 0 : 2, 0);
        if (k != 4 && !deep_first) put(w, 0, 0, leaf[d]);
    }
    put(w, 0, 0, leaf[depth]);
    for (int d = depth - 1; d >= 0; d--)
        if (kind == 4 || deep_first) put(w, 0, 0, leaf[d]);
}

static void chains(void) {
    static const char *const kinds[] = {"the deepest sums", "the deepest products", "the deepest powers"};
    const int leaves[] = {0, 1, depth / 2, depth - 1, depth};
    for (unsigned kind = 2; kind <= 4; kind++)
        for (int order = 0; order < (kind == 4 ? 1 : 4); order++) {
            int one = order / 2, other = order % 2;
            for (int d = 0; d <= depth; d++) leaf[d] = 3 + (uint64_t)d;
            chain(0, kind, kind, one), chain(1, kind, kind, other);
            built(kinds[kind - 2], "");
            if (kind != 4) chain(1, kind, 5 - kind, other), built(kinds[kind - 2], ", the innermost of the other kind");
            for (size_t i = 0; i < sizeof leaves / sizeof *leaves; i++) {
                int d = leaves[i];
                leaf[d] += 5000;
                chain(1, kind, kind, other);
                built(kinds[kind - 2], ", one leaf changed");
                leaf[d] -= 5000;
            }
            for (int d = 0; d < depth - 1; d += depth - 2) {
                uint64_t x = leaf[d];
                leaf[d] = leaf[d + 1], leaf[d + 1] = x;
                chain(1, kind, kind, other);
                built(kinds[kind - 2], ", the leaves of two levels exchanged");
                leaf[d + 1] = leaf[d], leaf[d] = x;
            }
        }
}

/* Of the deepest trees of the higher limit fewer: the deep member on the same side and on the other, and another innermost leaf. */
static void deepest(void) {
    static const char *const kinds[] = {"8,191 sums one inside the other", "8,191 products one inside the other", "8,191 powers one inside the other"};
    for (unsigned kind = 2; kind <= 4; kind++) {
        for (int d = 0; d <= depth; d++) leaf[d] = 3 + (uint64_t)d;
        chain(0, kind, kind, 1), chain(1, kind, kind, 1);
        built(kinds[kind - 2], "");
        if (kind != 4) chain(1, kind, kind, 0), built(kinds[kind - 2], "");
        leaf[depth] = 9999;
        chain(1, kind, kind, 1);
        built(kinds[kind - 2], ", the innermost leaf changed");
    }
}

/* A sum or a product of so many integers, symbols, or powers of integers. */
static void wide(int w, unsigned kind, unsigned of, const uint64_t *members, unsigned n) {
    bytes[w] = 0;
    put(w, kind, n, 0);
    for (unsigned i = 0; i < n; i++) {
        if (of == 4) put(w, 4, 0, 0), put(w, 0, 0, members[i] / 2), put(w, 0, 0, 1 + members[i] % 2);
        else put(w, of, 0, members[i]);
    }
}

static void sums(const char *name, unsigned kind, unsigned of, unsigned n) {
    static uint64_t members[MOST_MEMBERS];
    for (unsigned i = 0; i < n; i++) members[i] = of == 1 ? i % 256 : i;
    wide(0, kind, of, members, n);
    shuffle(members, n);
    wide(1, kind, of, members, n);
    built(name, "");
    unsigned at = (unsigned)dice(n);
    uint64_t x = members[at];
    members[at] = of == 1 ? (x + 1) % 256 : n + x;
    wide(1, kind, of, members, n);
    built(name, ", one member changed");
    unsigned next = (at + 1) % n;
    while (members[next] == x) next = (next + 1) % n;
    members[at] = members[next];
    wide(1, kind, of, members, n);
    built(name, ", one member twice and another not");
    members[at] = x;
    wide(1, 5 - kind, of, members, n);
    built(name, ", a sum against a product");
    if (n > 1000) return;
    wide(1, kind, of, members, n - 1);
    built(name, ", one member fewer");
}

/* The longest sum, and the same with its first member last: each member is found where it was looked for first or next. */
static void wide_and_shifted(const char *name) {
    static uint64_t members[MOST_MEMBERS];
    for (unsigned i = 0; i < MOST_MEMBERS; i++) members[i] = i;
    wide(0, 2, 0, members, MOST_MEMBERS);
    for (unsigned i = 0; i < MOST_MEMBERS; i++) members[i] = (i + 1) % MOST_MEMBERS;
    wide(1, 2, 0, members, MOST_MEMBERS);
    built(name, "");
}

/* Ten levels of pairs over the leaves from `from` on, sums and products by turns, in any order. */
static void levels(int w, const uint64_t *from, int level, int shuffled) {
    if (level == 0) {
        put(w, 0, 0, *from);
        return;
    }
    const uint64_t *half = from + (1 << (level - 1));
    int turned = shuffled && dice(2);
    put(w, level % 2 ? 2 : 3, 2, 0);
    levels(w, turned ? half : from, level - 1, shuffled);
    levels(w, turned ? from : half, level - 1, shuffled);
}

static void trees(const char *name, uint64_t distinct) {
    static uint64_t numbers[LEAVES];
    for (int i = 0; i < LEAVES; i++) numbers[i] = (uint64_t)i % distinct;
    bytes[0] = bytes[1] = 0;
    levels(0, numbers, LEVELS, 0), levels(1, numbers, LEVELS, 1);
    built(name, "");
    for (int i = 0; i < LEAVES; i += LEAVES - 1) {
        uint64_t x = numbers[i];
        numbers[i] = 5000;
        bytes[1] = 0, levels(1, numbers, LEVELS, 1);
        built(name, ", one leaf changed");
        numbers[i] = x;
    }
    if (distinct < LEAVES) return;
    numbers[1] = 2, numbers[2] = 1;
    bytes[1] = 0, levels(1, numbers, LEVELS, 1);
    built(name, ", two leaves exchanged between siblings");
}

/* Lengths that are refused on either side, and areas of no byte at no address. */
static void lengths(void) {
    static const size_t wrong[] = {0, 1, 15, 17, 31, MOST_BYTES - 1, MOST_BYTES + 1, MOST_BYTES + RECORD};
    memset(t, 0, sizeof t);
    for (size_t i = 0; i < sizeof wrong / sizeof *wrong; i++) {
        pairs("a length that is refused, first", t[0], wrong[i], t[1], RECORD, (struct numbers){{1, 0, 1, 0, 0, 0}});
        pairs("a length that is refused, second", t[0], RECORD, t[1], wrong[i], (struct numbers){{1, 0, 2, 0, 0, 0}});
    }
    pairs("a record too many, and a length that is refused", t[0], 2 * RECORD, t[1], 1, (struct numbers){{4, 1, 1, 0, 0, 0}});
    pairs("one record, and 3,072 of them", t[0], RECORD, t[1], MOST_BYTES, (struct numbers){{4, 1, 2, 0, 0, 0}});
    now = "areas of no byte, at no address";
    if (simmergate_equal(0, NULL, 0, NULL, 0, NULL, 0) != 6) fail("the return without an answer slice", 6, 0);
    lend(&answer, NULL, ANSWER, 0);
    if (simmergate_equal(LOWER, NULL, 0, NULL, 0, answer.start, ANSWER) != 1) fail("the return without tables", 1, 0);
    if (own_number(answer.start + 16) != 1) fail("the table refused", 1, own_number(answer.start + 16));
    if (simmergate_equal(HIGHER, t[0], RECORD, NULL, 0, answer.start, ANSWER) != 1) fail("the return without a second table", 1, 0);
    if (own_number(answer.start + 16) != 2) fail("the table refused", 2, own_number(answer.start + 16));
    calls += 3;
}

int main(int argc, char **argv) {
    stored();
    if (argc != 2 || lines != decimal(argv[1])) { printf("equal: %lu stored lines, not as many as there should be\n", lines); return 1; }
    lengths();
    chains();
    sums("a sum of 1,000 integers, shuffled", 2, 0, 1000);
    sums("a sum of 1,000 symbols, shuffled", 2, 1, 1000);
    sums("a sum of 1,000 powers, shuffled", 2, 4, 1000);
    sums("a product of 1,000 powers, shuffled", 3, 4, 1000);
    sums("a sum of 3,071 integers, shuffled", 2, 0, 3071);
    trees("ten levels of pairs, shuffled", LEAVES);
    trees("ten levels of pairs over one leaf", 1);
    trees("ten levels of pairs over three leaves, shuffled", 3);
    limit = HIGHER, depth = 8191;
    deepest();
    sums("a sum of 3,276 powers, shuffled", 2, 4, 3276);
    wide_and_shifted("a sum of 16,383 integers, and the same turned by one");
    printf("equal: %lu stored lines agree (%lu yes, %lu no, refused 1: %lu, 2: %lu, 3: %lu, 4: %lu, 5: %lu), and %lu deep and wide pairs (%lu yes, %lu no); "
           "%lu calls\n",
           lines, yes_lines, by_number[0] - yes_lines, by_number[1], by_number[2], by_number[3], by_number[4], by_number[5], yes_built + no_built, yes_built,
           no_built, calls);
    return 0;
}
