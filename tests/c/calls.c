/* calls LINES: the five entry points against the stored answers and against the plain reading in own.c, at both limits and at limits that there
   are not: every line of standard input, lengths around the edges, each kind with each byte set, tables of 3,072 and of 16,384 records, and random trees, whole and damaged. Every lent area has canary
   bytes on both sides and a length of its own. Equality is asked of a table and itself, and of a small good table and it; the simplifier is
   lent areas of no byte, so that it judges alone, and for each kind with each byte areas that are large enough. */
#include "../../include/simmergate.h"
#include "own.h"
#include "text.h"

enum { GUARD = 64, LONGEST = 524288 + 4 * RECORD, REGISTER_BYTES = 8 * REGISTERS, MOST_NUMBERS = 10 };

/* An area that is lent to a call: canary bytes, the area, canary bytes; and what the area held before. */
struct room {
    uint8_t cells[GUARD + 8 + LONGEST + GUARD], before[LONGEST], *start;
    size_t bytes;
};

static struct room table, copy, small, registers, out, steps, work, answer;
static uint64_t held[REGISTERS];
static const char *now;
static unsigned long calls, turn;

static uint8_t canary(size_t i) { return (uint8_t)(0xa5 ^ (i * 7)); }

/* Lends the bytes given, or canary bytes where none are, at a start of any alignment. */
static void lend(struct room *r, const uint8_t *given, size_t bytes) {
    r->start = r->cells + GUARD + turn % 8;
    r->bytes = bytes;
    for (size_t i = 0; i < GUARD; i++) r->start[-1 - (int)i] = r->start[bytes + i] = canary(i);
    for (size_t i = 0; i < bytes; i++) r->before[i] = given ? given[i] : canary(i);
    memcpy(r->start, r->before, bytes);
}

static void fail(const char *call, const char *what, uint64_t expected, uint64_t got) {
    printf("calls: %s: %s of %zu, %zu and %zu bytes: %s is %llu, and should be %llu\n", now, call, table.bytes, registers.bytes, answer.bytes, what,
           (unsigned long long)got, (unsigned long long)expected);
    exit(1);
}

/* In the area from byte `from` on, and around it, nothing changed. */
static void kept(const char *call, const char *what, const struct room *r, size_t from) {
    for (size_t i = from; i < r->bytes; i++)
        if (r->start[i] != r->before[i]) fail(call, what, r->before[i], r->start[i]);
    for (size_t i = 0; i < GUARD; i++) {
        if (r->start[-1 - (int)i] != canary(i)) fail(call, "a byte before a lent area", canary(i), r->start[-1 - (int)i]);
        if (r->start[r->bytes + i] != canary(i)) fail(call, "a byte after a lent area", canary(i), r->start[r->bytes + i]);
    }
}

/* The calls, EQUAL being of a table and itself, SECOND of a small good table and it; and how many numbers their answers have. */
enum entry { CHECK, WEIGHT, VALUE, EQUAL, SECOND, SIMPLIFY, ENTRIES };
static const char *const names[] = {"simmergate_check", "simmergate_weight", "simmergate_value", "simmergate_equal of it and itself",
                                    "simmergate_equal of a good table and it", "simmergate_simplify"};
static const size_t enough[] = {SIMMERGATE_CHECK_BYTES, SIMMERGATE_WEIGHT_BYTES, SIMMERGATE_VALUE_BYTES, SIMMERGATE_EQUAL_BYTES,
                                SIMMERGATE_EQUAL_BYTES, SIMMERGATE_SIMPLIFY_BYTES};

static size_t limit = LOWER, edition = 1; /* the limit of every call, and of the rules that the simplifier is to take */

static uint32_t make(enum entry entry) {
    switch (entry) {
    case CHECK: return simmergate_check(limit, table.start, table.bytes, answer.start, answer.bytes);
    case WEIGHT: return simmergate_weight(limit, table.start, table.bytes, answer.start, answer.bytes);
    case VALUE: return simmergate_value(limit, table.start, table.bytes, registers.start, registers.bytes, answer.start, answer.bytes);
    case EQUAL: return simmergate_equal(limit, table.start, table.bytes, copy.start, copy.bytes, answer.start, answer.bytes);
    case SECOND: return simmergate_equal(limit, small.start, small.bytes, table.start, table.bytes, answer.start, answer.bytes);
    default:
        return simmergate_simplify(limit, edition, table.start, table.bytes, out.start, out.bytes, steps.start, steps.bytes, work.start, work.bytes,
                                   answer.start, answer.bytes);
    }
}

/* Which number of an answer is what is wrong with a record; the byte comes after it, and last the simplifier's tries. */
static size_t flaw_at(enum entry entry) { return enough[entry] / 8 - (entry == SIMPLIFY ? 3 : 2); }

/* The numbers that a call must answer: a table is refused by v, or it has this result. */
static void answers(enum entry entry, struct verdict v, uint64_t result, uint64_t *numbers) {
    size_t n = flaw_at(entry);
    memset(numbers, 0, MOST_NUMBERS * sizeof *numbers);
    numbers[0] = v.number, numbers[1] = v.place, numbers[n] = v.what, numbers[n + 1] = v.byte;
    if (entry == WEIGHT || entry == VALUE) numbers[2] = v.number ? 0 : result;
    int refused = v.number != 0 && v.number != 19; /* 19 is of the limit, and of neither table */
    if (entry == EQUAL || entry == SECOND) numbers[2] = refused ? (entry == EQUAL ? 1 : 2) : 0, numbers[3] = v.number ? 0 : result;
}

/* A call with `room` bytes for its answer must return and write these numbers; 6, and nothing, where they do not fit. */
static void call(enum entry entry, size_t room, const uint64_t *numbers) {
    const char *name = names[entry];
    size_t written = room < enough[entry] ? 0 : enough[entry];
    lend(&answer, NULL, room);
    uint32_t r = make(entry);
    if (r != (written ? numbers[0] : 6)) fail(name, "the return", written ? numbers[0] : 6, r);
    for (size_t i = 0; i < written / 8; i++) {
        uint64_t got = own_number(answer.start + 8 * i);
        const char *what = i == 0 ? "the number" : i == 1 ? "the place" : i == flaw_at(entry) ? "what is wrong" : i == flaw_at(entry) + 1 ? "which byte" : "a result";
        if (got != numbers[i]) fail(name, what, numbers[i], got);
    }
    kept(name, "a byte past the answer", &answer, written);
    kept(name, "a byte of the table", &table, 0);
    kept(name, "a byte of the table's copy", &copy, 0);
    kept(name, "a byte of the small table", &small, 0);
    kept(name, "a byte of the registers", &registers, 0);
    calls++;
}

/* Lends a table and what the calls on it take besides; the simplifier has no byte to write to. */
static void lend_all(const char *name, const uint8_t *t, size_t bytes) {
    static const uint8_t zero[RECORD];
    uint8_t numbers[REGISTER_BYTES];
    now = name;
    turn++;
    for (int k = 0; k < REGISTERS; k++) own_bytes(numbers + 8 * k, held[k]);
    lend(&table, t, bytes);
    lend(&copy, t, bytes);
    lend(&small, zero, RECORD);
    lend(&registers, numbers, REGISTER_BYTES);
    lend(&out, NULL, 0), lend(&steps, NULL, 0), lend(&work, NULL, 0);
}

/* What a call on the table that is lent must say of it, its verdict being v. */
static void led_to(enum entry entry, const uint8_t *t, size_t bytes, struct verdict v, uint64_t *numbers) {
    uint64_t result = 0;
    if (v.number == 0) {
        if (entry == WEIGHT) result = own_weight(t, bytes);
        if (entry == VALUE) result = own_value(t, held);
        if (entry == EQUAL) result = 1;
        if (entry == SECOND) result = bytes == RECORD && t[0] == 0 && own_number(t + 8) == 0; /* whatever its mark */
        if (entry == SIMPLIFY) v = (struct verdict){6, 0, 0, 0};
    }
    answers(entry, v, result, numbers);
}

/* All calls on a table at a limit, where its verdict is v: with room to spare, with just enough, with too little; with an edition that there is
   not, which is 9 whatever the table; and with registers of another length. */
static void at_limit(size_t at, const char *name, const uint8_t *t, size_t bytes, struct verdict v) {
    static const size_t unknown[] = {0, 3, 255, 257, 258, 65537, (size_t)1 << 32 | 1, (size_t)1 << 32 | 2, (size_t)-1};
    static const size_t lengths[] = {0, 1, 8, 16, 2040, 2047, 2049, 2056, 4096};
    uint64_t numbers[MOST_NUMBERS];
    limit = at;
    lend_all(name, t, bytes);
    for (enum entry entry = 0; entry < ENTRIES; entry++) {
        led_to(entry, t, bytes, v, numbers);
        call(entry, enough[entry], numbers);
        call(entry, enough[entry] + 1 + turn % 41, numbers);
        call(entry, turn % enough[entry], numbers);
    }
    edition = unknown[turn % (sizeof unknown / sizeof *unknown)];
    answers(SIMPLIFY, (struct verdict){9, 0, 0, 0}, 0, numbers);
    call(SIMPLIFY, enough[SIMPLIFY] + turn % 5, numbers);
    call(SIMPLIFY, turn % enough[SIMPLIFY], numbers);
    edition = 1 + turn % 2;
    lend(&registers, NULL, lengths[turn % (sizeof lengths / sizeof *lengths)]);
    answers(VALUE, v.number ? v : (struct verdict){6, 0, 0, 0}, 0, numbers);
    call(VALUE, enough[VALUE] + turn % 5, numbers);
}

/* All calls on a table, whose verdict at the lower limit is v: at both limits, where a table up to the lower one says the same at both, and at a
   limit that there is not, which is 19 whatever else is handed in. */
static void all(const char *name, const uint8_t *t, size_t bytes, struct verdict v) {
    struct verdict higher = own_check(HIGHER, t, bytes);
    uint64_t numbers[MOST_NUMBERS];
    at_limit(LOWER, name, t, bytes, v);
    if (v.number != 1 && v.number != 3 && memcmp(&v, &higher, sizeof v)) fail("the test's own reading", "the refusal at the higher limit", v.number, higher.number);
    at_limit(HIGHER, name, t, bytes, higher);
    limit = own_no_limit(turn / 2);
    edition = turn / 2 % 4;
    lend_all(name, t, bytes);
    for (enum entry entry = 0; entry < ENTRIES; entry++) {
        answers(entry, (struct verdict){19, 0, 0, 0}, 0, numbers);
        call(entry, enough[entry] + turn % 5, numbers);
        call(entry, turn % enough[entry], numbers);
    }
    limit = LOWER, edition = 1 + turn % 2;
}

/* The simplifier on a table, which is one for both limits, with areas that are large enough: it says of the table what v says, and of one that is
   good no more than that nothing is wrong. */
static void simplified(const uint8_t *t, size_t bytes, struct verdict v) {
    uint64_t numbers[MOST_NUMBERS];
    limit = turn % 8 ? LOWER : HIGHER;
    lend(&out, NULL, RECORD * limit), lend(&steps, NULL, limit), lend(&work, NULL, own_work(limit));
    if (v.number) {
        answers(SIMPLIFY, v, 0, numbers);
        call(SIMPLIFY, enough[SIMPLIFY], numbers);
        kept("simmergate_simplify", "a byte of out", &out, 0), kept("simmergate_simplify", "a byte of steps", &steps, 0);
        kept("simmergate_simplify", "a byte of work", &work, 0);
        return;
    }
    lend(&answer, NULL, enough[SIMPLIFY]);
    uint32_t r = make(SIMPLIFY);
    if (r != 0 && r != 7) fail("simmergate_simplify", "the return", 0, r);
    if (own_number(answer.start) != r) fail("simmergate_simplify", "the number", r, own_number(answer.start));
    if (r == 0 && own_number(answer.start + 40) != own_weight(t, bytes))
        fail("simmergate_simplify", "the weight", own_weight(t, bytes), own_number(answer.start + 40));
    if ((r == 0) != (own_number(answer.start + 72) != 0)) fail("simmergate_simplify", "whether it tells tries", r == 0, own_number(answer.start + 72));
    for (int i = 7; i < 9; i++)
        if (own_number(answer.start + 8 * i) != 0) fail("simmergate_simplify", "what is wrong with a good table", 0, own_number(answer.start + 8 * i));
    calls++;
}

static uint8_t t[LONGEST];

static void record(size_t i, unsigned kind, unsigned count, uint64_t number) {
    uint8_t *r = t + RECORD * i;
    memset(r, 0, RECORD);
    r[0] = (uint8_t)kind;
    r[2] = (uint8_t)count;
    r[3] = (uint8_t)(count >> 8);
    own_bytes(r + 8, number);
}

static uint64_t seed = 0x243f6a8885a308d3;

static uint64_t dice(uint64_t n) {
    seed ^= seed << 13, seed ^= seed >> 7, seed ^= seed << 17;
    return seed % n;
}

static unsigned long lines, by_number[6], by_flaw[4];

/* The stored answers: name, table, verdict, steps, result, value. */
static void stored(void) {
    while (next_line()) {
        char *parts[6], *end;
        uint64_t numbers[MOST_NUMBERS];
        now = line;
        if (cut(line, parts, 6) != 6 || !read_verdict(parts[2], numbers)) fail("the stored line", "not six parts with a verdict", 1, 0);
        size_t n = unhex(parts[1], t, sizeof t);
        struct verdict v = {numbers[0], numbers[1], 0, 0};
        if (v.number == 7) v = (struct verdict){0, 0, 0, 0};
        struct verdict own = own_check(LOWER, t, n);
        if (own.number != v.number || own.place != v.place) fail("the test's own reading", "the refusal", v.number, own.number);
        v = own;
        if (numbers[0] == 0) {
            uint64_t x = strtoull(parts[5], &end, 16);
            if (end == parts[5] || *end != 0) fail("the stored line", "no value", 1, 0);
            if (own_weight(t, n) != numbers[5]) fail("the test's own reading", "the weight", numbers[5], own_weight(t, n));
            if (own_value(t, held) != x) fail("the test's own reading", "the value", x, own_value(t, held));
        }
        all(now, t, n, v);
        lines++, by_number[v.number]++;
    }
}

static unsigned long lengths(void) {
    unsigned long n = 0;
    memset(t, 0, sizeof t);
    for (size_t bytes = 0; bytes <= 3 * RECORD; bytes++, n++) all("a length near 0 and 16", t, bytes, own_check(LOWER, t, bytes));
    for (size_t bytes = MOST_BYTES - 33; bytes <= MOST_BYTES + 33; bytes++, n++) all("a length near 49,152 and 49,168", t, bytes, own_check(LOWER, t, bytes));
    for (size_t bytes = RECORD * HIGHER - 17; bytes <= RECORD * HIGHER + 17; bytes++, n++) all("a length near 262,144 and 262,160", t, bytes, own_check(LOWER, t, bytes));
    uint8_t room[SIMMERGATE_VALUE_BYTES];
    now = "areas of no byte, at no address";
    if (simmergate_check(0, NULL, 0, NULL, 0) != 6 || simmergate_weight(0, NULL, 0, NULL, 0) != 6 || simmergate_value(0, NULL, 0, NULL, 0, NULL, 0) != 6)
        fail("a call without an answer slice", "the return", 6, 0);
    if (simmergate_check(LOWER, NULL, 0, room, sizeof room) != 1 || simmergate_weight(HIGHER, NULL, 0, room, sizeof room) != 1
        || simmergate_value(LOWER, NULL, 0, NULL, 0, room, sizeof room) != 1)
        fail("a call without a table", "the return", 1, 0);
    if (simmergate_value(HIGHER, t, RECORD, NULL, 0, room, sizeof room) != 6) fail("a call without registers", "the return", 6, 0);
    calls += 7;
    return n;
}

/* Answer slices of every length that is too short, those among them that were enough before what is wrong was said, on a good table and on
   one that is refused by 2: 6, and no byte changed. */
static unsigned long short_slices(void) {
    unsigned long n = 0;
    for (unsigned kind = 0; kind <= 5; kind += 5) {
        record(0, kind, 0, 5);
        lend_all("an answer slice that is too short", t, RECORD);
        for (enum entry entry = 0; entry < ENTRIES; entry++) {
            uint64_t numbers[MOST_NUMBERS];
            led_to(entry, t, RECORD, own_check(LOWER, t, RECORD), numbers);
            for (size_t room = 0; room < enough[entry]; room++, n++) call(entry, room, numbers);
            call(entry, enough[entry], numbers);
        }
    }
    return n;
}

/* A sum of an integer and of the tree at record 2, whose record is of each kind and has each byte set to each of some values. */
static unsigned long kinds(void) {
    static const uint8_t values[] = {0, 1, 2, 127, 128, 255};
    unsigned long n = 0;
    for (unsigned kind = 0; kind <= 6; kind++)
        for (int j = 0; j < RECORD; j++)
            for (size_t x = 0; x < sizeof values; x++, n += 2) {
                size_t i = 0;
                record(i++, 2, 2, 0), record(i++, 0, 0, 5);
                record(i++, kind, kind == 2 || kind == 3 ? 2 : 0, kind == 0 ? 9 : kind == 1 ? 7 : 0);
                if (kind >= 2) record(i++, 1, 0, 200), record(i++, 0, 0, 3);
                t[RECORD * 2 + j] = values[x];
                struct verdict own = own_check(LOWER, t, RECORD * i);
                all("a kind with a byte set", t, RECORD * i, own);
                simplified(t, RECORD * i, own);
                by_flaw[own.what]++;
                record(i, kind, kind == 2 || kind == 3 ? 2 : 0, 0);
                t[RECORD * i + j] = values[x];
                all("a record too many, with a byte set", t, RECORD * (i + 1), own_check(LOWER, t, RECORD * (i + 1)));
            }
    return n;
}

/* Records with several things wrong: the kind comes before a byte, the lowest byte before the others, a byte before the count, and the first
   bad record before the next. */
static unsigned long several(void) {
    unsigned long n = 0;
    for (unsigned kind = 0; kind <= 6; kind++)
        for (int j = 1; j < RECORD; j++)
            for (int k = j; k < RECORD; k++)
                for (int second = 0; second < 2; second++, n++) {
                    record(0, 2, 2, 0), record(1, 0, 0, 5), record(2, kind, 1, 0), record(3, second ? 9 : 0, 0, 0);
                    t[RECORD * 2 + j] = (uint8_t)(1 + dice(255)), t[RECORD * 2 + k] = (uint8_t)(1 + dice(255));
                    all("a record with two bytes set", t, RECORD * 4, own_check(LOWER, t, RECORD * 4));
                }
    return n;
}

/* The table must be refused so at the lower limit, and so at the higher. */
static void expect_both(const char *name, size_t records, uint64_t number, uint64_t place, uint64_t higher, uint64_t higher_place) {
    struct verdict own = own_check(LOWER, t, RECORD * records), above = own_check(HIGHER, t, RECORD * records);
    now = name;
    if (own.number != number || own.place != place) fail("the test's own reading", "the refusal", number, own.number);
    if (above.number != higher || above.place != higher_place) fail("the test's own reading", "the refusal at the higher limit", higher, above.number);
    all(name, t, RECORD * records, own);
}

static void expect(const char *name, size_t records, uint64_t number, uint64_t place) { expect_both(name, records, number, place, number, place); }

/* Tables over the lower limit, at the edges of the higher one. */
static unsigned long larger(void) {
    unsigned long n = 0;
    for (unsigned kind = 0; kind <= 4; kind++, n++) {
        static const char *const names[] = {"16,384 integers", "16,384 symbols", "16,384 sums", "16,384 products", "16,384 powers"};
        for (size_t i = 0; i < HIGHER; i++) record(i, kind, kind == 2 || kind == 3 ? 2 : 0, 0);
        expect_both(names[kind], HIGHER, 1, 0, kind == 1 ? 3 : 4, kind == 0 ? 1 : kind == 1 ? 0 : HIGHER);
    }
    for (size_t i = 0; i < HIGHER; i++) record(i, 2, 65535, 0);
    expect_both("16,384 sums of 65,535 members", HIGHER, 1, 0, 4, HIGHER), n++;
    record(0, 2, 16383, 0);
    for (size_t i = 1; i < HIGHER; i++) record(i, 0, 0, i);
    expect_both("a sum of 16,383 integers", HIGHER, 1, 0, 0, 0), n++;
    record(HIGHER - 1, 1, 0, 0);
    expect_both("the same with a symbol", HIGHER, 1, 0, 3, 0), n++;
    record(HIGHER, 0, 0, 0);
    expect_both("16,385 records", HIGHER + 1, 1, 0, 1, 0), n++;
    record(0, 3, 5461, 0);
    for (size_t i = 1; i <= 5461; i++) record(i, 1, 0, i % 256);
    expect_both("a product of 5,461 symbols", 5462, 1, 0, 0, 0), n++;
    record(0, 3, 1024, 0);
    expect_both("a product of 1,024 symbols", 1025, 3, 0, 0, 0), n++;
    record(0, 2, 3071, 0);
    record(3071, 7, 0, 0);
    expect("heavy, and a bad record last", 3072, 2, 3071), n++;
    for (size_t i = 0; i < 8191; i++) record(i, 4, 0, 0);
    for (size_t i = 8191; i < 16383; i++) record(i, 0, 0, 3);
    expect_both("8,191 powers one inside the other", 16383, 1, 0, 0, 0), n++;
    record(16382, 0, 0, 0);
    expect_both("the same with an exponent 0 at the outermost", 16383, 1, 0, 5, 16382), n++;
    return n;
}

/* Tables at the edges of weight, shape and exponents. */
static unsigned long large(void) {
    unsigned long n = 0;
    for (unsigned kind = 0; kind <= 4; kind++, n++) {
        static const char *const names[] = {"3,072 integers", "3,072 symbols", "3,072 sums", "3,072 products", "3,072 powers"};
        for (size_t i = 0; i < 3072; i++) record(i, kind, kind == 2 || kind == 3 ? 2 : 0, 0);
        expect_both(names[kind], 3072, kind == 1 ? 3 : 4, kind == 0 ? 1 : kind == 1 ? 0 : 3072, 4, kind < 2 ? 1 : 3072);
    }
    for (size_t i = 0; i < 3072; i++) record(i, 2, 65535, 0);
    expect("3,072 sums of 65,535 members", 3072, 4, 3072), n++;
    record(0, 2, 3071, 0);
    for (size_t i = 1; i < 3072; i++) record(i, 0, 0, i);
    expect("a sum of 3,071 integers", 3072, 0, 0), n++;
    record(3071, 1, 0, 0);
    expect_both("the same with a symbol", 3072, 3, 0, 0, 0), n++;
    record(0, 3, 1023, 0);
    for (size_t i = 1; i < 1024; i++) record(i, 1, 0, i % 256);
    expect("a product of 1,023 symbols", 1024, 0, 0), n++;
    record(0, 2, 1023, 0), record(1, 4, 0, 0), record(2, 0, 0, 2), record(3, 0, 0, 0);
    for (size_t i = 4; i < 1026; i++) record(i, 0, 0, i);
    expect("an exponent 0", 1026, 5, 3), n++;
    record(3, 1, 0, 1);
    expect("an exponent that is a symbol", 1026, 5, 3), n++;
    record(3, 0, 0, (uint64_t)1 << 63);
    expect("a negative exponent", 1026, 5, 3), n++;
    record(3, 0, 0, ((uint64_t)1 << 63) - 1);
    expect("the greatest exponent", 1026, 0, 0), n++;
    for (size_t i = 0; i < 1535; i++) record(i, 4, 0, 0);
    for (size_t i = 1535; i < 3071; i++) record(i, 0, 0, 3);
    expect("1,535 powers one inside the other", 3071, 0, 0), n++;
    record(3070, 0, 0, 0);
    expect("the same with an exponent 0 at the outermost", 3071, 5, 3070), n++;
    record(1536, 0, 0, 0);
    expect("and at the innermost", 3071, 5, 1536), n++;
    return n + larger();
}

/* A random tree from record i on; gives the record after it. */
static size_t grow(size_t i, unsigned depth) {
    size_t at = i + 1;
    unsigned kind = (unsigned)dice(depth ? 5 : 2), members = 2 + (unsigned)dice(3);
    if (kind == 0) record(i, 0, 0, dice(3) ? dice(9) - 4 : seed);
    if (kind == 1) record(i, 1, 0, dice(256));
    if (kind == 2 || kind == 3) {
        record(i, kind, members, 0);
        while (members--) at = grow(at, depth - 1);
    }
    if (kind == 4) {
        record(i, 4, 0, 0);
        at = grow(at, depth - 1);
        record(at++, 0, 0, dice(4) ? 1 + dice(5) : 1 + (seed >> 2));
    }
    return at;
}

static unsigned long damaged_and_whole[6];

static unsigned long random_trees(void) {
    unsigned long n = 0;
    for (; n < 20000; n++) {
        for (int k = 0; k < REGISTERS; k++) held[k] = k % 16 ? held[k] * 3 + n : (dice(2), seed);
        size_t bytes = RECORD * grow(0, 5);
        size_t i = RECORD * dice(bytes / RECORD);
        switch (dice(12)) {
        case 0: t[dice(bytes)] ^= (uint8_t)(1u << dice(8)); break;
        case 1: bytes -= dice(bytes < 64 ? bytes : 64); break;
        case 2: bytes -= RECORD; break;
        case 3: record(bytes / RECORD, 0, 0, 1), bytes += RECORD; break;
        case 4: t[i] = (uint8_t)dice(6); break;
        case 5: memset(t + i, 0, RECORD); break;
        case 6: memset(t + i, 0, RECORD), t[i] = 1; break;
        default: break;
        }
        struct verdict v = own_check(LOWER, t, bytes);
        all("a random table", t, bytes, v);
        damaged_and_whole[v.number]++;
    }
    return n;
}

int main(int argc, char **argv) {
    for (int k = 0; k < REGISTERS; k++) held[k] = ((uint64_t)k + 1) * 0x9e3779b97f4a7c15;
    stored();
    printf("calls: %lu stored lines agree (%lu accepted, refused 1: %lu, 2: %lu, 3: %lu, 4: %lu, 5: %lu)\n", lines, by_number[0], by_number[1], by_number[2],
           by_number[3], by_number[4], by_number[5]);
    if (argc != 2 || lines != decimal(argv[1])) { printf("calls: not as many stored lines as there should be\n"); return 1; }
    unsigned long by_length = lengths(), too_short = short_slices(), by_kind = kinds(), by_two = several(), by_size = large();
    unsigned long by_chance = random_trees();
    const unsigned long *d = damaged_and_whole;
    if (!by_flaw[1] || !by_flaw[2] || !by_flaw[3]) { printf("calls: not everything that can be wrong with a record was\n"); return 1; }
    printf("calls: %lu answer slices too short; %lu kinds with a byte set (wrong by kind %lu, by a byte %lu, by the count %lu) and %lu with two, through "
           "all five calls\n",
           too_short, by_kind, by_flaw[1], by_flaw[2], by_flaw[3], by_two);
    printf("calls: %lu lengths, %lu large tables and %lu random ones (%lu accepted, refused 1: %lu, 2: %lu, 4: %lu, 5: %lu) agree; %lu calls\n",
           by_length, by_size, by_chance, d[0], d[1], d[2], d[4], d[5], calls);
    return 0;
}
