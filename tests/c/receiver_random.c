/* receiver_random SEED COUNT [FROM]: cuts the tables of standard input (stored answers: the table is the second part of a line), one after the other and
   COUNT times, and sums of about the greatest weight, at random places, under both limits: one byte at a time, into small and large pieces, with
   pieces of no byte between them, a whole table at once; some with more bytes behind them, up to the limit and past it. One record and one area serve all, so that each table follows another. Compared: after
   every piece the number, the record and the bytes around it; at the end every byte of the area and around it; at the finish the answer with
   that of simmergate_check on the whole, every byte, and the record, which is then empty. */
#define LENT_ROOM (1 << 19)
#include "../../include/simmergate.h"
#include "lent.h"
#include "own.h"
#include "text.h"
#include "tables.h"

enum { RECEIVER = SIMMERGATE_RECEIVER, CHECK = SIMMERGATE_CHECK_BYTES, MOST_TABLES = 4000, MANNERS = 5, MANY = 20000 };

static struct lent state = {.name = "record"}, area = {.name = "area"}, answer = {.name = "answer"}, other = {.name = "the checker's answer"};
static uint8_t whole[LENT_ROOM], held[LENT_ROOM], *store;
static struct { size_t at, bytes; } tables[MOST_TABLES];
static size_t table_count, stored, bytes;
static uint64_t seed, turn, pieces, empty_pieces, seen[20], over;

static void fail(const char *what) {
    printf("receiver_random: %s: cut %llu of seed %llu (again by: receiver_random %llu 1 %llu), %zu bytes\n", what, (unsigned long long)turn,
           (unsigned long long)seed, (unsigned long long)seed, (unsigned long long)turn, bytes);
    exit(1);
}

/* ---- The stored tables ---- */

static void read_tables(void) {
    size_t room = (size_t)1 << 24;
    store = malloc(room);
    if (store == NULL) { printf("receiver_random: no memory for the stored tables\n"); exit(2); }
    while (next_line()) {
        char *parts[3];
        if (table_count == MOST_TABLES) { printf("receiver_random: more than %d tables on standard input\n", MOST_TABLES); exit(2); }
        if (cut(line, parts, 3) < 2) { printf("receiver_random: a line has no table: %.60s\n", line); exit(2); }
        size_t n = spelt(parts[1], store + stored, room - stored);
        tables[table_count].at = stored, tables[table_count].bytes = n;
        table_count++, stored += n;
    }
    if (table_count == 0) { printf("receiver_random: no table on standard input\n"); exit(2); }
}

/* A sum of n symbols, whose weight is 3n + 1. */
static void sum_of(size_t n) {
    bytes = RECORD * (n + 1);
    memset(whole, 0, bytes);
    whole[0] = 2, whole[2] = (uint8_t)(n % 256), whole[3] = (uint8_t)(n / 256);
    for (size_t i = 1; i <= n; i++) whole[RECORD * i] = 1, whole[RECORD * i + 8] = (uint8_t)any();
}

/* The whole of this turn: the next stored table, or a sum of about the greatest weight; now and then with more bytes behind it: a few, or up to
   the limit and around it. */
static void choose(size_t limit) {
    size_t i = (size_t)(turn % table_count), most = SIMMERGATE_TABLE_BYTES(limit);
    bytes = tables[i].bytes;
    memcpy(whole, store + tables[i].at, bytes);
    if (chance(25)) sum_of(limit / 3 - 8 + (size_t)below(16));
    size_t to = bytes;
    if (chance(6)) to = bytes + (size_t)below(40);
    if (chance(20)) to = most - 3 + (size_t)below(40);
    if (chance(40)) to = most + (size_t)below(most / 2);
    while (bytes < to && bytes < LENT_ROOM) whole[bytes++] = (uint8_t)any();
}

/* ---- One table ---- */

/* How long the next piece is, `left` bytes being left. */
static size_t next_piece(int manner, size_t left) {
    size_t n;
    if (chance(7)) return 0;
    switch (manner) {
    case 0: n = 1; break;
    case 1: n = 1 + (size_t)below(20); break;
    case 2: n = 16 * (1 + (size_t)below(9)); break;
    case 3: n = 1 + (size_t)below(left); break;
    default: n = left;
    }
    return n < left ? n : left;
}

/* The record after so many bytes of the whole. */
static void see_record(size_t came, size_t most) {
    uint64_t tally[2] = {came < most ? came : most, came > most};
    if (!holds(&state, numbers(tally, 2), RECEIVER, RECEIVER)) fail("the record or what is around it is another one");
}

static void receive(size_t limit, int manner) {
    size_t most = SIMMERGATE_TABLE_BYTES(limit), from = 0;
    while (from < bytes) {
        size_t n = next_piece(manner, bytes - from);
        if (simmergate_receive(limit, state.store + GUARD, state.length, area.store + GUARD, area.length, whole + from, n) != 0) fail("a piece is refused");
        from += n, pieces++, empty_pieces += n == 0;
        see_record(from, most);
    }
    memcpy(held, whole, bytes < most ? bytes : most);
    if (!holds(&area, held, area.length, area.length)) fail("the area or what is around it is another one");
}

static void finish(size_t limit) {
    uint8_t *a = lend(&answer, CHECK + 7), *b = lend(&other, CHECK + 7);
    uint32_t number = simmergate_receive_finish(limit, state.store + GUARD, state.length, area.store + GUARD, area.length, a, answer.length);
    uint32_t checked = simmergate_check(limit, whole, bytes, b, other.length);
    if (number != checked) fail("the finish returns another number than the checker on the whole");
    if (memcmp(answer.store, other.store, sizeof answer.store) != 0) fail("the finish answers otherwise than the checker on the whole");
    if (!holds(&area, held, area.length, area.length)) fail("the finish changed the area or what is around it");
    see_record(0, 1);
    seen[number]++, over += bytes > SIMMERGATE_TABLE_BYTES(limit);
}

int main(int argc, char **argv) {
    if (argc < 3) { printf("usage: receiver_random SEED COUNT [FROM] <TABLES\n"); return 2; }
    seed = decimal(argv[1]);
    uint64_t count = decimal(argv[2]), from = argc > 3 ? decimal(argv[3]) : 0;
    lent_begin();
    read_tables();
    memset(lend(&state, RECEIVER + 5), 0, RECEIVER);
    memcpy(held, lend(&area, SIMMERGATE_TABLE_BYTES(HIGHER) + 11), SIMMERGATE_TABLE_BYTES(HIGHER) + 11);
    for (turn = from; turn < from + count; turn++) {
        random_state = seed * 0x2545F4914F6CDD1Du + turn;
        size_t limit = chance(3) ? HIGHER : LOWER;
        choose(limit);
        int manner = (int)(turn % MANNERS);
        receive(limit, manner == 0 && bytes > MANY && !chance(8) ? 1 : manner); /* a long table comes byte by byte only now and then */
        finish(limit);
    }
    if (count >= table_count) {
        for (int k = 0; k <= 5; k++) {
            if (seen[k] == 0) { printf("receiver_random: no finish of seed %llu was answered %d: nothing is shown of it\n", (unsigned long long)seed, k); return 1; }
        }
        if (over == 0 || empty_pieces == 0) { printf("receiver_random: no table was past the limit, or no piece was empty\n"); return 1; }
    }
    printf("cut tables beside the checker on the whole: %llu of %zu stored tables (seed %llu), %llu pieces, %llu of no byte; accepted %llu, refused 1 to 5: "
           "%llu %llu %llu %llu %llu; past the limit %llu\n",
           (unsigned long long)count, table_count, (unsigned long long)seed, (unsigned long long)pieces, (unsigned long long)empty_pieces,
           (unsigned long long)seen[0], (unsigned long long)seen[1], (unsigned long long)seen[2], (unsigned long long)seen[3], (unsigned long long)seen[4],
           (unsigned long long)seen[5], (unsigned long long)over);
    return 0;
}
