/* Random tables. Table number i of a seed is the same wherever and in whatever order it is asked for. Every tree is well formed: two
   members or more, exponents of at least 1. The shapes lean towards what makes the rules work: parts repeated with other
   coefficients, sums in sums, products in products, integers near the edge of 64 bits. */
#include <stddef.h>
#include <stdint.h>
#include <string.h>

#define TABLE_RECORDS 16384

static uint64_t random_state;

static inline uint64_t any(void) { /* splitmix64 */
    uint64_t z = random_state += 0x9E3779B97F4A7C15u;
    z = (z ^ z >> 30) * 0xBF58476D1CE4E5B9u;
    z = (z ^ z >> 27) * 0x94D049BB133111EBu;
    return z ^ z >> 31;
}

static inline uint64_t below(uint64_t n) { return any() % n; }

/* One chance in n. */
static inline int chance(uint64_t n) { return below(n) == 0; }

static struct {
    uint8_t *at;             /* the table being made */
    size_t records;          /* made so far */
    uint64_t symbols;        /* how many symbols there are to choose from */
    int wild;                /* integers: -1 small; 0 a few of any size; 1 some at the edge of 64 bits; 2 most of them there */
    uint64_t repeat;         /* a part is the copy of an earlier one, one time in so many */
    uint64_t members;        /* at the most, in a small node */
    uint32_t parts[TABLE_RECORDS][2]; /* the finished parts: first record, records */
    size_t part_count;
} making;

static inline void put_record(unsigned kind, unsigned count, uint64_t content) {
    uint8_t *r = making.at + 16 * making.records++;
    memset(r, 0, 16);
    r[0] = (uint8_t)kind;
    r[2] = (uint8_t)count;
    r[3] = (uint8_t)(count >> 8);
    for (int i = 0; i < 8; i++) r[8 + i] = (uint8_t)(content >> 8 * i);
}

static inline uint64_t random_integer(void) {
    static const uint64_t edges[] = {
        0x7FFFFFFFFFFFFFFF, 0x8000000000000000, 0x4000000000000000, 0xC000000000000000, 0x7FFFFFFFFFFFFFFE, 0x8000000000000001,
        0x3FFFFFFFFFFFFFFF, 0x100000000, 0x80000000, 3037000499, 3037000500, (uint64_t)-3037000500, 2097151, 2097152, (uint64_t)-1, 4,
    };
    if (making.wild == 2 ? !chance(3) : making.wild == 1 && chance(6)) return edges[below(sizeof edges / sizeof edges[0])];
    if (making.wild >= 0 && chance(40)) return any() >> below(64);
    return below(7) - 2;
}

static inline uint64_t random_exponent(void) {
    if (making.wild > 0 && chance(8)) return chance(2) ? 0x7FFFFFFFFFFFFFFF : 0x4000000000000000;
    return 1 + below(3);
}

static inline void random_leaf(void) {
    if (chance(3)) put_record(0, 0, random_integer());
    else put_record(1, 0, below(making.symbols));
}

/* A tree of at most `room` records, `room` at least 1; inside a node of kind `outer` (0 for none). */
static inline void random_tree(size_t room, unsigned depth, unsigned outer) {
    size_t first = making.records;
    if (making.part_count != 0 && chance(making.repeat)) {
        const uint32_t *part = making.parts[below(making.part_count)];
        if (part[1] + 2 <= room) {
            if (chance(3)) {
                put_record(3, 2, 0);
                put_record(0, 0, random_integer());
            }
            memcpy(making.at + 16 * making.records, making.at + 16 * part[0], 16 * part[1]);
            making.records += part[1];
            return;
        }
    }
    if (room < 3 || depth == 0 || (outer != 0 && chance(6))) {
        random_leaf();
    } else if (chance(6)) {
        put_record(4, 0, 0);
        random_tree(room - 2, depth - 1, 4);
        put_record(0, 0, random_exponent());
    } else {
        unsigned kind = outer == 2 || outer == 3 ? (chance(3) ? outer : 5 - outer) : 2 + (unsigned)below(2);
        size_t count = 2 + below(making.members - 1);
        if (count > room - 1) count = room - 1;
        put_record(kind, (unsigned)count, 0);
        size_t left = room - 1;
        for (size_t i = 0; i < count; i++) {
            size_t share = left - (count - i - 1), before = making.records;
            if (i + 1 < count && share > 1) share = 1 + below(chance(2) ? share : (share + 1) / 2);
            random_tree(share, depth - 1, kind);
            left -= making.records - before;
        }
    }
    if (making.part_count < TABLE_RECORDS) {
        making.parts[making.part_count][0] = (uint32_t)first;
        making.parts[making.part_count++][1] = (uint32_t)(making.records - first);
    }
}

static inline uint64_t weight_of_records(const uint8_t *table, size_t records) {
    uint64_t w = records;
    for (size_t i = 0; i < records; i++) w += table[16 * i] == 1 ? 2 : 0;
    return w;
}

/* Table number `index` of `seed` into `table`, which holds TABLE_RECORDS records: a tree of at most `most` records and of at most that weight.
   The answer is its number of records. */
static inline size_t random_table(uint8_t *table, uint64_t seed, uint64_t index, size_t most, uint64_t heaviest) {
    random_state = seed * 0xD1342543DE82EF95u + index;
    random_state = any() ^ index << 20;
    for (;;) {
        size_t room = chance(40) ? most : chance(5) ? 100 : chance(2) ? 40 : 15;
        if (room > most) room = most;
        making.at = table;
        making.records = 0;
        making.part_count = 0;
        making.symbols = chance(20) ? 256 : 1 + below(4);
        making.wild = chance(6) ? 2 : chance(2);
        making.repeat = 2 + below(6);
        making.members = chance(10) ? room : 2 + below(4);
        if (making.members < 2) making.members = 2;
        random_tree(1 + below(room), chance(10) ? 40 : 6, 0);
        if (weight_of_records(table, making.records) <= heaviest) return making.records;
    }
}

/* ---- Tables in which rules are at work seldom: long sums and products of parts that are hardly ever alike, chains of sums in sums or products in
   products, and deep nests with something to do now and then. ---- */

/* A member of a node of kind `outer`, 2 or 3, that is not of that kind. */
static inline void rare_part(unsigned outer) {
    unsigned count = 2 + (unsigned)below(3);
    switch (below(4)) {
    case 0: /* with a coefficient, or an integer among its terms, every other time */
        put_record(5 - outer, count, 0);
        if (chance(2)) put_record(0, 0, random_integer()), count--;
        for (; count > 0; count--) put_record(1, 0, below(making.symbols));
        return;
    case 1:
        put_record(4, 0, 0);
        put_record(2, 2, 0), put_record(1, 0, below(making.symbols)), put_record(0, 0, random_integer());
        put_record(0, 0, random_exponent());
        return;
    case 2: put_record(4, 0, 0), put_record(1, 0, below(making.symbols)), put_record(0, 0, 2 + below(8)); return;
    default: put_record(1, 0, below(making.symbols));
    }
}

/* A nest of so many levels, outermost a node of kind `kind`; what is dropped or multiplied is at one level in ten, a node in its like as well. */
static inline void rare_nest(unsigned kind, size_t levels) {
    if (levels == 0) {
        put_record(kind, 2, 0);
        rare_part(kind), rare_part(kind);
        return;
    }
    unsigned behind = chance(8);
    put_record(kind, 2 + behind, 0);
    if (chance(10)) put_record(0, 0, kind - 2 + below(3));
    else rare_part(kind);
    rare_nest(chance(10) ? kind : 5 - kind, levels - 1);
    if (behind && chance(2)) put_record(0, 0, 5);
    else if (behind) rare_part(kind);
}

/* So many members one after the other; at the most some of them like the first, to be dropped, or nests. */
static inline void rare_long(unsigned kind, size_t count) {
    put_record(kind, (unsigned)count, 0);
    size_t first = making.records, length = 0;
    for (size_t i = 0; i < count; i++) {
        if (i > 0 && chance(2 * count)) {
            memcpy(making.at + 16 * making.records, making.at + 16 * first, 16 * length);
            making.records += length;
        } else if (chance(4 * count)) put_record(0, 0, kind - 2);
        else if (i > 0 && chance(2 * count)) rare_nest(5 - kind, below(10));
        else rare_part(kind);
        if (i == 0) length = making.records - first;
    }
}

/* A chain of nodes of one kind, two or three members each, which all open. */
static inline void rare_chain(unsigned kind, size_t levels) {
    for (; levels > 0; levels--) {
        int two = !chance(4);
        put_record(kind, two ? 2 : 3, 0);
        rare_part(kind);
        if (!two) rare_part(kind);
    }
    rare_part(kind);
}

/* Such a table, number `index` of `seed`, of at most that weight, into `table`, which holds TABLE_RECORDS records; over the weight 3,072 always a long node. */
static inline size_t rare_table(uint8_t *table, uint64_t seed, uint64_t index, uint64_t heaviest) {
    random_state = seed * 0xD1342543DE82EF95u + index;
    random_state = any() ^ index << 20;
    making.at = table;
    do {
        size_t size = 2 + below(heaviest > 3072 || chance(60) ? heaviest / 12 : chance(5) ? 80 : 25);
        unsigned kind = 2 + (unsigned)below(2);
        making.records = 0;
        making.symbols = chance(4) ? 8 : 256;
        making.wild = chance(8) ? 1 : -1;
        switch (heaviest > 3072 ? 0 : below(3)) {
        case 0: rare_long(kind, size); break;
        case 1: rare_chain(kind, size); break;
        default: rare_nest(kind, size);
        }
    } while (weight_of_records(table, making.records) > heaviest);
    return making.records;
}

/* Marks for the records of a table: none, a few lines, or any. */
static inline void put_marks(uint8_t *table, size_t bytes) {
    uint64_t lines = chance(3) ? 1 : chance(2) ? 10 : 65536;
    for (size_t i = 0; i + 16 <= bytes; i += 16) {
        uint64_t mark = below(lines);
        table[i + 4] = (uint8_t)mark, table[i + 5] = (uint8_t)(mark >> 8);
    }
}
