/* Writes tables, a line of hexadecimal digits each:
     tables small RECORDS [FROM COUNT]    all trees of at most RECORDS records with leaves -1, 0, 1, 2, a, b and exponents 1, 2
     tables random SEED FROM COUNT MOST   the random tables FROM, FROM + 1, .. of SEED, of at most MOST records and the weight 3,072 each
   With the one word `count` before RECORDS instead, the number of small trees. */
#include "text.h"
#include "tables.h"

#define SMALL_MOST 10
#define LEAVES 6
#define EXPONENTS 2

static uint8_t table[16 * TABLE_RECORDS];

/* trees[r]: how many trees have r records; lists[r]: how many lists of trees have r records in all. */
static uint64_t trees[SMALL_MOST + 1], lists[SMALL_MOST + 1];

/* Lists of at least two members with r records in all. */
static uint64_t long_lists(size_t r) {
    uint64_t n = 0;
    for (size_t s = 1; s < r; s++) n += trees[s] * lists[r - s];
    return n;
}

static void count_trees(void) {
    lists[0] = 1;
    for (size_t r = 1; r <= SMALL_MOST; r++) {
        trees[r] = r == 1 ? LEAVES : 2 * long_lists(r - 1) + (r > 2 ? EXPONENTS * trees[r - 2] : 0);
        for (size_t s = 1; s <= r; s++) lists[r] += trees[s] * lists[r - s];
    }
}

static void put_tree(size_t r, uint64_t i);

/* The i-th list with r records, at least `least` members more; the answer is how many it has. */
static unsigned put_list(size_t r, uint64_t i, unsigned least) {
    if (r == 0) return 0;
    for (size_t s = 1; s <= r; s++) {
        if (least == 2 && s == r) break;
        uint64_t here = trees[s] * lists[r - s];
        if (i < here) {
            put_tree(s, i / lists[r - s]);
            return 1 + put_list(r - s, i % lists[r - s], least > 0 ? least - 1 : 0);
        }
        i -= here;
    }
    printf("no such list\n");
    exit(2);
}

/* The i-th tree of r records. */
static void put_tree(size_t r, uint64_t i) {
    if (r == 1) {
        if (i < 4) put_record(0, 0, i - 1);
        else put_record(1, 0, i - 4);
        return;
    }
    uint64_t nodes = long_lists(r - 1);
    if (i < 2 * nodes) {
        size_t at = making.records;
        put_record(i < nodes ? 2 : 3, 0, 0);
        table[16 * at + 2] = (uint8_t)put_list(r - 1, i % nodes, 2);
        return;
    }
    i -= 2 * nodes;
    put_record(4, 0, 0);
    put_tree(r - 2, i / EXPONENTS);
    put_record(0, 0, 1 + i % EXPONENTS);
}

int main(int argc, char **argv) {
    making.at = table;
    if (argc >= 3 && (strcmp(argv[1], "small") == 0 || strcmp(argv[1], "count") == 0)) {
        uint64_t most = decimal(argv[2]), all = 0;
        if (most < 1 || most > SMALL_MOST) { printf("RECORDS is 1 to %d\n", SMALL_MOST); return 2; }
        count_trees();
        for (size_t r = 1; r <= most; r++) all += trees[r];
        if (argv[1][0] == 'c') { printf("%llu\n", (unsigned long long)all); return 0; }
        uint64_t from = argc > 4 ? decimal(argv[3]) : 0, end = argc > 4 ? from + decimal(argv[4]) : all;
        for (uint64_t i = from; i < end && i < all; i++) {
            uint64_t rank = i;
            size_t r = 1;
            while (rank >= trees[r]) rank -= trees[r++];
            making.records = 0;
            put_tree(r, rank);
            put_hex(table, 16 * making.records);
            putchar('\n');
        }
        return 0;
    }
    if (argc == 6 && strcmp(argv[1], "random") == 0) {
        uint64_t seed = decimal(argv[2]), from = decimal(argv[3]), count = decimal(argv[4]), most = decimal(argv[5]);
        if (most < 1 || most > 3072) { printf("MOST is 1 to 3072\n"); return 2; }
        for (uint64_t i = from; i < from + count; i++) {
            put_hex(table, 16 * random_table(table, seed, i, (size_t)most, 3072));
            putchar('\n');
        }
        return 0;
    }
    printf("usage: tables small RECORDS [FROM COUNT] | count RECORDS | random SEED FROM COUNT MOST\n");
    return 2;
}
