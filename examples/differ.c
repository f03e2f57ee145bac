/* What a panel shows when the two machines do not hold the same bytes: where the tables of two files differ, and whether their formulas are equal all
   the same.

     differ [-l LIMIT] FILE FILE

   A line for each pair of records that do not agree: the two record numbers, and the text of what stands there in the one table and in the other, with
   its line of the sheet where it has one. Then whether the formulas are equal, the order of members and the lines not counting. The limit is
   3,072, or the one that is named. The exit code is 0 where the bytes are the same, 1 where they are not or a table is refused, 2 where something else
   goes wrong; this is told on standard error.

   All memory is lent from here; the library has none of its own. No two areas overlap. */
#define PROGRAM "differ"
#include "common.h"

static uint8_t tables[2][MOST_BYTES + 1]; /* one byte more, to see that a file is too long */
static uint8_t list[MOST_BYTES];          /* as long as any table: enough for all pairs */
static size_t limit = 3072, bytes[2];

/* The bytes of the tree that begins at a record: as many records as it takes until none is owed. */
static size_t tree_bytes(const uint8_t *from) {
    const uint8_t *record = from;
    for (size_t owed = 1; owed > 0; owed--, record += SIMMERGATE_RECORD_BYTES) {
        switch (record[0]) {
        case SIMMERGATE_KIND_SUM:
        case SIMMERGATE_KIND_PRODUCT: owed += record[2] + 256u * record[3]; break;
        case SIMMERGATE_KIND_POWER: owed += 2; break;
        }
    }
    return (size_t)(record - from);
}

static void print_tree(const uint8_t *from) {
    unsigned line = from[4] + 256u * from[5];
    print_text(limit, from, tree_bytes(from));
    if (line != 0) printf(" (line %u)", line);
}

int main(int argc, char **argv) {
    uint8_t answer[SIMMERGATE_DIFFER_BYTES], equal[SIMMERGATE_EQUAL_BYTES];
    take_options(&argc, &argv, &limit, NULL, NULL);
    if (argc != 3) {
        fprintf(stderr, "usage: differ [-l LIMIT] FILE FILE\n");
        return FAILED;
    }
    for (int i = 0; i < 2; i++) {
        long n = read_file(argv[1 + i], tables[i], sizeof tables[i]);
        if (n < 0) return FAILED;
        bytes[i] = (size_t)n;
    }

    uint32_t why = simmergate_differ(limit, tables[0], bytes[0], tables[1], bytes[1], list, sizeof list, answer, sizeof answer);
    if (why != SIMMERGATE_OK) {
        int which = number(answer, SIMMERGATE_AT_DIFFER_WHICH) == 2; /* the first of the two is judged before the second; 19 is of neither */
        return refused(argv[1 + which], limit, tables[which], bytes[which], answer, SIMMERGATE_AT_DIFFER_WHAT);
    }
    uint64_t pairs = number(answer, SIMMERGATE_AT_DIFFER_PAIRS);
    for (uint64_t i = 0; i < pairs; i++) {
        uint64_t left = number(list, 2 * i), right = number(list, 2 * i + 1);
        printf("record %llu, record %llu: ", (unsigned long long)left, (unsigned long long)right);
        print_tree(tables[0] + SIMMERGATE_RECORD_BYTES * left);
        printf(", ");
        print_tree(tables[1] + SIMMERGATE_RECORD_BYTES * right);
        putchar('\n');
    }
    if (pairs == 0) {
        printf("the same bytes\n");
        return ended(DONE);
    }
    simmergate_equal(limit, tables[0], bytes[0], tables[1], bytes[1], equal, sizeof equal);
    printf("differences %llu; the formulas are %s\n", (unsigned long long)pairs, number(equal, SIMMERGATE_AT_EQUAL_YES) == 1 ? "equal" : "not equal");
    return ended(REFUSED);
}
