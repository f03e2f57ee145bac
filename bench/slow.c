/* slow NAME WEIGHT: the largest formula of that name that weighs at most WEIGHT, as a line of hexadecimal digits; two lines where the name is one of two
   tables, and a line of text where it is one of a text. slow list: the names. What each is for: bench/README.md, "How slow can it get?". */
#include "../tests/c/text.h"
#include "../tests/c/tables.h"
#include "agree.h"

static uint8_t table[2 * 16 * TABLE_RECORDS];
static uint64_t heaviest;

/* ---- Members, by their number ---- */

static void symbol(uint64_t i) { put_record(1, 0, i % 256); }
static void integer(uint64_t n) { put_record(0, 0, n); }
static void power(uint64_t base, uint64_t exponent) { put_record(4, 0, 0); integer(base); integer(exponent); }
static void sum_with_integer(uint64_t n) { put_record(2, 2, 0); symbol(0); integer(n); }

static void own_power(uint64_t i) { power(i + 2, i + 2); }
static void cube(uint64_t i) { power(i + 2, 3); }
static void symbol_power(uint64_t i) { put_record(4, 0, 0); symbol(i); integer(2 + i / 256); }
static void product(uint64_t i) { put_record(3, 3, 0); integer(i + 2); symbol(i); symbol(7 * i); }
/* Exponents of 2, and integers in a sum, whose halves have one sum; exponents whose quarters have one as well; squares; consecutive ones. */
static void halves_power(uint64_t i) { power(2, (i << 32) + (105000 - i)); }
static void halves_sum(uint64_t i) { sum_with_integer(5 + i * 0xFFFFFFFF); }
static void quarters_power(uint64_t i) { power(2, (i % 64 + 1) + ((i / 64 + 1) << 16) + ((100 - i % 64) << 32) + ((100 - i / 64) << 48)); }
static void square_power(uint64_t i) { power(2, (i + 2) * (i + 2)); }
static void next_power(uint64_t i) { power(2, i + 2); }
/* What was searched for, the first numbers last: they stand innermost in a chain. */
static unsigned members;
static void searched_power(uint64_t i) { power(numbers[members - 1 - i].base, numbers[members - 1 - i].exponent); }
static void searched_sum(uint64_t i) { sum_with_integer(numbers[members - 1 - i].exponent); }

/* ---- Formulas of n members ---- */

typedef void (*member)(uint64_t);
static void node(unsigned kind, unsigned n, member m) {
    put_record(kind, n, 0);
    for (members = n; n > 0; n--) m(members - n);
}
static void backwards(unsigned kind, unsigned n, member m) {
    put_record(kind, n, 0);
    for (; n > 0; n--) m(n - 1);
}
/* Nodes of two members, which all open: a+(b+(.. */
static void chain(unsigned kind, unsigned n, member m) {
    members = n;
    for (unsigned i = 0; i + 1 < n; i++) { put_record(kind, 2, 0); m(i); }
    m(n - 1);
}
/* A node within levels for a third of the weight: -1*(-1*(.., or 1+(-1+(1+(.. */
static void minus(unsigned n, member m) {
    for (uint64_t i = 0; i < heaviest / 6; i++) { put_record(3, 2, 0); integer((uint64_t)-1); }
    node(3, n, m);
}
static void plus(unsigned n, member m) {
    for (uint64_t i = 0; i < heaviest / 6; i++) { put_record(2, 2, 0); integer(i % 2 == 0 ? 1 : (uint64_t)-1); }
    node(2, n, m);
}
/* A sum by itself in reverse order. */
static void by_reverse(unsigned n, member m) {
    put_record(3, 2, 0);
    node(2, n, m);
    backwards(2, n, m);
}

static void minus_powers(unsigned n) { minus(n, own_power); }
static void minus_sums(unsigned n) { minus(n, halves_sum); }
static void minus_searched(unsigned n) { minus(n, searched_sum); }
static void plus_powers(unsigned n) { plus(n, own_power); }
static void plus_searched(unsigned n) { plus(n, searched_power); }
static void minus_searched_powers(unsigned n) { minus(n, searched_power); }
static void nested_powers(unsigned n) { chain(3, n, own_power); }
static void chain_halves(unsigned n) { chain(2, n, halves_power); }
static void chain_quarters(unsigned n) { chain(2, n, quarters_power); }
static void chain_squares(unsigned n) { chain(2, n, square_power); }
static void chain_next(unsigned n) { chain(2, n, next_power); }
static void chain_searched(unsigned n) { chain(2, n, searched_power); }
static void reversed_symbols(unsigned n) { by_reverse(n, symbol_power); }
static void reversed_cubes(unsigned n) { by_reverse(n, cube); }

/* ---- Two tables for equality, of which `second` says which is made ---- */

static int second;

static void wide(unsigned n) { node(2, n, product); }
static void wide_reversed(unsigned n) { (second ? backwards : node)(2, n, product); }
static void deep(unsigned n) { /* ((s0+1)+2)+3.. */
    for (unsigned i = 0; i < n; i++) put_record(2, 2, 0);
    symbol(0);
    for (unsigned i = 0; i < n; i++) integer(i + 1);
}
/* The same, but that in the second table the last product, or the innermost sum, has two members in the other order. */
static void turned(size_t i) {
    uint8_t kept[16], *r = making.at + 16 * i;
    if (second) memcpy(kept, r, 16), memcpy(r, r + 16, 16), memcpy(r + 16, kept, 16);
}
static void wide_turned(unsigned n) { wide(n); turned(making.records - 2); }
static void deep_turned(unsigned n) { deep(n); turned(n); }
static void reversed_integers(unsigned n) { (second ? backwards : node)(2, n, integer); }
static void reversed_powers(unsigned n) { (second ? backwards : node)(2, n, next_power); }
static void shuffled_integers(unsigned n) {
    uint8_t *first = making.at + 16, kept[16];
    random_state = 1;
    node(2, n, integer);
    for (unsigned i = n; second && i > 1; i--) {
        uint8_t *a = first + 16 * (i - 1), *b = first + 16 * below(i);
        memcpy(kept, a, 16), memcpy(a, b, 16), memcpy(b, kept, 16);
    }
}

/* ---- Texts ---- */

static void groups(uint64_t n, const char *inner, const char *after) {
    for (uint64_t i = 0; i < n; i++) putchar('(');
    fputs(inner, stdout);
    for (uint64_t i = 0; i < n; i++) fputs(after, stdout);
}
static void text_first(void) { groups((heaviest - 3) / 2 - 1, "s0+1", ")+1"); }         /* ((s0+1)+1)+1.. */
static void text_nested(void) { groups((21 * heaviest - 3) / 4, "1+1", ")+1"); }        /* as long as an accepted text may be, and too heavy */

/* A row has the numbers to find first, if any; a formula of n members, one table or two of it; or a text. */
static const struct { const char *name; void (*find)(void), (*make)(unsigned); int tables; void (*write)(void); } rows[] = {
    {"minus-powers", NULL, minus_powers, 1, NULL}, {"nested-powers", NULL, nested_powers, 1, NULL},
    {"minus-sums", NULL, minus_sums, 1, NULL}, {"plus-powers", NULL, plus_powers, 1, NULL},
    {"halves-agree", NULL, chain_halves, 1, NULL}, {"equal-sums", NULL, chain_quarters, 1, NULL},
    {"squares", NULL, chain_squares, 1, NULL}, {"consecutive", NULL, chain_next, 1, NULL},
    {"reversed-symbols", NULL, reversed_symbols, 1, NULL}, {"reversed-cubes", NULL, reversed_cubes, 1, NULL},
    {"15-bits-agree", powers_in_15, chain_searched, 1, NULL}, {"plus-15-bits", powers_in_15, plus_searched, 1, NULL},
    {"minus-15-bits", sums_in_15, minus_searched, 1, NULL}, {"flags-agree", powers_at_flags, chain_searched, 1, NULL},
    {"plus-flags", powers_at_flags, plus_searched, 1, NULL}, {"whole-key-agrees", powers_in_all, chain_searched, 1, NULL},
    {"plus-whole-key", powers_in_all, plus_searched, 1, NULL}, {"minus-whole-key", sums_in_all, minus_searched, 1, NULL},
    {"powers-agree", powers_by_twos, chain_searched, 1, NULL}, {"minus-near", exponents_near, minus_searched_powers, 1, NULL},
    {"whole-key-near", powers_in_all_near, chain_searched, 1, NULL}, {"plus-whole-key-near", powers_in_all_near, plus_searched, 1, NULL},
    {"same-wide", NULL, wide, 2, NULL}, {"same-deep", NULL, deep, 2, NULL},
    {"same-wide-turned", NULL, wide_turned, 2, NULL}, {"same-deep-turned", NULL, deep_turned, 2, NULL},
    {"same-wide-reversed", NULL, wide_reversed, 2, NULL}, {"same-reversed", NULL, reversed_integers, 2, NULL},
    {"same-shuffled", NULL, shuffled_integers, 2, NULL}, {"same-powers-reversed", NULL, reversed_powers, 2, NULL},
    {"read-first", NULL, NULL, 0, text_first}, {"read-nested", NULL, NULL, 0, text_nested},
};
#define ROWS (sizeof rows / sizeof rows[0])

static uint64_t weight_of(size_t row, unsigned n) {
    making.records = 0;
    rows[row].make(n);
    return weight_of_records(table, making.records);
}

/* The largest formula of the row, and for equality the second table besides. */
static int put_tables(size_t row) {
    unsigned n = 2;
    if (rows[row].find != NULL) rows[row].find();
    if (weight_of(row, n) > heaviest) { printf("no formula of this name is so light\n"); return 2; }
    while (weight_of(row, n + 1) <= heaviest) n++;
    for (second = 0; second < rows[row].tables; second++) {
        weight_of(row, n);
        put_hex(table, 16 * making.records);
        putchar('\n');
    }
    return 0;
}

int main(int argc, char **argv) {
    making.at = table;
    if (argc == 2 && strcmp(argv[1], "list") == 0) {
        for (size_t i = 0; i < ROWS; i++) printf("%s\n", rows[i].name);
        return 0;
    }
    for (size_t i = 0; argc == 3 && i < ROWS; i++) {
        if (strcmp(argv[1], rows[i].name) != 0) continue;
        heaviest = decimal(argv[2]);
        if (heaviest < 24 || heaviest > 16384) { printf("not a weight from 24 to 16384\n"); return 2; }
        if (rows[i].write == NULL) return put_tables(i);
        rows[i].write();
        putchar('\n');
        return 0;
    }
    printf("usage: slow NAME WEIGHT | list\n");
    return 2;
}
