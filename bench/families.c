/* families NAME WEIGHT: the largest tree of a family that weighs at most WEIGHT, as a line of hexadecimal digits. families list: the names.
   families deepest: the deepest tables there are. Sites, a formula a line: families site, 200 formulas of weight 20 to 150; families small, 200 of weight 10 to 50;
   families unlike, 200 sums in which nothing is to be done; families tiny, 60 of weight up to 11. */
#include "../tests/c/text.h"
#include "../tests/c/tables.h"

static uint8_t table[2 * 16 * TABLE_RECORDS];

static void symbol(unsigned i) { put_record(1, 0, i % 256); }
static void integer(uint64_t n) { put_record(0, 0, n); }

/* A leaf for each i: a symbol, or beyond 256 of them a power of one. */
static void leaf(unsigned i) {
    if (i < 256) { symbol(i); return; }
    put_record(4, 0, 0);
    symbol(i);
    integer(1 + i / 256);
}

static void like_terms(unsigned n, unsigned rests) { /* 2*a + 3*b + .. */
    put_record(2, n, 0);
    for (unsigned i = 0; i < n; i++) { put_record(3, 2, 0); integer(2 + i); symbol(i % rests); }
}
static void like_one(unsigned n) { like_terms(n, 1); }
static void like_sixteen(unsigned n) { like_terms(n, 16); }

static void unlike(unsigned n) { /* 3*a^2 + 3*b^2 + .. */
    put_record(2, n, 0);
    for (unsigned i = 0; i < n; i++) { put_record(3, 2, 0); integer(3); put_record(4, 0, 0); symbol(i); integer(2 + i / 256); }
}

static void unlike_long(unsigned n) { /* products of six symbols in a row */
    put_record(2, n, 0);
    for (unsigned i = 0; i < n; i++) { put_record(3, 6, 0); for (unsigned k = 0; k < 6; k++) symbol(i + k); }
}

static void powers_sixteen(unsigned n) { /* a^2 * b^3 * .. */
    put_record(3, n, 0);
    for (unsigned i = 0; i < n; i++) { put_record(4, 0, 0); symbol(i % 16); integer(2 + i % 3); }
}

static void powers_unlike(unsigned n) { /* (a+1)^2 * (b+1)^2 * .. */
    put_record(3, n, 0);
    for (unsigned i = 0; i < n; i++) { put_record(4, 0, 0); put_record(2, 2, 0); symbol(i); integer(1 + i / 256); integer(2); }
}

static void nest(unsigned n) { /* a + b*(a + b*(.. */
    for (unsigned i = 0; i < n; i++) { put_record(2, 2, 0); symbol(0); put_record(3, 2, 0); symbol(1); }
}
static void nest_still(unsigned n) { nest(n); symbol(2); }
static void nest_changes(unsigned n) { nest(n); put_record(2, 2, 0); symbol(2); symbol(2); }

static void powers_nested(unsigned n) { /* ((a^2)^2)^2 .. */
    for (unsigned i = 0; i < n; i++) put_record(4, 0, 0);
    symbol(0);
    for (unsigned i = 0; i < n; i++) integer(2);
}

static void chain_opens(unsigned n) { /* a + (b + (c + .. */
    for (unsigned i = 0; i + 1 < n; i++) { put_record(2, 2, 0); leaf(i); }
    leaf(n - 1);
}

static void split_sum(unsigned from, unsigned n) {
    if (n == 1) { leaf(from); return; }
    put_record(2, 2, 0);
    split_sum(from, n / 2);
    split_sum(from + n / 2, n - n / 2);
}
static void tree_opens(unsigned n) { split_sum(0, n); }

static void one_pair(unsigned n) { /* 3*a^2 + 3*b^2 + .. + 3*a^2: the last like the first, all others unlike */
    unlike(n - 1);
    making.at[2] = (uint8_t)n, making.at[3] = (uint8_t)(n >> 8);
    put_record(3, 2, 0); integer(3); put_record(4, 0, 0); symbol(0); integer(2);
}

static void ones_nested(unsigned n) { /* 1*(1*(.. a)) */
    for (unsigned i = 0; i < n; i++) { put_record(3, 2, 0); integer(1); }
    symbol(0);
}

static void chain_like(unsigned n) { /* a + (b + (.. with 32 terms over and over: each is like one further in */
    for (unsigned i = 0; i + 1 < n; i++) { put_record(2, 2, 0); symbol(i % 32); }
    symbol((n - 1) % 32);
}

static void chain_like_all(unsigned n) { /* a + b + (b + c + (c + d + .. : as many terms as levels, one of each level like one further in */
    for (unsigned i = 0; i < n; i++) { put_record(2, 3, 0); leaf(i); leaf(i + 1); }
    leaf(n);
}

/* Products of three symbols, by twos whose numbers have one sum and one sum of squares: a*h*i + c*d*k + ..; such a two moved on and stretched is another */
static void products_of_three(unsigned n) {
    put_record(2, n, 0);
    for (unsigned i = 0; i < n; i++) {
        unsigned from = i / 2, by = 1;
        while (from >= 256 - 10 * by) from -= 256 - 10 * by++;
        put_record(3, 3, 0);
        for (unsigned k = 0; k < 3; k++) symbol(from + by * (i % 2 == 0 ? (unsigned[]){0, 7, 8} : (unsigned[]){2, 3, 10})[k]);
    }
}

static void fives_nested(unsigned n) { /* 5*(a + 5*(a + .. )*5)*5 */
    for (unsigned i = 0; i < n; i++) { put_record(3, 3, 0); integer(5); put_record(2, 2, 0); symbol(0); }
    symbol(1);
    for (unsigned i = 0; i < n; i++) integer(5);
}

static void opens_and_steps(unsigned n) { /* a*(a*(b + a*(a*(b + .. */
    for (unsigned i = 0; i < n; i++) {
        put_record(3, 2, 0); symbol(0);
        put_record(3, 2, 0); symbol(0);
        put_record(2, 2, 0); symbol(1);
    }
    symbol(2);
}

static void chain_factors(unsigned n) { /* a*(b*(.. with 32 factors over and over: each is like one further in */
    for (unsigned i = 0; i + 1 < n; i++) { put_record(3, 2, 0); symbol(i % 32); }
    symbol((n - 1) % 32);
}

static void ones_between(unsigned n) { /* a*1*(b + 0 + a*1*(b + 0 + .. */
    for (unsigned i = 0; i < n; i++) {
        put_record(3, 3, 0); symbol(0); integer(1);
        put_record(2, 3, 0); symbol(1); integer(0);
    }
    symbol(2);
}

static void adds_and_steps(unsigned n) { /* a + (a + b*(a + (a + b*( .. */
    for (unsigned i = 0; i < n; i++) {
        put_record(2, 2, 0); symbol(0);
        put_record(2, 2, 0); symbol(0);
        put_record(3, 2, 0); symbol(1);
    }
    symbol(2);
}

static const struct { const char *name; void (*make)(unsigned); } families[] = {
    {"like-terms-1", like_one}, {"like-terms-16", like_sixteen}, {"unlike-terms", unlike}, {"unlike-products", unlike_long},
    {"powers-16", powers_sixteen}, {"powers-unlike", powers_unlike}, {"nest-still", nest_still}, {"nest-changes", nest_changes},
    {"powers-nested", powers_nested}, {"chain-opens", chain_opens}, {"tree-opens", tree_opens},
    {"one-pair", one_pair}, {"ones-nested", ones_nested}, {"chain-like", chain_like}, {"chain-like-all", chain_like_all},
    {"products-of-three", products_of_three}, {"fives-nested", fives_nested}, {"opens-and-steps", opens_and_steps},
    {"adds-and-steps", adds_and_steps}, {"chain-factors", chain_factors}, {"ones-between", ones_between},
};
#define FAMILIES (sizeof families / sizeof families[0])

static void put_line(void) {
    put_hex(table, 16 * making.records);
    putchar('\n');
}

static void site(void) {
    for (uint64_t i = 0, formulas = 0; formulas < 200; i++) {
        random_state = 200 + i * 0x9E3779B97F4A7C15u;
        making.records = making.part_count = 0;
        making.symbols = 12;
        making.wild = -1;
        making.repeat = 6;
        making.members = 5;
        random_tree(20 + below(70), 5, 0);
        uint64_t w = weight_of_records(table, making.records);
        if (w < 20 || w > 150) continue;
        put_line();
        formulas++;
    }
}

/* A term of a small formula: a symbol or two, a number, a square or a cube, now and then a sum. */
static void small_term(unsigned symbols) {
    unsigned a = (unsigned)below(symbols), b = (unsigned)below(symbols);
    switch (below(10)) {
    case 0: case 1: symbol(a); return;
    case 2: case 3: case 4: put_record(3, 2, 0); integer(below(80) - 20); symbol(a); return;
    case 5: put_record(3, 2, 0); integer(1 + below(9)); put_record(4, 0, 0); symbol(a); integer(2 + below(2)); return;
    case 6: integer(below(1100) - 100); return;
    case 7: put_record(3, 2, 0); symbol(a); symbol(b); return;
    case 8: put_record(3, 2, 0); put_record(2, 2, 0); symbol(a); integer(below(11) - 5); symbol(b); return;
    default: put_record(2, 2, 0); symbol(a); symbol(b); return;
    }
}

/* Sums of two to five such terms, some of them times a number. */
static void small(void) {
    random_state = 10;
    for (unsigned formulas = 0; formulas < 200;) {
        unsigned terms = 2 + (unsigned)below(4), symbols = 2 + (unsigned)below(3);
        making.records = 0;
        if (chance(7)) { put_record(3, 2, 0); integer(2 + below(8)); }
        put_record(2, terms, 0);
        for (unsigned i = 0; i < terms; i++) small_term(symbols);
        uint64_t w = weight_of_records(table, making.records);
        if (w < 10 || w > 50) continue;
        put_line();
        formulas++;
    }
}

/* 7*a^2*b + 9*c^2*d + .., three to ten terms, no two of them like. */
static void unlike_sums(void) {
    random_state = 20;
    for (unsigned formulas = 0; formulas < 200; formulas++) {
        unsigned terms = 3 + (unsigned)below(8), first = (unsigned)below(30);
        making.records = 0;
        put_record(2, terms, 0);
        for (unsigned i = 0; i < terms; i++) {
            put_record(3, 3, 0);
            integer(2 + below(98));
            put_record(4, 0, 0); symbol(first + i); integer(2);
            symbol(100 + (unsigned)below(30));
        }
        put_line();
    }
}

/* Six formulas, ten times: s0+s1, s0+s0, 3*s7, s0*(s1*s0), 2*s3+40, 3*s9^2+40. */
static void tiny(void) {
    for (unsigned i = 0; i < 60; i++) {
        making.records = 0;
        switch (i % 6) {
        case 0: put_record(2, 2, 0); symbol(0); symbol(1); break;
        case 1: put_record(2, 2, 0); symbol(0); symbol(0); break;
        case 2: put_record(3, 2, 0); integer(3); symbol(7); break;
        case 3: put_record(3, 2, 0); symbol(0); put_record(3, 2, 0); symbol(1); symbol(0); break;
        case 4: put_record(2, 2, 0); put_record(3, 2, 0); integer(2); symbol(3); integer(40); break;
        default: put_record(2, 2, 0); put_record(3, 2, 0); integer(3); put_record(4, 0, 0); symbol(9); integer(2); integer(40); break;
        }
        put_line();
    }
}

static const struct { const char *name; void (*make)(void); } sites[] = {{"site", site}, {"small", small}, {"unlike", unlike_sums}, {"tiny", tiny}};

/* As deep as 3,072 records go: nested powers, sums and products. */
static void deepest(void) {
    for (unsigned kind = 2; kind <= 4; kind++) {
        making.records = 0;
        for (unsigned i = 0; i < 1535; i++) {
            put_record(kind, kind == 4 ? 0 : 2, 0);
            if (kind != 4) integer(kind == 2 ? 2 : 1); /* the second member goes down */
        }
        integer(2);
        if (kind == 4) for (unsigned i = 0; i < 1535; i++) integer(2);
        put_line();
    }
    making.records = 0; /* a sum in a product in a sum, where no rule is at work until the bottom */
    nest(383);
    put_record(2, 2, 0);
    symbol(2);
    integer(3);
    put_line();
}

int main(int argc, char **argv) {
    making.at = table;
    if (argc == 2 && strcmp(argv[1], "list") == 0) {
        for (size_t i = 0; i < FAMILIES; i++) printf("%s\n", families[i].name);
        return 0;
    }
    if (argc == 2 && strcmp(argv[1], "deepest") == 0) { deepest(); return 0; }
    for (size_t i = 0; argc >= 2 && i < sizeof sites / sizeof sites[0]; i++)
        if (strcmp(argv[1], sites[i].name) == 0) { sites[i].make(); return 0; }
    for (size_t i = 0; argc == 3 && i < FAMILIES; i++) {
        if (strcmp(argv[1], families[i].name) != 0) continue;
        uint64_t most = decimal(argv[2]);
        if (most > 16384) { printf("no table weighs over 16384\n"); return 2; }
        unsigned n = 2;
        do {
            making.records = 0;
            families[i].make(n++);
        } while (weight_of_records(table, making.records) <= most);
        if (n == 3) { printf("no tree of this family is so light\n"); return 2; }
        making.records = 0;
        families[i].make(n - 2);
        put_line();
        return 0;
    }
    printf("usage: families NAME WEIGHT | site | small | unlike | tiny | deepest | list\n");
    return 2;
}
