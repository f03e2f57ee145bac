/* Random formulas with definitions. After sites.h and tables.h. */

/* One damage to a table of n bytes; its length afterwards. */
static inline size_t damaged(uint8_t *t, size_t n) {
    switch (below(5)) {
    case 0: t[below(n)] ^= (uint8_t)(1 << below(8)); return n;
    case 1: return below(n + 1);
    case 2: return 16 * below(n / 16 + 1);
    case 3: memset(t + n, 0, 16); return n + 16;
    default: return 0;
    }
}

/* The symbols of the n records by others: those from `least` on, five of them. */
static inline void renamed(uint8_t *t, size_t n, uint64_t least) {
    for (size_t i = 0; i < n; i++)
        if (t[16 * i] == 1) t[16 * i + 8] = (uint8_t)(least + below(5));
}

/* A sum of n times a symbol; its records. */
static inline size_t copies(uint8_t *t, uint64_t n, uint64_t symbol) {
    memset(t, 0, 16 * (n + 1));
    t[0] = 2, t[2] = (uint8_t)n;
    for (uint64_t i = 1; i <= n; i++) t[16 * i] = 1, t[16 * i + 8] = (uint8_t)symbol;
    return n + 1;
}

/* Site number `at` of the seed; of fifteen one has definitions that are sums of the next one, and mostly becomes too heavy. */
static inline void random_site(struct site *site, uint64_t seed, uint64_t at) {
    static uint8_t part[16 * TABLE_RECORDS + 16];
    size_t n = random_table(site->table, seed, at, 60, LOWER);
    uint64_t kept = any(), many = chance(12) ? 14 + below(5) : below(6), circles = below(3), heavy = chance(15);
    if (heavy) n = copies(site->table, 2 + below(10), 0), many = 1 + below(5);
    site->limit = chance(60) ? own_no_limit(kept) : chance(2) ? LOWER : HIGHER;
    if (!heavy) renamed(site->table, n, 0);
    put_marks(site->table, 16 * n);
    site->table_bytes = 16 * n;
    site->symbols_bytes = site->definitions_bytes = 0;
    for (uint64_t i = 0; i < many; i++) {
        size_t m = random_table(part, seed + 1 + i, at, many > 6 ? 5 : 30, LOWER);
        random_state = kept ^ i << 32;
        if (heavy) m = copies(part, 2 + below(18), i + 1);
        else renamed(part, m, circles == 0 && chance(3) ? 0 : i + 1);
        put_marks(part, 16 * m);
        m = chance(60) ? damaged(part, 16 * m) : 16 * m;
        site->symbols[i] = (uint8_t)(chance(40) ? below(5) : i);
        own_bytes(site->lengths + 8 * i, m);
        memcpy(site->definitions + site->definitions_bytes, part, m);
        site->definitions_bytes += m;
        site->symbols_bytes++;
    }
    random_state = kept;
    site->lengths_bytes = 8 * site->symbols_bytes;
    if (chance(15)) site->table_bytes = damaged(site->table, site->table_bytes);
    if (chance(20)) {
        switch (below(4)) {
        case 0: site->lengths_bytes += below(9); break;
        case 1: site->symbols_bytes++; break;
        case 2: own_bytes(site->lengths, below(2) ? any() : own_number(site->lengths) + 16); break;
        default: own_bytes(site->lengths, own_number(site->lengths) - 16), own_bytes(site->lengths + 8, own_number(site->lengths + 8) + 16);
        }
    }
}
