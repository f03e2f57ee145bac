/* Tables and texts damaged by chance. After own.h and tables.h. */

/* The lower limit, or, seldom, since tables and areas are longer there, the higher. */
static inline size_t some_limit(void) { return chance(10) ? HIGHER : LOWER; }

/* One damage, of those that a wire, a disk or a wrong program do. */
static inline void damage(uint8_t *t, size_t *n) {
    size_t records = *n / 16;
    uint8_t *r = t + 16 * below(records);
    switch (below(12)) {
    case 0: t[below(*n)] ^= (uint8_t)(1 << below(8)); break;
    case 1: t[below(*n)] = (uint8_t)any(); break;
    case 2: *n = below(*n + 1); break;
    case 3: *n = 16 * below(records + 1); break;
    case 4: memmove(r + 16, r, (size_t)(t + *n - r)); *n += 16; break;
    case 5: memmove(r, r + 16, (size_t)(t + *n - r - 16)); *n -= 16; break;
    case 6: r[0] = (uint8_t)below(6); break;
    case 7: r[2] = (uint8_t)below(4); break;
    case 8: if (r[0] == 0) { memset(r + 8, 0, 8); if (chance(2)) r[15] = 0x80; } break;
    case 9: memset(r, 0, 16); r[0] = 4; break;
    case 10: memset(r, 0, 16); r[0] = 1; r[8] = (uint8_t)any(); break;
    default: /* longer than any table, or heavier */
        if (chance(8)) { *n = 16 * some_limit() + below(40); memset(t, 0, *n); }
        else if (chance(4)) { *n = 16 * (1 + below(some_limit())); memset(t, 0, *n); for (size_t i = 0; i < *n; i += 16) t[i] = 1; }
        else if (chance(4)) { *n = 16 * some_limit() - 16 * below(2); memset(t, 0, *n); for (size_t i = 0; i < *n; i += 16) t[i] = 4; }
        else r[1 + below(15)] = 1;
    }
}

/* A text of n bytes, with room for two more: one character put in, taken out or changed, or parentheses round a part; the new length. */
static inline size_t damage_text(uint8_t *text, size_t n) {
    static const char set[] = "s0123456789+-*^()";
    size_t i = below(n + 1), j = i + below(n - i + 1);
    uint8_t ch = chance(30) ? (uint8_t)any() : (uint8_t)set[below(sizeof set - 1)];
    switch (below(4)) {
    case 0: memmove(text + i + 1, text + i, n - i), text[i] = ch; return n + 1;
    case 1: if (i < n) { memmove(text + i, text + i + 1, n - i - 1); return n - 1; } return n;
    case 2: if (i < n) text[i] = ch; return n;
    default:
        memmove(text + j + 2, text + j, n - j), memmove(text + i + 1, text + i, j - i);
        text[i] = '(', text[j + 1] = ')';
        return n + 2;
    }
}

/* A few records of the table given others of the same shape. */
static inline void change(uint8_t *t, size_t records) {
    for (uint64_t n = below(4); n > 0; n--) {
        uint8_t *r = t + 16 * below(records);
        if (chance(4)) r[4 + below(2)] ^= (uint8_t)(1 << below(8));
        else if (r[0] == 0) r[8 + below(8)] ^= (uint8_t)(1 << below(8));
        else if (r[0] == 1) r[8] ^= (uint8_t)(1 << below(8));
        else if (r[0] < 4 && chance(2)) r[0] ^= 1;
    }
}
