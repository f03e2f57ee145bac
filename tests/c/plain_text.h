/* Formulas as text, read and written in plain C: the reader keeps a stack of its own and builds nodes; it shares nothing with the port. */
#include <stddef.h>
#include <stdint.h>
#include <string.h>

#define PLAIN_ROOM (1 << 21)

/* A node: kind as in records (5 is a negative integer); the integer, symbol or exponent; its first member and the next one beside it. */
struct plain_node { uint64_t content; uint32_t first, next, count; uint8_t kind, grouped; };
struct plain_list { uint32_t first, last, count; };
struct plain_frame { struct plain_list terms, factors; };

static struct plain_node plain_nodes[PLAIN_ROOM];
static struct plain_frame plain_frames[PLAIN_ROOM];
static uint32_t plain_used;

static inline void plain_add(struct plain_list *l, uint32_t node) {
    plain_nodes[node].next = 0;
    if (l->count++ == 0) l->first = node;
    else plain_nodes[l->last].next = node;
    l->last = node;
}

static inline uint32_t plain_node_of(uint8_t kind, uint64_t content, struct plain_list members) {
    plain_nodes[++plain_used] = (struct plain_node){content, members.first, 0, members.count, kind, 0};
    return plain_used;
}

/* Digits of a number of at most `most`, with no leading zero; 0 where there are none, or it is greater. */
static inline int plain_digits(const uint8_t *s, size_t n, size_t *i, uint64_t most, uint64_t *v) {
    size_t from = *i;
    for (*v = 0; *i < n && s[*i] >= '0' && s[*i] <= '9'; ++*i) {
        uint64_t d = s[*i] - '0';
        if (*v > (most - d) / 10 || d > most) return 0;
        *v = 10 * *v + d;
    }
    return *i > from && (s[from] != '0' || *i == from + 1);
}

static inline uint32_t plain_leaf(const uint8_t *s, size_t n, size_t *i) {
    uint64_t v;
    struct plain_list none = {0, 0, 0};
    if (*i < n && s[*i] == 's') { ++*i; return plain_digits(s, n, i, 255, &v) ? plain_node_of(1, v, none) : 0; }
    if (*i < n && s[*i] == '-') { ++*i; return plain_digits(s, n, i, (uint64_t)1 << 63, &v) && v > 0 ? plain_node_of(5, 0 - v, none) : 0; }
    return plain_digits(s, n, i, ((uint64_t)1 << 63) - 1, &v) ? plain_node_of(0, v, none) : 0;
}

/* Whether each of the list has parentheses exactly where its kind is one of `kinds`. */
static inline int plain_fit(const struct plain_list *l, const char *kinds) {
    for (uint32_t m = l->first; m != 0; m = plain_nodes[m].next)
        if ((strchr(kinds, '0' + plain_nodes[m].kind) != NULL) != plain_nodes[m].grouped) return 0;
    return 1;
}

/* The node of a text; 0 where it is none. */
static inline uint32_t plain_read(const uint8_t *s, size_t n) {
    size_t i = 0, depth = 0;
    plain_used = 0;
    plain_frames[0] = (struct plain_frame){{0, 0, 0}, {0, 0, 0}};
    for (;;) {
        while (i < n && s[i] == '(') i++, plain_frames[++depth] = (struct plain_frame){{0, 0, 0}, {0, 0, 0}};
        uint32_t x = plain_leaf(s, n, &i);
        if (x == 0) return 0;
        for (;;) {
            struct plain_frame *f = &plain_frames[depth];
            if (i < n && s[i] == '^') {
                uint64_t e;
                struct plain_list base = {0, 0, 0};
                plain_add(&base, x);
                i++;
                if (!plain_fit(&base, "2345") || !plain_digits(s, n, &i, ((uint64_t)1 << 63) - 1, &e) || e == 0) return 0;
                x = plain_node_of(4, e, base);
            }
            plain_add(&f->factors, x);
            if (i < n && s[i] == '*') { i++; break; }
            if (f->factors.count > 1) {
                if (!plain_fit(&f->factors, "23")) return 0;
                x = plain_node_of(3, 0, f->factors);
            }
            f->factors = (struct plain_list){0, 0, 0};
            plain_add(&f->terms, x);
            if (i < n && s[i] == '+') { i++; break; }
            if (f->terms.count > 1) {
                if (!plain_fit(&f->terms, "2")) return 0;
                x = plain_node_of(2, 0, f->terms);
            } else if (plain_nodes[x].grouped) return 0;
            if (depth == 0) return i == n ? x : 0;
            if (i == n || s[i] != ')') return 0;
            i++, depth--;
            plain_nodes[x].grouped = 1;
        }
    }
}

/* The weight of all nodes that were read. */
static inline uint64_t plain_weight(void) {
    uint64_t w = 0;
    for (uint32_t k = 1; k <= plain_used; k++) w += plain_nodes[k].kind == 1 ? 3 : plain_nodes[k].kind == 4 ? 2 : 1;
    return w;
}

static inline uint8_t *plain_record(uint8_t *to, unsigned kind, uint32_t count, uint64_t content) {
    memset(to, 0, 16);
    to[0] = (uint8_t)kind, to[2] = (uint8_t)count, to[3] = (uint8_t)(count >> 8);
    for (int b = 0; b < 8; b++) to[8 + b] = (uint8_t)(content >> 8 * b);
    return to + 16;
}

/* The records of a node; the end of them. */
static inline uint8_t *plain_records(uint32_t node, uint8_t *to) {
    struct plain_node x = plain_nodes[node];
    if (x.kind < 2 || x.kind == 5) return plain_record(to, x.kind % 5, 0, x.content);
    to = plain_record(to, x.kind, x.kind == 4 ? 0 : x.count, 0);
    for (uint32_t m = x.first; m != 0; m = plain_nodes[m].next) to = plain_records(m, to);
    return x.kind == 4 ? plain_record(to, 0, 0, x.content) : to;
}

static inline char *plain_number(char *to, uint64_t v) {
    if (v >= 10) to = plain_number(to, v / 10);
    *to = (char)('0' + v % 10);
    return to + 1;
}

/* The text of the tree at `*t`, a good table's; its end, `*t` being the record after the tree. In a sum parentheses stand round 2, in a product round 2
   and 3, as a base round 2 to 4 and negative integers. */
static inline char *plain_text(const uint8_t **t, const char *kinds, char *to) {
    const uint8_t *r = *t;
    uint64_t v = 0;
    for (int b = 7; b >= 0; b--) v = v << 8 | r[8 + b];
    unsigned kind = r[0] == 0 && v >> 63 ? 5 : r[0];
    int grouped = strchr(kinds, '0' + kind) != NULL;
    *t += 16;
    if (grouped) *to++ = '(';
    if (kind == 5) *to++ = '-', to = plain_number(to, 0 - v);
    if (kind == 1) *to++ = 's';
    if (kind < 2) to = plain_number(to, v);
    for (unsigned k = 0, count = r[2] + 256u * r[3]; (kind == 2 || kind == 3) && k < count; k++) {
        if (k > 0) *to++ = kind == 2 ? '+' : '*';
        to = plain_text(t, kind == 2 ? "2" : "23", to);
    }
    if (kind == 4) {
        to = plain_text(t, "2345", to);
        *to++ = '^';
        to = plain_text(t, "", to);
    }
    if (grouped) *to++ = ')';
    return to;
}
