/* Areas lent as in lent.h, which each end, by chance, in guard bytes before a page that nothing may touch, or at that page. After lent.h and tables.h. */
int mprotect(void *, size_t, int);

enum { PAGE = 4096 };

struct edge {
    uint8_t store[LENT_ROOM + PAGE], page[PAGE];
    size_t length, behind;
    int closed;
    uint8_t *at;
} __attribute__((aligned(PAGE)));

/* An area of `length` bytes. */
static inline uint8_t *lend_edge(struct edge *area, size_t length) {
    if (length > LENT_ROOM) { printf("an area of %zu bytes is more than can be lent here\n", length); exit(2); }
    if (!area->closed && mprotect(area->page, PAGE, 0) != 0) { printf("no page can be closed\n"); exit(2); }
    area->closed = 1;
    area->behind = chance(2) ? GUARD : 0;
    area->length = length;
    area->at = area->page - area->behind - length;
    memcpy(area->at - GUARD, lent_pattern, GUARD + length + area->behind);
    return area->at;
}

/* The bytes lent. */
static inline uint8_t *lend_bytes(struct edge *area, const uint8_t *bytes, size_t n) { return memcpy(lend_edge(area, n), bytes, n); }

/* As `holds`, and as `untouched`. */
static inline int edge_holds(const struct edge *area, const uint8_t *bytes, size_t count, size_t stretch) {
    return held_at(area->at, area->length, area->behind, bytes, count, stretch);
}

static inline int edge_untouched(const struct edge *area) { return edge_holds(area, lent_zeros, 0, 0); }

/* Whether it holds just the bytes that were lent. */
static inline int edge_kept(const struct edge *area, const uint8_t *bytes) { return edge_holds(area, bytes, area->length, area->length); }
