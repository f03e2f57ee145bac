/* Areas lent to a call: filled with a pattern that has no zeros, guarded on both sides, and looked at byte by byte afterwards. */
#include <stddef.h>
#include <stdint.h>
#include <stdio.h>
#include <string.h>

#define GUARD 64
#ifndef LENT_ROOM /* a program that lends more says so before */
#define LENT_ROOM (1 << 17)
#endif

struct lent {
    const char *name;
    size_t length;
    uint8_t store[LENT_ROOM + 2 * GUARD];
};

static uint8_t lent_pattern[LENT_ROOM + 2 * GUARD], lent_zeros[LENT_ROOM];

/* Once, before anything is lent. */
static inline void lent_begin(void) {
    for (size_t i = 0; i < sizeof lent_pattern; i++) lent_pattern[i] = (uint8_t)(1 + i * 167 % 255);
}

/* An area of `length` bytes. */
static inline uint8_t *lend(struct lent *area, size_t length) {
    area->length = length;
    memcpy(area->store, lent_pattern, length + 2 * GUARD);
    return area->store + GUARD;
}

/* Whether the `length` bytes at `at` are `bytes`, then zeros up to `stretch`, and past that and around it, `behind` bytes after it, what they were when they were lent. */
static inline int held_at(const uint8_t *at, size_t length, size_t behind, const uint8_t *bytes, size_t count, size_t stretch) {
    return memcmp(at - GUARD, lent_pattern, GUARD) == 0 && memcmp(at, bytes, count) == 0 && memcmp(at + count, lent_zeros, stretch - count) == 0 &&
           memcmp(at + stretch, lent_pattern + GUARD + stretch, length - stretch + behind) == 0;
}

/* Whether the area holds `bytes`, then zeros up to `stretch`, and past that and around it what it held when it was lent. */
static inline int holds(const struct lent *area, const uint8_t *bytes, size_t count, size_t stretch) {
    return held_at(area->store + GUARD, area->length, GUARD, bytes, count, stretch);
}

/* Whether nothing of it changed. */
static inline int untouched(const struct lent *area) { return holds(area, lent_zeros, 0, 0); }

/* The numbers, at most ten, as the bytes of an answer. */
static inline const uint8_t *numbers(const uint64_t *values, size_t count) {
    static uint8_t bytes[80];
    for (size_t i = 0; i < 8 * count; i++) bytes[i] = (uint8_t)(values[i / 8] >> 8 * (i % 8));
    return bytes;
}
