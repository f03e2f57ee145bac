/* Numbers whose keys agree, found by searching, by the key as tests/c/key.h has it. Flags are chosen by a factor that the node's own key names, in still::still and in
   the walk, so that numbers which share few flags in every node cannot be searched for by themselves; the next four functions go by the flags without that factor. */
#include "../tests/c/key.h"
#include <stdio.h>
#include <stdlib.h>

/* Keys that would share few flags in the test for like members (still::still), however many members there are. */
static inline int is_crowded(uint32_t key) { return key >> 23 == 0 && key * 0x85ebca6bu >> 23 == 0; }

/* The same of the walk (walk::numbers): numbers that would share few flags in its first round, and what a power of two integers goes by there. */
static inline int is_near(uint64_t v) { return v * 0x9e3779b97f4a7c15u >> 54 == 0; }
static inline uint64_t spread_share(uint64_t v) {
    uint64_t y = v * 0x9e3779b97f4a7c15u, low = (uint32_t)y, high = y >> 32;
    return (uint32_t)(low + high) * high + low;
}
static inline uint64_t power_spread(uint64_t base, uint64_t exponent) { return 4 * 0x5a827999507d31u + spread_share(base) + spread_share(exponent); }

#define MOST 4096 /* as many members as a formula of these rows has at the weight 16,384 */
static struct { uint64_t base, exponent; } numbers[MOST];
typedef uint32_t (*key_of)(uint64_t);

/* Positive numbers that agree in the whole key, stirred with c: to each lower half there is one upper half; of them those that `also` takes. */
static inline void agree_in_all(key_of key, uint32_t c, int (*also)(uint64_t)) {
    size_t found = 0;
    for (uint32_t lower = 2; found < MOST; lower++) {
        uint32_t upper = 0x12345678 - before(lower, c);
        uint64_t x = (uint64_t)upper << 32 | lower;
        if (x >> 63 == 0 && also(x)) numbers[found].base = 2, numbers[found++].exponent = x;
    }
    for (size_t i = 0; i < MOST; i++)
        if (key(numbers[i].exponent) != key(numbers[0].exponent)) { printf("the keys do not agree: tests/c/key.h wants another search\n"); exit(1); }
}

/* Numbers that agree in 15 bits of the key, the first two in all: so the test for like members, which comes before the walk, never says that there are none. */
static inline void agree_in_15(key_of key) {
    uint64_t x = 1;
    for (size_t i = 2; i < MOST; i++) {
        do x++;
        while ((key(x) ^ key(numbers[0].exponent)) % 0x8000 != 0);
        numbers[i].exponent = x;
    }
}

/* Numbers whose keys are crowded, and no two alike: that test then looks through all keys that it has kept, and finds none. */
static inline int is_taken(key_of key, uint32_t k, size_t found) {
    while (found > 0 && key(numbers[found - 1].exponent) != k) found--;
    return found > 0;
}
static inline void crowd(key_of key) {
    uint64_t x = 1;
    for (size_t i = 0; i < MOST; i++) {
        do x++;
        while (!is_crowded(key(x)) || is_taken(key, key(x), i));
        numbers[i].base = 2, numbers[i].exponent = x;
    }
}

static inline uint32_t power_of_two(uint64_t e) { return power_key(2, e); }
static inline uint32_t sum_with(uint64_t n) { return 2 + strewn(0, 1) + integer_key(n); } /* s0+n */
static inline int every(uint64_t x) { (void)x; return 1; }
static inline int is_near_power(uint64_t e) { return is_near(power_spread(2, e)); }
static inline void powers_in_all(void) { agree_in_all(power_of_two, 5, every); }
static inline void sums_in_all(void) { agree_in_all(sum_with, 0, every); }
static inline void powers_in_15(void) { powers_in_all(); agree_in_15(power_of_two); }
static inline void sums_in_15(void) { sums_in_all(); agree_in_15(sum_with); }
static inline void powers_at_flags(void) { crowd(power_of_two); }
/* And near each other in the walk's first round. */
static inline void powers_in_all_near(void) { agree_in_all(power_of_two, 5, is_near_power); }
static inline void exponents_near(void) {
    uint64_t x = 1;
    for (size_t i = 0; i < MOST; i++) {
        do x++;
        while (!is_near(x));
        numbers[i].base = i + 2, numbers[i].exponent = x;
    }
}

/* Bases and exponents with which the powers agree in the whole key, whatever `strewn` is: four million bases are listed by the upper 20 bits of their keys, and what an exponent
   lacks of one sum is looked up; four million exponents are enough. */
#define LISTED (1 << 22)
#define LISTS (1 << 20)
static uint32_t listed[LISTED], begins[LISTS + 1];

static inline void list_bases(void) {
    for (uint32_t x = 0; x < LISTED; x++) begins[integer_key(x + 2) >> 12]++;
    for (uint32_t k = 1; k <= LISTS; k++) begins[k] += begins[k - 1];
    for (uint32_t x = LISTED; x > 0; x--) listed[--begins[integer_key(x + 1) >> 12]] = x + 1;
}
static inline void powers_by_twos(void) {
    size_t found = 0;
    list_bases();
    for (uint64_t e = 2; found < MOST && e < 1 << 26; e++) {
        uint32_t wanted = 0x12345678 - exponent_share(e);
        for (uint32_t i = begins[wanted >> 12]; i < begins[(wanted >> 12) + 1] && found < MOST; i++)
            if (integer_key(listed[i]) == wanted) numbers[found].base = listed[i], numbers[found++].exponent = e;
    }
    if (found < MOST) { printf("too few powers whose keys agree\n"); exit(1); }
}
