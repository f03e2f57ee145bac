/* Keys, as crate `note` defines them (crates/note/specs/Note.antt): tests/definitions_keys holds these functions to the definitions. */
#include <stdint.h>

static inline uint32_t stirred(uint32_t x, uint32_t c) {
    uint32_t y = x * 0x9e3779b1u + c;
    return (uint32_t)((uint64_t)y * y >> 16);
}
static inline uint32_t mixed(uint32_t x, uint32_t c) { return stirred(stirred(x, c), c); }

/* 64 bits as 32, stirred with c: the upper half is added to what `before` makes of the lower one. */
static inline uint32_t before(uint32_t lower, uint32_t c) { return stirred(lower, c); }
static inline uint32_t strewn(uint64_t v, uint32_t c) { return stirred(before((uint32_t)v, c) + (uint32_t)(v >> 32), c); }

/* Of an integer; what an exponent adds; of a power of two integers. */
static inline uint32_t integer_key(uint64_t n) { return strewn(n, 0); }
static inline uint32_t exponent_share(uint64_t e) { return strewn(e, 5); }
static inline uint32_t power_key(uint64_t base, uint64_t exponent) { return 4 + integer_key(base) + exponent_share(exponent); }
