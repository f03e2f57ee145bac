/* What the tests of the settings calls share: slots by their bytes, and a plain reading of the request that shares nothing with the port. */
#include <stddef.h>
#include <stdint.h>
#include <string.h>

enum { SLOT = 32, NEW_RELEASE = 2, OLD_RELEASE = 1 };

static inline unsigned key_in(const uint8_t *slot) { return slot[2] + 256u * slot[3]; }

static inline unsigned unit_in(const uint8_t *slot) { return slot[4] + 256u * slot[5]; }

static inline uint64_t setting_in(const uint8_t *slot) {
    uint64_t x = 0;
    for (int i = 15; i >= 8; i--) x = 256 * x + slot[i];
    return x;
}

static inline void write_slot(uint8_t *slot, unsigned version, unsigned key, uint64_t setting, unsigned unit) {
    memset(slot, 0, SLOT);
    slot[0] = (uint8_t)version;
    slot[2] = (uint8_t)(key % 256), slot[3] = (uint8_t)(key / 256);
    slot[4] = (uint8_t)(unit % 256), slot[5] = (uint8_t)(unit / 256);
    for (int i = 0; i < 8; i++) slot[8 + i] = (uint8_t)(setting >> 8 * i);
}

static inline int is_free(const uint8_t *slot) {
    for (int i = 0; i < SLOT; i++)
        if (slot[i] != 0) return 0;
    return 1;
}

/* A byte other than zero that is no part of version, key, setting or, from version 2, unit; in version 0 any. */
static inline int is_malformed(const uint8_t *slot) {
    for (int i = 0; i < SLOT; i++) {
        int named = i == 0 || i == 2 || i == 3 || (i >= 8 && i <= 15) || (slot[0] >= 2 && (i == 4 || i == 5));
        if (slot[i] != 0 && (slot[0] == 0 || !named)) return 1;
    }
    return 0;
}

/* What a release that knows the versions up to `newest` says of an area: 0, 10 or 11. */
static inline uint32_t own_judge(const uint8_t *area, size_t bytes, unsigned newest) {
    size_t n = bytes / SLOT;
    for (size_t i = 0; i < n; i++)
        if (area[SLOT * i] > newest) return 10;
    if (bytes % SLOT != 0) return 11;
    for (size_t i = 0; i < n; i++) {
        if (is_malformed(area + SLOT * i)) return 11;
        for (size_t j = i + 1; j < n; j++) {
            if (is_free(area + SLOT * j)) continue;
            if (is_free(area + SLOT * i) || key_in(area + SLOT * i) == key_in(area + SLOT * j)) return 11;
        }
    }
    return 0;
}
