/* settings_full: areas that have a record of every key, in order and in reverse: each key asked for is shown; and where the record of one key is given
   another's, at the edges of the parts that keys are judged in and elsewhere, every call refuses the area by 11 and changes no byte of it. */
#include "../../include/simmergate.h"
#include <stdio.h>
#include <stdlib.h>
#include <string.h>
#include "settings.h"

enum { KEYS = 65536, PART = 8192 };

static uint8_t area[SLOT * KEYS], before[SLOT * KEYS], answer[32];
static unsigned long long calls;

static void expect(uint32_t number, uint32_t must, unsigned key) {
    calls++;
    if (number == must) return;
    printf("settings_full: %u where %u must be, key %u\n", (unsigned)number, (unsigned)must, key);
    exit(1);
}

static void show(unsigned key, uint32_t must) { expect(simmergate_settings_fetch(area, sizeof area, (uint16_t)key, answer, sizeof answer), must, key); }

/* The record in slot `to` gets the key of that in slot `from`. */
static void twice(unsigned from, unsigned to, unsigned key) {
    uint8_t own[2];
    if (from == to) return;
    memcpy(own, area + SLOT * to + 2, 2);
    memcpy(area + SLOT * to + 2, area + SLOT * from + 2, 2);
    memcpy(before, area, sizeof area);
    show(key, 11);
    expect(simmergate_settings_store(area, sizeof area, (uint16_t)key, 1, 1), 11, key);
    expect(simmergate_settings_remove(area, sizeof area, (uint16_t)key), 11, key);
    if (memcmp(before, area, sizeof area) != 0) printf("settings_full: a byte changed after 11\n"), exit(1);
    memcpy(area + SLOT * to + 2, own, 2);
}

static void fill(int reverse) {
    for (unsigned i = 0; i < KEYS; i++) write_slot(area + SLOT * i, 2, reverse ? KEYS - 1 - i : i, i * 0x9E3779B97F4A7C15u, i % 7);
}

int main(void) {
    static const unsigned some[] = {0, 1, 4711, PART - 1, PART, 3 * PART - 1, 3 * PART + 1, KEYS - PART - 1, KEYS - PART, KEYS - 2, KEYS - 1};
    enum { SOME = sizeof some / sizeof *some };
    for (int reverse = 0; reverse < 2; reverse++) {
        fill(reverse);
        for (unsigned i = 0; i < SOME; i++) {
            show(some[i], 0);
            twice(some[i], KEYS - 1, some[i]);
            twice(some[i], some[(i + 1) % SOME], some[i]);
        }
    }
    printf("settings of every key: %llu calls, a key that is there twice is always seen\n", calls);
    return 0;
}
