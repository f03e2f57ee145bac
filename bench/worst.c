/* worst CALL LIMIT N: makes one call N times, on what stands on standard input: `equal` on two equal tables, a line of hexadecimal digits each; `read` on a line of text
   that is accepted, `judge` on one that is refused; `fetch` on an area of so many settings as the line says, whatever the LIMIT. Another answer ends
   the program. */
#include "../include/simmergate.h"
#include "../tests/c/text.h"

static uint8_t one[262144], other[262144], area[65536 * SIMMERGATE_SLOT_BYTES], answer[SIMMERGATE_SIMPLIFY_BYTES];
static size_t limit, one_bytes, other_bytes, area_bytes, text_bytes;

static int equal(void) {
    return simmergate_equal(limit, one, one_bytes, other, other_bytes, answer, sizeof answer) == 0 && simmergate_number(answer, SIMMERGATE_AT_EQUAL_YES) == 1;
}
static uint32_t reading(void) { return simmergate_read_text(limit, (const uint8_t *)line, text_bytes, one, sizeof one, answer, sizeof answer); }
static int read_text(void) { return reading() == 0; }
static int judge(void) { return reading() != 0; }
static int fetch(void) { return simmergate_settings_fetch(area, area_bytes, 7, answer, sizeof answer) == 0; }

static void wanted_line(void) {
    if (!next_line()) { printf("worst: too few lines\n"); exit(2); }
}
static void two_tables(void) {
    wanted_line();
    one_bytes = unhex(line, one, sizeof one);
    wanted_line();
    other_bytes = unhex(line, other, sizeof other);
}
static void a_text(void) { wanted_line(); text_bytes = strlen(line); }
/* Settings of version 2 with different keys in no order, 7 among them. */
static void settings(void) {
    wanted_line();
    uint64_t records = decimal(line);
    if (records > 65536) { printf("worst: there are 65536 keys\n"); exit(2); }
    for (uint64_t i = 0; i < records; i++) {
        uint8_t *slot = area + SIMMERGATE_SLOT_BYTES * i;
        uint64_t key = 7919 * i + 7;
        slot[0] = 2, slot[2] = (uint8_t)key, slot[3] = (uint8_t)(key >> 8), slot[4] = 1, slot[8] = 5;
    }
    area_bytes = SIMMERGATE_SLOT_BYTES * records;
}

static const struct { const char *name; void (*prepare)(void); int (*call)(void); } calls[] = {
    {"equal", two_tables, equal}, {"read", a_text, read_text}, {"judge", a_text, judge}, {"fetch", settings, fetch},
};

int main(int argc, char **argv) {
    for (size_t i = 0; argc == 4 && i < sizeof calls / sizeof calls[0]; i++) {
        if (strcmp(argv[1], calls[i].name) != 0) continue;
        limit = decimal(argv[2]);
        calls[i].prepare();
        for (uint64_t n = decimal(argv[3]); n > 0; n--)
            if (!calls[i].call()) { printf("worst: %s: another answer\n", argv[1]); return 1; }
        return 0;
    }
    printf("usage: worst equal|read|judge|fetch LIMIT N\n");
    return 2;
}
