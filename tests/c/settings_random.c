/* settings_random SEED COUNT [FROM]: COUNT long sequences of settings calls beside a plain array of 65,536 entries, on areas of 0 to 40 slots: free
   ones, ones with records of version 1, of version 2, and of both, and damaged ones, which a plain reading of the request (settings.h) judges.
   Compared after every call: the returned number, every byte of the answer slice and of the area, and the bytes around them. */
#include "../../include/simmergate.h"
#include "lent.h"
#include "settings.h"
#include "text.h"
#include "tables.h"

enum { KEYS = 65536, MOST_SLOTS = 40, MOST_BYTES = SLOT * (MOST_SLOTS + 1) };

/* The plain map: one entry for each key. Its keys also stand in `order`, oldest first, as a list that closes up when one is taken out: it says
   in which slot each record must be. */
static struct entry { int known; unsigned version, unit; uint64_t setting; } map[KEYS];
static unsigned order[MOST_SLOTS];
static size_t used, room, bytes;

/* What the area must hold, and whether the calls refuse it: by 10 or 11, each release for itself. */
static uint8_t wanted[MOST_BYTES];
static uint32_t verdict_new, verdict_old;

static struct lent area = {.name = "area"}, answer = {.name = "answer"};
static uint64_t seed, sequence, turn, calls, seen[14], old_shown, damaged_fine;
static const char *now = "";

static void fail(const char *what) {
    printf("settings_random: %s: %s: sequence %llu of seed %llu, call %llu of it (again by: settings_random %llu 1 %llu); the area must hold ", now, what,
           (unsigned long long)sequence, (unsigned long long)seed, (unsigned long long)turn, (unsigned long long)seed, (unsigned long long)sequence);
    put_hex(wanted, bytes);
    printf("\n");
    exit(1);
}

/* ---- The plain map and the area that shows it ---- */

static void forget_all(void) {
    memset(map, 0, sizeof map);
    used = 0;
}

static void learn(unsigned key, unsigned version, uint64_t setting, unsigned unit) {
    if (!map[key].known) order[used++] = key;
    map[key] = (struct entry){1, version, unit, setting};
}

static void forget(unsigned key) {
    size_t i = 0;
    while (order[i] != key) i++;
    for (used--; i < used; i++) order[i] = order[i + 1];
    map[key] = (struct entry){0, 0, 0, 0};
}

static void write_map(void) {
    memset(wanted, 0, bytes);
    for (size_t i = 0; i < used; i++) write_slot(wanted + SLOT * i, map[order[i]].version, order[i], map[order[i]].setting, map[order[i]].unit);
}

static int any_new(void) {
    for (size_t i = 0; i < used; i++)
        if (map[order[i]].version > OLD_RELEASE) return 1;
    return 0;
}

static void judged_by_map(void) { verdict_new = 0, verdict_old = any_new() ? 10 : 0; }

/* ---- One call each ---- */

static uint8_t *lend_area(void) { return memcpy(lend(&area, bytes), wanted, bytes); }

static void left(uint32_t number, uint32_t must) {
    calls++;
    if (number != must) fail("the returned number is another one");
    if (!holds(&area, wanted, bytes, bytes)) fail("the area afterwards, or what is around it, is another one");
    seen[number]++;
}

static void fetch(int is_new, unsigned key) {
    size_t count = is_new ? 4 : 3, lent = chance(20) ? (size_t)below(8 * count) : 8 * count + (chance(3) ? (size_t)below(50) : 0);
    uint32_t number = is_new ? verdict_new : verdict_old;
    if (number == 0 && !map[key].known) number = 12;
    uint64_t said[4] = {number, 0, 0, 0};
    if (number == 0) said[2] = map[key].setting, said[3] = map[key].unit;
    uint8_t *a = lend_area(), *to = lend(&answer, lent);
    now = is_new ? "fetch" : "fetch_1";
    uint32_t r = is_new ? simmergate_settings_fetch(a, bytes, (uint16_t)key, to, lent) : simmergate_settings_fetch_1(a, bytes, (uint16_t)key, to, lent);
    if (lent < 8 * count) {
        if (!untouched(&answer)) fail("the answer is too short, and a byte of it changed");
        left(r, 6);
        return;
    }
    if (!holds(&answer, numbers(said, count), 8 * count, 8 * count)) fail("the answer, or what is around it, is another one");
    left(r, number);
    old_shown += !is_new && number == 0;
}

static void store(unsigned key, uint64_t setting, unsigned unit) {
    uint8_t *a = lend_area();
    uint32_t number = verdict_new;
    if (number == 0 && !map[key].known && used == room) number = 13;
    now = "store";
    uint32_t r = simmergate_settings_store(a, bytes, (uint16_t)key, setting, (uint16_t)unit);
    if (number == 0) learn(key, NEW_RELEASE, setting, unit), write_map(), judged_by_map();
    left(r, number);
}

static void take_out(unsigned key) {
    uint8_t *a = lend_area();
    uint32_t number = verdict_new;
    if (number == 0 && !map[key].known) number = 12;
    now = "remove";
    uint32_t r = simmergate_settings_remove(a, bytes, (uint16_t)key);
    if (number == 0) forget(key), write_map(), judged_by_map();
    left(r, number);
}

/* ---- Keys and settings to try ---- */

/* Few keys, so that they come again; the edges; or any. */
static unsigned some_key(void) {
    static const unsigned edges[] = {0, 1, 255, 256, 257, 65280, 65534, 65535};
    if (used > 0 && chance(2)) return order[below(used)];
    if (chance(3)) return edges[below(sizeof edges / sizeof *edges)];
    return (unsigned)(chance(4) ? below(KEYS) : below(MOST_SLOTS + 8));
}

static uint64_t some_setting(void) { return chance(4) ? below(3) : chance(4) ? ~below(3) : any() >> below(64); }

static unsigned some_unit(void) { return (unsigned)(chance(3) ? 0 : below(65536)); }

/* A call on some key; where none may be stored, the versions stay as they are. */
static void one_call(int may_store) {
    unsigned key = some_key();
    turn++;
    uint64_t kind = below(5);
    if (kind < 2 && may_store) store(key, some_setting(), some_unit());
    else if (kind == 2 && (may_store || chance(4))) take_out(key);
    else fetch(chance(2), key);
}

/* ---- Areas to begin with ---- */

/* A map of so many records as stood there before: of version 1, of version 2, or of both. */
static void begin(size_t slots, size_t records, int versions) {
    forget_all();
    room = slots, bytes = SLOT * slots;
    while (used < records) {
        unsigned key = (unsigned)(chance(3) ? below(KEYS) : below(2 * MOST_SLOTS)), version = versions == 3 ? 1 + (unsigned)below(2) : (unsigned)versions;
        if (!map[key].known) learn(key, version, some_setting(), version == 2 ? some_unit() : 0);
    }
    write_map();
    judged_by_map();
}

/* One damage, of those that a disk, a newer release or a wrong program do. */
static void damage(void) {
    if (bytes < SLOT) { bytes += 1 + below(SLOT - 1), memset(wanted, 0, bytes); return; }
    uint8_t *slot = wanted + SLOT * below(bytes / SLOT), *other = wanted + SLOT * below(bytes / SLOT);
    switch (below(12)) {
    case 0: slot[below(SLOT)] ^= (uint8_t)(1 << below(8)); break;
    case 1: slot[below(SLOT)] = (uint8_t)any(); break;
    case 2: slot[0] = (uint8_t)below(5); break;
    case 3: slot[4 + below(2)] = 1; break;
    case 4: memcpy(slot, other, SLOT); break;
    case 5: memset(slot, 0, SLOT); break;
    case 6: memcpy(slot + 2, other + 2, 2); break;
    case 7: bytes -= 1 + below(SLOT - 1); break;
    case 8: memset(wanted + bytes, chance(2) ? 9 : 0, SLOT - 1), bytes += 1 + below(SLOT - 1); break;
    case 9: write_slot(wanted + bytes - SLOT, 1 + (unsigned)below(3), some_key(), 1, 0); break;
    case 10: slot[0] = 0; break;
    default: slot[8 + below(8)] = (uint8_t)any();
    }
}

/* What the bytes say, plainly read: the verdicts, and the map where the new release refuses nothing. */
static void read_area(void) {
    verdict_new = own_judge(wanted, bytes, NEW_RELEASE), verdict_old = own_judge(wanted, bytes, OLD_RELEASE);
    forget_all();
    room = bytes / SLOT;
    if (verdict_new != 0) return;
    for (size_t i = 0; i < room; i++) {
        const uint8_t *slot = wanted + SLOT * i;
        if (!is_free(slot)) learn(key_in(slot), slot[0], setting_in(slot), unit_in(slot));
    }
    damaged_fine++;
}

int main(int argc, char **argv) {
    if (argc < 3) { printf("usage: settings_random SEED COUNT [FROM]\n"); return 2; }
    seed = decimal(argv[1]);
    uint64_t count = decimal(argv[2]), from = argc > 3 ? decimal(argv[3]) : 0, from_free = 0, damaged = 0;
    lent_begin();
    for (sequence = from; sequence < from + count; sequence++) {
        random_state = seed * 0x2545F4914F6CDD1Du + sequence;
        size_t slots = (size_t)(sequence % (MOST_SLOTS + 1));
        int free_only = chance(2);
        turn = 0;
        begin(slots, free_only ? 0 : (size_t)below(slots + 1), 1 + (int)below(3));
        from_free += (uint64_t)free_only;
        uint64_t length = 20 + below(400);
        int stores_late = chance(3);
        for (uint64_t i = 0; i < length; i++) one_call(!stores_late || i > length / 2);
        for (uint64_t i = 0; i < 4; i++) {
            begin(slots, (size_t)below(slots + 1), 1 + (int)below(3));
            damage();
            read_area();
            damaged++;
            for (uint64_t k = 0; k < 12; k++) one_call(k > 3);
        }
    }
    if (count >= 200) {
        static const int must[] = {0, 6, 10, 11, 12, 13};
        for (size_t i = 0; i < sizeof must / sizeof *must; i++) {
            if (seen[must[i]] == 0) { printf("settings_random: no call of seed %llu was answered %d: nothing is shown of it\n", (unsigned long long)seed, must[i]); return 1; }
        }
        if (old_shown == 0 || damaged_fine == 0) { printf("settings_random: the old reader showed nothing, or no damage was harmless\n"); return 1; }
    }
    printf("settings beside a plain array: %llu sequences (seed %llu; %llu from free slots) and %llu damaged areas (%llu still in order), %llu calls: accepted "
           "%llu, answer too short %llu, refused 10 to 13: %llu %llu %llu %llu; the old reader showed %llu\n",
           (unsigned long long)count, (unsigned long long)seed, (unsigned long long)from_free, (unsigned long long)damaged, (unsigned long long)damaged_fine,
           (unsigned long long)calls, (unsigned long long)seen[0], (unsigned long long)seen[6], (unsigned long long)seen[10], (unsigned long long)seen[11],
           (unsigned long long)seen[12], (unsigned long long)seen[13], (unsigned long long)old_shown);
    return 0;
}
