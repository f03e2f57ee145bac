/* Settings in a file of slots of 32 bytes, as a controller keeps them: stored, shown, removed and listed by the library.

     settings FILE list                        every setting, in the order of the slots
     settings FILE fetch KEY                   one setting
     settings FILE fetch-1 KEY                 the same as a machine with the old release shows it
     settings FILE store KEY SETTING [UNIT]    replaces the setting of a known key, or takes a free slot
     settings FILE remove KEY

   A file of zeros is one of free slots: head -c 640 /dev/zero >FILE makes room for twenty settings. A store or a remove first makes FILE.new, which
   keeps every other one out: whoever finds it there says so and changes nothing, so that of two stores at once none is lost unsaid. Then the file is
   read whole into memory, the library changes that copy, and only what was accepted is written to FILE.new, which takes the file's place. A link in
   the file's place would be replaced by it; the command `simmergate settings` follows links and waits for its turn. What goes wrong goes to standard
   error in words. */
#define PROGRAM "settings"
#include "common.h"

#define SLOT SIMMERGATE_SLOT_BYTES
#define MOST_AREA (SLOT * 65536) /* a slot for each key that there is */

static uint8_t area[MOST_AREA + 1]; /* one byte more, to see that a file is too long */
static size_t length;
static const char *file;
static char beside[4096]; /* FILE.new */
static FILE *held;        /* it, while it keeps others out */

/* ---- Words for a person ---- */

static int usage(void) {
    fprintf(stderr, "usage: settings FILE list | fetch KEY | fetch-1 KEY | store KEY SETTING [UNIT] | remove KEY\n");
    return FAILED;
}

static int turned_down(uint32_t why, unsigned key) {
    char words[SIMMERGATE_WORDS_BYTES];
    simmergate_explain_settings(words, sizeof words, why, length, key);
    fprintf(stderr, "settings: %s: refused %u: %s\n", file, why, words);
    return REFUSED;
}

static void show(unsigned key, uint64_t setting, uint64_t unit) {
    printf("%u = %lld", key, (long long)setting);
    if (unit != 0) printf(" unit %llu", (unsigned long long)unit);
    printf("\n");
}

/* ---- The file ---- */

/* Reads the file into `area`; 0 after a message. */
static int read_area(void) {
    long n = read_file(file, area, sizeof area);
    if (n > MOST_AREA) return complain(file, "it has more slots than there are keys"), 0;
    length = (size_t)n;
    return n >= 0;
}

/* Makes FILE.new, which is not there before; 0 after a message. */
static int hold(void) {
    int n = snprintf(beside, sizeof beside, "%s.new", file);
    if (n < 0 || (size_t)n >= sizeof beside) return complain(file, "its name is too long"), 0;
    held = fopen(beside, "wbx");
    if (held == NULL) complain(beside, errno == EEXIST ? "it is there: another store is at work, or was cut off; then remove it" : strerror(errno));
    return held != NULL;
}

/* Gives it up: DONE or the code that is handed in. */
static int release(int code) {
    if (held != NULL) fclose(held), remove(beside);
    return code;
}

/* Writes the area beside the file, and puts it in the file's place when it is written whole. */
static int write_area(void) {
    int whole = fwrite(area, 1, length, held) == length, why = errno;
    if (fclose(held) != 0 && whole) whole = 0, why = errno;
    held = NULL;
    if (whole && rename(beside, file) == 0) return DONE;
    complain(beside, strerror(whole ? errno : why));
    remove(beside);
    return FAILED;
}

/* ---- The commands ---- */

static int fetch(unsigned key) {
    uint8_t answer[SIMMERGATE_SETTINGS_FETCH_BYTES];
    uint32_t why = simmergate_settings_fetch(area, length, (uint16_t)key, answer, sizeof answer);
    if (why != SIMMERGATE_OK) return turned_down(why, key);
    show(key, number(answer, SIMMERGATE_AT_SETTINGS_FETCH_SETTING), number(answer, SIMMERGATE_AT_SETTINGS_FETCH_UNIT));
    return ended(DONE);
}

static int fetch_1(unsigned key) {
    uint8_t answer[SIMMERGATE_SETTINGS_FETCH_1_BYTES];
    uint32_t why = simmergate_settings_fetch_1(area, length, (uint16_t)key, answer, sizeof answer);
    if (why != SIMMERGATE_OK) return turned_down(why, key);
    show(key, number(answer, SIMMERGATE_AT_SETTINGS_FETCH_1_SETTING), 0);
    return ended(DONE);
}

static int store(unsigned key, uint64_t setting, unsigned unit) {
    uint32_t why = simmergate_settings_store(area, length, (uint16_t)key, setting, (uint16_t)unit);
    return why != SIMMERGATE_OK ? turned_down(why, key) : write_area();
}

static int take_out(unsigned key) {
    uint32_t why = simmergate_settings_remove(area, length, (uint16_t)key);
    return why != SIMMERGATE_OK ? turned_down(why, key) : write_area();
}

/* One fetch judges the area; where it is in order, its records are read as they stand, up to the first free slot. */
static int list(void) {
    uint8_t answer[SIMMERGATE_SETTINGS_FETCH_BYTES];
    uint32_t why = simmergate_settings_fetch(area, length, 0, answer, sizeof answer);
    size_t i = 0;
    if (why != SIMMERGATE_OK && why != SIMMERGATE_REFUSED_ABSENT) return turned_down(why, 0);
    for (; i < length / SLOT && area[SLOT * i] != 0; i++) {
        const uint8_t *slot = area + SLOT * i;
        show(slot[2] + 256u * slot[3], number(slot, 1), slot[4] + 256u * slot[5]);
    }
    printf("%zu of %zu slots used\n", i, length / SLOT);
    return ended(DONE);
}

/* ---- The command line ---- */

/* The number from 0 to 65,535 that `text` is; 0 after a message. */
static int read_16(const char *text, unsigned *to) {
    char *end;
    unsigned long long x = strtoull(text, &end, 10);
    if (*text < '0' || *text > '9' || *end != 0 || x > 65535) {
        fprintf(stderr, "settings: not a number from 0 to 65535: %s\n", text);
        return 0;
    }
    *to = (unsigned)x;
    return 1;
}

static int read_setting(const char *text, uint64_t *to) {
    char *end;
    errno = 0;
    *to = (uint64_t)strtoll(text, &end, 10);
    if (end == text || *end != 0 || errno != 0) {
        fprintf(stderr, "settings: not a signed number of 64 bits: %s\n", text);
        return 0;
    }
    return 1;
}

int main(int argc, char **argv) {
    unsigned key = 0, unit = 0;
    uint64_t setting = 0;
    const char *command = argc > 2 ? argv[2] : "";
    int is_list = strcmp(command, "list") == 0, is_fetch = strcmp(command, "fetch") == 0, is_fetch_1 = strcmp(command, "fetch-1") == 0,
        is_store = strcmp(command, "store") == 0, is_remove = strcmp(command, "remove") == 0;
    if (!(is_list && argc == 3) && !((is_fetch || is_fetch_1 || is_remove) && argc == 4) && !(is_store && (argc == 5 || argc == 6))) return usage();
    mind_pipes();
    file = argv[1];
    if (argc > 3 && !read_16(argv[3], &key)) return FAILED;
    if (argc > 4 && !read_setting(argv[4], &setting)) return FAILED;
    if (argc > 5 && !read_16(argv[5], &unit)) return FAILED;
    if ((is_store || is_remove) && !hold()) return FAILED;
    if (!read_area()) return release(FAILED);
    if (is_list) return list();
    if (is_fetch) return fetch(key);
    if (is_fetch_1) return fetch_1(key);
    return release(is_store ? store(key, setting, unit) : take_out(key));
}
