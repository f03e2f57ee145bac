/* settings: in a file of slots, under a lock on it. */
#define _GNU_SOURCE
#include "folder.h"
#include "options.h"
#include "say.h"
#include "source.h"
#include "subcommands.h"
#include "write.h"
#include <errno.h>
#include <fcntl.h>
#include <simmergate_words.h>
#include <stdlib.h>
#include <string.h>
#include <sys/file.h>
#include <sys/stat.h>
#include <unistd.h>

#define MOST_SLOTS 65536 /* a slot for each key that there is */
#define MOST_AREA ((size_t)MOST_SLOTS * SIMMERGATE_SLOT_BYTES)

static const char *file;
static uint8_t *area;
static size_t length;

static int turned_down(uint32_t why, unsigned key) {
    char words[SIMMERGATE_WORDS_BYTES];
    simmergate_explain_settings(words, sizeof words, why, length, key);
    return complain(REFUSED, file, "refused %u: %s", why, words);
}

/* ---- The file ---- */

/* Whether the name leads to the file that was opened. */
static int leads_there(int fd) {
    struct stat opened, named;
    return fstat(fd, &opened) == 0 && stat(file, &named) == 0 && opened.st_dev == named.st_dev && opened.st_ino == named.st_ino;
}

/* Opens the file that the name leads to and locks it. Once the lock is held the name may lead to another file, which a store put in its place: then
   again. -1 after a message. */
static int lock(int to_write) {
    for (;;) {
        if (!is_regular(file)) return -1;
        int fd = open(file, (to_write ? O_RDWR : O_RDONLY) | O_CLOEXEC), held;
        if (fd < 0) return complain_system(file), -1;
        while ((held = flock(fd, to_write ? LOCK_EX : LOCK_SH)) != 0 && errno == EINTR) continue;
        if (held != 0) return complain_system(file), close(fd), -1;
        if (leads_there(fd)) return fd;
        close(fd);
    }
}

/* Reads the locked file whole; 0 after a message. */
static int read_area(int fd) {
    struct source from = {.name = file, .fd = dup(fd)}; /* the lock stays with the other */
    length = source_rest(&from, MOST_AREA + 1);
    area = from.read.at;
    source_end(&from);
    if (from.failed) return 0;
    if (length > MOST_AREA) return complain(REFUSED, file, "it has more slots than there are keys"), 0;
    return 1;
}

/* ---- What is done with it ---- */

static void show(unsigned key, uint64_t setting, uint64_t unit) {
    put_format("%u = %lld", key, (long long)setting);
    if (unit != 0) put_format(" unit %llu", (unsigned long long)unit);
    put_format("\n");
}

static int fetch(unsigned key) {
    uint8_t answer[SIMMERGATE_SETTINGS_FETCH_BYTES];
    uint32_t why = simmergate_settings_fetch(area, length, (uint16_t)key, answer, sizeof answer);
    if (why != SIMMERGATE_OK) return turned_down(why, key);
    show(key, simmergate_number(answer, SIMMERGATE_AT_SETTINGS_FETCH_SETTING), simmergate_number(answer, SIMMERGATE_AT_SETTINGS_FETCH_UNIT));
    return DONE;
}

static int fetch_old(unsigned key) {
    uint8_t answer[SIMMERGATE_SETTINGS_FETCH_1_BYTES];
    uint32_t why = simmergate_settings_fetch_1(area, length, (uint16_t)key, answer, sizeof answer);
    if (why != SIMMERGATE_OK) return turned_down(why, key);
    show(key, simmergate_number(answer, SIMMERGATE_AT_SETTINGS_FETCH_1_SETTING), 0);
    return DONE;
}

/* One fetch judges the area; where it is in order its records are read as they stand, up to the first free slot. */
static int list(void) {
    uint8_t answer[SIMMERGATE_SETTINGS_FETCH_BYTES];
    uint32_t why = simmergate_settings_fetch(area, length, 0, answer, sizeof answer);
    size_t i = 0, slots = length / SIMMERGATE_SLOT_BYTES;
    if (why != SIMMERGATE_OK && why != SIMMERGATE_REFUSED_ABSENT) return turned_down(why, 0);
    for (; i < slots && area[SIMMERGATE_SLOT_BYTES * i] != 0; i++) {
        const uint8_t *slot = area + SIMMERGATE_SLOT_BYTES * i;
        show(slot[2] + 256u * slot[3], simmergate_number(slot, 1), slot[4] + 256u * slot[5]);
    }
    put_format("%zu of %zu slots used\n", i, slots);
    return DONE;
}

static int init(uint64_t slots) {
    if (slots == 0) return complain(FAILED, "0", "a file of settings has at least one slot");
    length = (size_t)slots * SIMMERGATE_SLOT_BYTES;
    area = allot(length);
    memset(area, 0, length);
    return write_new(file, area, length);
}

/* ---- The command line ---- */

struct request {
    enum { INIT, STORE, FETCH, REMOVE, LIST, NONE } what;
    uint64_t key, setting, unit; /* of init: key is the number of slots */
};

static int changes(const struct request *of) { return of->what == STORE || of->what == REMOVE; }

/* The file is locked and read, the library changes the copy, and what it accepted is written back. */
static int carry_out(const struct request *of) {
    unsigned key = (unsigned)of->key;
    uint32_t why;
    switch (of->what) {
    case FETCH: return given.old ? fetch_old(key) : fetch(key);
    case LIST: return list();
    case STORE: why = simmergate_settings_store(area, length, (uint16_t)key, of->setting, (uint16_t)of->unit); break;
    default: why = simmergate_settings_remove(area, length, (uint16_t)key); break;
    }
    return why != SIMMERGATE_OK ? turned_down(why, key) : write_whole(file, area, length);
}

/* Which of the requests the operands are, by their word and number. */
static int request_of(const char *word, size_t operands) {
    static const struct {
        const char *word;
        size_t least, most;
    } all[NONE] = {{"init", 3, 3}, {"store", 4, 5}, {"fetch", 3, 3}, {"remove", 3, 3}, {"list", 2, 2}};
    for (int i = 0; i < NONE; i++) {
        if (strcmp(word, all[i].word) == 0 && operands >= all[i].least && operands <= all[i].most) return i;
    }
    return NONE;
}

/* 0 after a message. */
static int read_request(struct request *to) {
    const struct operand *word = given.operands;
    *to = (struct request){.what = request_of(word[1].word, given.operands_n)};
    if (to->what == NONE || (given.old && to->what != FETCH))
        return complain(FAILED, word[1].word, "not understood; `simmergate settings --help` says more"), 0;
    if (to->what != LIST && !read_number(word[2].word, to->what == INIT ? MOST_SLOTS : 65535, &to->key)) return 0;
    if (to->what == STORE && (!read_word(word[3].word, &to->setting) || (word[3].word[0] != '-' && to->setting > INT64_MAX)))
        return complain(FAILED, word[3].word, "not a signed number of 64 bits"), 0;
    return to->what != STORE || given.operands_n < 5 || read_number(word[4].word, 65535, &to->unit);
}

int run_settings(void) {
    struct request request;
    file = given.operands[0].word;
    if (!read_request(&request)) return 0;
    if (request.what == INIT) return init(request.key) == DONE;
    int fd = lock(changes(&request));
    if (fd < 0) return 0;
    int status = read_area(fd) ? carry_out(&request) : highest_status();
    close(fd); /* and the lock is given up */
    free(area);
    return status == DONE;
}
