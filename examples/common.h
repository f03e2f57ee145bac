/* What the examples share: numbers in bytes, files read and written whole, the options of the command line, symbols, and messages. An example defines
   PROGRAM, its name in messages, and then includes this; everything else about the library it shows itself.

   The exit code of every example: 0 done, 1 refused or different, 2 wrong use, or input or output failed. */
#ifndef COMMON_H
#define COMMON_H

#include "../include/simmergate_words.h"
#include <errno.h>
#include <signal.h>
#include <stdio.h>
#include <stdlib.h>
#include <string.h>

#define HIGHEST 16384 /* of the limits: areas for it serve either. A program that keeps to 3,072 has areas a fifth as long, and an eighth of the work */
#define MOST_BYTES SIMMERGATE_TABLE_BYTES(HIGHEST)

enum { DONE = 0, REFUSED = 1, FAILED = 2 }; /* exit codes */

/* Number i of a list of lengths or of registers is set. */
static inline void put_number(uint8_t *bytes, size_t i, uint64_t x) {
    for (size_t k = 0; k < 8; k++) bytes[8 * i + k] = (uint8_t)(x >> 8 * k);
}

/* Number i of an answer, to be printed. */
static inline unsigned long long number(const uint8_t *answer, size_t i) { return simmergate_number(answer, i); }

/* ---- What goes wrong, in words ---- */

/* A message to standard error; the answer is the exit code. */
static inline int complain(const char *of, const char *what) {
    fflush(stdout);
    fprintf(stderr, PROGRAM ": %s: %s\n", of, what);
    return FAILED;
}

/* A pipe that nobody reads is output that is lost, and is said so; it does not end the program unsaid. */
static inline void mind_pipes(void) { signal(SIGPIPE, SIG_IGN); }

/* The exit code at the end of a program: `code`, or FAILED where what it printed could not be written. */
static inline int ended(int code) {
    if (fflush(stdout) == 0 && !ferror(stdout)) return code;
    return complain("output was lost", strerror(errno));
}

/* What a refusal means, of a table of `bytes` bytes, a line; WHAT is number `what_at` of the answer. */
static inline void explain(FILE *to, size_t limit, const uint8_t *table, size_t bytes, const uint8_t *answer, size_t what_at) {
    char number_and_place[SIMMERGATE_WORDS_BYTES], words[SIMMERGATE_WORDS_BYTES];
    simmergate_refused(number_and_place, sizeof number_and_place, answer, what_at);
    simmergate_explain(words, sizeof words, limit, table, bytes, answer, what_at);
    fprintf(to, "%s: %s\n", number_and_place, words);
}

/* The same as a message to standard error about a file; the answer is the exit code. */
static inline int refused(const char *file, size_t limit, const uint8_t *table, size_t bytes, const uint8_t *answer, size_t what_at) {
    fflush(stdout);
    fprintf(stderr, PROGRAM ": %s: ", file);
    explain(stderr, limit, table, bytes, answer, what_at);
    return ended(REFUSED);
}

/* Prints the text of a table that has been accepted. */
static inline void print_text(size_t limit, const uint8_t *table, size_t bytes) {
    static uint8_t text[SIMMERGATE_TEXT_BYTES(HIGHEST)];
    uint8_t answer[SIMMERGATE_WRITE_TEXT_BYTES];
    simmergate_write_text(limit, table, bytes, text, sizeof text, answer, sizeof answer);
    printf("%.*s", (int)number(answer, SIMMERGATE_AT_WRITE_TEXT_LENGTH), (const char *)text);
}

/* ---- Files and the command line ---- */

/* Reads a file to `to`, at most `room` bytes; its length, or -1 after a message. Room for one byte more than a table may have shows that it is too long. */
static inline long read_file(const char *file, uint8_t *to, size_t room) {
    FILE *f = fopen(file, "rb");
    if (f == NULL) return complain(file, strerror(errno)), -1;
    long whole = fseek(f, 0, SEEK_END) == 0 ? ftell(f) : -1;
    if (whole >= 0) fseek(f, 0, SEEK_SET);
    size_t n = fread(to, 1, room, f);
    int failed = ferror(f), why = errno;
    fclose(f);
    if (failed) return complain(file, strerror(why)), -1;
    if (whole > (long)n && n < room) return complain(file, "short read"), -1;
    return (long)n;
}

/* Writes a file; DONE, or FAILED after a message. */
static inline int write_file(const char *file, const uint8_t *from, size_t bytes) {
    FILE *f = fopen(file, "wb");
    if (f == NULL) return complain(file, strerror(errno));
    int whole = fwrite(from, 1, bytes, f) == bytes, why = errno;
    if (fclose(f) != 0 && whole) whole = 0, why = errno;
    return whole ? DONE : complain(file, strerror(why));
}

/* The number that a word is; 0, which is no limit and no edition, where it is none. */
static inline size_t whole_number(const char *word) {
    char *end;
    errno = 0;
    size_t n = (size_t)strtoull(word, &end, 10);
    return *word < '0' || *word > '9' || *end != 0 || errno != 0 ? 0 : n;
}

/* Takes `-l LIMIT` and, where the program has them, `-e EDITION` and `-o FILE` off the front of the command line. */
static inline void take_options(int *argc, char ***argv, size_t *limit, size_t *edition, const char **out_file) {
    mind_pipes();
    for (; *argc > 2; *argv += 2, *argc -= 2) {
        if (strcmp((*argv)[1], "-l") == 0) *limit = whole_number((*argv)[2]);
        else if (edition != NULL && strcmp((*argv)[1], "-e") == 0) *edition = whole_number((*argv)[2]);
        else if (out_file != NULL && strcmp((*argv)[1], "-o") == 0) *out_file = (*argv)[2];
        else return;
    }
}

/* The symbol s0 to s255 that a word begins with, up to the sign; -1 where it is none. */
static inline int read_symbol(const char *word, char sign) {
    char *end;
    if (word[0] != 's' || word[1] < '0' || word[1] > '9') return -1;
    unsigned long long x = strtoull(word + 1, &end, 10);
    return *end == sign && x <= 255 ? (int)x : -1;
}

/* Sets the register that a word, SYMBOL=NUMBER, names; 0 after a message. */
static inline int set_register(const char *word, uint8_t *registers) {
    char *end;
    int symbol = read_symbol(word, '=');
    if (symbol < 0) return complain(word, "not SYMBOL=NUMBER with a symbol s0 to s255"), 0;
    const char *digits = strchr(word, '=') + 1;
    errno = 0;
    uint64_t value = *digits == '-' ? (uint64_t)strtoll(digits, &end, 10) : strtoull(digits, &end, 10);
    if (end == digits || *end != 0 || errno != 0) return complain(word, "not a number of 64 bits"), 0;
    put_number(registers, (size_t)symbol, value);
    return 1;
}

#endif
