/* Lines and hexadecimal digits on standard input and output, for the C programs that answer tables a line. */
#include <stddef.h>
#include <stdint.h>
#include <stdio.h>
#include <stdlib.h>
#include <string.h>

#define LINE_ROOM (1 << 20)
static char line[LINE_ROOM];

/* The next line without its end, in `line`; 0 at the end of the input. */
static inline int next_line(void) {
    size_t n;
    if (fgets(line, LINE_ROOM, stdin) == NULL) {
        if (ferror(stdin)) { printf("standard input cannot be read to its end\n"); exit(2); }
        return 0;
    }
    n = strlen(line);
    if (n > 0 && line[n - 1] == '\n') line[n - 1] = 0;
    else if (n + 1 == LINE_ROOM) { printf("a line is longer than %d bytes\n", LINE_ROOM); exit(2); }
    return 1;
}

static inline int digit(char ch) {
    if (ch >= '0' && ch <= '9') return ch - '0';
    if (ch >= 'a' && ch <= 'f') return ch - 'a' + 10;
    return -1;
}

/* The bytes that the digits of `text` name; ends the program where they name none. */
static inline size_t unhex(const char *text, uint8_t *bytes, size_t room) {
    size_t n = strlen(text);
    if (n % 2 != 0 || n / 2 > room) { printf("not the bytes of a table: %.60s\n", text); exit(2); }
    for (size_t i = 0; i < n; i += 2) {
        int high = digit(text[i]), low = digit(text[i + 1]);
        if (high < 0 || low < 0) { printf("no hexadecimal digits: %.60s\n", text); exit(2); }
        bytes[i / 2] = (uint8_t)(16 * high + low);
    }
    return n / 2;
}

/* The digits of at most 262,144 bytes to standard output. */
static inline void put_hex(const uint8_t *bytes, size_t n) {
    static char text[2 * 262144 + 1];
    for (size_t i = 0; i < n; i++) {
        text[2 * i] = "0123456789abcdef"[bytes[i] / 16];
        text[2 * i + 1] = "0123456789abcdef"[bytes[i] % 16];
    }
    text[2 * n] = 0;
    fputs(text, stdout);
}

/* The number that `text` is, in decimal digits; ends the program where it is none. */
static inline uint64_t decimal(const char *text) {
    char *end;
    uint64_t x = strtoull(text, &end, 10);
    if (end == text || *end != 0) { printf("not a number: %s\n", text); exit(2); }
    return x;
}

/* The bytes that `text`, which is cut up, spells: pieces joined by `+`, each hexadecimal digits or digits*TIMES; nothing or `-` is none. Ends the program
   where they do not fit in `room`. */
static inline size_t spelt(char *text, uint8_t *bytes, size_t room) {
    size_t n = 0;
    if (*text == 0 || strcmp(text, "-") == 0) return 0;
    while (text != NULL) {
        char *next = strchr(text, '+'), *star;
        if (next != NULL) *next++ = 0;
        star = strchr(text, '*');
        uint64_t times = 1;
        if (star != NULL) *star = 0, times = decimal(star + 1);
        size_t one = unhex(text, bytes + n, room - n);
        if (times == 0 || one == 0 || times > (room - n) / one) { printf("no bytes, or too many: %.60s\n", text); exit(2); }
        for (uint64_t i = 1; i < times; i++) memcpy(bytes + n + i * one, bytes + n, one);
        n += times * one;
        text = next;
    }
    return n;
}

/* Cuts the text at its tabs; the answer is how many parts it has, at most `most` of them cut. */
static inline size_t cut(char *text, char **parts, size_t most) {
    size_t n = 0;
    while (n < most) {
        parts[n++] = text;
        text = strchr(text, '\t');
        if (text == NULL) break;
        *text++ = 0;
    }
    return n;
}

/* The ten numbers of an answer that `refused NUMBER at PLACE`, with ` kind`, ` byte N` or ` count` where it says what is wrong with the
   record, or `ok RECORDS STEPS OPENINGS WEIGHT-IN WEIGHT-OUT`, with ` TRIES` where it tells them, says; 0 where it is neither. Tries that are
   not told are 0, which no accepted table takes. */
static inline int read_verdict(const char *text, uint64_t *numbers) {
    char *end = NULL;
    memset(numbers, 0, 10 * sizeof *numbers);
    if (strncmp(text, "refused ", 8) == 0) {
        numbers[0] = strtoull(text + 8, &end, 10);
        if (strncmp(end, " at ", 4) != 0) return 0;
        numbers[1] = strtoull(end + 4, &end, 10);
        if (strcmp(end, " kind") == 0) numbers[7] = 1, end += 5;
        else if (strncmp(end, " byte ", 6) == 0) numbers[7] = 2, numbers[8] = strtoull(end + 6, &end, 10);
        else if (strcmp(end, " count") == 0) numbers[7] = 3, end += 6;
    } else if (strncmp(text, "ok ", 3) == 0) {
        end = (char *)text + 2;
        for (int i = 2; i < 7; i++) numbers[i] = strtoull(end, &end, 10);
        if (*end == ' ') numbers[9] = strtoull(end, &end, 10);
    }
    return end != NULL && *end == 0;
}
