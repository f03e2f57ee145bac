#include "bytes.h"
#include "say.h"
#include <stdio.h>
#include <stdlib.h>
#include <string.h>

static void no_memory(void) {
    static const char words[] = "simmergate: there is no memory left\n";
    raise_status(FAILED);
    write_all(2, words, sizeof words - 1);
    leave();
}

void *allot(size_t bytes) {
    void *at = malloc(bytes > 0 ? bytes : 1);
    if (at == NULL) no_memory();
    return at;
}

void bytes_room(struct bytes *to, size_t more) {
    if (more <= to->room - to->n) return;
    size_t room = to->room < 64 ? 64 : to->room;
    while (room - to->n < more) {
        if (room > (size_t)-1 / 2) no_memory();
        room *= 2;
    }
    uint8_t *at = realloc(to->at, room);
    if (at == NULL) no_memory();
    to->at = at, to->room = room;
}

void bytes_add(struct bytes *to, const void *from, size_t n) {
    bytes_room(to, n);
    if (n > 0) memcpy(to->at + to->n, from, n);
    to->n += n;
}

void bytes_text(struct bytes *to, const char *text) { bytes_add(to, text, strlen(text)); }

void bytes_formatted(struct bytes *to, const char *format, va_list list) {
    va_list again;
    va_copy(again, list);
    int n = vsnprintf(NULL, 0, format, list);
    if (n < 0) no_memory();
    bytes_room(to, (size_t)n + 1);
    vsnprintf((char *)to->at + to->n, (size_t)n + 1, format, again);
    va_end(again);
    to->n += (size_t)n;
}

void bytes_format(struct bytes *to, const char *format, ...) {
    va_list list;
    va_start(list, format);
    bytes_formatted(to, format, list);
    va_end(list);
}

void bytes_name(struct bytes *to, const char *name) {
    for (const uint8_t *c = (const uint8_t *)name; *c != 0; c++) {
        if (*c < 0x20 || *c == 0x7f || *c == '\\') bytes_format(to, "\\x%02x", *c);
        else bytes_add(to, c, 1);
    }
}

char *bytes_end(struct bytes *to) {
    bytes_add(to, "", 1);
    to->n--;
    return (char *)to->at;
}

char *text_copy(const char *text, size_t n) {
    struct bytes copy = {NULL, 0, 0};
    bytes_add(&copy, text, n);
    return bytes_end(&copy);
}

void put_eight(uint8_t *to, uint64_t number) {
    for (int k = 0; k < 8; k++) to[k] = (uint8_t)(number >> 8 * k);
}

void bytes_free(struct bytes *gone) {
    free(gone->at);
    *gone = (struct bytes){NULL, 0, 0};
}
