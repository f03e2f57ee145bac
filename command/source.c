#define _GNU_SOURCE
#include "source.h"
#include "say.h"
#include <errno.h>
#include <fcntl.h>
#include <string.h>
#include <unistd.h>

#define AT_ONCE 65536

int source_open(struct source *from, const char *file) {
    *from = (struct source){.name = file, .fd = 0};
    if (strcmp(file, "-") == 0) return from->name = "standard input", 1;
    from->fd = open(file, O_RDONLY | O_NOCTTY | O_CLOEXEC);
    return from->fd >= 0 || (complain_system(file), 0);
}

void source_typed(struct source *from, const char *text) {
    *from = (struct source){.name = TYPED, .fd = -1};
    bytes_text(&from->read, text);
}

void source_end(struct source *from) {
    if (from->fd > 0) close(from->fd);
    from->fd = -1;
}

void source_close(struct source *gone) {
    source_end(gone);
    bytes_free(&gone->read);
}

/* Reads some more bytes, at the most `most`; 0 at the end. */
static int read_more(struct source *from, size_t most) {
    if (from->fd < 0) return 0;
    put_through(); /* who waits for an answer before typing on has it */
    bytes_room(&from->read, most);
    for (;;) {
        ssize_t n = read(from->fd, from->read.at + from->read.n, most);
        if (n > 0) return from->read.n += (size_t)n, 1;
        if (n < 0 && errno == EINTR) continue;
        if (n < 0) complain_system(from->name), from->failed = 1;
        source_end(from);
        return 0;
    }
}

size_t source_some(struct source *from) {
    if (from->read.n == from->from) read_more(from, AT_ONCE);
    return from->read.n - from->from;
}

size_t source_rest(struct source *from, size_t most) {
    while (from->read.n - from->from < most && read_more(from, most - (from->read.n - from->from))) continue;
    size_t n = from->read.n - from->from;
    return n < most ? n : most;
}

/* Lines that were given make room. */
static void move_up(struct source *from) {
    if (from->from < AT_ONCE) return;
    memmove(from->read.at, from->read.at + from->from, from->read.n - from->from);
    from->read.n -= from->from, from->from = 0;
}

static int line_too_long(struct source *from) {
    from->failed = 1;
    complain(FAILED, from->name, "line %zu is longer than %d bytes", from->line + 1, MOST_LINE);
    return 0;
}

int source_line(struct source *from, const char **line, size_t *n) {
    const uint8_t *end = NULL;
    size_t looked = 0;
    move_up(from);
    for (;;) {
        size_t there = from->read.n - from->from;
        if (there > looked) end = memchr(from->read.at + from->from + looked, '\n', there - looked);
        if (end != NULL || (looked = there) > MOST_LINE || !read_more(from, AT_ONCE)) break;
    }
    size_t whole = end != NULL ? (size_t)(end - (from->read.at + from->from)) : from->read.n - from->from;
    if (from->failed || (end == NULL && whole == 0)) return 0;
    if (whole > MOST_LINE) return line_too_long(from);
    *line = (const char *)from->read.at + from->from, *n = whole;
    if (*n > 0 && (*line)[*n - 1] == '\r') --*n;
    from->from += whole + (end != NULL), from->line++;
    return 1;
}
