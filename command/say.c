#include "say.h"
#include "write.h"
#include <errno.h>
#include <stdlib.h>
#include <string.h>
#include <unistd.h>

#define ENOUGH 65536 /* bytes of results that are kept before they go out */

const char *carried_out = "";
static int highest, in_message;
static const char *results_file; /* NULL: standard output */
static struct bytes results;

void raise_status(int status) {
    if (status > highest) highest = status;
}

int highest_status(void) { return highest; }

void leave(void) {
    drop_temporary();
    exit(highest);
}

int write_all(int fd, const void *bytes, size_t n) {
    const uint8_t *at = bytes;
    while (n > 0) {
        ssize_t k = write(fd, at, n);
        if (k < 0 && errno == EINTR) continue;
        if (k <= 0) return 0;
        at += k, n -= (size_t)k;
    }
    return 1;
}

/* ---- Messages ---- */

/* One write a line, after the results that stand before it; a message that is lost is a failure, too. */
static void message(struct bytes *line) {
    if (!in_message) {
        in_message = 1;
        put_through();
        in_message = 0;
    }
    bytes_text(line, "\n");
    if (!write_all(2, line->at, line->n)) raise_status(FAILED);
    bytes_free(line);
}

int complain(int status, const char *of, const char *format, ...) {
    struct bytes line = {NULL, 0, 0};
    va_list list;
    raise_status(status);
    bytes_format(&line, "simmergate%s%s: ", *carried_out ? " " : "", carried_out);
    if (of != NULL) bytes_name(&line, of), bytes_text(&line, ": ");
    va_start(list, format);
    bytes_formatted(&line, format, list);
    va_end(list);
    message(&line);
    return status;
}

int complain_system(const char *of) { return complain(FAILED, of, "%s", strerror(errno)); }

void add_to_message(const char *format, ...) {
    struct bytes line = {NULL, 0, 0};
    va_list list;
    va_start(list, format);
    bytes_formatted(&line, format, list);
    va_end(list);
    message(&line);
}

/* ---- Results ---- */

void results_to(const char *file) { results_file = file; }

int results_on_terminal(void) { return results_file == NULL && isatty(1); }

/* Output that is lost ends the command: nothing that follows could be seen. */
static void output_lost(void) {
    in_message = 1;
    complain_system("standard output");
    leave();
}

void put_through(void) {
    if (results_file != NULL || results.n == 0) return;
    size_t n = results.n;
    results.n = 0;
    if (!write_all(1, results.at, n)) output_lost();
}

void put(const void *bytes, size_t n) {
    bytes_add(&results, bytes, n);
    if (results.n >= ENOUGH) put_through();
}

void put_format(const char *format, ...) {
    va_list list;
    va_start(list, format);
    bytes_formatted(&results, format, list);
    va_end(list);
    if (results.n >= ENOUGH) put_through();
}

int finish(int keep) {
    put_through();
    if (results_file == NULL) {
        if (close(1) != 0) output_lost();
    } else if (keep) {
        write_whole(results_file, results.at, results.n);
    }
    bytes_free(&results);
    return highest;
}
