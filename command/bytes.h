/* Memory from the heap, and bytes that grow. Where there is no memory left the command says so and ends, status 2. */
#ifndef BYTES_H
#define BYTES_H

#include <stdarg.h>
#include <stddef.h>
#include <stdint.h>

struct bytes {
    uint8_t *at;
    size_t n, room;
};

/* At least one byte, or the end of the program. */
void *allot(size_t bytes);

/* Room for `more` bytes behind those that are there. */
void bytes_room(struct bytes *to, size_t more);
void bytes_add(struct bytes *to, const void *from, size_t n);
void bytes_text(struct bytes *to, const char *text);
void bytes_format(struct bytes *to, const char *format, ...) __attribute__((format(printf, 2, 3)));
void bytes_formatted(struct bytes *to, const char *format, va_list list) __attribute__((format(printf, 2, 0)));

/* A file's name as it is shown: control bytes and \ as \x09, so that it stays on its line and in its field. */
void bytes_name(struct bytes *to, const char *name);

/* A text of its own, from the heap. */
char *text_copy(const char *text, size_t n);

/* A number in 8 bytes, little-endian, as the library takes it. */
void put_eight(uint8_t *to, uint64_t number);

/* An end mark behind them, which is not counted: a text. */
char *bytes_end(struct bytes *to);
void bytes_free(struct bytes *gone);

#endif
