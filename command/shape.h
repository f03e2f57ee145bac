/* The tree of an accepted table, walked without recursion: for each record where it hangs, and where its tree ends. */
#ifndef SHAPE_H
#define SHAPE_H

#include "bytes.h"
#include "typed.h"

struct shape {
    const uint8_t *table;
    size_t records;
    uint32_t *parent; /* the record it is a member of; of the first, itself */
    uint32_t *end;    /* one past the last record of its tree */
    uint32_t *depth;  /* 0 for the first */
};

/* Of a table that the library accepted. */
void shape_make(struct shape *to, const uint8_t *table, size_t bytes);
void shape_free(struct shape *gone);

const uint8_t *record_of(const struct shape *of, size_t i);
unsigned record_kind(const struct shape *of, size_t i);
unsigned record_count(const struct shape *of, size_t i);
unsigned record_line(const struct shape *of, size_t i);
int64_t record_integer(const struct shape *of, size_t i);

/* Whether it is the last member of its parent. */
int is_last(const struct shape *of, size_t i);

/* "sum of 3", "power", "s0", "-3". */
void add_record_words(struct bytes *to, const struct shape *of, size_t i);

/* The branches of a drawn tree that stand before a record: to be called for each record, from the first on. `open` is the caller's, of BRANCHES bytes. */
#define BRANCHES 25
void add_branches(struct bytes *to, const struct shape *of, size_t i, uint8_t *open);

/* Marks each record of a text with its line, that of the text's first byte being 1; 0 where one is over 65,535. */
int mark_lines(uint8_t *table, size_t bytes, const struct typed *typed, const char *text);

#endif
