/* What is read: a file, standard input, or a formula of the command line; by lines, or whole. */
#ifndef SOURCE_H
#define SOURCE_H

#include "bytes.h"

/* The longest line: three times the longest text of a formula. */
#define MOST_LINE 1048576

/* The name of a formula of the command line in messages. */
#define TYPED "-t"

struct source {
    const char *name;  /* as messages show it */
    int fd;            /* -1: nothing more is to be read */
    struct bytes read; /* what was read */
    size_t from;       /* where in it the next line begins */
    size_t line;       /* the number of the line that was given last, from 1 on */
    int failed;        /* reading failed, and was said */
};

/* Opens a file, `-` for standard input; 0 after a message. */
int source_open(struct source *from, const char *file);

/* The text of -t. */
void source_typed(struct source *from, const char *text);

/* Has some bytes at hand, if there are any: how many. */
size_t source_some(struct source *from);

/* The next line, without its end, a Windows one included; 0 at the end, or where reading failed. */
int source_line(struct source *from, const char **line, size_t *n);

/* Reads all that is left, at the most `most` bytes; how many there are. */
size_t source_rest(struct source *from, size_t most);

/* Nothing more is read; what was read stays. */
void source_end(struct source *from);
void source_close(struct source *gone);

#endif
