/* The command line: options and operands. */
#ifndef OPTIONS_H
#define OPTIONS_H

#include <stddef.h>
#include <stdint.h>

/* The options, a bit each. */
enum {
    TAKES_LIMIT = 1 << 0,    /* -l LIMIT */
    TAKES_EDITION = 1 << 1,  /* -e EDITION */
    TAKES_TYPED = 1 << 2,    /* -t FORMULA */
    TAKES_FORM = 1 << 3,     /* --table, --text */
    TAKES_NAMES = 1 << 4,    /* --names FILE */
    TAKES_OUT = 1 << 5,      /* -o FILE */
    TAKES_TABS = 1 << 6,     /* --tabs */
    TAKES_STEPS = 1 << 7,    /* --steps */
    TAKES_LINES = 1 << 8,    /* --lines */
    TAKES_DOT = 1 << 9,      /* --dot */
    TAKES_HTML = 1 << 10,    /* --html */
    TAKES_OPENED = 1 << 11,  /* --opened */
    TAKES_PIECE = 1 << 12,   /* --piece BYTES */
    TAKES_OLD = 1 << 13,     /* --old */
    TAKES_FOLDER = 1 << 14   /* -o FOLDER */
};

/* An operand: a file's name, or the text behind -t. */
struct operand {
    const char *word;
    int typed;
};

struct options {
    size_t limit, edition, piece;
    int tabs, steps, lines, dot, html, opened, old;
    int as_table, as_text;      /* --table, --text */
    const char *out, *names;    /* -o, --names */
    struct operand *operands;
    size_t operands_n;
};

extern struct options given;

/* A subcommand: how it is used, what it takes, what it does. */
struct subcommand {
    const char *name, *usage, *does;
    unsigned takes;
    size_t least, most; /* operands */
    int (*run)(void);   /* whether the results are to be kept */
};

/* Reads the command line of a subcommand from its first word on; DONE, or FAILED after a message. With --help `help` is set, and nothing else is read. */
int options_read(const struct subcommand *of, int words, char **word, int *help);

/* The text of --help. */
void put_help(const struct subcommand *of);

/* A number of decimal digits up to `most`; 0 after a message. */
int read_number(const char *word, uint64_t most, uint64_t *to);

/* A number of 64 bits, with its sign or without; 0 where it is none. */
int read_word(const char *digits, uint64_t *to);

#endif
