/* Formulas that are read: from a text, a line each, or from a table; and what is shown of them. */
#ifndef FORMULA_H
#define FORMULA_H

#include "bytes.h"
#include "options.h"
#include "source.h"
#include "typed.h"

struct formula {
    uint8_t *table; /* its records, judged; NULL where it is refused or could not be read */
    size_t bytes;
    size_t line;     /* of the text, 0 for a table */
    uint32_t number; /* of its refusal, 0 where there is none */
    uint64_t place;
    size_t what;     /* after 2: what is wrong with the record, and which byte */
    size_t byte;
};

/* The formulas of a source, one after the other. */
struct formulas {
    struct source source;
    struct typed typed;
    struct caret caret;
    int is_table, begun;
    int failed; /* reading failed, and was said */
};

/* Begins with a file or a typed text; 0 after a message. */
int formulas_begin(struct formulas *all, const struct operand *from);

/* The next formula, refused ones too, after their message; 0 at the end, and where reading failed. */
int formulas_next(struct formulas *all, struct formula *to);
void formulas_end(struct formulas *all);

/* Has each formula of a source, refused ones too, put what it has to a line of its own; 0 where reading failed. */
int formulas_each(const struct operand *from, void (*put_one)(const char *of, const struct formula *formula));

/* The one formula that a file or a typed text holds, with `lines` over several lines, its records marked. DONE, REFUSED or FAILED, after a message; the
   refusal stands in it. */
int formula_read(const struct operand *from, int lines, struct formula *to);
void formula_free(struct formula *gone);

/* A message with the words of a refusal; REFUSED. `table` may be NULL. */
int complain_refused(const char *of, const uint8_t *table, size_t bytes, const uint8_t *answer, size_t what_at);

/* The text of a table, or of a tree in it, with names. */
void add_formula(struct bytes *to, const uint8_t *table, size_t bytes);
void put_formula(const uint8_t *table, size_t bytes);

/* "file, line 3", for messages; the file alone for line 0, and for the first line of -t. The text is the caller's until the next call. */
const char *place_name(const char *file, size_t line);

/* The one operand of a subcommand that reads one; standard input without it. */
struct operand the_input(void);

/* An operand as messages name it. */
const char *operand_name(const struct operand *of);

#endif
