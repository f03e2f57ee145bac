/* A formula as people type it, made exact for the library's reader: blanks taken out at the ends and beside + * ^ ( ) alone, comments and line ends taken
   out, names put back to symbols. Each character knows where it was typed. */
#ifndef TYPED_H
#define TYPED_H

#include "bytes.h"
#include "caret.h"

#define NOWHERE ((size_t)-1)

struct typed {
    struct bytes exact;              /* the text for the reader */
    size_t *at;                      /* where each of its characters was typed, and where its end is */
    size_t room;                     /* of `at` */
    size_t space, space_at;          /* the character before which a blank stands that must not; where that is typed. NOWHERE for none */
    size_t unknown, unknown_n;       /* the first word that is no symbol and no name, and its length. NOWHERE for none */
};

/* Takes `n` bytes as they were typed: a line, or several. */
void typed_take(struct typed *to, const char *text, size_t n);

/* Whether there is nothing but blanks and comments. */
int typed_is_blank(const struct typed *of);

/* Where the first character was typed from which no formula can go on, by the reader's stand before it, and that character, -1 for the end. */
size_t typed_caret(const struct typed *of, struct caret *reader, int *c);

void typed_free(struct typed *gone);

#endif
