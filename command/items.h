/* The items of a site: the files of a folder, or the formulas of a file, shortened in one call. */
#ifndef ITEMS_H
#define ITEMS_H

#include "folder.h"
#include "formula.h"
#include "simplified.h"

struct item {
    char *name;
    struct formula formula;
    int status;                /* of its reading: DONE, REFUSED or FAILED */
    struct simplified made;    /* its areas are the site's; the answer is there where it was read or refused */
};

struct items {
    const char *path;
    int in_folder;
    struct item *at; /* room for SIMMERGATE_ITEMS */
    size_t n;
    uint8_t *tables, *out, *steps, *answers; /* what was lent for the call */
};

/* Reads a folder, or a file of formulas; 0 after a message, over SIMMERGATE_ITEMS items included. */
int items_read(struct items *to, const char *path);

/* Shortens all that were read, in one call. */
void items_simplify(struct items *all);
void items_free(struct items *gone);

/* Whether it was shortened. */
int item_shortened(const struct item *of);

/* Says in words which item the call refused, and why; those that were refused before were told when they were read. */
void complain_item(const struct items *all, const struct item *of);

/* "refused 2 at 3 byte 7". */
void put_item_refused(const struct item *of);

/* Its name at the beginning of a line, in a column or a field of its own. */
void put_item_name(const char *name);

#endif
