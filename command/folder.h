/* Folders: the names in them, in byte order. */
#ifndef FOLDER_H
#define FOLDER_H

#include <stddef.h>

struct folder {
    const char *path;
    char **names; /* but for those that begin with a dot */
    size_t n;
};

/* Whether a path leads to a folder. */
int is_folder(const char *path);

/* Whether two paths lead to the same file or folder. */
int is_same(const char *a, const char *b);

/* Whether a path leads to a regular file; else a message, as for a folder or a fifo. */
int is_regular(const char *path);

/* 0 after a message. */
int folder_read(struct folder *to, const char *path);
void folder_free(struct folder *gone);

/* Whether a name is in it. */
int folder_has(const struct folder *of, const char *name);

/* FOLDER/NAME, from the heap. */
char *path_in(const char *folder, const char *name);

#endif
