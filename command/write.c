#define _GNU_SOURCE
#include "write.h"
#include "say.h"
#include <errno.h>
#include <fcntl.h>
#include <signal.h>
#include <stdio.h>
#include <stdlib.h>
#include <string.h>
#include <sys/stat.h>
#include <unistd.h>

#define MOST_LINKS 40
#define PATH_ROOM 4096

static char temporary[PATH_ROOM]; /* the temporary file that stands there now; empty for none */

/* ---- Interrupts ---- */

void drop_temporary(void) {
    if (*temporary) unlink(temporary);
    *temporary = 0;
}

static void interrupted(int number) {
    drop_temporary();
    signal(number, SIG_DFL);
    raise(number);
}

void take_signals(void) {
    static const int ends[] = {SIGHUP, SIGINT, SIGTERM};
    signal(SIGPIPE, SIG_IGN);
    signal(SIGXFSZ, SIG_IGN);
    for (size_t i = 0; i < sizeof ends / sizeof *ends; i++) {
        /* one that is ignored, as by nohup, stays so */
        if (signal(ends[i], interrupted) == SIG_IGN) signal(ends[i], SIG_IGN);
    }
}

/* ---- Links ---- */

/* The folder of a path, up to and with its last /; empty for the working folder. */
static size_t folder_length(const char *path) {
    const char *slash = strrchr(path, '/');
    return slash == NULL ? 0 : (size_t)(slash - path) + 1;
}

/* Where a link leads: its target, from the folder that the link stands in; NULL where that cannot be read. */
static char *link_target(const char *path) {
    char target[PATH_ROOM];
    struct bytes whole = {NULL, 0, 0};
    ssize_t n = readlink(path, target, sizeof target);
    if (n < 0) return NULL;
    if ((size_t)n == sizeof target) return errno = ENAMETOOLONG, NULL;
    if (n == 0 || target[0] != '/') bytes_add(&whole, path, folder_length(path));
    bytes_add(&whole, target, (size_t)n);
    return bytes_end(&whole);
}

char *follow(const char *path) {
    struct stat there;
    char *at = text_copy(path, strlen(path));
    for (int links = 0; lstat(at, &there) == 0 && S_ISLNK(there.st_mode); links++) {
        char *next = links == MOST_LINKS ? (errno = ELOOP, NULL) : link_target(at);
        free(at);
        if (next == NULL) return complain_system(path), NULL;
        at = next;
    }
    return at;
}

/* ---- The temporary file ---- */

/* Opens one in the folder of the target, with a name that nothing there has; -1 after a message. */
static int open_temporary(const char *path, const char *target) {
    size_t folder = folder_length(target);
    for (unsigned k = 0;; k++) {
        char name[PATH_ROOM];
        int n = snprintf(name, sizeof name, "%.*s.simmergate-%ld-%u", (int)folder, target, (long)getpid(), k);
        if (n < 0 || (size_t)n >= sizeof name) return errno = ENAMETOOLONG, complain_system(path), -1;
        strcpy(temporary, name); /* named first: an interrupt finds it */
        int fd = open(name, O_WRONLY | O_CREAT | O_EXCL | O_CLOEXEC, 0600);
        if (fd >= 0) return fd;
        *temporary = 0;
        if (errno != EEXIST) return complain_system(path), -1;
    }
}

/* Mode and owner of the file that it replaces, or those of a new file. An owner that may not be given is left. */
static int dress(int fd, const struct stat *old) {
    if (old == NULL) {
        mode_t mask = umask(0);
        umask(mask);
        return fchmod(fd, 0666 & ~mask);
    }
    int owned = fchown(fd, old->st_uid, old->st_gid);
    /* without its owner a file that changes hands must not keep the rights to act for it */
    return fchmod(fd, old->st_mode & (owned == 0 ? 07777 : 0777));
}

/* The folder of the target is flushed, so that the new name outlives a loss of power. */
static int flush_folder(const char *target) {
    size_t n = folder_length(target);
    char *folder = n == 0 ? text_copy(".", 1) : text_copy(target, n);
    int fd = open(folder, O_RDONLY | O_DIRECTORY | O_CLOEXEC);
    free(folder);
    if (fd < 0) return errno == EACCES ? 0 : -1; /* a folder that may be written and not read cannot be flushed */
    int failed = fsync(fd) != 0 && errno != EINVAL, why = errno;
    close(fd);
    errno = why;
    return failed ? -1 : 0;
}

/* Fills the temporary file and closes it: all of it stands on the disk, or -1. */
static int fill(int fd, const struct stat *old, const uint8_t *bytes, size_t n) {
    int whole = dress(fd, old) == 0 && write_all(fd, bytes, n) && fsync(fd) == 0, why = errno;
    if (close(fd) != 0 && whole) return -1;
    errno = why;
    return whole ? 0 : -1;
}

/* The temporary file, filled, takes the target's place; where `fresh`, only if nothing stands there. */
static int replace(const char *path, const char *target, const struct stat *old, int fresh, const uint8_t *bytes, size_t n) {
    int fd = open_temporary(path, target);
    if (fd < 0) return FAILED;
    int there = fill(fd, old, bytes, n) == 0 && (fresh ? link(temporary, target) : rename(temporary, target)) == 0, why = errno;
    if (!there || fresh) drop_temporary();
    *temporary = 0;
    errno = why;
    if (!there || flush_folder(target) != 0) return complain_system(path);
    return DONE;
}

/* ---- What is written ---- */

static int write_directly(const char *path, const uint8_t *bytes, size_t n) {
    int fd = open(path, O_WRONLY | O_NOCTTY | O_CLOEXEC);
    if (fd < 0) return complain_system(path);
    int whole = write_all(fd, bytes, n), why = errno, closed = close(fd) == 0;
    if (whole && closed) return DONE;
    if (!whole) errno = why;
    return complain_system(path);
}

static int write_target(const char *path, const char *target, const uint8_t *bytes, size_t n) {
    struct stat old;
    if (stat(target, &old) != 0) return errno == ENOENT ? replace(path, target, NULL, 0, bytes, n) : complain_system(path);
    if (S_ISDIR(old.st_mode)) return errno = EISDIR, complain_system(path);
    if (!S_ISREG(old.st_mode)) return write_directly(target, bytes, n);
    int fd = open(target, O_WRONLY | O_CLOEXEC); /* a file that may not be written is not replaced, either */
    if (fd < 0) return complain_system(path);
    close(fd);
    return replace(path, target, &old, 0, bytes, n);
}

int write_whole(const char *path, const uint8_t *bytes, size_t n) {
    char *target = follow(path);
    if (target == NULL) return FAILED;
    int status = write_target(path, target, bytes, n);
    free(target);
    return status;
}

int write_new(const char *path, const uint8_t *bytes, size_t n) {
    char *target = follow(path);
    if (target == NULL) return FAILED;
    int status = replace(path, target, NULL, 1, bytes, n);
    free(target);
    return status;
}
