/* layout: the constants and layouts that the command takes from the C library, a line each. tests/command compares what the kit's headers say with the
   system's. */
#define _GNU_SOURCE
#include <dirent.h>
#include <errno.h>
#include <fcntl.h>
#include <signal.h>
#include <stdint.h>
#include <stdio.h>
#include <sys/file.h>
#include <sys/resource.h>
#include <sys/stat.h>
#include <unistd.h>

#define SAY(value) printf("%s %ld\n", #value, (long)(value))
#define PLACE(type, field) printf("%s.%s %zu\n", #type, #field, __builtin_offsetof(type, field))

static void files(void) {
    SAY(O_RDONLY), SAY(O_WRONLY), SAY(O_RDWR), SAY(O_CREAT), SAY(O_EXCL), SAY(O_NOCTTY), SAY(O_TRUNC), SAY(O_DIRECTORY), SAY(O_CLOEXEC), SAY(F_GETFD);
    SAY(S_IFMT), SAY(S_ISDIR(0040755)), SAY(S_ISREG(0100644)), SAY(S_ISLNK(0120777)), SAY(S_ISDIR(0100644)), SAY(LOCK_SH), SAY(LOCK_EX);
    PLACE(struct stat, st_dev), PLACE(struct stat, st_ino), PLACE(struct stat, st_mode), PLACE(struct stat, st_uid), PLACE(struct stat, st_gid);
    PLACE(struct stat, st_size), SAY(sizeof(struct stat)), PLACE(struct dirent, d_name), SAY(sizeof(struct dirent));
}

static void others(void) {
    SAY(ENOENT), SAY(EINTR), SAY(EACCES), SAY(EEXIST), SAY(EISDIR), SAY(EINVAL), SAY(ENAMETOOLONG), SAY(ELOOP);
    SAY(SIGHUP), SAY(SIGINT), SAY(SIGPIPE), SAY(SIGTERM), SAY(SIGXFSZ), SAY(SIG_IGN), SAY(SIG_DFL), SAY(SIG_ERR);
    SAY(RLIMIT_STACK), PLACE(struct rlimit, rlim_cur), PLACE(struct rlimit, rlim_max), SAY(sizeof(struct rlimit)), SAY(INT64_MAX);
    SAY(sizeof(ssize_t)), SAY(sizeof(off_t)), SAY(sizeof(pid_t)), SAY(sizeof(uid_t)), SAY(sizeof(gid_t)), SAY(sizeof(mode_t));
}

int main(void) {
    files();
    others();
    return 0;
}
