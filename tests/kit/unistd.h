#ifndef KIT_UNISTD_H
#define KIT_UNISTD_H
#include <stddef.h>
#include <sys/types.h>
ssize_t read(int, void *, size_t);
ssize_t write(int, const void *, size_t);
int close(int);
int dup(int);
int unlink(const char *);
int link(const char *, const char *);
ssize_t readlink(const char *, char *, size_t);
int fsync(int);
int fchown(int, uid_t, gid_t);
int isatty(int);
pid_t getpid(void);
#endif
