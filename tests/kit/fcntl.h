#ifndef KIT_FCNTL_H
#define KIT_FCNTL_H
/* as x86-64 Linux has them */
#define O_RDONLY 0
#define O_WRONLY 1
#define O_RDWR 2
#define O_CREAT 0100
#define O_EXCL 0200
#define O_NOCTTY 0400
#define O_TRUNC 01000
#define O_DIRECTORY 0200000
#define O_CLOEXEC 02000000
#define F_GETFD 1
int open(const char *, int, ...);
int fcntl(int, int, ...);
#endif
