#ifndef KIT_SYS_TYPES_H
#define KIT_SYS_TYPES_H
/* as x86-64 Linux has them */
typedef long ssize_t;
typedef long off_t;
typedef int pid_t;
typedef unsigned uid_t, gid_t, mode_t;
typedef unsigned long dev_t, ino_t, nlink_t;
#endif
