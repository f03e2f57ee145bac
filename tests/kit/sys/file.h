#ifndef KIT_SYS_FILE_H
#define KIT_SYS_FILE_H
/* as Linux has them */
#define LOCK_SH 1
#define LOCK_EX 2
int flock(int, int);
#endif
