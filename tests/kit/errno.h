#ifndef KIT_ERRNO_H
#define KIT_ERRNO_H
int *__errno_location(void);
#define errno (*__errno_location())
/* as Linux has them */
#define ENOENT 2
#define EINTR 4
#define EACCES 13
#define EEXIST 17
#define EISDIR 21
#define EINVAL 22
#define ENAMETOOLONG 36
#define ELOOP 40
#endif
