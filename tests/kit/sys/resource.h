#ifndef KIT_SYS_RESOURCE_H
#define KIT_SYS_RESOURCE_H
/* as x86-64 Linux has them */
typedef unsigned long rlim_t;
struct rlimit {
    rlim_t rlim_cur, rlim_max;
};
#define RLIMIT_STACK 3
#define RLIM_INFINITY (~(rlim_t)0)
int getrlimit(int, struct rlimit *);
int setrlimit(int, const struct rlimit *);
#endif
