#ifndef KIT_SIGNAL_H
#define KIT_SIGNAL_H
/* as x86-64 Linux has them */
#define SIGHUP 1
#define SIGINT 2
#define SIGPIPE 13
#define SIGTERM 15
#define SIGXFSZ 25
#define SIG_DFL ((void (*)(int))0)
#define SIG_IGN ((void (*)(int))1)
#define SIG_ERR ((void (*)(int))-1)
void (*signal(int, void (*)(int)))(int);
int raise(int);
#endif
